"""Holds the pictures of tools/draw to the reading, by what lies where in the SVG.

Each frame: what rests on what, who is misplaced, just lifted or on the loop, the arrows of a stalled yard with both
their ends and what they pass, and the caption. The goal once, the heading, every sentence below, the legend. The ring
and the loop. How wide slabs are by their lengths. Lists that are not legal or do not arrive, what is refused or cannot
be read, and where sheets and lists come from.
"""

import itertools
import math
import os
import random
import re
import subprocess
import sys
import tempfile
import xml.etree.ElementTree as ET
from collections.abc import Iterator, Sequence
from concurrent.futures import ThreadPoolExecutor
from pathlib import Path
from typing import NamedTuple

import reading
import sheets
from case import planning, read, testing
from commands import run
from reading import METHODS, MOST, Lengths, Pair, Yard
from said import counted as number_of
from said import from_lowest, numbered, replayed, right_cost, right_verdict, ring_words
from tested import ROOT, Ended, Test, counted, lacking, list_line, misended, sheet_line, unlike

DRAWN = 15
NAMES = {1: "US", 2: "GN1", 3: "GN2"}
FIVE = [0, 1, 0, 3, 4, 0, 6, 0, 8, 0], [7, 0, 0, 3, 10, 0, 8, 0, 6, 0]
WAITS = [6, 3, 0, 5, 0, 0], [2, 5, 0, 3, 0, 0]
S4 = [2, 0, 4, 0], [4, 0, 2, 0]
TWO_LOOPS = [0, 4, 5, 0, 0, 0, 0, 9, 0, 11, 0], [8, 5, 4, 0, 0, 0, 0, 11, 0, 9, 0]

# So many lines of a long sheet are shown, so many sentences about slabs, and the labels of so many slabs that wait.
SHEET_LINES, SENTENCES, LABELLED = 8, 60, 12

# A digit is so wide; lengths are told apart that differ by such a part of what the longest and the shortest differ by.
DIGIT, APART = 8, 1 / 20

# What each sign of the legend means: the looks of slabs, the kinds of arrows, the arrow to another row, and labels.
MEANINGS = {
    "right": "in position",
    "misplaced": "misplaced",
    "loop": "on the loop, misplaced",
    "ring": "in the ring, misplaced",
    "lifted": "just lifted",
    "between": "what stands above it is in the way",
    "wished": "goal",
    "arrow waits": "waits for",
    "arrow loop": "waits for, on the loop",
    "arrow ring": "the next in the ring, in its way",
    "arrow": "to 17, in another row",
    "names": "c and d of slab n",
}

Point = tuple[float, float]


class Box(NamedTuple):
    """A rectangle."""

    left: float
    top: float
    right: float
    bottom: float


# Where the arrow of a slab goes, and its kind.
Arrows = dict[int, tuple[int, str]]


class Seen(NamedTuple):
    """A frame as it lies there: its left side, what each slab rests on, its looks and place, and what else it has."""

    left: float
    rests: dict[int, int]
    looks: dict[int, set[str]]
    places: dict[int, Box]
    arrows: Arrows
    caption: str
    labels: dict[int, list[str]]
    short: bool
    wrong: str


class Right(NamedTuple):
    """A frame as it should be, by the reading."""

    rests: dict[int, int]
    looks: dict[int, set[str]]
    arrows: Arrows
    caption: str
    labels: dict[int, list[str]]


# ---- what lies where


def tag(element: ET.Element) -> str:
    """What kind of element it is."""
    return element.tag.rpartition("}")[2]


def kinds(element: ET.Element) -> set[str]:
    """The classes of an element."""
    return set(element.get("class", "").split())


def words(element: ET.Element) -> str:
    """The text of an element."""
    return "".join(element.itertext())


def all_in(element: ET.Element, x: float = 0, y: float = 0) -> Iterator[tuple[ET.Element, float, float]]:
    """An element and all in it, each with where its coordinates begin."""
    moved = re.fullmatch(r"translate\(([-\d.]+),([-\d.]+)\)", element.get("transform", "translate(0,0)"))
    assert moved is not None
    x, y = x + float(moved[1]), y + float(moved[2])
    yield element, x, y
    for child in element:
        yield from all_in(child, x, y)


def box(element: ET.Element, x: float, y: float) -> Box:
    """Where a rectangle lies."""
    left, top, wide, high = (float(element.get(name, "0")) for name in ("x", "y", "width", "height"))
    return Box(x + left, y + top, x + left + wide, y + top + high)


def points(path: str, x: float, y: float) -> list[Point]:
    """Points of a path, close together on its lines and curves."""
    found: list[Point] = []
    for letter, rest in re.findall(r"([A-Za-z])([^A-Za-z]*)", path):
        n = [float(number) for number in re.findall(r"-?[\d.]+", rest)]
        last = found[-1] if found else (0.0, 0.0)
        if letter in "MCQ":
            ends = list(zip((a + x for a in n[::2]), (b + y for b in n[1::2])))
        elif letter in "HVh":
            ends = [{"H": (n[0] + x, last[1]), "V": (last[0], n[0] + y), "h": (n[0] + last[0], last[1])}[letter]]
        else:
            continue
        found += ends if letter == "M" else [on_curve([last, *ends], k / 32) for k in range(1, 33)]
    return found


def on_curve(ends: Sequence[Point], share: float) -> Point:
    """A point of a curve by its control points."""
    while len(ends) > 1:
        ends = [(a[0] + share * (b[0] - a[0]), a[1] + share * (b[1] - a[1])) for a, b in itertools.pairwise(ends)]
    return ends[0]


def touches(point: Point, place: Box) -> bool:
    """Whether a point is on the border of a rectangle, but not on its lower edge."""
    x, y = point
    across = place.left <= x <= place.right and math.isclose(y, place.top, abs_tol=0.2)
    upright = place.top <= y <= place.bottom and min(abs(x - place.left), abs(x - place.right)) <= 0.2
    return across or upright


def inside(point: Point, place: Box) -> bool:
    """Whether a point is in a rectangle, not near its border."""
    return place.left + 1 < point[0] < place.right - 1 and place.top + 1 < point[1] < place.bottom - 1


def overlap(one: Box, other: Box) -> bool:
    """Whether two rectangles have more than a border in common."""
    wide = min(one.right, other.right) - max(one.left, other.left)
    return wide > 0 and min(one.bottom, other.bottom) - max(one.top, other.top) > 0


def supports(places: dict[int, Box], grounds: Sequence[Box]) -> dict[int, int]:
    """What each slab rests on by where it lies; -1 for one that rests on nothing."""
    at = {(place.left + place.right, place.top): slab for slab, place in places.items()}
    found = {}
    for slab, place in places.items():
        on = any(g.top == place.bottom and g.left <= place.left and place.right <= g.right for g in grounds)
        found[slab] = 0 if on else at.get((place.left + place.right, place.bottom), -1)
    return found


def row_of(place: Box, grounds: Sequence[Box]) -> float:
    """The height of the ground that a slab's pile stands on."""
    return min((ground.top for ground in grounds if ground.top >= place.bottom), default=math.inf)


def misdrawn(arrow: ET.Element, x: float, y: float, places: dict[int, Box], grounds: Sequence[Box]) -> str:
    """What is wrong with an arrow: where it leaves, where it comes, and what it passes through."""
    line, head = (child for child in arrow if tag(child) == "path")
    here, to = int(arrow.get("data-from", "0")), int(arrow.get("data-to", "0"))
    way, tip = points(line.get("d", ""), x, y), points(head.get("d", ""), x, y)[0]
    number = [words(child) for child in arrow if tag(child) == "text"]
    if not touches(way[0], places[here]):
        return f"arrow {here} to {to} leaves at {way[0]}"
    if number != ([] if row_of(places[here], grounds) == row_of(places[to], grounds) else [str(to)]):
        return f"the arrow of {here} has the number {number} and goes to {to}"
    if not number and not (touches(tip, places[to]) and math.dist(way[-1], tip) < 10):
        return f"arrow {here} to {to} ends at {way[-1]} with its head at {tip}"
    met = {slab for slab, place in places.items() for point in way if inside(point, place)}
    return f"arrow {here} to {to} passes through {sorted(met)}" if met else ""


def ground_labels(named: Sequence[str]) -> tuple[dict[int, list[str]], list[str]]:
    """What stands beside the word ground, the same in each row of piles, and what is wrong with it."""
    beside = {tuple(name.removeprefix("ground (0)").split()) for name in named if name.startswith("ground (0)")}
    wrong = [] if len(beside) == 1 and all(name.startswith("ground (0)") for name in named) else [f"grounds {named}"]
    return {0: list(names) for names in beside if names}, wrong


def seen(frame: ET.Element, x: float, y: float) -> Seen:
    """A frame of a picture."""
    every = list(all_in(frame, x, y))
    places, looks, arrows, grounds = {}, {}, {}, []
    named = [words(element) for element, _, _ in every if "earth" in kinds(element)]
    labels, wrong = ground_labels(named)
    for element, dx, dy in every:
        if "slab" in kinds(element):
            slab = int(element.get("data-slab", "0"))
            places[slab], looks[slab] = box(element[0], dx, dy), kinds(element) - {"slab"}
            wrong += [] if words(element) == str(slab) else [f"slab {slab} is labelled {words(element)}"]
        elif "ground" in kinds(element):
            one, other = float(element.get("x1", "0")), float(element.get("x2", "0"))
            grounds.append(Box(dx + one, dy, dx + other, dy))
    for element, dx, dy in every:
        if "arrow" in kinds(element):
            kind = " ".join(sorted(kinds(element) - {"arrow"}))
            arrows[int(element.get("data-from", "0"))] = (int(element.get("data-to", "0")), kind)
            wrong += filter(None, [misdrawn(element, dx, dy, places, grounds)])
        elif "label" in kinds(element):
            at = (dx + float(element.get("x", "0")), dy + float(element.get("y", "0")))
            beside = min(places, key=lambda slab: math.dist(at, places[slab][2:]))
            labels[beside] = words(element).split()
    wrong += [] if len(named) == len(grounds) else ["no word ground"]
    wrong += [f"{a} and {b} overlap" for a, b in itertools.combinations(places, 2) if overlap(places[a], places[b])]
    caption = next(words(element) for element, _, _ in every if "caption" in kinds(element))
    short = any("target" in kinds(element) for element, _, _ in every)
    rests = supports(places, grounds)
    return Seen(every[0][1], rests, looks, places, arrows, caption, labels, short, "; ".join(wrong))


class Picture:
    """A picture: its frames by their keys, and its words."""

    def __init__(self, text: str) -> None:
        """Reads the SVG; what is none has no frames."""
        self.broken = ""
        try:
            self.root = ET.fromstring(text)
        except ET.ParseError as error:
            self.broken, self.root = f"no picture: {error}", ET.Element("svg")
        self.every = list(all_in(self.root))
        self.keys = [element.get("data-frame", "") for element, _, _ in self.every if "frame" in kinds(element)]
        self.frames = {
            element.get("data-frame", ""): seen(element, x - moved(element)[0], y - moved(element)[1])
            for element, x, y in self.every
            if "frame" in kinds(element)
        }
        self.wide, self.high = float(self.root.get("width", "1")), float(self.root.get("height", "1"))

    def said(self, kind: str) -> list[str]:
        """The words of one kind."""
        return [words(element) for element, _, _ in self.every if kind in kinds(element)]

    def legend(self) -> dict[str, str]:
        """What each sign is said to mean; the sign must look like what it stands for."""
        found = {}
        for sign, meaning in (element for element, _, _ in self.every if "sign" in kinds(element)):
            name = sign.get("data-sign", "")
            found[name if set(name.split()) <= kinds(sign) else f"{name}, drawn as {kinds(sign)}"] = words(meaning)
        return found

    def mislaid(self) -> str:
        """What does not lie in the picture, and words that lie over others or over a slab."""
        return self.outside() or self.covered()

    def covered(self) -> str:
        """Words that lie over others or over a slab, a letter taken for 5 wide and 9 high."""
        said, slabs = [], [place for frame in self.frames.values() for place in frame.places.values()]
        for element, x, y in self.every:
            if tag(element) == "text" and element.get("class"):
                wide = 5 * len(words(element))
                left = x + float(element.get("x", "0")) - (wide / 2 if "target" in kinds(element) else 0)
                foot = y + float(element.get("y", "0"))
                said.append((Box(left, foot - 9, left + wide, foot), words(element)))
        over = [f"{b} over {a}" for (one, a), (other, b) in itertools.combinations(said, 2) if overlap(one, other)]
        over += [f"{name} over a slab" for place, name in said for slab in slabs if overlap(place, slab)]
        return "; ".join(over)

    def outside(self) -> str:
        """What does not lie in the picture, a letter taken for 5 wide."""
        found = [self.broken] if self.broken else []
        for element, x, y in self.every:
            if tag(element) == "text":
                left = x + float(element.get("x", "0"))
                ends = [(left, y + float(element.get("y", "0"))), (left + 5 * len(words(element)), y)]
            elif tag(element) == "path":
                ends = points(element.get("d", ""), x, y)
            else:
                ends = [box(element, x, y)[:2], box(element, x, y)[2:]] if tag(element) == "rect" else []
            beyond = any(not (0 <= a <= self.wide and 0 <= b <= self.high) for a, b in ends)
            found += [f"{tag(element)} {words(element)} is outside"] if beyond else []
        return "; ".join(found)


def moved(element: ET.Element) -> Point:
    """How far an element is moved."""
    numbers = re.findall(r"-?[\d.]+", element.get("transform", "0,0"))
    return float(numbers[0]), float(numbers[1])


# ---- what should be there, by the reading


def is_stalled(yard: Yard, goal: Yard) -> bool:
    """Whether slabs are misplaced and no constructive lift exists."""
    return bool(reading.misplaced(yard, goal)) and reading.constructive(yard, goal) == 0


def waiters(yard: Yard, goal: Yard) -> list[int]:
    """The misplaced clear slabs of a stalled yard; none of another."""
    astray = reading.misplaced(yard, goal)
    return [slab for slab in astray if reading.clear(yard, slab)] if is_stalled(yard, goal) else []


def loop_of(yard: Yard, goal: Yard) -> list[int]:
    """The loop of a stalled yard from its lowest number onward; none of another."""
    return from_lowest(reading.loop(yard, goal)) if is_stalled(yard, goal) else []


def right_arrows(yard: Yard, goal: Yard) -> Arrows:
    """For each that waits its successor, and whether it is on the loop."""
    found, loop = waiters(yard, goal), loop_of(yard, goal)
    after = {slab: reading.top(yard, reading.in_the_way(yard, goal, slab)) for slab in found}
    return {slab: (after[slab], "loop" if slab in loop else "waits") for slab in found}


def right_frame(yard: Yard, goal: Yard, caption: str, slab: int) -> Right:
    """A frame after the lift of a slab, or before all lifts."""
    arrows, looks = right_arrows(yard, goal), {}
    for one in reading.slabs(yard):
        looks[one] = {"right" if reading.in_position(yard, goal, one) else "misplaced"}
        looks[one] |= {"loop"} if arrows.get(one, (0, ""))[1] == "loop" else set()
        looks[one] |= {"lifted"} if one == slab else set()
    return Right(dict(enumerate(yard, 1)), looks, arrows, caption, {})


def right_frames(now: Yard, goal: Yard, pairs: Sequence[Pair]) -> dict[str, Right]:
    """The frames of a legal list by their keys, and the goal."""
    yard, found = now, {"0": right_frame(now, goal, "now", 0)}
    for number, (slab, place) in enumerate(pairs, 1):
        yard = reading.lifted(yard, slab, place)
        how = "home" if reading.in_position(yard, goal, slab) else "moved" if place else "put down"
        found[str(number)] = right_frame(yard, goal, f"{number}. {slab}→{place}  {how}", slab)
    wished = {slab: {"wished"} for slab in reading.slabs(goal)}
    return {**found, "goal": Right(dict(enumerate(goal, 1)), wished, {}, "goal", {})}


def lifts_in_words(number: int) -> str:
    """A number of lifts."""
    return number_of(number, "lift", "lifts")


def right_counts(now: Yard, goal: Yard, *before: str) -> str:
    """The line of counts, behind what is said of a list."""
    floor = f"at least {lifts_in_words(reading.floor(now, goal))}"
    return ", ".join([*before, f"{len(reading.misplaced(now, goal))} misplaced", floor])


def right_legend(frames: Sequence[Right], short: bool, lengths: Lengths) -> dict[str, str]:
    """The signs that some frames need with what they mean; beside them whether an arrow goes to another row.

    Where lengths differ, the longest and the shortest.
    """
    looks = [look - ({"misplaced"} if look & {"loop", "ring"} else set()) for f in frames for look in f.looks.values()]
    needed = set().union(*looks) | {f"arrow {kind}" for frame in frames for _, kind in frame.arrows.values()}
    needed |= {"arrow"} if short else set()
    needed |= {"names"} if any(frame.labels for frame in frames) else set()
    differ = lengths is not None and len(set(lengths)) > 1
    long = {"long": f"the longest, {max(lengths)} cm; the shortest, {min(lengths)} cm"} if differ else {}
    return {sign: MEANINGS[sign] for sign in needed} | long


# ---- the two against each other


def unlike_frames(found: dict[str, Seen], right: dict[str, Right]) -> str:
    """Where frames differ from what they should be."""
    if set(found) != set(right):
        return f"frames {sorted(found)} where {sorted(right)} are right"
    for key, frame in found.items():
        drawn = Right(frame.rests, frame.looks, frame.arrows, frame.caption, frame.labels)
        wrong = frame.wrong or unlike(drawn, right[key])
        if wrong:
            return f"frame {key}: {wrong}"
    return ""


def miswide(frame: Seen, lengths: Lengths) -> str:
    """What is wrong with how wide slabs are: equally for equal lengths or none, a longer one wider; numbers fit."""
    widths = {slab: place.right - place.left for slab, place in frame.places.items()}
    long = dict(enumerate(lengths or [1] * len(widths), 1))
    if widths.keys() != long.keys() or any(wide < DIGIT * len(str(slab)) for slab, wide in widths.items()):
        return f"widths {widths} for lengths {lengths}"
    told_apart = max(1, APART * (max(long.values(), default=0) - min(long.values(), default=0)))
    for one, other in itertools.permutations(long, 2):
        more, wider = long[other] - long[one], widths[other] - widths[one]
        if (more == 0 and wider != 0) or (more > 0 and wider < 0) or (more >= told_apart and wider <= 0):
            return f"slabs {one} and {other}: widths {widths} for lengths {lengths}"
    return ""


def mistitled(picture: Picture, line: str) -> str:
    """What is wrong with the sheet in the heading: it is whole, or as much of it as so many lines hold."""
    lines = picture.said("title")
    said = " ".join(lines)
    if said == line:
        return "" if len(lines) <= SHEET_LINES else f"the sheet takes {len(lines)} lines"
    cut = said.endswith(" …") and line.startswith(said.removesuffix(" …"))
    return "" if cut and len(lines) == SHEET_LINES else f"{len(lines)} lines of heading: {said} for {line}"


def misshown(
    picture: Picture,
    right: dict[str, Right],
    title: str,
    counts: str,
    sentences: Sequence[str],
    lengths: Lengths = None,
) -> str:
    """What is wrong with a picture: its frames, its heading, all that is said below, the legend, and where it lies."""
    short = any(frame.short for frame in picture.frames.values())
    return (
        unlike_frames(picture.frames, right)
        or next(filter(None, (miswide(frame, lengths) for frame in picture.frames.values())), "")
        or mistitled(picture, title)
        or unlike(" ".join(picture.said("counts")), counts)
        or unlike(" ".join(picture.said("words")), " ".join(sentences))
        or unlike(picture.legend(), right_legend(list(right.values()), short, lengths))
        or picture.mislaid()
    )


def drawing(*command: str, given: str = "") -> Ended:
    """Runs tools/draw."""
    return run(["draw", *command], given=given)


def misdrawn_list(
    now: Yard, goal: Yard, method: int, pairs: Sequence[Pair], ended: Ended, lengths: Lengths = None
) -> str:
    """What is wrong with the picture of a list that arrives."""
    if ended.returncode != 0:
        return f"ends with {ended.returncode}: {ended.stderr}"
    picture, right = Picture(ended.stdout), right_frames(now, goal, pairs)
    said = [f"method {method} ({NAMES[method]})"] if method else []
    keys = [str(number) for number in range(len(pairs) + 1)]
    counts = right_counts(now, goal, *said, lifts_in_words(len(pairs)))
    wrong = misshown(picture, right, sheet_line(now, goal, lengths), counts, [], lengths)
    return wrong or unlike(picture.keys, [keys[0], "goal", *keys[1:]])


# ---- sheets and lists


def some_sheets() -> list[tuple[Yard, Yard]]:
    """The sheets of document 01, those that tell readings apart, and random ones."""
    rng = random.Random(sheets.SEED)
    made = [sheets.random_sheet(rng, 3 + k % 11, k % 3) for k in range(DRAWN)]
    return [*sheets.STATED, *sheets.TRIALS, FIVE, WAITS, TWO_LOOPS, *made]


def lists() -> Iterator[Test]:
    """The lists of the methods, by --method and as they are typed."""
    for number, (now, goal) in enumerate(some_sheets()):
        method, line = METHODS[number % 3], sheet_line(now, goal)
        pairs = read(planning(method, now, goal)).pairs
        ended = drawing("--method", str(method), line)
        yield f"tools/draw --method {method}, {line}", misdrawn_list(now, goal, method, pairs, ended)
        if number % 3 == 0:
            ended = drawing(line, list_line(pairs))
            yield f"tools/draw, {line} with its list", misdrawn_list(now, goal, 0, pairs, ended)


def plain() -> Iterator[Test]:
    """A sheet alone: the yard now and the goal, side by side."""
    for now, goal in (*sheets.STATED, FIVE, WAITS):
        ended = drawing(sheet_line(now, goal))
        picture, line = Picture(ended.stdout), sheet_line(now, goal)
        wrong = misshown(picture, right_frames(now, goal, []), line, right_counts(now, goal), [])
        yield f"tools/draw, {line}", wrong or unlike(ended.returncode, 0)


def levelled(picture: Picture) -> dict[str, Seen]:
    """The frames of a picture, each counted from its ground up, which a longer heading moves down."""
    found = {}
    for key, frame in picture.frames.items():
        low = max(place.bottom for place in frame.places.values())
        places = {s: Box(p.left, p.top - low, p.right, p.bottom - low) for s, p in frame.places.items()}
        found[key] = frame._replace(places=places)
    return found


def measured() -> Iterator[Test]:
    """Sheets with lengths: alone, their lists, rings and loops; equal lengths are drawn as none."""
    rng = random.Random(sheets.SEED)
    for number in range(2 * DRAWN):
        values = ((250, 300), (200, 500, 1200), range(200, 1200), (0, 1, 65535), (0,))[number % 5]
        lengths = rng.choices(values, k=3 + number % 11)
        now, goal, method = sheets.fitting(rng, lengths), sheets.fitting(rng, lengths), METHODS[number % 3]
        line, pairs = sheet_line(now, goal, lengths), read(planning(method, now, goal)).pairs
        ended = drawing("--method", str(method), line)
        yield f"tools/draw --method {method}, {line}", misdrawn_list(now, goal, method, pairs, ended, lengths)
        if number % 3 == 0:
            right = right_frames(now, goal, [])
            picture = Picture(drawing(line).stdout)
            yield f"tools/draw, {line}", misshown(picture, right, line, right_counts(now, goal), [], lengths)
            yield f"tools/draw --ring, {line}", misdrawn_ring(now, goal, lengths)
            yield f"tools/draw --loop, {line}", misdrawn_loop(now, goal, lengths)
    for now, goal in (S4, FIVE, WAITS):
        for command in (["--method", "1"], ["--ring"], ["--loop"]):
            lines = sheet_line(now, goal), sheet_line(now, goal, [300] * len(now))
            alike = [levelled(Picture(drawing(*command, line).stdout)) for line in lines]
            yield f"tools/draw {command}, {lines[1]}, as without lengths", unlike(alike[1], alike[0])


def measured_lists() -> Iterator[Test]:
    """Lists that do not heed lengths: the frames as far as they go, and the notice."""
    now, lengths = [0, 1, 0], [300, 250, 200]
    for pair, number in (((3, 2), 0), ((3, 1), 4), ((1, 3), 2), ((2, 3), 6)):
        pairs = [(2, 0), (2, 1), pair, *([(3, 0)] if number == 0 else [])]
        ended = drawing(sheet_line(now, now, lengths), list_line(pairs))
        picture = Picture(ended.stdout)
        wrong = unlike(replayed(now, now, pairs, lengths), (0, number, 3 if number else 0))
        wrong = wrong or unlike_frames(picture.frames, right_frames(now, now, pairs[:2] if number else pairs))
        notice = right_verdict(now, now, pairs, lengths) if number else ""
        wrong = wrong or unlike((" ".join(picture.said("strong")), ended.returncode), (notice, int(number > 0)))
        yield f"tools/draw, a list with lengths and verdict {number}", wrong


def columns(frame: Seen) -> dict[int, float]:
    """Where each pile stands, by the slab at its foot."""
    return {slab: frame.places[slab].left - frame.left for slab, support in frame.rests.items() if support == 0}


def piles_stay() -> Iterator[Test]:
    """A pile whose foot stays on the ground stays where it is in the next frame, also where a frame is drawn alone."""
    rng = random.Random(sheets.SEED)
    for number in range(3):
        line = sheet_line(*sheets.random_sheet(rng, 12, number))
        picture = Picture(drawing("--method", "1", line).stdout)
        feet = [columns(picture.frames[key]) for key in picture.keys if key != "goal"]
        each = itertools.pairwise(feet)
        wrong = [slab for one, other in each for slab in one if other.get(slab, one[slab]) != one[slab]]
        yield f"tools/draw, piles stay: {line}", f"{wrong} do not" if wrong else ""
        alone = Picture(drawing("--method", "1", "--frames", "8", line).stdout)
        wrong = unlike([columns(alone.frames[key]) for key in alone.keys if key == "8"], feet[8:9])
        yield f"tools/draw, piles of one frame: {line}", wrong


def some_frames() -> Iterator[Test]:
    """--frames: the same frames as in the whole picture, and ranges that there are not."""
    now, goal = FIVE
    right = right_frames(now, goal, read(planning(2, now, goal)).pairs)
    command = ["--method", "2", sheet_line(now, goal), "--frames"]
    for wanted, keys, said in (
        ("2-4", ["goal", "2", "3", "4"], "frames 2 to 4"),
        ("0", ["0", "goal"], "frame 0"),
        ("0-1", ["0", "goal", "1"], "frames 0 to 1"),
        ("6", ["goal", "6"], "frame 6"),
    ):
        ended = drawing(*command, wanted)
        picture = Picture(ended.stdout)
        wrong = unlike(picture.keys, keys) or unlike_frames(picture.frames, {key: right[key] for key in keys})
        wrong = wrong or lacking(" ".join(picture.said("counts")), [said])
        yield f"tools/draw --frames {wanted}", wrong or unlike(ended.returncode, 0)
    for wanted, parts in (
        ("4-2", ["4 comes after 2"]),
        ("3-7", ["frames of this list are 0 to 6"]),
        ("7", ["frames of this list are 0 to 6"]),
        ("two", ["'two' is not of the form A-B or A"]),
        ("1-2-3", ["'1-2-3' is not of the form"]),
        ("", ["'' is not of the form"]),
    ):
        yield f"tools/draw --frames '{wanted}'", misended(drawing(*command, wanted), 2, parts)
    ended = drawing(sheet_line(now, goal), "--frames", "0")
    yield "tools/draw --frames without a list", misended(ended, 2, ["give a list or --method"])
    ended = drawing(sheet_line(*S4), "1→0, 2→1, 4→0", "--frames", "0-3")
    yield "tools/draw --frames beyond a bad lift", misended(ended, 2, ["are 0 to 2", "lift 3 is not legal"])


# ---- lists that are bad, and what cannot be drawn


def bad_lists() -> Iterator[Test]:
    """Lists that are not legal or do not arrive: the frames as far as they go, the notice, and 1."""
    now = [0, 1, 0]
    for slab, place in [(0, 0), (4, 0), (2, 4), (1, 0), (1, 3), (2, 1), (3, 0), (2, 2), (3, 1), (2, 0), (2, 3), (3, 2)]:
        pairs = [(2, 3), (2, 1), (slab, place)]
        _, verdict, where = replayed(now, now, pairs)
        ended = drawing(sheet_line(now, now), f"2→3 2→1 {slab}->{place}")
        picture = Picture(ended.stdout)
        legal = pairs if verdict in (0, 5) else pairs[: where - 1]
        wrong = unlike_frames(picture.frames, right_frames(now, now, legal))
        notice = right_verdict(now, now, pairs) if verdict else ""
        wrong = wrong or unlike(" ".join(picture.said("strong")), notice)
        wrong = wrong or unlike(ended.returncode, 1 if verdict else 0) or picture.mislaid()
        yield f"tools/draw, a list that ends with {slab}→{place}", wrong
    ended = drawing(sheet_line(*S4), "")
    picture = Picture(ended.stdout)
    wrong = unlike(ended.returncode, 1) or unlike(" ".join(picture.said("strong")), right_verdict(*S4, []))
    yield "tools/draw, the list of no lifts", wrong


# What is refused: the command, and what the message must say.
REFUSED = [
    (["2 1 5 / 0 0 0"], ["refused: 4, place 3", "Is every now entry at most n?", "slab 3", "rests on 5 now"]),
    (["0 1 1 / 0 0 0"], ["refused: 5, place 3", "Does each slab carry at most one slab now?"]),
    (["--ring", "1 / 0"], ["refused: 6, place 1", "Does every slab come down to the ground now?"]),
    (["--loop", "0 0 / 2 1"], ["refused: 9, place 1", "1, 2, 1"]),
    (["--method", "4", "2 0 / 0 1"], ["refused: 1, place 0", "Is the method 1, 2 or 3?", "the method is 4"]),
    (["2 1 5 / 0 0 0", "1→0"], ["refused: 4, place 3"]),
    (["2 0 / 0 0 / 300"], ["refused: 16, place 0", "Are there as many lengths as slabs?"]),
    (["--method", "2", "2 0 / 0 0 / 300 250"], ["refused: 17, place 1", "is 300 cm long and rests on slab 2 now"]),
    (["--ring", "0 0 / 0 1 / 250 300"], ["refused: 18, place 2", "rests on slab 1 in the goal"]),
]

# What cannot be read: the command, what is given on standard input, and what the message must say.
UNREADABLE = [
    (["2 x / 0 1"], "", ["column 3", "now entry 2", "'x'"]),
    (["2 0 / 0 1", "1→0, 2-1"], "", ["column 6", "lift 2, '2-1'"]),
    (["--method", "two", "2 0 / 0 1"], "", ["the method, 'two'"]),
    (["--method", "2", "2 0 / 0 1", "1→0"], "", ["one of them is drawn"]),
    (["--ring", "2 0 / 0 1", "1→0"], "", ["one of them is drawn"]),
    (["--ring", "--frames", "0", "2 0 / 0 1"], "", ["--frames is for the frames of a list"]),
    (["-"], "2 0 / 0 1\n0 / 0\n", ["2 sheets in standard input", "one is drawn at a time"]),
    (["-"], "# nothing\n", ["no sheet in standard input"]),
    (["-", "-"], "2 0 / 0 1\n", ["can be read once"]),
    (["nowhere.txt"], "", ["no '/'", "nowhere.txt is no file"]),
]


def undrawn() -> Iterator[Test]:
    """What is refused ends with 1, what cannot be read with 2, both without a picture; what is too much; no room."""
    for command, parts in REFUSED:
        ended = drawing(*command)
        yield f"tools/draw, refusal of {command}", misended(ended, 1, parts) or unlike(ended.stdout, "")
    for command, given, parts in UNREADABLE:
        ended = drawing(*command, given=given)
        yield f"tools/draw, {command}", misended(ended, 2, parts) or unlike(ended.stdout, "")
    over = sheet_line([0] * (MOST + 1), [0] * (MOST + 1))
    yield "tools/draw, too many slabs", misended(drawing("-", given=over), 1, ["refused: 2, place 0"])
    full = sheet_line([0] * MOST, [0, *range(1, MOST)])
    ended = drawing("--method", "2", "-", given=full)
    yield "tools/draw, too many frames", misended(ended, 2, ["4,000 slabs are too many", "--frames A-B"])
    if Path("/dev/full").exists():
        with open("/dev/full", "wb") as no_room:
            words = [sys.executable, str(ROOT / "tools" / "draw"), "2 0 / 0 1"]
            done = subprocess.run(words, stdout=no_room, stderr=subprocess.PIPE, text=True, check=False)
        wrong = unlike(done.returncode, 3) or lacking(done.stderr, ["could not be written"])
        yield "tools/draw, no room for the picture", wrong


# ---- where sheets and lists come from


def sources() -> Iterator[Test]:
    """What tools/sheet prints, in words and as JSON; a file; names with letters that XML or a locale does not take."""
    for number, (now, goal) in enumerate([S4, FIVE, ([0, 0], [0, 0])]):
        method = METHODS[number % 3]
        pairs = read(planning(method, now, goal)).pairs
        for form in ([], ["--json"]):
            printed = run(["sheet", "plan", *form, str(method), sheet_line(now, goal)]).stdout
            wrong = misdrawn_list(now, goal, method, pairs, drawing("-", given=printed))
            yield f"tools/sheet plan {' '.join(form)} | tools/draw -, {sheet_line(now, goal)}", wrong
        printed = run(["sheet", "replay", sheet_line(now, goal), list_line(pairs)]).stdout
        yield "tools/sheet replay | tools/draw -", misdrawn_list(now, goal, 0, pairs, drawing("-", given=printed))
    printed = run(["sheet", "plan", "2", sheet_line(*S4)]).stdout
    ended = drawing("--method", "2", "-", given=printed)
    yield "tools/draw --method with a list beside the sheet", misended(ended, 2, ["one of them is drawn"])
    name = "a<b> & 'c' \"d\" é→"
    line = f"{name}: {sheet_line(*S4)}"
    with tempfile.TemporaryDirectory() as folder:
        file = Path(folder) / "sheet.txt"
        file.write_text(f"# a remark\n{line}\n", encoding="utf-8")
        for what, command in (("typed", [line]), ("in a file", [str(file)])):
            picture = Picture(drawing(*command).stdout)
            yield f"tools/draw, a name {what}", mistitled(picture, line)
    plain_letters = {"LC_ALL": "C", "PYTHONUTF8": "0", "PYTHONCOERCECLOCALE": "0"}
    ended = run(["draw", line, "1→0, 3→2, 1→4"], **plain_letters)
    wrong = misended(ended, 0) or mistitled(Picture(ended.stdout), line)
    yield "tools/draw, letters where the locale has none", wrong
    ended = run(["draw", "--help"], **plain_letters)
    yield "tools/draw --help", misended(ended, 0, ["usage: tools/draw", "1→0, 2→1"])


def same_again() -> Iterator[Test]:
    """The same bytes whatever the interpreter's seed is."""
    for command in (["--method", "2"], ["--loop"], ["--ring"]):
        made = set()
        for seed in ("1", "2", "3"):
            words = [sys.executable, str(ROOT / "tools" / "draw"), *command, sheet_line(*FIVE)]
            around = {**os.environ, "PYTHONHASHSEED": seed}
            made.add(subprocess.run(words, capture_output=True, env=around, check=False).stdout)
        yield f"tools/draw {command[0]}, the same again", unlike(len(made), 1)


# ---- the ring and the loop


def right_some(sentences: Sequence[str]) -> list[str]:
    """Sentences, the last ones counted where they are many."""
    rest = [f"and {len(sentences) - SENTENCES} more"] if len(sentences) > SENTENCES else []
    return [*sentences[:SENTENCES], *rest]


def misdrawn_ring(now: Yard, goal: Yard, lengths: Lengths = None) -> str:
    """What is wrong with the picture of a deadlock, or of none."""
    line = sheet_line(now, goal, lengths)
    ended = drawing("--ring", line)
    picture, rows = Picture(ended.stdout), read(testing(now, goal)).rows
    ring, between = {slab for slab, _, _ in rows}, {through for _, through, _ in rows}
    right = right_frames(now, goal, [])
    arrows = {slab: (after, "ring") for (slab, _, _), (after, _, _) in zip(rows, [*rows[1:], *rows[:1]])}
    for key, frame in right.items():
        for slab, look in frame.looks.items():
            look.discard("loop")
            look.update(name for name, some in (("ring", ring), ("between", between)) if slab in some)
        right[key] = frame._replace(arrows=arrows if key == "0" else {})
    size = "one slab" if len(rows) == 1 else f"{len(rows)} slabs"
    counts = right_counts(now, goal, f"a ring of {size}" if rows else "no deadlock")
    cost = right_cost(now, goal) if reading.misplaced(now, goal) else "nothing is misplaced"
    sentences = [*(right_some(ring_words(now, goal)) if rows else ["no deadlock"]), cost]
    return misshown(picture, right, line, counts, sentences, lengths) or unlike(ended.returncode, 0)


def right_waits(yard: Yard, goal: Yard) -> list[str]:
    """What is said of each slab that waits."""
    found = []
    for slab in waiters(yard, goal):
        c, d = reading.foot(yard, goal, slab)
        through = reading.in_the_way(yard, goal, slab)
        after = reading.top(yard, through)
        itself = " itself" if after == slab else ""
        found.append(f"{slab}: c is {c or 'the ground'}, d is {d}; in its way is {after}{itself}, above {through}")
    return found


def right_labels(yard: Yard, goal: Yard) -> dict[int, list[str]]:
    """The names c and d beside the slabs that have them and beside the ground, at most three; none of many slabs."""
    below = str.maketrans("0123456789", "₀₁₂₃₄₅₆₇₈₉")
    found: dict[int, list[str]] = {}
    some = waiters(yard, goal)
    for slab in some if len(some) <= LABELLED else []:
        for letter, one in zip("cd", reading.foot(yard, goal, slab)):
            found.setdefault(one, []).append(letter + str(slab).translate(below))
    return {one: [*names[:3], *["…"] * (len(names) > 3)] for one, names in found.items()}


def right_standing(yard: Yard, goal: Yard) -> str:
    """Who is on the loop, and how the others stand to it by where their successors lead."""
    loop, groups = loop_of(yard, goal), {}
    for slab in waiters(yard, goal):
        leads = from_lowest(reading.visits(yard, goal, slab)[1])
        if slab not in loop:
            slabs, loops = groups.setdefault((slab in leads, leads == loop), ([], set()))
            slabs.append(slab)
            loops.add(tuple(leads))
    said = [f"the loop is {numbered(loop, ' and ')}"]
    for (on, same), (slabs, loops) in groups.items():
        verb = {(True, True): "is", (True, False): "are", (False, True): "waits", (False, False): "wait"}
        where = "it" if same else "another loop" if len(loops) == 1 else "other loops"
        said.append(f"{numbered(slabs, ' and ')} {verb[on, len(slabs) == 1]} on {where}")
    return "; ".join(said)


def built(now: Yard, goal: Yard) -> tuple[Yard, list[Pair]]:
    """The yard after all constructive lifts, and these."""
    yard, pairs = now, []
    while slab := reading.constructive(yard, goal):
        yard, pairs = reading.lifted(yard, slab, goal[slab - 1]), [*pairs, (slab, goal[slab - 1])]
    return yard, pairs


def right_loop_words(yard: Yard, goal: Yard, pairs: Sequence[Pair]) -> list[str]:
    """What is said below the picture of a loop after some lifts."""
    before = [number_of(len(pairs), "constructive lift", "constructive lifts")] if pairs else []
    before = [f"{before[0]}: {list_line(pairs)}"] if 0 < len(pairs) <= SENTENCES else before
    meant = "c: down the goal pile of a slab the first in position, or the ground; d: what rests on c in that pile"
    return [*before, *right_some(right_waits(yard, goal)), right_standing(yard, goal), meant]


def misdrawn_loop(now: Yard, goal: Yard, lengths: Lengths = None) -> str:
    """What is wrong with the picture of a loop, or of none."""
    line, counts = sheet_line(now, goal, lengths), right_counts(now, goal)
    ended = drawing("--loop", line)
    picture, (yard, pairs), right = Picture(ended.stdout), built(now, goal), right_frames(now, goal, [])
    if not is_stalled(yard, goal):
        sentences = ["no loop: every lift of method 2 is constructive, and no yard stalls"]
        return misshown(picture, right, line, counts, sentences, lengths) or unlike(ended.returncode, 0)
    caption = f"stalled after {lifts_in_words(len(pairs))}" if pairs else "now, stalled"
    frames = {str(len(pairs)): right_frame(yard, goal, caption, 0), "goal": right["goal"]}
    frames = {key: frame._replace(labels=right_labels(yard, goal)) for key, frame in frames.items()}
    sentences = right_loop_words(yard, goal, pairs)
    return misshown(picture, frames, line, counts, sentences, lengths) or unlike(ended.returncode, 0)


def rings_and_loops() -> Iterator[Test]:
    """--ring and --loop of sheets with a deadlock and without."""
    rng = random.Random(sheets.SEED)
    some = [*sheets.STATED, *sheets.TRIALS, FIVE, WAITS, TWO_LOOPS]
    some += [*(part.sheet() for part in sheets.GOOD_PARTS), sheets.begun(30)[:2]]
    some += [sheets.random_sheet(rng, 6 + k, k % 3) for k in range(8)]
    some += [sheets.renumbered(rng, *sheets.ring(n)[:2]) for n in (9, 31, 135)]
    some += [sheets.copies(*WAITS, n) for n in (12, 18, 90)] + [sheets.exchanged(12)[:2]]
    some += [list(sheets.families(n))[-1] for n in (8, 72)]
    for now, goal in some:
        yield f"tools/draw --ring, {sheet_line(now, goal)}", misdrawn_ring(now, goal)
        yield f"tools/draw --loop, {sheet_line(now, goal)}", misdrawn_loop(now, goal)


# ---- large sheets


def large() -> Iterator[Test]:
    """A poster of 30 slabs and some 40 lifts has the shape of paper; 200 slabs lie in rows, and nothing overlaps.

    The sheet of a narrow picture of one pile is cut in the heading.
    """
    rng = random.Random(sheets.SEED)
    while True:
        now, goal = sheets.random_sheet(rng, 30, 0)
        pairs = read(planning(2, now, goal)).pairs
        if 37 <= len(pairs) <= 43:
            break
    ended = drawing("--method", "2", sheet_line(now, goal))
    picture = Picture(ended.stdout)
    yield "tools/draw, a poster", misdrawn_list(now, goal, 2, pairs, ended)
    shape = picture.wide / picture.high
    yield "tools/draw, the shape of a poster", "" if 1.15 < shape < 1.75 else f"{picture.wide} by {picture.high}"
    for kind in range(2):
        now, goal = sheets.random_sheet(rng, 200, kind)
        for command in ([], ["--loop"], ["--ring"], ["--method", "2", "--frames", "40-42"]):
            picture = Picture(drawing(*command, "-", given=sheet_line(now, goal)).stdout)
            wrong = "; ".join(filter(None, (frame.wrong for frame in picture.frames.values()))) or picture.mislaid()
            wrong = wrong or mistitled(picture, sheet_line(now, goal))
            wrong = wrong or ("" if picture.wide < 3500 else f"{picture.wide} wide")
            yield f"tools/draw {' '.join(command)}, 200 slabs", wrong
    lengths = rng.choices(range(200, 1200), k=200)
    line = sheet_line(sheets.fitting(rng, lengths), sheets.fitting(rng, lengths), lengths)
    for command in ([], ["--loop"], ["--ring"], ["--method", "2", "--frames", "40-42"]):
        picture = Picture(drawing(*command, "-", given=line).stdout)
        frames = picture.frames.values()
        wrong = "; ".join(filter(None, (frame.wrong or miswide(frame, lengths) for frame in frames)))
        wrong = wrong or picture.mislaid() or ("" if 0 < picture.wide < 4000 else f"{picture.wide} wide")
        yield f"tools/draw {' '.join(command)}, 200 slabs with lengths", wrong or unlike(len(picture.frames) > 1, True)
    long = sheets.turned(120)[:2]
    picture = Picture(drawing(sheet_line(*long)).stdout)
    wrong = mistitled(picture, sheet_line(*long)) or picture.mislaid()
    yield "tools/draw, a sheet in the heading", wrong or unlike(len(picture.said("title")), SHEET_LINES)
    yield "tools/draw, 200 slabs typed", misended(drawing(sheet_line(now, goal)), 0, ["</svg>"])
    whole = drawing("--method", "2", "-", given=sheet_line(now, goal)).stdout
    yield "tools/draw, the whole list of 200 slabs", "" if len(whole) < 10_000_000 else f"{len(whole)} bytes"


PARTS = (lists, plain, measured, measured_lists, piles_stay, some_frames, bad_lists, undrawn, sources, same_again)
PARTS += (rings_and_loops, large)


def tests() -> Iterator[Test]:
    """All tests of tools/draw, some at a time."""
    with ThreadPoolExecutor(4) as pool:
        for part in pool.map(lambda make: list(make()), PARTS):
            yield from part


if __name__ == "__main__":
    sys.exit(counted(tests()))
