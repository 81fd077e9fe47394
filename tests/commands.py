"""Runs the commands of tools/ and holds what they write to document 01 and the reading.

tools/records.py packs the document's example. tools/sheet: each sentence about a list, each lift's reason, rings,
verdicts, sheets with lengths, training sheets, refusals, planning as the panel, bad lines, JSON, where sheets come
from, and how it ends. All run where there is no folder tests/.
"""

import itertools
import json
import os
import random
import re
import shutil
import subprocess
import sys
import tempfile
from collections.abc import Iterator, Sequence
from pathlib import Path

import records
import sheets
from case import planning, read
from reading import METHODS, MOST, MOST_PANEL, TOP, VERDICTS, Lengths, Pair, Yard
from records import EXAMPLE
from said import arranged_object, check_object, deadlock_object, plan_object, replay_object, trained_objects
from said import right_check, right_deadlock, right_plan, right_replay, untrue
from tested import ROOT, Ended, Test, lacking, list_line, misended, sheet_line, sheet_of, unlike

LIBRARY = ROOT / "target" / "staticlib"

# A sheet, without lengths or with them.
Sheet = tuple[Yard, Yard] | tuple[Yard, Yard, Lengths]

# Stalled yards with more than one loop: a slab in its own way, one that waits on another loop, and two on one.
SEVERAL = [sheet_of(line) for line in ("5 1 6 0 4 0 / 4 6 2 0 1 0", "0 4 5 0 0 0 0 9 0 11 0 / 8 5 4 0 0 0 0 11 0 9 0")]
RANDOM_SHEETS = 300
MEASURED_SHEETS = 60
SEARCHED = 6
TOP_64 = 2**64 - 1
MANY_ZEROS = 5000 * "0"


def run(
    command: Sequence[str], library: Path | None = None, root: Path = ROOT, given: str = "", **around: str
) -> Ended:
    """Runs a tool, with the library of a folder in the place of the usual one, and variables around it."""
    env = {**os.environ, **({"TOPJESKA_LIB_DIR": str(library)} if library else {}), **around}
    words = [sys.executable, str(root / "tools" / command[0]), *command[1:]]
    return subprocess.run(words, input=given, capture_output=True, text=True, encoding="utf-8", env=env, check=False)


# ---- tools/records.py

WORDS = "HD 2 2, NW 2, NW 0, GL 0, GL 1", "PL 2 2, LF 1 0, LF 2 1"

# The marks of document 02, Job 3, with the fields of the same sheet.
MEASURED = "HL 2 2, NW 2, NW 0, GL 0, GL 1, LN 300, LN 300"
MEASURED_BYTES = bytes.fromhex("48 4C") + EXAMPLE[0][2:] + bytes.fromhex("4C 4E 01 2C") * 2

# Lines that it does not read, and what the message must say.
UNPACKABLE = [
    ("pack", "HD 2 2, XX 1", ["'XX 1'", "HD, HL, NW, GL, LN, PL, LF, NO"]),
    ("pack", "NW 1 2", ["'NW 1 2'", "the fields of NW are 1"]),
    ("pack", "LN 1 2", ["'LN 1 2'", "the fields of LN are 1"]),
    ("pack", "HL 1", ["'HL 1'", "the fields of HL are 2"]),
    ("pack", "LF 1", ["'LF 1'", "the fields of LF are 2"]),
    ("pack", f"NW {TOP + 1}", [f"'NW {TOP + 1}'", f"0 to {TOP}"]),
    ("unpack", "48 4", ["'48 4' is not hexadecimal"]),
]


def records_tool() -> Iterator[Test]:
    """The document's example both ways, the bytes that begin no record, and lines that cannot be read."""
    for words, data in (*zip(WORDS, EXAMPLE), (MEASURED, MEASURED_BYTES)):
        for tail in (b"", b"N", b"NW\0", b"XY\0\0"):
            hexadecimal = (data + tail).hex().upper()
            text = f"{words} | {tail.hex().upper()}" if tail else words
            ended = run(["records.py", "pack"], given=f"{text}\n")
            yield f"tools/records.py, pack {text}", unlike(ended.stdout, f"{hexadecimal}\n")
            ended = run(["records.py", "unpack"], given=f"{hexadecimal}\n")
            yield f"tools/records.py, unpack {text}", unlike(ended.stdout, f"{text}\n")
    for command, line, parts in UNPACKABLE:
        yield f"tools/records.py, {command} {line}", misended(run(["records.py", command], given=line), 2, parts)


# ---- tools/sheet

# Sheets that document 01 refuses: method, line, number and place, and what the words must have.
REFUSED = [
    (2, "2 1 5 / 0 0 0", (4, 3), ["Is every now entry at most n?", "slab 3", "rests on 5 now"]),
    (
        2,
        "0 1 1 / 0 0 0",
        (5, 3),
        ["Does each slab carry at most one slab now?", "slab 3 rests on slab 1 now", "slab 2"],
    ),
    (2, "1 / 0", (6, 1), ["Does every slab come down to the ground now?", "slab 1"]),
    (2, "0 0 0 / 2 1 5", (7, 3), ["Is every goal entry at most n?", "slab 3", "rests on 5 in the goal"]),
    (2, "0 0 0 / 0 1 1", (8, 3), ["at most one slab in the goal?", "slab 3 rests on slab 1 in the goal", "slab 2"]),
    (2, "0 0 / 2 1", (9, 1), ["Does every slab come down to the ground in the goal?", "1, 2, 1"]),
    (4, "2 0 / 0 1", (1, 0), ["Is the method 1, 2 or 3?", "the method is 4"]),
    (2, "2 0 / 0 1 / 300", (16, 0), ["Are there as many lengths as slabs? No: 1 length for 2 slabs."]),
    (2, "2 0 / 0 1 /", (16, 0), ["No: 0 lengths for 2 slabs."]),
    (2, "/ / 300 0", (16, 0), ["No: 2 lengths for 0 slabs."]),
    (
        2,
        "2 0 0 / 0 0 1 / 300 250 250",
        (17, 1),
        ["as long as the slab it rests on now?", "slab 1,", "is 300 cm long and rests on slab 2 now, which is 250 cm"],
    ),
    (
        2,
        "0 0 0 / 0 1 2 / 250 300 300",
        (18, 2),
        ["it rests on in the goal?", "slab 2,", "is 300 cm long and rests on slab 1 in the goal, which is 250 cm long"],
    ),
    (2, "2 1 5 / 0 0 0 / 300", (4, 3), ["Is every now entry at most n?"]),
    (4, "2 0 / 0 1 / 300 250", (1, 0), ["the method is 4"]),
    (1, sheet_line([0] * (MOST + 1), [0] * (MOST + 1)), (2, 0), ["at most 4,000 entries?", "4,001 entries, 1 too"]),
]

# Sheets that are refused, and whose records are made all the same: by 4, by 17, and thrice by 16.
UNASKED: list[Sheet] = [
    ([2, 1, 5], [0, 0, 0]),
    ([2, 0], [0, 0], [300, 250]),
    ([2, 0], [0, 1], [300]),
    ([2, 0], [0, 1], []),
    ([], [], [300, 0]),
]

# Lines that are no sheets, and what the message must say.
UNREADABLE = [
    ("2 x / 0 1", ["column 3", "now entry 2", "'x'"]),
    ("2 0 / 0 -1", ["column 9", "goal entry 2", "'-1'"]),
    (f"2 0 / 0 {TOP + 1}", ["column 9", "goal entry 2", f"'{TOP + 1}'"]),
    ("S2: 2 x / 0 1", ["column 7", "now entry 2", "'x'"]),
    ("2 0 0 1", ["column 8", "no '/'"]),
    ("2 0 / 0 1 / 0 / 0", ["column 15", "third '/'"]),
    ("2 0 / 0 1 / 300 x", ["column 17", "length 2", "'x'"]),
    (f"2 0 / 0 1 / {TOP + 1} 0", ["column 13", "length 1", f"'{TOP + 1}'"]),
    ("2 0 / 0 / 300 300", ["column 9", "slab 2 has no goal entry"]),
    ("2 0 / 0 1 0 / 300 300", ["column 11", "slab 3 has no now entry"]),
    ("2 0 / 0", ["column 8", "slab 2 has no goal entry"]),
    ("2 0 / 0 1 0", ["column 11", "slab 3 has no now entry"]),
    ("no-such-file", ["no '/'", "no-such-file is no file"]),
    ("tests", ["no '/'", "tests is a folder"]),
    ("a\x1b[1mb: 0 / 0", ["column 2", "the name has a character that cannot be shown"]),
]


def unwrapped(text: str) -> str:
    """The tool's words with each sentence and each row in one line, and one space where there are several."""
    joined = re.sub(r"\n  +(?!\d+ (?:shall|above)|the goal pile of|nothing beneath)", " ", text)
    return "\n".join(" ".join(line.split()) for line in joined.splitlines())


def unlike_each(ended: Ended, some: Sequence[Sheet], right: Sequence[str]) -> str:
    """The first sheet on which the tool's words are not the right ones."""
    answers = ended.stdout.removesuffix("\n").split("\n\n")
    if len(answers) != len(right):
        return f"ends with {ended.returncode} after {len(answers)} answers: {ended.stderr}"
    for sheet, said, wished in zip(some, answers, right):
        if wrong := unlike(unwrapped(said), wished):
            return f"{sheet_line(*sheet)}: {wrong}"
    return ""


def misplanned(method: int, some: Sequence[Sheet]) -> str:
    """Where the tool's words on plans differ from the reading."""
    ended = run(["sheet", "plan", str(method), "-"], given="\n".join(sheet_line(*sheet) for sheet in some))
    if ended.returncode != 0:
        return f"ends with {ended.returncode}: {ended.stderr}"
    return unlike_each(ended, some, [right_plan(method, *sheet) for sheet in some])


def unfound(method: int, some: Sequence[Sheet]) -> str:
    """Where what the tool claims of the shortest list is not what the search finds."""
    ended = run(["sheet", "plan", str(method), "--json", "-"], given="\n".join(sheet_line(*sheet) for sheet in some))
    answers = [json.loads(line) for line in ended.stdout.splitlines()]
    each = zip(some, answers, strict=True)
    faults = (untrue(*sheet[:2], told["count"], told["words"], *sheet[2:]) for sheet, told in each)
    return next(filter(None, faults), "")


def sheet_records() -> Iterator[Test]:
    """The records that the tool makes of a line, in hexadecimal and as bytes."""
    example = ["2", "2 0 / 0 1"]
    ended = run(["sheet", "records", *example])
    yield "tools/sheet, records of the whole example", unlike(ended.stdout, f"{EXAMPLE[0].hex(' ').upper()}\n")
    ended = run(["sheet", "records", *example, "--bytes"])
    yield "tools/sheet, bytes of the whole example", unlike(ended.stdout.encode(), EXAMPLE[0])
    ended = run(["sheet", "records", "2", "2 0 / 0 1 / 300 300", "--bytes"])
    yield "tools/sheet, bytes of the example with lengths", unlike(ended.stdout.encode("latin-1"), MEASURED_BYTES)
    some = [*sheets.STATED, *sheets.TRIALS, *measured_sheets()[:9]]
    ended = run(["sheet", "records", "3", *(sheet_line(*sheet) for sheet in some)])
    right = [records.asked(3, *sheet).hex(" ").upper() for sheet in some]
    yield "tools/sheet, records of several sheets", unlike(ended.stdout.split("\n\n"), [*right[:-1], f"{right[-1]}\n"])
    ended = run(["sheet", "records", *example, "2 0 / 0 1", "--bytes"])
    yield "tools/sheet, bytes of several sheets", unlike(ended.stdout.encode(), EXAMPLE[0] * 2)
    for sheet in UNASKED:
        ended, right = run(["sheet", "records", "2", sheet_line(*sheet)]), records.asked(2, *sheet).hex(" ").upper()
        yield f"tools/sheet, records of {sheet_line(*sheet)}", misended(ended, 0) or unlike(ended.stdout, f"{right}\n")
    parts = ["`records` asks nothing", "a sheet that is refused", "another count of lengths", "with 12"]
    yield "tools/sheet --help, on refused sheets", misended(run(["sheet", "--help"]), 0, parts)
    over = sheet_line([0] * (TOP + 1), [0] * (TOP + 1))
    ended = run(["sheet", "records", "2", "-"], given=over)
    yield "tools/sheet, records of too many slabs", misended(ended, 2, [f"can name {TOP} at most"])


def measured_sheets() -> list[tuple[Yard, Yard, Lengths]]:
    """Random sheets with lengths of up to nine slabs; no slabs with lengths too."""
    rng = random.Random(sheets.SEED)
    found: list[tuple[Yard, Yard, Lengths]] = [([], [], [])]
    for number in range(1, MEASURED_SHEETS):
        lengths = rng.choices((0, 200, 250, 300, TOP), k=number % 10)
        found.append((sheets.fitting(rng, lengths), sheets.fitting(rng, lengths), lengths))
    return found


def some_sheets() -> list[Sheet]:
    """Every accepted sheet of at most three slabs, random ones of five and six, with lengths, and some larger."""
    rng = random.Random(sheets.SEED)
    found = [*sheets.small_sheets()]
    found += [sheets.random_sheet(rng, 5 + number % 2, number % 3) for number in range(RANDOM_SHEETS)]
    found += [part.sheet() for part in sheets.GOOD_PARTS]
    larger = [*(sheets.random_sheet(rng, 12, number % 3) for number in range(12)), *sheets.TRIALS, *SEVERAL]
    return [*found, *measured_sheets(), *larger, *(sheets.ring(n)[:2] for n in (8, 10, 40)), sheets.begun(30)[:2]]


def sheet_words(page: dict[str, str]) -> Iterator[Test]:
    """The words of every command on the sheets of a page by their names, and on small sheets, held to the reading."""
    some = some_sheets()
    for method in METHODS:
        for name, line in page.items():
            yield f"tools/sheet plan, {name} by {method}", misplanned(method, [sheet_of(line)])
        yield f"tools/sheet plan, {len(some)} sheets by {method}", misplanned(method, some)
        small = [sheet for sheet in some if len(sheet[0]) <= SEARCHED]
        yield f"tools/sheet plan, what it claims of {len(small)} sheets by {method}", unfound(method, small)
    lines = "\n".join(sheet_line(*sheet) for sheet in some)
    for command, right in (("deadlock", right_deadlock), ("check", right_check)):
        ended = run(["sheet", command, "-"], given=lines)
        yield f"tools/sheet {command}", unlike_each(ended, some, [right(*sheet) for sheet in some])


def some_lists() -> Iterator[tuple[Yard, Yard, list[Pair], Lengths]]:
    """Lists to replay: a method's, one cut short, one with a pair altered, one with a detour, and none.

    Of sheets with lengths also some lifts that do not heed them.
    """
    rng = random.Random(sheets.SEED)
    drawn = [(*sheets.random_sheet(rng, 5, number % 3), None) for number in range(RANDOM_SHEETS)]
    for number, (now, goal, lengths) in enumerate([*drawn, *measured_sheets()]):
        pairs = read(planning(METHODS[number % 3], now, goal)).pairs
        yield now, goal, pairs, lengths
        if pairs:
            at = rng.randrange(len(pairs))
            yield now, goal, pairs[:at], lengths
            yield now, goal, [*pairs[:at], (rng.randint(0, 6), rng.randint(0, 6)), *pairs[at + 1 :]], lengths
            yield now, goal, [*pairs[:at], (pairs[at][0], 0), *pairs[at:]], lengths
        if lengths:
            walk = sheets.Walk(rng, now)
            yield now, goal, [(slab, place) for slab, place, _ in walk.lifts(4, walk.clear_pair)], lengths


def sheet_replays() -> Iterator[Test]:
    """The words on lists, read from JSON, and what they claim of the shortest list; and each as an object."""
    some = list(some_lists())
    given = "\n".join(
        json.dumps({"sheet": sheet_line(now, goal, long), "lifts": [{"slab": s, "destination": d} for s, d in pairs]})
        for now, goal, pairs, long in some
    )
    ended = run(["sheet", "replay", "-"], given=given)
    right = [right_replay(*one) for one in some]
    yield f"tools/sheet replay, {len(some)} lists", unlike_each(ended, [one[:2] for one in some], right)
    yield "tools/sheet replay, status", unlike(ended.returncode, 1)
    ended = run(["sheet", "replay", "-", "--json"], given=given)
    yield "tools/sheet replay --json", unlike_objects(ended, [replay_object(*one) for one in some])
    claims = [(one, told["length"]) for one, told in zip(some, objects(ended)) if told["length"]]
    small = [claim for claim in claims if len(claim[0][0]) <= SEARCHED]
    faults = (untrue(now, goal, len(pairs), length, lengths) for (now, goal, pairs, lengths), length in small)
    yield "tools/sheet replay, what it claims", next(filter(None, faults), "")
    missing = set(VERDICTS) - {told["verdict"] for told in objects(ended)}
    yield "tools/sheet replay, verdicts", f"no list has the verdicts {missing}" if missing else ""


def objects(ended: Ended) -> list[dict[str, object]]:
    """The objects that were printed."""
    return [json.loads(line) for line in ended.stdout.splitlines()]


def unlike_objects(ended: Ended, right: Sequence[dict[str, object]]) -> str:
    """The first object that is not the right one."""
    found = objects(ended)
    if len(found) != len(right):
        return f"ends with {ended.returncode} after {len(found)} objects: {ended.stderr}"
    return next((unlike(one, other) for one, other in zip(found, right) if one != other), "")


def sheet_objects() -> Iterator[Test]:
    """The objects of --json, whole, held to the reading; those of refusals by their numbers."""
    some = some_sheets()
    lines = "\n".join(sheet_line(*sheet) for sheet in some)
    for method in METHODS:
        ended = run(["sheet", "plan", str(method), "-", "--json"], given=lines)
        right = [plan_object(method, *sheet) for sheet in some]
        yield f"tools/sheet plan --json, {len(some)} sheets by {method}", unlike_objects(ended, right)
    for command, made in (("deadlock", deadlock_object), ("check", check_object)):
        ended = run(["sheet", command, "-", "--json"], given=lines)
        yield f"tools/sheet {command} --json", unlike_objects(ended, [made(*sheet) for sheet in some])
    ended = run(["sheet", "check", "--json", *(line for method, line, *_ in REFUSED if method == 2)])
    found = [(answer["refusal"], answer["place"]) for answer in objects(ended)]
    yield "tools/sheet check --json, refusals", unlike(found, [right for method, _, right, _ in REFUSED if method == 2])


# Training sheets: slabs, seed, how many. Arrangements: slabs, number.
TRAINED = [(5, 7, 3), (0, 7, 2), (1, 1, 1), (2, TOP_64, 1), (9, 4001, 20), (16, 2**63, 20)]
ARRANGED = [(0, 0), (1, 0), (3, 0), (3, 12), (6, 2024), (16, 1290434218669920)]

# What training refuses: what is typed, the number, and what the words must have.
UNTRAINED = [
    (["17", "--seed", "7"], 14, ["Are there at most 16 slabs? No: there are 17."]),
    (["17", "--seed", "0", "--count", "3"], 14, ["there are 17"]),
    ([str(2**32 + 3), "--number", "12"], 14, [f"there are {2**32 + 3}"]),
    ([str(TOP_64), "--number", str(TOP_64)], 14, [f"there are {TOP_64}"]),
    (["5", "--seed", "0", "--count", "3"], 15, ["or the seed not 0? No: the seed is 0."]),
    (["0", "--seed", "0"], 15, ["the seed is 0"]),
    (["3", "--number", "13"], 15, ["Is the number below the count of arrangements,", "is 13, and 3 slabs have 13 arr"]),
    (["1", "--number", "1"], 15, ["the number is 1, and 1 slab has 1 arrangement."]),
    (["16", "--number", str(TOP_64)], 15, [f"is {TOP_64}, and 16 slabs have 1290434218669921 arrangements."]),
]

# What cannot be answered: what is typed, and what the message must say.
UNTRAINABLE = [
    (["x", "--seed", "7"], "the number of slabs, 'x', is not a number from 0 to 18446744073709551615"),
    (["-1", "--seed", "7"], "the number of slabs, '-1'"),
    ([str(TOP_64 + 1), "--seed", "7"], f"the number of slabs, '{TOP_64 + 1}'"),
    (["5", "--seed", "0x7"], "the seed, '0x7'"),
    (["5", "--seed", "-7"], "the seed, '-7'"),
    (["5", "--seed", str(TOP_64 + 1)], f"the seed, '{TOP_64 + 1}'"),
    (["5", "--seed", ""], "the seed, ''"),
    (["5", "--seed", "+7"], "the seed, '+7'"),
    (["5", "--seed", " 7"], "the seed, ' 7'"),
    (["5", "--seed", "7_0"], "the seed, '7_0'"),
    (["5", "--seed", "٧"], "the seed, '٧'"),
    (["5", "--seed", "7", "--count", ""], "the count, ''"),
    (["5", "--number", "1.5"], "the number, '1.5'"),
    (["5", "--number", str(TOP_64 + 1)], f"the number, '{TOP_64 + 1}'"),
    (["5", "--seed", "7", "--count", "0"], "the count, '0', is not a number from 1 to"),
    (["5", "--seed", "7", "--count", "-1"], "the count, '-1'"),
    (["5", "--seed", "7", "--count", "two"], "the count, 'two'"),
    (["5", "--number", "7", "--count", "1"], "--count goes with --seed"),
    (["5", "--number", "7", "--seed", "7"], "not allowed with"),
    (["5"], "one of the arguments --seed --number is required"),
    (["--seed", "7"], "required: N"),
]


def training(n: int, seed: int, count: int, *more: str) -> Ended:
    """Runs the tool for training sheets."""
    return run(["sheet", "train", str(n), "--seed", str(seed), "--count", str(count), *more])


def sheet_trains() -> Iterator[Test]:
    """Training sheets and arrangements, alone on their lines and as objects; and as what other commands read."""
    for n, seed, count in TRAINED:
        what, right = f"tools/sheet train, {count} of {n} slabs from {seed}", trained_objects(n, seed, count)
        lines, told = training(n, seed, count), training(n, seed, count, "--json")
        yield what, misended(lines, 0) or unlike(lines.stdout, "".join(f"{one['sheet']}\n" for one in right))
        yield f"{what}, as objects", misended(told, 0) or unlike_objects(told, right)
        some = [sheet_of(one["sheet"]) for one in right]
        for form, text in (("lines", lines.stdout), ("objects", told.stdout)):
            ended = run(["sheet", "plan", "2", "-"], given=text)
            yield f"{what}, {form} read by plan", unlike_each(ended, some, [right_plan(2, *sheet) for sheet in some])
        rest = training(n, right[0]["next"], count).stdout.splitlines()
        yield f"{what}, the next seed", unlike(rest[: count - 1], [one["sheet"] for one in right[1:]])
    ended = run(["sheet", "train", "5", "--seed", "7"])
    yield "tools/sheet train, one sheet if none is named", unlike(ended.stdout, training(5, 7, 1).stdout)
    ended = run(["sheet", "train", MANY_ZEROS + "5", "--seed", MANY_ZEROS + "7"])
    yield "tools/sheet train, zeros in front", unlike(ended.stdout, training(5, 7, 1).stdout)
    ended = run(["sheet", "plan", MANY_ZEROS + "2", f"{MANY_ZEROS}2 0 / {MANY_ZEROS} 1"])
    yield "tools/sheet plan, zeros in front", unlike(ended.stdout, run(["sheet", "plan", "2", "2 0 / 0 1"]).stdout)
    for n, number in ARRANGED:
        words, right = ["sheet", "train", str(n), "--number", str(number)], arranged_object(n, number)
        ended = run(words)
        yield f"tools/sheet train, number {number} of {n} slabs", unlike(ended.stdout, f"{right['arrangement']}\n")
        ended = run([*words, "--json"])
        yield f"tools/sheet train, number {number} of {n} slabs, an object", unlike_objects(ended, [right])


def sheet_untrained() -> Iterator[Test]:
    """Training that is refused, once and by the status; that cannot be answered; and answers that are no sheets."""
    for words, number, parts in UNTRAINED:
        ended, told = run(["sheet", "train", *words]), run(["sheet", "train", *words, "--json"])
        head, _, said = unwrapped(ended.stdout).partition(" place 0 ")
        wrong = misended(ended, 1) or unlike(head, f"refused: {number},") or lacking(said, parts)
        yield f"tools/sheet train {words}", wrong
        given = {"slabs": int(words[0]), words[1].removeprefix("--"): words[2]}
        right = {"command": "train", **given, "refusal": number, "place": 0, "words": said}
        yield f"tools/sheet train {words}, an object", misended(told, 1) or unlike_objects(told, [right])
    for words, part in UNTRAINABLE:
        ended = run(["sheet", "train", *words])
        yield f"tools/sheet train {words}", misended(ended, 2, [part]) or unlike(ended.stdout, "")
    for words in (["3", "--number", "7"], ["17", "--seed", "7"]):
        for form, part in (([], "there is no '/'"), (["--json"], "not what `tools/sheet --json` prints of a sheet")):
            ended = run(["sheet", "plan", "2", "-"], given=run(["sheet", "train", *words, *form]).stdout)
            yield f"tools/sheet plan, from train {words} {form}", misended(ended, 2, [part])


def sheet_refusals() -> Iterator[Test]:
    """Refusals in words and by the status, and lines that cannot be read."""
    for method, line, (number, place), parts in REFUSED:
        ended = run(["sheet", "plan", str(method), line])
        wrong = misended(ended, 1, [f"refused: {number}, place {place}"]) or lacking(unwrapped(ended.stdout), parts)
        yield f"tools/sheet, refusal of {line[:40]} by {method}", wrong
        if number != 1:
            for command in (["deadlock", line], ["check", line], ["replay", line, "1→0"]):
                ended = run(["sheet", *command])
                wrong = misended(ended, 1, [f"refused: {number}, place {place}"])
                yield f"tools/sheet {command[0]}, refusal of {line[:40]}", wrong
    for line, parts in UNREADABLE:
        yield f"tools/sheet, line {line!r}", misended(run(["sheet", "plan", "2", line]), 2, parts)
    for before in (3, 30, 300):
        ended = run(["sheet", "check", f"{'1 ' * before}bad {'2 ' * 50}/ 0"])
        _, part, mark, *_ = ended.stderr.splitlines()
        pointed = part[mark.index("^") :].startswith("bad 2 2") and part[: mark.index("^")].endswith("1 1 1 ")
        yield f"tools/sheet, the mark beneath column {2 * before + 1}", "" if pointed else f"{part!r} above {mark!r}"
    others = [
        (["plan", "x", "0 / 0"], "the method, 'x', is not a number"),
        (["replay", "0 / 0"], "there is no list to replay"),
        (["replay", "0 / 0", "1-0"], "lift 1, '1-0', is not of the form"),
        (["replay", "-", "-"], "can be read once"),
        (["plan", "2", "-", "-"], "can be read once"),
    ]
    for command, part in others:
        yield f"tools/sheet {command}", misended(run(["sheet", *command]), 2, [part])
    ended = run(["sheet", "plan", "2", "2 0 / 0 1", "2 1 / 0 0", "0 / 0"])
    parts = ["list: 1→0, 2→1", "refused: 6, place 1", "list: no lifts"]
    wrong = misended(ended, 1, []) or lacking(unwrapped(ended.stdout), parts)
    yield "tools/sheet, a refusal among lists", wrong


def sheet_panel() -> Iterator[Test]:
    """Planning as the panel, with lengths and without: up to its limit as the yard office, above it refused."""
    some = [sheet_line(*sheet) for sheet in (*sheets.STATED, ([2, 0], [0, 0], [250, 300]))]
    ground = {n: sheet_line([0] * n, [0] * n) for n in (MOST_PANEL, MOST_PANEL + 1, MOST, MOST + 1)}
    some += [ground[MOST_PANEL], "1 / 0", "2 0 / 0 0 / 300 250"]
    for words in (["2", *some], ["3", "--json", *some], ["4", "0 / 0"]):
        office, panel = run(["sheet", "plan", *words]), run(["sheet", "plan", *words, "--panel"])
        told, right = (panel.returncode, panel.stdout), (office.returncode, office.stdout)
        yield f"tools/sheet plan {words[0]} --panel, {len(some)} sheets", unlike(told, right)
    for n, more in ((MOST_PANEL + 1, "601 entries, 1 too many."), (MOST, "4,000 entries, 3,400 too many.")):
        for line in (ground[n], f"{ground[n]} / 300"):
            ended = run(["sheet", "plan", "2", line, "--panel"])
            parts = ["refused: 19, place 0", f"Has the now list at most 600 entries? No: the now list has {more}"]
            yield f"tools/sheet plan --panel, {n} slabs", misended(ended, 1) or lacking(unwrapped(ended.stdout), parts)
    for method, n, number in ((4, MOST, 1), (2, MOST + 1, 2)):
        ended = run(["sheet", "plan", str(method), ground[n], "--panel"])
        yield f"tools/sheet plan --panel, {n} slabs by {method}", misended(ended, 1, [f"refused: {number}, place 0"])
    ended = run(["sheet", "plan", "2", ground[MOST_PANEL + 1]])
    yield "tools/sheet plan, a slab more than the panel takes", misended(ended, 0, ["no lifts are needed"])


def sheet_sources() -> Iterator[Test]:
    """Sheets with names, from files, from standard input, and from what the tool printed; lists likewise."""
    now, goal = sheets.STATED[3]
    right = right_plan(2, now, goal)
    named = f"S4: {sheet_line(now, goal)}"
    with tempfile.TemporaryDirectory() as folder:
        file = Path(folder) / "sheets"
        text = f"# two sheets\n\n{named}  # the second belief\n  0 / 0\n"
        for what, data in (("a file", text), ("CRLF", text.replace("\n", "\r\n")), ("a BOM", f"\ufeff{text}")):
            file.write_bytes(data.encode())
            wished = [right.replace("sheet: ", "sheet: S4: "), right_plan(2, [0], [0])]
            for where, ended in (
                (what, run(["sheet", "plan", "2", str(file)])),
                (f"{what} as standard input", run(["sheet", "plan", "2", "-"], given=data)),
                ("lines", run(["sheet", "plan", "2", named, "0/0"])),
            ):
                yield f"tools/sheet, sheets from {where}", unlike_each(ended, [(now, goal), ([0], [0])], wished)
        file.write_text("0 / 0\n\n# none\n0 / x\n")
        ended = run(["sheet", "check", str(file)])
        yield "tools/sheet, a bad line of a file", misended(ended, 2, [f"{file}, line 4: column 5", "goal entry 1"])
        file.write_bytes(b"\xff\xfe")
        yield "tools/sheet, a file that is no text", misended(run(["sheet", "check", str(file)]), 2, ["cannot be read"])
        file.write_text("# nothing\n")
        for words in ([str(file)], ["-"]):
            ended = run(["sheet", "plan", "2", *words])
            yield f"tools/sheet, nothing in {words[0][-6:]}", misended(ended, 2, ["there is no sheet in"])
        pairs = read(planning(3, now, goal)).pairs
        for what, text in (("a file", f"# by 3\n{list_line(pairs)}  # all\n"), ("what plan prints", printed(named))):
            file.write_text(text)
            for where, words, given in ((what, str(file), ""), (f"{what} as standard input", "-", text)):
                ended = run(["sheet", "replay", sheet_line(now, goal), words], given=given)
                wrong = unlike_each(ended, [(now, goal)], [right_replay(now, goal, pairs)])
                yield f"tools/sheet replay, a list from {where}", wrong


def printed(*words: str) -> str:
    """What the tool prints of plans by method 3."""
    return run(["sheet", "plan", "3", *words]).stdout


def sheet_pipes() -> Iterator[Test]:
    """One call's answers as another one's questions, refusals among them; and what does not belong among answers."""
    now, goal = sheets.STATED[3]
    named, long = f"S4: {sheet_line(now, goal)}", sheets.ring(60)[:2]
    for form in ([], ["--json"]):
        text = printed(named, "1 / 0", sheet_line(*long), *form)
        ended = run(["sheet", "replay", "-"], given=text)
        parts = [list_line(read(planning(3, *sheet)).pairs) for sheet in ((now, goal), long)]
        parts += ["arrives: 3 lifts", "refused: 6, place 1", "arrives: 31 lifts"]
        wrong = misended(ended, 1) or lacking(unwrapped(ended.stdout), parts)
        yield f"tools/sheet replay, what plan prints {form}", wrong
        again = run(["sheet", "replay", "-", *form], given=run(["sheet", "replay", "-", *form], given=text).stdout)
        wrong = misended(again, 1) or lacking(unwrapped(again.stdout), ["31"])
        yield f"tools/sheet replay, what replay prints {form}", wrong
    ended = run(["sheet", "check", "-"], given=f"{printed(named)}\n0 / 0\n")
    wrong = misended(ended, 0) or unlike(ended.stdout.count("accepted:"), 2)
    yield "tools/sheet, a plain line behind what it printed", wrong
    ended = run(["sheet", "check", "-"], given=f"{printed(named)}0 / 0\n")
    yield "tools/sheet, a plain line within what it printed", misended(ended, 2, ["a sheet stands among what"])
    for name, each in (("pairs", "1 4, 3 2"), ("rows", "1 4 4, 3 2 2")):
        ended = run(["sheet", "check", "-"], given=f"deadlock: slabs 1 and 3\n{name}: {each}\nsheet: {named}\n")
        wrong = misended(ended, 0) or unlike(ended.stdout.count("accepted:"), 1)
        yield f"tools/sheet, a deadlock printed as {name}", wrong
    shown = run(["sheet", "deadlock", sheet_line(*long)]).stdout.partition("rows:")[2].partition("sheet:")[0]
    broken = [part for part in shown.strip().splitlines()[:-1] if not part.endswith(",")]
    yield "tools/sheet deadlock, no row in two lines", unlike((broken, "\n" in shown.strip()), ([], True))
    measured = *sheets.STATED[3], [250, 300, 250, 300]
    for form in ([], ["--json"]):
        ended = run(["sheet", "replay", "-"], given=printed(sheet_line(*measured), *form))
        right = right_replay(now, goal, read(planning(3, now, goal)).pairs, measured[2])
        yield f"tools/sheet replay, what plan prints with lengths {form}", unlike_each(ended, [measured], [right])
    tested = run(["sheet", "deadlock", named, "0 / 0"]).stdout
    ended, right = run(["sheet", "plan", "3", "-"], given=tested), [right_plan(3, now, goal), right_plan(3, [0], [0])]
    right[0] = right[0].replace("sheet: ", "sheet: S4: ")
    yield "tools/sheet plan, what deadlock prints", unlike_each(ended, [(now, goal), ([0], [0])], right)
    two = printed(named, "0 / 0")
    ended = run(["sheet", "check", "-"], given=two.replace("\n", "\r\n"))
    yield "tools/sheet, what it printed, with CRLF", unlike(ended.stdout.count("accepted:"), 2)
    ended = run(["sheet", "check", "-"], given=two.replace("\n\n", "\n"))
    yield "tools/sheet, two answers without a line between", misended(ended, 2, ["two answers of tools/sheet stand"])
    ended = run(["sheet", "replay", "0 / 0", "-"], given=two)
    yield "tools/sheet replay, a list from two answers", misended(ended, 2, ["holds 2 answers, where one list is"])
    ended = run(["sheet", "check", "-"], given=f"sheet: 2 0 / 0 1\n{named}\n")
    yield "tools/sheet, a sheet by the name sheet", unlike(ended.stdout.count("accepted:"), 2)


# Objects that tools/sheet does not print, and what the message must say.
UNTOLD = [
    ('{"sheet": "2 0 / 0 1", "lifts": [{"slab": 70000, "destination": 0}]}', "slab, 70000, is not a number"),
    ('{"sheet": "2 0 / 0 1", "lifts": [{"slab": -1, "destination": 0}]}', "slab, -1, is not a number"),
    ('{"sheet": "2 0 / 0 1", "lifts": [{"slab": 1}]}', "destination"),
    ('{"sheet": "2 0 / 0 1", "method": 1e400, "list": ""}', "method, inf"),
    ('{"sheet": "2 0 / 0 1", "name": 5, "list": ""}', "not what `tools/sheet --json` prints"),
    ('{"sheet": "2 0 / x", "list": ""}', "goal entry 1"),
    ('{"sheet": ' + "[" * 100_000, "not what `tools/sheet --json` prints"),
    ("{", "not what `tools/sheet --json` prints"),
]


def sheet_edges() -> Iterator[Test]:
    """Objects that cannot be read, words and locales of other encodings, and closed ends."""
    for text, part in UNTOLD:
        yield f"tools/sheet, {text[:60]}", misended(run(["sheet", "replay", "-"], given=text), 2, [part])
    bare = {"LC_ALL": "C", "PYTHONUTF8": "0", "PYTHONIOENCODING": "ascii", "PYTHONCOERCECLOCALE": "0"}
    ended = run(["sheet", "replay", "Höfe: 2 0 / 0 1", "1→0, 2→1"], **bare)
    yield "tools/sheet, words of another locale", misended(ended, 0, ["Höfe: 2 0 / 0 1", "1→0, 2→1"])
    for tool in ("sheet", "draw", "page", "card", "records.py"):
        yield f"tools/{tool} --help in another locale", misended(run([tool, "--help"], **bare), 0, [f"tools/{tool}"])
    words = [sys.executable.encode(), bytes(ROOT / "tools" / "sheet"), b"check", b"\xff: 0 / 0"]
    ended = subprocess.run(words, capture_output=True, text=True, check=False)
    yield "tools/sheet, a word that is not UTF-8", misended(ended, 2, ["is not UTF-8"])
    words = ["sh", "-c", 'exec "$0" "$@" <&-', sys.executable, str(ROOT / "tools" / "sheet"), "check", "-"]
    ended = subprocess.run(words, capture_output=True, text=True, check=False)
    yield "tools/sheet, closed standard input", misended(ended, 2, ["standard input cannot be read"])


def unwritten() -> Iterator[Test]:
    """A failing write is an error of its own, of every tool."""
    example = "2 0 / 0 1"
    tools = ["sheet", "plan", "2", example], ["draw", example], ["page", example], ["card"], ["records.py", "pack"]
    for words in tools:
        command = [sys.executable, str(ROOT / "tools" / words[0]), *words[1:]]
        with open("/dev/full", "wb") as full:
            ended = subprocess.run(command, stdout=full, stderr=subprocess.PIPE, input="NW 1\n", text=True, check=False)
            told = subprocess.run([*command[:2], "--help"], stdout=full, stderr=subprocess.PIPE, text=True, check=False)
        said = [(one.returncode, "could not be written" in one.stderr) for one in (ended, told)]
        yield f"tools/{words[0]}, a full disk", unlike(said, [(3, True)] * 2)
    command = [sys.executable, str(ROOT / "tools" / "sheet"), "plan", "2", example]
    reader, writer = os.pipe()
    os.close(reader)
    with open(writer, "wb") as closed:
        ended = subprocess.run(command, stdout=closed, stderr=subprocess.PIPE, text=True, check=False)
    yield "tools/sheet, a closed pipe", unlike((ended.returncode, ended.stderr.count("\n")), (3, 1))
    ended = subprocess.run(["sh", "-c", 'exec "$0" "$@" >&-', *command], capture_output=True, text=True, check=False)
    yield "tools/sheet, closed standard output", misended(ended, 3, ["standard output is closed"])


def alone() -> Iterator[Test]:
    """Each tool where nothing of the project but the library is beside it; and where no library is."""
    example = "2 0 / 0 1"
    with tempfile.TemporaryDirectory() as folder:
        root = Path(folder)
        shutil.copytree(ROOT / "tools", root / "tools", ignore=shutil.ignore_patterns("__pycache__"))
        commands = ["plan", "2", example], ["records", "2", example], ["train", "5", "--seed", "7"]
        for command in (*(["sheet", *words] for words in commands), ["draw", example]):
            yield f"tools/{command[0]} alone", misended(run(command, LIBRARY, root), 0, [])
        ended = run(["records.py", "pack"], root=root, given=WORDS[0])
        yield "tools/records.py alone", misended(ended, 0, [EXAMPLE[0].hex().upper()])
        ended = run(["sheet", "plan", "2", example], root / "none")
        yield "tools/sheet, no library where one is named", misended(ended, 2, ["there is no", "TOPJESKA_LIB_DIR"])


def on_demand() -> Iterator[Test]:
    """The library is built where it is missing or old, and so is the shared object, each with a line that says so."""
    with tempfile.TemporaryDirectory() as folder:
        root = Path(folder)
        shutil.copytree(ROOT / "tools", root / "tools", ignore=shutil.ignore_patterns("__pycache__"))
        source, archive = root / "crates" / "one" / "src" / "lib.rt", root / "target" / "staticlib" / "libtopjeska.a"
        made = root / "target" / "tools" / "libtopjeska.so"
        source.parent.mkdir(parents=True)
        (root / "crates" / "topjeska").mkdir()
        for file in (root / "crates.txt", source):
            file.touch()
            os.utime(file, (1, 1))
        builder = root / "bin" / "rt"
        builder.parent.mkdir()
        builder.write_text(
            "#!/bin/sh\n[ \"$* in ${PWD##*/}\" = 'lib in topjeska' ] || exit 9\n"
            f"mkdir -p out && cp '{LIBRARY / 'libtopjeska.a'}' out/\n"
        )
        builder.chmod(0o755)
        around = {"PATH": f"{builder.parent}:{os.environ['PATH']}", "TOPJESKA_LIB_DIR": ""}

        def said() -> tuple[int, list[str]]:
            """How the tool ends, and the first word of each line that it says."""
            ended = run(["sheet", "check", "2 0 / 0 1"], root=root, **around)
            return ended.returncode, [line.split()[0] for line in ended.stderr.splitlines()]

        yield "tools/sheet, the library built on demand", unlike(said(), (0, ["building", "making"]))
        yield "tools/sheet, the library as it is", unlike(said(), (0, []))
        yield "tools/sheet, others may load it", unlike(made.stat().st_mode & 0o777, 0o755)
        later = archive.stat().st_mtime + 10
        os.utime(source, (later, later))
        archive.unlink()
        archive.write_bytes((LIBRARY / "libtopjeska.a").read_bytes())
        yield "tools/sheet, a library older than its sources", unlike(said(), (0, ["building", "making"]))
        os.utime(source, (1, 1))
        os.utime(archive, (later, later))
        yield "tools/sheet, a shared object older than the library", unlike(said(), (0, ["making"]))
        os.utime(archive, (1, 1))
        os.utime(source, (0, 0))
        os.utime(root / "crates.txt", (0, 0))
        made.write_bytes(b"")
        yield "tools/sheet, a damaged shared object", unlike(said(), (0, ["the", "making"]))
        builder.write_text("#!/bin/sh\necho not proved\nexit 1\n")
        shutil.rmtree(root / "target")
        ended = run(["sheet", "check", "2 0 / 0 1"], root=root, **around)
        wrong = misended(ended, 2, ["the library is not built: tools/library ends with 1", "not proved"])
        yield "tools/sheet, a library that cannot be built", wrong


def tests(page: dict[str, str]) -> Iterator[Test]:
    """All tests of the tools, with the sheets of a page as they are typed."""
    of_answers = (sheet_words(page), sheet_replays(), sheet_objects(), sheet_refusals(), sheet_panel())
    of_training = (sheet_trains(), sheet_untrained())
    of_words = (sheet_records(), sheet_sources(), sheet_pipes(), sheet_edges(), unwritten())
    return itertools.chain(records_tool(), *of_answers, *of_training, *of_words, alone(), on_demand())
