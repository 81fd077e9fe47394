"""Arrows between slabs as SVG, and what they are made of: places, words and lines.

In a row of piles the ground is at 0, and up is negative. What the arrows mean comes from tools/draw.
"""

import math
from collections.abc import Sequence
from typing import NamedTuple

HIGH, HEAD = 20, 8


class Arrow(NamedTuple):
    """A slab, the slab in its way, and its kind: waits, or the strong ones, loop for one on the loop and ring."""

    slab: int
    to: int
    kind: str


class Measure(NamedTuple):
    """The width of a pile and of the gap beside it, how many piles stand abreast, and the width of a cell.

    And the least width of a slab, and how far a shorter slab stands in from both sides of its pile.
    """

    wide: int
    gap: int
    abreast: int
    across: int
    least: int
    insets: dict[int, int]


class Spot(NamedTuple):
    """Where a slab is: its row of piles, its pile's left edge, its upper edge, whether it is clear, and its inset."""

    row: int
    left: int
    top: int
    clear: bool
    inset: int = 0

    def edges(self, sizes: Measure) -> tuple[int, int]:
        """The left and the right edge of the slab."""
        return self.left + self.inset, self.left + sizes.wide - self.inset


class Port(NamedTuple):
    """Where an arrow touches a slab: its upright part's x, the height, and the edge where it comes from the side."""

    x: float
    y: float
    edge: float | None


# ---- words and lines


def text(x: float, y: float, words: str, kind: str) -> str:
    """Words at a place; they must be safe."""
    return f'<text class="{kind}" x="{brief(x)}" y="{brief(y)}">{words}</text>'


def brief(number: float) -> str:
    """A number as short as it can be."""
    return f"{number:.1f}".removesuffix(".0")


def head(x: float, y: float, way: str) -> str:
    """The head of an arrow, its tip at a place."""
    back = {"down": "l-4 -8h8z", "up": "l-4 8h8z", "left": "l8 -4v8z", "right": "l-8 -4v8z"}[way]
    return f'<path class="head" d="M{brief(x)} {brief(y)}{back}"/>'


def path(*parts: str | float) -> str:
    """A line of letters and numbers."""
    words = [part if isinstance(part, str) else brief(part) for part in parts]
    return f'<path d="{" ".join(words)}"/>'


# ---- arrows


def far(start: Spot, end: Spot) -> float:
    """How far an arrow goes; of two between the same slabs the one to the left goes farther, around the other."""
    return abs(end.left - start.left) + (1 if end.left < start.left else 0)


def order(arrow: Arrow, slab: int, at: dict[int, Spot]) -> tuple[int, float]:
    """Where an end of an arrow comes among those of its slab, from the left: what goes far stands in the middle."""
    start, end = at[arrow.slab], at[arrow.to]
    if arrow.slab == arrow.to:
        return 0, 0.0
    if start.row != end.row:
        return 2, 0.0
    to_left = (end if slab == arrow.slab else start).left < at[slab].left
    return (1, far(start, end)) if to_left else (3, -far(start, end))


def ports(arrows: Sequence[Arrow], at: dict[int, Spot], sizes: Measure) -> dict[tuple[Arrow, int], Port]:
    """Where the arrows of a row leave and come."""
    ends: dict[int, list[Arrow]] = {}
    for arrow in arrows:
        for slab in {arrow.slab, arrow.to} if at[arrow.slab].row == at[arrow.to].row else {arrow.slab}:
            ends.setdefault(slab, []).append(arrow)
    found = {}
    for slab, here in ends.items():
        for number, arrow in enumerate(sorted(here, key=lambda arrow: order(arrow, slab, at)), 1):
            found[arrow, slab] = port(at[slab], order(arrow, slab, at)[0] == 1, number / (len(here) + 1), sizes)
    return found


def port(spot: Spot, to_left: bool, share: float, sizes: Measure) -> Port:
    """A share of the way along a clear slab's upper edge, or through half the gap beside another slab."""
    (left, right), room = spot.edges(sizes), sizes.gap / 2 - 5
    if spot.clear:
        return Port(left + share * (right - left), spot.top, None)
    if to_left:
        return Port(spot.left - 4 - (1 - share) * room, spot.top + HIGH / 2, left)
    return Port(spot.left + sizes.wide + 4 + share * room, spot.top + HIGH / 2, right)


def arc(start: Port, end: Port, base: float, rise: float) -> str:
    """An arrow that goes up to a base, over it and down."""
    first: list[str | float] = ["M", start.x, start.y]
    last: list[str | float] = ["V", end.y - HEAD]
    tip = head(end.x, end.y, "down")
    if start.edge is not None:
        first = ["M", start.edge, start.y, "Q", start.x, start.y, start.x, start.y - HEAD]
    if end.edge is not None:
        back = math.copysign(HEAD, end.x - end.edge)
        last = ["V", end.y - HEAD, "Q", end.x, end.y, end.edge + back, end.y]
        tip = head(end.edge, end.y, "left" if back > 0 else "right")
    high = base - rise * 4 / 3
    return path(*first, "V", base, "C", start.x, high, end.x, high, end.x, base, *last) + tip


def around(spot: Spot, end: Port) -> tuple[str, float]:
    """The arrow of a slab that is in its own way, and its height."""
    left, top, y = spot.left + spot.inset, spot.top, end.y
    if end.edge is None:
        turn = path("M", left, top + 10, "C", left - 22, top + 6, end.x, top - 38, end.x, top - HEAD + 1)
        return turn + head(end.x, top, "down"), top - 22
    turn = path("M", end.edge, y - 6, "C", end.edge + 24, y - 18, end.edge + 24, y + 16, end.edge + HEAD, y + 4)
    return turn + head(end.edge, y + 4, "left"), top


def pointer(start: Port, to: int) -> tuple[str, float]:
    """A short arrow to the number of a slab in another row, and its height."""
    x, y = start.x, start.y
    if start.edge is None:
        lines = path("M", x, y, "V", y - HEAD) + head(x, y - 15, "up")
        return lines + text(x, y - 18, str(to), "target"), y - 30
    lines = path("M", start.edge, y, "h", 6) + head(start.edge + 13, y, "right")
    return lines + text(start.edge + 15 + 3.5 * len(str(to)), y + 4, str(to), "target"), y


def arcs(
    arrows: Sequence[Arrow], at: dict[int, Spot], places: dict[tuple[Arrow, int], Port], tops: dict[float, float]
) -> dict[Arrow, tuple[str, float]]:
    """Arrows over the piles between their ends, the shortest first and longer ones over them; and their heights."""
    found, done = {}, []
    for arrow in sorted(arrows, key=lambda arrow: (far(at[arrow.slab], at[arrow.to]), arrow)):
        start, end = places[arrow, arrow.slab], places[arrow, arrow.to]
        first, last = sorted((at[arrow.slab].left, at[arrow.to].left))
        left, right = sorted((start.x, end.x))
        piled = [top - HEAD - 1 for x, top in tops.items() if first <= x <= last]
        base = min([*piled, *(top - 1 for one, other, top in done if left <= one and other <= right)])
        rise = 6 + math.sqrt(right - left)
        done.append((left, right, base - rise))
        found[arrow] = arc(start, end, base, rise), base - rise
    return found


def arrow_lines(arrows: Sequence[Arrow], row: int, at: dict[int, Spot], sizes: Measure) -> tuple[list[str], float]:
    """The arrows of a row of piles, the strong ones last, and how high they go."""
    here = [arrow for arrow in arrows if at[arrow.slab].row == row]
    places = ports(here, at, sizes)
    tops = {spot.left: float(spot.top) for spot in at.values() if spot.row == row and spot.clear}
    drawn: dict[Arrow, tuple[str, float]] = {}
    for arrow in here:
        spot, start = at[arrow.slab], places[arrow, arrow.slab]
        if arrow.slab == arrow.to or at[arrow.to].row != row:
            drawn[arrow] = around(spot, start) if arrow.slab == arrow.to else pointer(start, arrow.to)
            tops[spot.left] = min(tops[spot.left], drawn[arrow][1])
    drawn |= arcs([arrow for arrow in here if arrow not in drawn], at, places, tops)
    lines = []
    for arrow in sorted(here, key=lambda arrow: arrow.kind != "waits"):
        ends = f'data-from="{arrow.slab}" data-to="{arrow.to}"'
        lines.append(f'<g class="arrow {arrow.kind}" {ends}>{drawn[arrow][0]}</g>')
    return lines, min((top for _, top in drawn.values()), default=0.0)
