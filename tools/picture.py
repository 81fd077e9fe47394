"""Yards as SVG: piles on their ground, yards in a grid, words around them, and what the signs mean.

What is drawn and what is said comes from tools/draw. In a row of piles the ground is at 0, and up is negative.
"""

import html
import itertools
import math
import textwrap
from collections.abc import Iterator, Sequence
from typing import NamedTuple

from arrows import HIGH, Arrow, Measure, Spot, arrow_lines, brief, head, path, text

EDGE, PAD = 16, 10
CAPTION, GROUND, LINE = 26, 18, 18
LETTER, LEAST = 7.3, 460

# So many piles stand abreast in yards of which there are many, or two; so many lines show a long sheet; so many lines
# of words stand in one column, and so many letters are a short line; and the shape of a sheet of paper.
ABREAST, ABREAST_OF_TWO = 24, 18
SHEET_LINES = 8
FEW, SHORT = 8, 64
SHAPE = 2**0.5

# So many times as wide as the shortest slab the longest is.
WIDEST = 3

STYLE = """
  text { font: 13px sans-serif; fill: #000 }
  .title, .caption, .strong { font-weight: bold }
  .title { font-size: 15px }
  .long { font-size: 13px; font-weight: normal }
  .how { font-weight: normal }
  .ground { stroke: #000; stroke-width: 2 }
  .earth, .label, .target { font-size: 11px }
  .earth { fill: #444 }
  .panel { fill: #f2f5fa; stroke: #888 }
  .slab rect { stroke: #000; stroke-width: 1 }
  .slab text { font-size: 15px }
  .slab text, .target { text-anchor: middle }
  .right rect { fill: #d4d4d4 }
  .wished rect { fill: #fff }
  .misplaced rect { fill: #ffe4b3; stroke-dasharray: 4 2 }
  .loop rect, .ring rect { fill: #f6b59c; stroke: #a00000; stroke-width: 2.6; stroke-dasharray: 7 2 }
  .wished.ring rect { fill: #fff }
  .slab.loop text, .slab.ring text { font-weight: bold }
  .slab .mark { fill: none; stroke: #000; stroke-width: 1.4; stroke-dasharray: none }
  .arrow path { fill: none; stroke: #35506b; stroke-width: 1.2; stroke-dasharray: 4 3 }
  .arrow .head { fill: #35506b; stroke: none }
  .arrow.loop path, .arrow.ring path { stroke: #a00000; stroke-width: 2.4; stroke-dasharray: none }
  .arrow.loop .head, .arrow.ring .head { fill: #a00000; stroke: none }
  .notice rect { fill: #fff; stroke: #a00000; stroke-width: 3 }
"""

# What the looks of slabs and the kinds of arrows mean.
LOOKS = {
    "right": "in position",
    "misplaced": "misplaced",
    "loop": "on the loop, misplaced",
    "ring": "in the ring, misplaced",
    "lifted": "just lifted",
    "between": "what stands above it is in the way",
    "wished": "goal",
}
LONGEST = "the longest, {} cm; the shortest, {} cm"
ARROWS = {
    "waits": "waits for",
    "loop": "waits for, on the loop",
    "ring": "the next in the ring, in its way",
}


class Cell(NamedTuple):
    """A yard: its key and caption, the column of each pile's foot, the looks of slabs, and what else is shown."""

    key: str
    caption: str
    how: str
    yard: Sequence[int]
    columns: dict[int, int]
    looks: dict[int, str]
    arrows: Sequence[Arrow]
    labels: dict[int, str]


class Page(NamedTuple):
    """The words around the yards: the sheet, what is known of it, a notice or none, and lines below."""

    title: str
    counts: str
    notice: str = ""
    words: Sequence[str] = ()


class Part(NamedTuple):
    """Lines of SVG, and the height they take."""

    lines: list[str]
    height: float


# ---- words


def safe(words: str) -> str:
    """Words as XML takes them."""
    return html.escape("".join(c if c.isprintable() else "\ufffd" for c in words), quote=False)


def wrapped(words: str, width: float) -> list[str]:
    """Words in lines that fit a width."""
    return textwrap.wrap(words, max(24, int(width / LETTER)), break_on_hyphens=False)


def subscript(number: int) -> str:
    """A number in small figures below the line."""
    return str(number).translate({ord("0") + k: ord("₀") + k for k in range(10)})


# ---- where things stand


def piles(yard: Sequence[int]) -> Iterator[list[int]]:
    """The piles, each from the ground up, lowest foot first."""
    load = {support: slab for slab, support in enumerate(yard, 1) if support}
    for foot, support in enumerate(yard, 1):
        if support == 0:
            found = [foot]
            while found[-1] in load:
                found.append(load[found[-1]])
            yield found


def widest(least: int, lengths: Sequence[int]) -> int:
    """How wide the longest slab is, where the shortest has the least width; all are so wide where none is longer."""
    return WIDEST * least if len(set(lengths)) > 1 else least


def insets(least: int, wide: int, lengths: Sequence[int]) -> dict[int, int]:
    """How far each slab stands in: widths grow with lengths, from the least of the shortest to that of the longest."""
    longest, shortest = max(lengths, default=0), min(lengths, default=0)
    part = (wide - least) / 2 / max(1, longest - shortest)
    return {slab: round(part * (longest - length)) for slab, length in enumerate(lengths, 1)}


def measure(cells: Sequence[Cell], gap: int, lengths: Sequence[int]) -> Measure:
    """Sizes that suit all yards: their slabs, their piles abreast in rows, and their captions."""
    least = 16 + 8 * max(1, len(str(max(len(cell.yard) for cell in cells))))
    wide = widest(least, lengths)
    columns = max((column + 1 for cell in cells for column in cell.columns.values()), default=1)
    few, many = ABREAST if len(cells) > 2 else ABREAST_OF_TWO, 2 * columns
    few, many = (number * (least + gap) // (wide + gap) for number in (few, many))
    rows = math.ceil(columns / max(1, few, math.isqrt(many)))
    abreast = math.ceil(columns / rows)
    caption = max(len(cell.caption) + len(cell.how) + 3 for cell in cells) * LETTER
    across = max(2 * PAD + abreast * (wide + gap) - min(gap, PAD), int(caption) + 2 * PAD)
    return Measure(wide, gap, abreast, across, least, insets(least, wide, lengths))


def spots(cell: Cell, sizes: Measure) -> dict[int, Spot]:
    """Where each slab of a yard is."""
    found = {}
    for pile in piles(cell.yard):
        row, place = divmod(cell.columns[pile[0]], sizes.abreast)
        for level, slab in enumerate(pile, 1):
            left = PAD + place * (sizes.wide + sizes.gap)
            found[slab] = Spot(row, left, -level * HIGH, slab == pile[-1], sizes.insets.get(slab, 0))
    return found


# ---- yards


def slab_line(slab: int, edges: tuple[int, int], y: int, look: str) -> str:
    """A slab: lifted it has a second border, between two of a ring its number has one."""
    x, wide = edges[0], edges[1] - edges[0]
    mark = ""
    if "lifted" in look:
        mark = f'<rect class="mark" x="{x + 2.5}" y="{y + 2.5}" width="{wide - 5}" height="{HIGH - 5}"/>'
    if "between" in look:
        mark += f'<ellipse class="mark" cx="{x + wide // 2}" cy="{y + HIGH // 2}" rx="{wide // 2 - 2}" ry="8"/>'
    shape = f'<rect x="{x}" y="{y}" width="{wide}" height="{HIGH}"/>'
    number = f'<text x="{x + wide // 2}" y="{y + 15}">{slab}</text>'
    return f'<g class="slab {look}" data-slab="{slab}">{shape}{mark}{number}</g>'


def row_part(cell: Cell, row: int, at: dict[int, Spot], sizes: Measure) -> Part:
    """A row of piles on its ground."""
    here = {slab: spot for slab, spot in at.items() if spot.row == row}
    arrows, highest = arrow_lines(cell.arrows, row, at, sizes)
    up = math.ceil(-min([highest, -HIGH, *(spot.top for spot in here.values())])) + 4
    beneath = "ground (0)" + (f"  {cell.labels[0]}" if 0 in cell.labels else "")
    lines = [
        f'<g class="row" transform="translate(0,{up})">',
        f'<line class="ground" x1="3" y1="0" x2="{sizes.across - 3}" y2="0"/>',
        text(PAD, 13, beneath, "earth"),
        *(slab_line(slab, spot.edges(sizes), spot.top, cell.looks[slab]) for slab, spot in here.items()),
        *(
            text(spot.edges(sizes)[1] + 3, spot.top + 15, cell.labels[slab], "label")
            for slab, spot in here.items()
            if slab in cell.labels
        ),
        *arrows,
        "</g>",
    ]
    return Part(lines, up + GROUND)


def stacked(parts: Sequence[Part]) -> Part:
    """Parts one below the other."""
    lines, y = [], 0.0
    for part in parts:
        lines += [f'<g transform="translate(0,{brief(y)})">', *part.lines, "</g>"] if y else part.lines
        y += part.height
    return Part(lines, y)


def yard_part(cell: Cell, sizes: Measure) -> Part:
    """A yard, its piles in as many rows as they need."""
    at = spots(cell, sizes)
    rows = 1 + max((spot.row for spot in at.values()), default=0)
    return stacked([row_part(cell, row, at, sizes) for row in range(rows)])


def cell_lines(cell: Cell, part: Part, sizes: Measure, place: tuple[int, float], height: float) -> list[str]:
    """A yard at its place in the grid: the caption above, its lowest ground at the bottom."""
    panel = f'<rect class="panel" width="{sizes.across}" height="{brief(height - 4)}"/>'
    how = f'  <tspan class="how">{cell.how}</tspan>' if cell.how else ""
    return [
        f'<g class="frame" data-frame="{cell.key}" transform="translate({place[0]},{brief(place[1])})">',
        *([panel] if cell.key == "goal" else []),
        text(PAD, 17, cell.caption + how, "caption"),
        f'<g transform="translate(0,{brief(height - part.height - 4)})">',
        *part.lines,
        "</g>",
        "</g>",
    ]


class Grid:
    """Yards side by side in rows."""

    def __init__(self, cells: Sequence[Cell], gap: int, lengths: Sequence[int]) -> None:
        """Draws each yard."""
        self.cells, self.lengths, self.sizes = cells, lengths, measure(cells, gap, lengths)
        self.parts = [yard_part(cell, self.sizes) for cell in cells]

    def heights(self, columns: int) -> list[float]:
        """The height of each row of the grid."""
        tall = [part.height for part in self.parts]
        return [CAPTION + max(tall[at : at + columns]) + 4 for at in range(0, len(tall), columns)]

    def width(self, columns: int) -> int:
        """The width of so many columns."""
        return columns * (self.sizes.across + EDGE) - EDGE

    def part(self, columns: int) -> Part:
        """All yards in so many columns."""
        lines, y = [], 0.0
        each = zip(self.cells, self.parts)
        for height in self.heights(columns):
            for column, (cell, part) in enumerate(itertools.islice(each, columns)):
                lines += cell_lines(cell, part, self.sizes, (column * (self.sizes.across + EDGE), y), height)
            y += height + 6
        return Part(lines, y)


# ---- around the yards


def heading(page: Page, width: int) -> Part:
    """The sheet, cut where it is very long, and the counts."""
    title, counts = wrapped(page.title, width / 1.15), wrapped(page.counts, width)
    if len(title) > SHEET_LINES:
        title = [*title[: SHEET_LINES - 1], title[SHEET_LINES - 1][:-2] + " …"]
    kind = "title" if len(title) == 1 else "title long"
    lines = [text(0, 14 + k * LINE, safe(line), kind) for k, line in enumerate(title)]
    lines += [text(0, 14 + k * LINE, safe(line), "counts") for k, line in enumerate(counts, len(title))]
    return Part(lines, len(lines) * LINE + 8)


def notice(page: Page, width: int) -> Part:
    """A notice in a frame, or nothing."""
    if not page.notice:
        return Part([], 0)
    said = wrapped(page.notice, (width - 2 * PAD) / 1.15)
    box = f'<rect x="2" y="2" width="{width - 4}" height="{len(said) * LINE + 10}"/>'
    words = [text(PAD, 20 + k * LINE, safe(line), "strong") for k, line in enumerate(said)]
    return Part(['<g class="notice">', box, *words, "</g>"], len(said) * LINE + 24)


def columned(lines: Sequence[str], width: int) -> Part:
    """Short lines in as many columns as there is room for; a few stand in one."""
    longest = max(map(len, lines)) * LETTER + 2 * PAD
    rows = max(FEW, math.ceil(len(lines) / max(1, int(width / longest))))
    places = ((k // rows * longest, 14 + k % rows * LINE) for k in range(len(lines)))
    words = [text(*place, safe(line), "words") for place, line in zip(places, lines)]
    return Part(words, min(rows, len(lines)) * LINE)


def below(page: Page, width: int) -> Part:
    """The lines below the yards."""
    parts = []
    for long, lines in itertools.groupby(page.words, lambda line: len(line) > SHORT):
        if long:
            parts += [columned([part], width) for line in lines for part in wrapped(line, width)]
        else:
            parts.append(columned(list(lines), width))
    return stacked([*parts, Part([], 10 if parts else 0)])


def parted(cell: Cell, sizes: Measure) -> bool:
    """Whether an arrow of a yard goes to another row."""
    at = spots(cell, sizes) if cell.arrows else {}
    return any(at[arrow.slab].row != at[arrow.to].row for arrow in cell.arrows)


def slab_sign(look: str, wide: int) -> str:
    """A slab of one look, without a number."""
    whole = {"loop": "misplaced loop", "ring": "misplaced ring", "lifted": "right lifted", "between": "wished between"}
    whole["long"] = "wished long"
    mark = slab_line(0, (0, wide), 0, whole.get(look, look))
    return mark.replace('data-slab="0"', f'data-sign="{look}"').replace(">0</text>", "></text>")


def signs(cells: Sequence[Cell], sizes: Measure, lengths: Sequence[int]) -> Iterator[tuple[str, str, int]]:
    """What each sign of the picture means: the sign, the words, and the sign's width; only signs that are used."""
    every = {frozenset(look.split()) for cell in cells for look in cell.looks.values()}
    used = {word for look in every for word in look if word != "misplaced" or not look & {"loop", "ring"}}
    yield from ((slab_sign(look, sizes.least), words, sizes.least) for look, words in LOOKS.items() if look in used)
    if any(sizes.insets.values()):
        yield slab_sign("long", sizes.wide), LONGEST.format(max(lengths), min(lengths)), sizes.wide
    kinds = {arrow.kind for cell in cells for arrow in cell.arrows}
    for kind in (kind for kind in ARROWS if kind in kinds):
        line = path("M", 0, 15, "C", 0, 0, 26, 0, 26, 9) + head(26, 17, "down")
        yield f'<g class="arrow {kind}" data-sign="arrow {kind}">{line}</g>', ARROWS[kind], 32
    if any(parted(cell, sizes) for cell in cells):
        line = path("M", 4, 18, "V", 12) + head(4, 4, "up") + text(17, 13, "17", "target")
        yield f'<g class="arrow" data-sign="arrow">{line}</g>', "to 17, in another row", 26
    if any(cell.labels for cell in cells):
        yield f'<g class="names" data-sign="names">{text(0, 15, "cₙ dₙ", "label")}</g>', "c and d of slab n", 30


def legend(grid: Grid, width: int) -> Part:
    """What the signs mean, in lines that fit."""
    lines, x, y = [], 0.0, 0
    for sign, words, wide in signs(grid.cells, grid.sizes, grid.lengths):
        take = wide + 8 + len(words) * LETTER + 14
        if x and x + take > width:
            x, y = 0.0, y + HIGH + 8
        lines.append(f'<g class="sign" transform="translate({brief(x + 1)},{y + 2})">{sign}')
        lines.append(text(wide + 8, 16, words, "meaning") + "</g>")
        x += take
    return Part(lines, y + HIGH + 8 if lines else 0)


def around_grid(page: Page, grid: Grid, columns: int) -> tuple[int, Part, Part]:
    """The width of a picture with so many columns, what is above the grid, and what is below it."""
    width = max(LEAST, grid.width(columns))
    foot = [notice(page, width), below(page, width), legend(grid, width)]
    return width, heading(page, width), stacked(foot)


def off_shape(page: Page, grid: Grid, columns: int) -> float:
    """How far a picture with so many columns is from a sheet of paper that lies."""
    width, above, foot = around_grid(page, grid, columns)
    return abs(math.log(width / (above.height + sum(grid.heights(columns)) + foot.height) / SHAPE))


def svg(page: Page, cells: Sequence[Cell], gap: int, lengths: Sequence[int] = ()) -> str:
    """The whole picture, slabs by their lengths; two yards stand side by side, more of them in a grid."""
    grid = Grid(cells, gap, lengths)
    columns = min(range(min(2, len(cells)), len(cells) + 1), key=lambda count: off_shape(page, grid, count))
    across, above, foot = around_grid(page, grid, columns)
    whole = stacked([above, grid.part(columns), foot])
    width, height = across + 2 * EDGE, math.ceil(whole.height) + 2 * EDGE
    size = f'width="{width}" height="{height}"'
    return "\n".join(
        [
            f'<svg xmlns="http://www.w3.org/2000/svg" {size} viewBox="0 0 {width} {height}">',
            f"<title>{safe(page.title)}</title>",
            f"<style>{STYLE}</style>",
            f'<rect {size} fill="#fff"/>',
            f'<g transform="translate({EDGE},{EDGE})">',
            *whole.lines,
            "</g>",
            "</svg>",
            "",
        ]
    )
