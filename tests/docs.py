"""Holds the pages of docs/ to what they speak of, and runs the tests of the tools.

crates/: each statement of specs/ has a proof in proofs/ of its crate. docs/WHY.md: each theorem or law stands in the
lines that the page names, each sheet has the lists, counts, rows and verdicts that the page states, the five piles have
their lifts and reasons (all by reading.py), the table of mean lifts is the library's for its seed (means.py), each
picture is what tools/draw makes of its sheet; where another page says what a sheet reads and takes, it says the same.
docs/CLASSROOM.md: what is to be changed stands there once, its sheet has the numbers that the page states, and the
sheets for a course are those of their seed. docs/DEMANDS.md: each file, definition, function and must-fail edit that it
names exists. The tests of the tools are those of commands.py, pictures.py and page_data.py.
With --write it corrects the line numbers of docs/WHY.md and draws the pictures again.
"""

import itertools
import re
import sys
from collections.abc import Iterator, Sequence
from pathlib import Path
from typing import NamedTuple

import commands
import means
import page_data
import pictures as of_draw
import reading
import sheets
from case import flat, planning, read, testing
from reading import METHODS, Pair, Yard
from said import numbered
from tested import ROOT, Test, counted, lacking, list_line, sheet_line, sheet_of, unlike

WHY = ROOT / "docs" / "WHY.md"
DEMANDS = ROOT / "docs" / "DEMANDS.md"
CLASSROOM = ROOT / "docs" / "CLASSROOM.md"
DECISIONS = ROOT / "docs" / "DECISIONS.md"
SPECIFICATION = ROOT / "docs" / "SPECIFICATION.md"
PICTURES = ROOT / "docs" / "pictures"
THEOREMS = ("crates/blocks/specs/Demands.antt", "crates/blocks/specs/SheetDemands.antt")
# The modules of theorems and of tables.
OWN_NAMES = ("Demands", "SheetDemands", "Sheets")
SEARCHED = 7

REFERENCE = re.compile(r"`([^`\s]+)`, `(crates/[^`:]+):(\d+)(?:-(\d+))?`")
NAMES = r"[^\s(){}]+(?: [^\s(){}]+)*"
DECLARED = re.compile(rf"( *)((?:(?:unfoldable|abbrev|pub) )*)(?:(record|data) (\S+) .*|({NAMES}) : .*)")
TICKED = re.compile(r"`([^`]+)`")
READS = re.compile(r"(S\d) reads (\d+) and takes (\d+)")
LIFT = re.compile(r"(\d+)→(\d+)")
STATED = re.compile(r"^(?:abbrev pub (\S+)|pub record (\S+)) : Type [01](?: where)?\n((?:.+\n)+)", re.MULTILINE)


def text_of(path: Path) -> str:
    """The text of a file."""
    return path.read_text(encoding="utf-8")


# ---- where things are declared


class Declared(NamedTuple):
    """A declaration: its name, the record or data type that it is a part of, and its first and last line."""

    name: str
    part_of: str
    first: int
    last: int


def indent(line: str) -> int:
    """How far a line stands in."""
    return len(line) - len(line.lstrip(" "))


def last_line(lines: list[str], start: int, name: str) -> int:
    """The last line of a declaration that starts at an index: its type, its clauses and what stands further in."""
    depth, last = indent(lines[start]), start
    for number in range(start + 1, len(lines)):
        line = lines[number]
        if not line.strip():
            continue
        own = indent(line) == depth and line.split()[0] in (name, "unfolding")
        if indent(line) <= depth and not own:
            break
        last = number
    return last


def declarations(path: Path) -> list[Declared]:
    """What a file of definitions or laws declares: all at its margin, the parts of records, and what is public."""
    lines = text_of(path).splitlines()
    found: list[Declared] = []
    part_of = ""
    for number, line in enumerate(lines):
        if line.strip() and indent(line) == 0:
            part_of = ""
        match = DECLARED.fullmatch(line)
        if match is None or (len(match[1]) > 2 and "pub" not in match[2]):
            continue
        if match[4]:
            part_of = match[4]
            found.append(Declared(match[4], "", number + 1, last_line(lines, number, match[4]) + 1))
        else:
            for name in match[5].split():
                found.append(Declared(name, part_of, number + 1, last_line(lines, number, name) + 1))
    return found


def at_place(file: str, name: str) -> list[Declared]:
    """The declarations of a name, `Record.field` or plain, in a file."""
    part_of, _, plain = name.rpartition(".")
    return [d for d in declarations(ROOT / file) if d.name == plain and part_of in ("", d.part_of)]


def lines_of(declared: Declared) -> str:
    """The lines of a declaration as the page writes them."""
    return f"{declared.first}" + (f"-{declared.last}" if declared.last > declared.first else "")


# ---- docs/WHY.md: theorems and laws


def misreferred(name: str, file: str, lines: str) -> str:
    """What is wrong with a reference of the page."""
    if not (ROOT / file).is_file():
        return f"{file} does not exist"
    places = [lines_of(declared) for declared in at_place(file, name)]
    if not places:
        return f"{file} declares no {name}"
    return "" if lines in places else f"{name} stands in {file}:{' or '.join(places)}, the page says {lines}"


def references() -> Iterator[Test]:
    """The theorems and laws of the page, each step with a theorem at least, and no line number without a name."""
    text = text_of(WHY)
    for match in REFERENCE.finditer(text):
        name, file, first, last = match.groups()
        yield f"WHY.md, {name}", misreferred(name, file, first + (f"-{last}" if last else ""))
    numbered = re.findall(r"^## (\d+)\.(.*?)(?=^## |\Z)", text, re.M | re.S)
    yield "WHY.md, steps", "" if len(numbered) >= 7 else f"the page has {len(numbered)} numbered steps"
    for number, step in numbered:
        named = {file for _, file, _, _ in REFERENCE.findall(step)}
        yield f"WHY.md, step {number}", "" if named & set(THEOREMS) else f"names no theorem of {' or '.join(THEOREMS)}"
    loose = len(re.findall(r"\.(?:antt|rt|py)`?:\d", text)) - len(REFERENCE.findall(text))
    yield "WHY.md, line numbers", f"{loose} stand behind no name" if loose else ""


def corrected(text: str) -> str:
    """The page with the lines where its theorems and laws stand."""

    def again(match: re.Match[str]) -> str:
        """A reference with its lines."""
        name, file = match[1], match[2]
        places = at_place(file, name) if (ROOT / file).is_file() else []
        return f"`{name}`, `{file}:{lines_of(places[0])}`" if len(places) == 1 else match[0]

    return REFERENCE.sub(again, text)


# ---- docs/WHY.md: sheets and pictures


class Row(NamedTuple):
    """A row of the page's table of sheets, as it is written."""

    name: str
    line: str
    misplaced: str
    ring: str
    lifts: str
    counts: str
    fewest: str

    def typed(self) -> str:
        """The sheet as it is typed."""
        return self.line.strip("`")

    def sheet(self) -> tuple[Yard, Yard]:
        """The sheet."""
        return sheet_of(self.typed())


def section(text: str, heading: str) -> str:
    """What stands under a heading."""
    return text.split(f"\n## {heading}\n", 1)[-1].split("\n## ", 1)[0]


def table(text: str, heading: str) -> list[list[str]]:
    """The cells of the tables under a heading, the first one's head left out."""
    return whole_table(text, heading)[2:]


def whole_table(text: str, heading: str) -> list[list[str]]:
    """The cells of the tables under a heading, with heads and rules."""
    rows = [line for line in section(text, heading).splitlines() if line.startswith("|")]
    return [[cell.strip() for cell in row.strip("|").split("|")] for row in rows]


def rows() -> dict[str, Row]:
    """The sheets of the page by their names."""
    return {row[0]: Row(*row) for row in table(text_of(WHY), "The sheets of this page")}


class Measured(NamedTuple):
    """A row of the page's table of sheets with lengths, as it is written."""

    name: str
    line: str
    lifts: str
    illegal: str
    verdict: str

    def typed(self) -> str:
        """The sheet as it is typed."""
        return self.line.strip("`")


def measured_rows() -> dict[str, Measured]:
    """The sheets with lengths by their names."""
    return {row[0]: Measured(*row) for row in table(text_of(WHY), "With lengths")}


def measured_sheets() -> Iterator[Test]:
    """The sheets with lengths: the list with and without them, and the verdict of the list that is not legal."""
    known = measured_rows()
    yield "WHY.md, sheets with lengths", "" if known else "the page has none"
    for name, row in known.items():
        now, goal, lengths = ([int(entry) for entry in part.split()] for part in row.typed().split("/"))
        room = reading.plan_space(len(now))
        lists = [list_line(reading.plan(2, now, goal, room, given)[-1]) for given in (lengths, None)]
        yield f"WHY.md, sheet {name}", unlike([row.lifts] * 2, lists)
        lifts = [int(number) for pair in LIFT.findall(row.illegal) for number in pair]
        number, verdict, place = reading.replay(now, goal, lifts, lengths)
        yield f"WHY.md, list {row.illegal}", unlike([row.verdict, 0], [f"{verdict}, {place}", number])


def fewest(now: Yard, goal: Yard) -> int:
    """The fewest lifts, by search; for more than a few slabs from both ends, because every lift can be taken back."""
    if len(now) <= SEARCHED:
        return reading.shortest(now, goal)
    ends = [{tuple(now)}, {tuple(goal)}]
    lifts = 0
    while not ends[0] & ends[1]:
        ends[lifts % 2] |= {after for yard in ends[lifts % 2] for after in reading.yards_after(yard)}
        lifts += 1
    return lifts


def ring_line(now: Yard, goal: Yard) -> str:
    """The rows of the deadlock test as a page writes them; nothing without a deadlock."""
    return ", ".join(" ".join(map(str, row)) for row in read(testing(now, goal)).rows)


def misstated(row: Row) -> str:
    """Where a row differs from the reading."""
    now, goal = row.sheet()
    right = Row(
        row.name,
        row.line,
        str(len(reading.misplaced(now, goal))),
        ring_line(now, goal),
        list_line(read(planning(2, now, goal)).pairs),
        ", ".join(str(read(planning(method, now, goal)).numbers[2]) for method in METHODS),
        str(fewest(now, goal)),
    )
    return "" if row == right else f"the page says {row[2:]}, the reading {right[2:]}"


def page_sheets() -> Iterator[Test]:
    """The page's sheets against the reading and document 01; the lists of its beliefs arrive and are longer."""
    stated = {f"S{number}": f"`{sheet_line(*sheet)}`" for number, sheet in enumerate(sheets.STATED, 1)}
    known = rows()
    for name, row in known.items():
        yield f"WHY.md, sheet {name}", misstated(row)
        if re.fullmatch(r"S\d", name):
            wrong = "" if stated.get(name) == row.line else f"document 01 has {stated.get(name)}"
            yield f"WHY.md, sheet {name} of document 01", wrong
    shown_lines = {line for line in TICKED.findall(text_of(WHY)) if re.fullmatch(r"[\d ]+/[\d ]+", line)}
    other = shown_lines - {row.typed() for row in known.values()}
    yield "WHY.md, sheets in the text", f"not in the table: {sorted(other)}" if other else ""
    beliefs = table(text_of(WHY), "Beliefs that cost a lift")
    yield "WHY.md, beliefs", "" if len(beliefs) == 4 else f"document 01 has 4, the page {len(beliefs)}"
    for belief, name, shown in beliefs:
        yield f"WHY.md, belief {belief}", "" if name in known else f"no sheet {name} in the table"
        for listed in TICKED.findall(shown):
            pairs: list[Pair] = [(int(slab), int(place)) for slab, place in LIFT.findall(listed)]
            arrives = reading.replay(*known[name].sheet(), flat(pairs)) == (0, 0, 0)
            longer = len(pairs) > int(known[name].fewest)
            yield f"WHY.md, list {listed}", "" if arrives and longer else "does not arrive, or costs no lift"


def head_counts() -> Iterator[Test]:
    """How many misplaced slabs a sheet reads and how many lifts it takes, where a page says it, against the table."""
    known = rows()
    for page in (WHY, DECISIONS, SPECIFICATION):
        told = READS.findall(text_of(page))
        yield f"{page.name}, a sheet and its head count", "" if told else "nothing is said"
        for name, *numbers in told:
            right = [known[name].misplaced, known[name].fewest] if name in known else []
            yield f"{page.name}, head count of {name}", unlike(numbers, right)


# How a picture is drawn, by what its name ends with.
DRAWN = {
    "-lifts-1": ["--method", "1"],
    "-lifts-3": ["--method", "3"],
    "-lifts": ["--method", "2"],
    "-ring": ["--ring"],
    "-loop": ["--loop"],
    "": [],
}


def picture(name: str) -> str:
    """What tools/draw makes for a picture's name: the sheet of that name, with what the name ends with."""
    ending = next(ending for ending in DRAWN if name.endswith(ending))
    every = [*rows().values(), *measured_rows().values()]
    row = {row.name.lower(): row for row in every}[name.removesuffix(ending)]
    return commands.run(["draw", *DRAWN[ending], f"{row.name}: {row.typed()}"]).stdout


def linked() -> set[str]:
    """The names of the pictures that the pages of docs/ show."""
    pages = [text_of(page) for page in (ROOT / "docs").glob("*.md")]
    return {name for page in pages for name in re.findall(r"\]\(pictures/([^)]+)\.svg\)", page)}


def pictures() -> Iterator[Test]:
    """Each picture as it is drawn again; none that no page shows."""
    stored = {path.stem for path in PICTURES.iterdir()}
    yield "pictures", f"no page shows {sorted(stored - linked())}" if stored - linked() else ""
    yield "pictures of WHY.md", "" if linked() else "the pages show none"
    for name in sorted(linked()):
        path = PICTURES / f"{name}.svg"
        same = path.is_file() and text_of(path) == picture(name)
        yield f"picture {name}", "" if same else "is not what tools/draw makes; tests/docs.py --write draws it"


# ---- docs/DEMANDS.md


class Names:
    """What the project declares, by crate."""

    def __init__(self) -> None:
        """Reads definitions, laws, functions, cases of enums, must-fail edits, and the functions of the tests."""
        self.crates = {path.name for path in (ROOT / "crates").iterdir() if path.is_dir()}
        self.modules: dict[str, set[str]] = {}
        self.parts: set[tuple[str, str]] = set()
        self.of: dict[str, set[str]] = {crate: set() for crate in self.crates}
        self.functions: set[tuple[str, str]] = set()
        self.theorems = {part.name for file in THEOREMS for part in declarations(ROOT / file) if part.part_of}
        for crate in sorted(self.crates):
            self.read(crate)
        self.tests = {
            name
            for path in (ROOT / "tests").glob("*.py")
            for name in re.findall(r"^def (\w+)", text_of(path), re.M)
        }

    def read(self, crate: str) -> None:
        """Adds what one crate declares."""
        home = ROOT / "crates" / crate
        for path in [*home.glob("specs/**/*.antt"), *home.glob("proofs/*.antt")]:
            for declared in declarations(path):
                self.of[crate].add(declared.name)
                self.modules.setdefault(path.stem, set()).add(declared.name)
                self.parts.add((declared.part_of, declared.name))
        for path in home.glob("src/*.rt"):
            text = text_of(path)
            for name in re.findall(r"\bfn (\w+)", text):
                self.functions.add((crate, name))
                self.of[crate].add(name)
            types = set(re.findall(r"\b(?:enum|struct|const) (\w+)", text))
            self.of[crate] |= types
            self.parts |= {(crate, name) for name in types}
            for kind, body in re.findall(r"\benum (\w+)[^{]*\{(.*?)\n\}", text, re.S):
                self.parts |= {(kind, case) for case in re.findall(r"^\s+(\w+)", body, re.M)}
            for kind, body in re.findall(r"^impl(?:<[^>]*>)? (?:[^{]* for )?(\w+)[^{]*\{(.*?)\n\}", text, re.S | re.M):
                methods = re.findall(r"\bfn (\w+)", body)
                self.parts |= {(kind, name) for name in methods}
                self.of[crate] |= {f"{kind}::{name}" for name in methods}
        self.of[crate] |= {path.stem for path in home.glob("must-fail/*.edit")}
        self.of[crate] |= {path.stem for path in (ROOT / "tests" / "edits" / crate).glob("*.edit")}

    def known(self, name: str) -> bool:
        """Whether a file, definition, function or edit of that name exists; of several words the files or the first."""
        if re.fullmatch(r"[\d\s/→,]+", name):
            return True
        files = [word for word in name.split() if "/" in word or re.search(r"\.(md|py|antt|rt|txt|h|c|rs)$", word)]
        if files:
            homes = (ROOT, ROOT / "crates" / "blocks", ROOT / "docs")
            return all(any((home / file).exists() for home in homes) for file in files)
        word = name.split()[0]
        if "::" in word:
            first, last = word.split("::", 1)
            return (first, last) in self.functions or (first, last) in self.parts
        first, dot, last = word.rpartition(".")
        if dot and first:
            return last in self.modules.get(first, ()) or (first, last) in self.parts
        return any(word in names for names in (self.crates, self.modules, self.tests, *self.of.values()))


def stray_theorems(cell: str, names: Names) -> list[str]:
    """The names of several words that stand neither in a file of theorems nor in the module named before them.

    Those of functions of the sources and of tables may stand alone.
    """
    module, stray = "", []
    other = {function for _, function in names.functions}.union(*(names.modules[home] for home in OWN_NAMES))
    for name in TICKED.findall(cell):
        first, dot, last = name.rpartition(".")
        module = first if dot else module
        if "::" in name or name in other or not re.search("[-_]", last):
            continue
        if last not in names.theorems and last not in names.modules.get(module, ()):
            stray.append(name)
    return stray


def misplaced_names(part: str, names: Names) -> list[str]:
    """Of `a`, `b` in `crate` (or of `crate`) those that this crate does not have."""
    wrong: list[str] = []
    group: list[str] = []
    for match in TICKED.finditer(part):
        if match[1] in names.crates and re.search(r"\b(in|of) $", part[: match.start()]):
            wrong += [f"{name} in {match[1]}" for name in group if name not in names.of[match[1]]]
            group = group if re.match(r" and in `", part[match.end() :]) else []
        else:
            group.append(match[1])
    return wrong


def demands() -> Iterator[Test]:
    """The lines of the page that name something: it exists, in the crate that is named, theorems in their file."""
    names = Names()
    for number, line in enumerate(text_of(DEMANDS).splitlines(), 1):
        cells = line.split("|")
        wrong = [name for name in TICKED.findall(line) if not names.known(name)]
        wrong += [name for part in re.split("[;|]", line) for name in misplaced_names(part, names)]
        stray = stray_theorems(cells[3], names) if len(cells) > 4 else []
        wrong += [f"{name} in {' or '.join(THEOREMS)}" for name in stray]
        if "`" in line:
            yield f"DEMANDS.md:{number}", f"does not exist: {', '.join(wrong)}" if wrong else ""


def statements(text: str) -> Iterator[str]:
    """The types without parameters that state something: an equation, a bound or what follows from what."""
    for match in STATED.finditer(text):
        if re.search("[≡≤]|→(?! Type)", match[3]):
            yield match[1] or match[2]


def proved() -> Iterator[Test]:
    """Each statement of a crate is the type of something public in its proofs."""
    for specs in sorted(ROOT.glob("crates/*/specs")):
        laws = "\n".join(text_of(file) for file in sorted(specs.with_name("proofs").rglob("*.antt")))
        for file in sorted(specs.glob("*.antt")):
            for name in statements(text_of(file)):
                there = re.search(rf"^ *pub \S+ : {re.escape(name)}$", laws, re.MULTILINE)
                yield f"{name} of {file.relative_to(ROOT)}", "" if there else "has no proof"


def waiting() -> Iterator[Test]:
    """The sheet of the belief that a stalled slab is deadlocked: three are clear and misplaced, two in a deadlock."""
    now, goal = rows()["waits"].sheet()
    waiters = [slab for slab in reading.misplaced(now, goal) if reading.clear(now, slab)]
    ringed = reading.ringed(now, goal)
    wrong = (waiters, reading.constructive(now, goal), ringed) != ([1, 2, 4], 0, [2, 4])
    yield "WHY.md, who waits and who is deadlocked", f"{waiters} wait, {ringed} are deadlocked" if wrong else ""


def five_piles() -> Iterator[Test]:
    """The table that explains each lift of the five piles: the lifts of methods 2 and 3, what each is, and the loop."""
    now, goal = rows()["five"].sheet()
    stated = [row for row in table(text_of(WHY), "The three methods") if "→" in row[0]]
    pairs = read(planning(2, now, goal)).pairs
    yield "WHY.md, the five piles by method 3", unlike(read(planning(3, now, goal)).pairs, pairs)
    right, loops = [], []
    for number, (slab, place) in enumerate(pairs, 1):
        home = reading.is_constructive(now, goal, slab)
        right.append([f"{number}. {slab}→{place}", "home" if home else "put down"])
        loops.append("" if home else f"the loop is {', '.join(map(str, reading.loop(now, goal)))}")
        now = reading.lifted(now, slab, place)
    yield "WHY.md, the lifts of the five piles", unlike([row[:2] for row in stated], right)
    missing = [loop for loop, row in zip(loops, stated) if loop not in row[2]]
    yield "WHY.md, the loop of the five piles", f"{missing} is not said" if missing else ""


def good_parts() -> Iterator[Test]:
    """The rows that the steps show, and on the sheet "grows" what goes home before it stalls, by the reading."""
    text, known = text_of(WHY), {name: row.sheet() for name, row in rows().items()}
    now, goal = known["grows"]
    home, slab = reading.constructive(now, goal), read(testing(now, goal)).rows[0][0]
    said = [
        f"`{ring_line(*known['S4'])}` for S4, `{ring_line(*known['S5'])}` for S5",
        "It is read when the yard stalls, and not at the start.",
        f'On the sheet "grows" slab {home} goes home onto {goal[home - 1]} before that, and the row is '
        f"`{ring_line(now, goal)}`; at the start the goal pile of {slab} is in position only up to "
        f"{reading.position(now, goal, slab)}:",
    ]
    yield "WHY.md, the rows of step 3", lacking(section(text, "3. What a deadlock is"), said)
    stalls = "7. Why a stalled yard always shows its loop"
    yield "WHY.md, the rows of step 7", lacking(section(text, stalls), [f"here `{ring_line(*known['five'])}`"])
    ends = [f"deadlock rows {ring_line(*known['S4'])} |", f"deadlock row {ring_line(*known['S5'])} |"]
    yield "SPECIFICATION.md, the rows", lacking(section(text_of(SPECIFICATION), "Sheets with known ends"), ends)


SPELT = ("no", "one", "two", "three", "four", "five", "six", "seven", "eight", "nine")


def spelt(numbers: Sequence[int]) -> list[str]:
    """Small numbers as words."""
    return [SPELT[number] for number in numbers]


def without_us() -> Iterator[Test]:
    """What method 1 costs: what is said of the page's sheets, by the reading, and the table of mean lifts."""
    heading = "Switching method 1 off"
    now, goal = rows()["five"].sheet()
    lifts = {name: [len(read(planning(m, *row.sheet())).pairs) for m in METHODS] for name, row in rows().items()}
    astray, pairs = reading.misplaced(now, goal), read(planning(2, now, goal)).pairs
    twice = reading.twice(now, goal, astray)
    straight = [slab for slab in twice if [lifted for lifted, _ in pairs].count(slab) == 1]
    misplaced, off = numbered(astray, " and "), numbered(twice, " and ")
    said = [
        "The five piles take {} lifts by method 1, against {} by method 2 or 3".format(*spelt(lifts["five"])),
        f"In the five piles {misplaced} are misplaced, and of these {off} are off the ground both now and in the goal",
        f": {len(astray)} + {len(twice)} = {reading.all_down(now, goal, astray)}.",
        f"these are the lifts of {' and of '.join(map(str, straight))}",
        f": {lifts['five'][0]} − {len(straight)} = {len(pairs)}.",
        'on the sheet "waits" method 2 writes {} lifts and method 3 {}'.format(*spelt(lifts["waits"][1:])),
        'on the sheet "longer" method 2 writes {} and method 3 {}'.format(*spelt(lifts["longer"][1:])),
        f"on average over {means.SHEETS:,} random sheets of each size",
        "`python3 tests/means.py` makes the table",
    ]
    yield "WHY.md, what is said of method 1", lacking(section(text_of(WHY), heading), said)
    cells = whole_table(text_of(WHY), heading)
    yield from means.tests(cells[:1] + cells[2:])


def classroom() -> Iterator[Test]:
    """The exercises: what is replaced stands in its file once, and the sheet has the numbers that the checker shows."""
    text = text_of(CLASSROOM)
    edits = re.findall(r"^    sed -i 's/(.+)/(.+)/' (\S+)$", text, re.MULTILINE)
    yield "CLASSROOM.md, exercises", "" if len(edits) == 2 else f"the page has {len(edits)}"
    for old, _, file in edits:
        times = text_of(ROOT / file).count(old.replace("\\", ""))
        yield f"CLASSROOM.md, {old}", "" if times == 1 else f"stands {times} times in {file}"
    shown = set(re.findall(r'tools/sheet \w+ (?:\d )?"([\d /]+)"', text))
    yield "CLASSROOM.md, sheet", "" if len(shown) == 1 else f"the page has {shown}"
    now, goal = sheet_of(shown.pop())
    found = len(read(planning(1, now, goal)).pairs), reading.shortest(now, goal), len(reading.misplaced(now, goal))
    numbers = re.search(r"`length p` = (\d+), `length q` = (\d+), .* = \d+, `misplaced_count s g` = (\d+)", text)
    told = tuple(map(int, numbers.groups())) if numbers else ()
    yield "CLASSROOM.md, numbers", unlike(told, found)
    yield "CLASSROOM.md, list", "" if reading.replay(now, goal, [1, 3]) == (0, 0, 0) else "1→3 does not arrive"


def course() -> Iterator[Test]:
    """The sheets for a course: what each quoted command of training prints, by the reading."""
    lines = text_of(CLASSROOM).splitlines()
    drawn, numbered = "    tools/sheet train 5 --seed 7 --count 3", "    tools/sheet train 3 --number 12"
    yards, seed = [], 7
    for _ in range(6):
        *_, seed, yard = reading.training_draw(seed, 5, 5)
        yards.append(yard)
    sheets = [f"    {sheet_line(now, goal)}" for now, goal in zip(yards[::2], yards[1::2])]
    last = [f"    {' '.join(map(str, reading.training(3, 12, 3)[2]))}"]
    for command, right in ((drawn, sheets), (numbered, last)):
        start = lines.index(command) + 4 if command in lines else 0
        yield f"CLASSROOM.md, {command.strip()}", unlike(lines[start : start + len(right)], right)
    told = re.search(r"Three slabs have (\d+), the numbers 0 to (\d+)", text_of(CLASSROOM))
    count = reading.ways(3, 0)
    yield "CLASSROOM.md, count", unlike(list(map(int, told.groups())) if told else [], [count, count - 1])


def main() -> int:
    """Runs all tests, or with --write corrects the page's line numbers and draws its pictures first."""
    if sys.argv[1:] == ["--write"]:
        WHY.write_text(corrected(text_of(WHY)), encoding="utf-8")
        PICTURES.mkdir(exist_ok=True)
        for made, name in ((picture(name), name) for name in linked()):
            if made:
                (PICTURES / f"{name}.svg").write_text(made, encoding="utf-8")
    of_tools = [commands.tests({name: row.typed() for name, row in rows().items()}), of_draw.tests(), page_data.tests()]
    of_why = [references(), page_sheets(), measured_sheets(), head_counts(), waiting(), five_piles(), good_parts()]
    of_pages = [without_us(), pictures(), classroom(), course(), demands()]
    return counted(itertools.chain(proved(), *of_why, *of_pages, *of_tools))


if __name__ == "__main__":
    sys.exit(main())
