"""What the proved tables of crates `blocks` and `rivals` tell apart from documents 01 and 02, and what they do not.

Each row is held to the reading (reading.py). Then come readings that are wrong in one thing: a tie that is broken by
another rule (ties.py), or a definition that is another one (misread.py). A row tells such a reading where the reading
answers something else than the row says. One that no row tells is looked for on sheets of three and four slabs, with
--all on each of them, and on random ones up to eight, on lists of lifts for these and on lists with faults; where it
differs there, a row is missing, and that is a failure. The others are the same on all that was tried, or come to no
answer: how many there are is printed, and with --same which. The last line is 'N passed, M failed'.
"""

import argparse
import itertools
import random
import re
import sys
from collections import defaultdict
from collections.abc import Callable, Iterable, Iterator, Sequence
from functools import cache, cached_property, lru_cache
from typing import Any, NamedTuple

import reading
import sheets
from misread import Wrong, wrongs
from reading import METHODS, MOST, MOST_PANEL, NO_VERDICT, WIDTH, Lengths, Pair, Row, Yard
from tested import ROOT, Test, counted, sheet_line, unlike
from ties import Decision, Rule, decisions, rules, values

TABLES = (ROOT / "crates/blocks/specs/Sheets.antt", ROOT / "crates/rivals/specs/Rivals.antt")
WHOLLY = (3, 4)
RANDOM_TO = 8
TENTH = 10
FEW, MANY = 20, 200
LISTS = 100
FAULTS = 200

# ---- the tables as they are written

DEFINED = re.compile(r"^abbrev (?:pub )?(\w+) : (Sheet|List Claim)\n\1 =(.*?)(?=\n\n)", re.MULTILINE | re.DOTALL)
WORD = re.compile(r"[()]|[^\s()]+")


class Written(NamedTuple):
    """A sheet of the tables, or one that is tried."""

    now: Yard
    goal: Yard
    lengths: Lengths = None

    def __str__(self) -> str:
        """The sheet as it is typed."""
        return sheet_line(*self)


class Claim(NamedTuple):
    """A row: what it claims, of which sheet, and the numbers and lists behind it."""

    kind: str
    sheet: Written
    rest: Sequence[Any]

    def __str__(self) -> str:
        """The row as it is read."""
        return f"{self.kind} {self.sheet}: {' '.join(map(str, self.rest))}"


MADE: dict[str, Callable[..., Any]] = {
    "plain": Written,
    "grounds": lambda now: Written(now, [0] * len(now)),
    "with": lambda lengths, now, goal: Written(now, goal, lengths),
    "measured_by": lambda lengths, now, goal: Written(now, goal, lengths),
    "given": lambda there, lengths: lengths if there else None,
    "replicate": lambda times, entry: [entry] * times,
}


def applied(parts: Sequence[Any]) -> Any:
    """A function with what it is given, a claim, or a thing alone."""
    first, *rest = parts
    if not rest:
        return first
    return MADE[first](*rest) if first in MADE else Claim(first, rest[0], rest[1:])


def meant(words: Iterator[str], known: dict[str, Any]) -> Any:
    """What an expression of the tables stands for, up to the bracket or the end that closes it."""
    parts: list[Any] = []
    for word in words:
        if word == ")":
            break
        if word == "∷":
            return [applied(parts), *meant(words, known)]
        if word == "(":
            parts.append(meant(words, known))
        else:
            parts.append(int(word) if word.isdigit() else known.get(word, word))
    return applied(parts)


@cache
def tables() -> dict[str, list[Claim]]:
    """The tables by their names."""
    text = "".join(path.read_text(encoding="utf-8") + "\n\n" for path in TABLES)
    text = re.sub(r"\n *--.*| *--.*", "", text)
    known: dict[str, Any] = {"[]": [], "true": True, "false": False}
    found: dict[str, list[Claim]] = {}
    for name, kind, body in DEFINED.findall(text):
        known[name] = meant(iter(WORD.findall(body)), known)
        if kind == "List Claim":
            found[name] = known[name]
    return found


def rows() -> list[Claim]:
    """The rows of all tables."""
    return [claim for table in tables().values() for claim in table]


# ---- what a row claims


def flat(pairs: Iterable[Sequence[int]]) -> list[int]:
    """Pairs or rows as they are written."""
    return [number for pair in pairs for number in pair]


def planned(sheet: Written, method: int) -> tuple[int, int, int, int, list[Pair]]:
    """Planning with a number more than it needs, as the rows lend it."""
    return reading.plan(method, sheet.now, sheet.goal, reading.plan_space(len(sheet.now)) + 1, sheet.lengths)


def tested(sheet: Written) -> tuple[int, int, int, list[Row]]:
    """The deadlock test, likewise."""
    return reading.deadlock(sheet.now, sheet.goal, reading.deadlock_space(len(sheet.now)) + 1, sheet.lengths)


def answer(claim: Claim) -> tuple[object, object]:
    """What the reading answers where a row claims something, and what it claims."""
    kind, sheet, rest = claim
    now, goal, lengths = sheet
    match kind, rest:
        case "gives", [method, pairs]:
            number, _, count, _, lifts = planned(sheet, method)
            return (number, count, flat(lifts)), (0, len(pairs) // 2, pairs)
        case "takes", [method, lifts]:
            return planned(sheet, method)[::2][:2], (0, lifts)
        case "misplaces", [slabs]:
            return planned(sheet, 1)[::3][:2], (0, slabs)
        case "shows", [numbers]:
            number, _, count, found = tested(sheet)
            return (number, count, flat(found)), (0, len(numbers) // WIDTH, numbers)
        case "needs", [lifts]:
            return reading.shortest(now, goal, lengths), lifts
        case "all_down", [lifts]:
            return reading.all_down(now, goal, reading.misplaced(now, goal)), lifts
        case "replays", [lifts, verdict, place]:
            return reading.replay(now, goal, lifts, lengths), (0, verdict, place)
        case "checks", [number, place]:
            return reading.check(now, goal, lengths), (number, place)
        case ("refuses_plan" | "refuses_panel"), [method, space, number, place]:
            most = MOST_PANEL if kind == "refuses_panel" else MOST
            return reading.plan(method, now, goal, space, lengths, most), (number, place, 0, 0, [])
        case "refuses_deadlock", [space, number, place]:
            return reading.deadlock(now, goal, space, lengths), (number, place, 0, [])
        case "refuses_replay", [lifts, number, place]:
            return reading.replay(now, goal, lifts, lengths), (number, NO_VERDICT, place)
    raise ValueError(f"no such claim: {claim}")


def operations(claim: Claim) -> set[str]:
    """The operations that a row is about; a refusal is about the check too."""
    refused = {"check"} if claim.kind.startswith("refuses") else set()
    match claim.kind:
        case "gives" | "takes" | "refuses_plan" | "refuses_panel":
            return {f"plan {claim.rest[0]}"} | refused
        case "shows" | "refuses_deadlock":
            return {"deadlock"} | refused
        case "replays" | "refuses_replay":
            return {"replay"} | refused
        case "checks":
            return {"check"}
    return {"plan 1"}


# ---- what a wrong reading is tried on


def some_lifts(rng: random.Random, sheet: Written) -> list[int]:
    """A list of lifts for a sheet: a method's or a legal one, with some numbers changed or behind it."""
    n, yard = len(sheet.now), list(sheet.now)
    lifts = flat(planned(sheet, rng.choice(METHODS))[4])
    if rng.random() < 0.5:
        lifts = []
        for _ in range(rng.choice((0, 1, 2, 3, 5, 3 * n))):
            lift = rng.choice(reading.all_lifts(yard, sheet.lengths) or [(1, 0)])
            lifts += lift
            yard = reading.lifted(yard, *lift)
    for _ in range(rng.choice((0, 1, 1, 2))):
        if lifts:
            lifts[rng.randrange(len(lifts))] = rng.randint(0, n + 1)
    return lifts + [rng.randint(0, n + 1) for _ in range(rng.choice((0, 0, 0, 2, 4)))]


def with_faults(rng: random.Random) -> Written:
    """Two lists with some faults, with lengths or without."""
    n = rng.randint(2, 6)
    now, goal = map(list, sheets.random_sheet(rng, n, 0))
    for _ in range(rng.choice((0, 0, 1, 2, 4))):
        rng.choice((now, goal))[rng.randrange(n)] = rng.randint(0, n + 3)
    lengths = [rng.randint(1, 4) for _ in range(n + rng.choice((0, 0, 0, 0, 1, -1)))]
    return Written(now, goal, rng.choice((None, lengths, sorted(lengths))))


Asked = Callable[[], object]


class Tried:
    """Sheets, lists of lifts and lists with faults.

    Of random sheets so many times one of each size and kind; of the sheets of four slabs each, or one in so many.
    """

    def __init__(self, times: int, one_in: int) -> None:
        """The same ones for the same numbers."""
        self.times, self.one_in = times, one_in
        self.answers: dict[str, list[object]] = {}

    @cached_property
    def accepted(self) -> list[Written]:
        """The sheets of three and four slabs, and random ones of five to eight, of three kinds and rings."""
        rng = random.Random(sheets.SEED)
        three, four = (list(itertools.product(sheets.arrangements(n), repeat=2)) for n in WHOLLY)
        found = three + four[:: self.one_in]
        for n, _ in itertools.product(range(max(WHOLLY) + 1, RANDOM_TO + 1), range(self.times)):
            found += [sheets.random_sheet(rng, n, kind) for kind in range(3)]
            found.append(sheets.renumbered(rng, *sheets.ring(n)[:2]))
        return [Written(*sheet) for sheet in found]

    @cached_property
    def listed(self) -> list[tuple[Written, list[int]]]:
        """Lists of lifts, some of them on sheets with lengths."""
        rng = random.Random(sheets.SEED)
        found = []
        while len(found) < LISTS * self.times:
            sheet = rng.choice(self.accepted)
            lengths = [rng.choice((1, 2, 2, 3)) for _ in sheet.now]
            sheet = rng.choice((sheet, sheet._replace(lengths=lengths)))
            if reading.check(*sheet) == (0, 0):
                found.append((sheet, some_lifts(rng, sheet)))
        return found

    @cached_property
    def faulty(self) -> list[Written]:
        """Lists with faults."""
        rng = random.Random(sheets.SEED)
        return [with_faults(rng) for _ in range(FAULTS * self.times)]

    @cached_property
    def chosen(self) -> dict[str, list[tuple[Written, Decision]]]:
        """The choices that make a difference on the accepted sheets, by their points."""
        found = defaultdict(list)
        for sheet in self.accepted:
            for point, decision in decisions(sheet[:2]):
                if decision.is_one():
                    found[point].append((sheet, decision))
        return found

    @lru_cache(maxsize=1)
    def by_key(self, point: str, key: str) -> list[list[int]]:
        """What the slabs of the choices at a point have of a key."""
        return [values(key, decision) for _, decision in self.chosen[point]]

    def asked(self, operation: str) -> Iterator[tuple[object, Asked]]:
        """What an operation is asked, and how it answers."""
        if operation == "replay":
            for sheet, lifts in self.listed:
                yield (sheet, lifts), lambda s=sheet, l=lifts: reading.replay(s.now, s.goal, l, s.lengths)
        elif operation == "check":
            for sheet in self.faulty:
                yield sheet, lambda s=sheet: reading.check(*s)
        elif operation == "deadlock":
            for sheet in self.accepted:
                yield sheet, lambda s=sheet: tested(s)
        else:
            for sheet in self.accepted:
                yield sheet, lambda s=sheet, m=int(operation[-1]): planned(s, m)

    def right(self, operation: str) -> list[object]:
        """What the documents' reading answers."""
        if operation not in self.answers:
            self.answers[operation] = [ask() for _, ask in self.asked(operation)]
        return self.answers[operation]


def answered(ask: Asked) -> object:
    """An answer; None where a wrong reading comes to none."""
    try:
        return ask()
    except (ValueError, IndexError, StopIteration):
        return None


# ---- what is told


class Found(NamedTuple):
    """Of a wrong reading: the row that tells it, or where it differs otherwise; neither where it is the same."""

    row: str = ""
    elsewhere: str = ""


def settles(claim: Claim, point: str) -> bool:
    """Whether a row states what is chosen at a point."""
    if point.startswith("the test"):
        return claim.kind == "shows"
    return claim.kind == "gives" and point.startswith(f"method {claim.rest[0]} ")


@cache
def settled() -> dict[str, list[tuple[Claim, Decision]]]:
    """The choices that rows state, by their points."""
    found = defaultdict(list)
    for claim in rows():
        if reading.check(*claim.sheet) == (0, 0):
            for point, decision in decisions(claim.sheet[:2]):
                if settles(claim, point):
                    found[point].append((claim, decision))
    return found


def of_rule(rule: Rule, tried: Tried) -> Found:
    """What tells a rule for ties: a choice by which the list, or the loop that is shown, becomes another."""
    for claim, decision in settled()[rule.point]:
        if rule.differs(decision, values(rule.key, decision)):
            return Found(row=str(claim))
    for (sheet, decision), by in zip(tried.chosen[rule.point], tried.by_key(rule.point, rule.key)):
        if rule.differs(decision, by):
            return Found(elsewhere=str(sheet))
    return Found()


def of_wrong(wrong: Wrong, tried: Tried) -> Found:
    """What tells a wrong definition: another answer of an operation that it can change."""
    for claim in rows():
        if operations(claim).isdisjoint(wrong.operations):
            continue
        claimed = answer(claim)[1]
        with wrong.read():
            said = answered(lambda row=claim: answer(row)[0])
        if said not in (claimed, None):
            return Found(row=str(claim))
    for operation in wrong.operations:
        for (what, ask), right in zip(tried.asked(operation), tried.right(operation)):
            with wrong.read():
                said = answered(ask)
            if said not in (right, None):
                return Found(elsewhere=f"{operation}: {what}")
    return Found()


def tests(tried: Tried, name_same: bool) -> Iterator[Test]:
    """The rows by the reading, and each wrong reading: told, or the same on all that is tried."""
    for claim in rows():
        yield f"row {claim}", unlike(*answer(claim))
    told = same = 0
    for wrong in itertools.chain(rules(), wrongs()):
        found = of_rule(wrong, tried) if isinstance(wrong, Rule) else of_wrong(wrong, tried)
        told, same = told + bool(found.row), same + (found == Found())
        if found == Found() and name_same:
            print(f"the same: {wrong}")
        yield f"wrong: {wrong}", f"no row tells it, and it differs on {found.elsewhere}" if found.elsewhere else ""
    print(f"{told} wrong readings are told by rows, {same} are the same on {len(tried.accepted):,} sheets")


def main() -> int:
    """Runs the tests."""
    parser = argparse.ArgumentParser(description=__doc__.splitlines()[0])
    parser.add_argument("--all", action="store_true", help="try all sheets of four slabs, and ten times as many others")
    parser.add_argument("--same", action="store_true", help="name those that are the same on all that was tried")
    options = parser.parse_args()
    return counted(tests(Tried(MANY, 1) if options.all else Tried(FEW, TENTH), options.same))


if __name__ == "__main__":
    sys.exit(main())
