"""Differential tests of the library: what it answers and writes, against other programs.

Up to 8 slabs the expected outcome is the reading's (reading.py), and the promises of demand 3 are
held to its breadth-first search. Above, it is that of the plain Rust program (plain/), which is held
to the reading on every small case too. With lengths the same; equal lengths, and lengths that the
options do not name, must also be answered as none. On every accepted sheet the lifts of the three
methods are held to each other and to the number that document 02, Job 4, names. Every case of planning
is put to the panel's entry too: up to 600 slabs the outcomes of both are equal, and at the limits they
are what the documents state. The rows of the deadlock test are also held to sheets by hand and closed
forms. A failing case is printed as a line, also where the library crashes or does not return; run lines
again with `python3 tests/differential.py --cases FILE` (`-`: standard input).
"""

import argparse
import contextlib
import io
import itertools
import mmap
import os
import random
import re
import signal
import subprocess
import sys
import time
from collections.abc import Callable, Iterable, Iterator, Sequence
from pathlib import Path
from typing import NamedTuple

import promises
import sheets
from case import (
    PLANNING,
    Answer,
    Case,
    by_all,
    by_office,
    by_panel,
    case_of,
    checking,
    flat,
    grouped,
    line,
    listed,
    measured,
    operations,
    paired,
    planning,
    read,
    replaying,
    testing,
    width,
)
from library import Fault, Library, Outcome, fields, shared_object
from reading import LENGTHS, METHODS, MOST, MOST_PANEL, NO_VERDICT, PANEL, TOP, Lengths, Row, Yard
from reading import all_down, check, deadlock_space, misplaced, plan_space
from sheets import Sheet, Walk

ROOT = Path(__file__).resolve().parent.parent
TARGET = ROOT / "target"
FAILED = TARGET / "differential" / "failed.txt"
SMALL = 8
SMALL_SHEETS = 4_000
LARGE_SHEETS = 250
MEASURED_SHEETS = 1_500
LARGE_MEASURED = 50
LONG = 70_000
SHOWN = 10
WIDEST = 4096
PATIENCE = 60.0
UNSTATED = "*"

Random = random.Random


def told(outcome: Outcome | str) -> str:
    """An outcome as a line has it, the numbers and the whole space where it is short; or what was wrong."""
    return outcome if isinstance(outcome, str) else f"{listed(outcome.numbers)} | {listed(outcome.space[:200])}"


def of_sheet(case: Case) -> tuple[Yard, Yard, Lengths]:
    """The sheet of a case."""
    return case.now, case.goal, case.looked_at()


class Reached(Exception):
    """The case that was looked for."""


class Trial:
    """Runs cases through the library and counts them; or only finds the case of some index."""

    def __init__(self, library: Library, plain: Library, wanted: int = 0) -> None:
        """Nothing has run yet."""
        self.library, self.plain, self.wanted = library, plain, wanted
        self.passed = 0
        self.failures: list[str] = []
        self.index = 0
        self.progress = mmap.mmap(-1, 8)
        self.sheet: Case | None = None
        self.lifts: dict[int, int] = {}
        self.turn = 0

    def count(self, good: bool, case: Case, why: Callable[[], str]) -> None:
        """Counts a case; keeps the line of a failing one, and prints the first few."""
        if good or self.wanted:
            self.passed += 1
            return
        text = line(case)
        self.failures.append(text)
        if len(self.failures) <= SHOWN:
            place = f"line {len(self.failures)} of {FAILED.relative_to(ROOT)}"
            print(f"failed: {why()}\n{text if len(text) <= WIDEST else place}", flush=True)

    def outcome(self, of: Library, case: Case) -> Outcome | str:
        """What a library answers and writes, or what it did that it may not."""
        try:
            return of.run(case)
        except Fault as fault:
            return str(fault)

    def compare(self, case: Case) -> Outcome | str:
        """Compares a case; one of planning by the yard office's entry also by the panel's, by its ways in turn.

        The library's outcomes are equal where the panel takes as many slabs.
        """
        office = self.compare_one(case)
        if case.operation == "plan" and case.most() == MOST:
            self.turn += 1
            ways = by_panel(case)
            other = ways[self.turn % len(ways)]
            panel = self.compare_one(other)
            if len(case.now) <= MOST_PANEL:
                self.count(panel == office, other, lambda: f"panel {told(panel)}; yard office {told(office)}")
        return office

    def compare_one(self, case: Case) -> Outcome | str:
        """Holds the library to the reading on a small case, to the plain program on any."""
        self.index += 1
        if self.index == self.wanted:
            raise Reached(line(case))
        if self.wanted:
            return "not run"
        self.progress[:] = self.index.to_bytes(8, "little")
        got, plain = self.outcome(self.library, case), self.outcome(self.plain, case)
        expected = plain
        if max(len(case.now), len(case.goal)) <= SMALL:
            expected = Outcome.of(read(case), case.space)
        good = isinstance(got, Outcome) and got == expected == plain

        def why() -> str:
            """The outcomes that differ."""
            named = (("expected", expected), ("library", got), ("plain", plain))
            return "; ".join(f"{name} {told(outcome)}" for name, outcome in named)

        self.count(good, case, why)
        if isinstance(got, Outcome) and got.numbers[0] == 0:
            self.keep(case, got)
        return got

    def keep(self, case: Case, got: Outcome) -> None:
        """Keeps an accepted sheet, and its lifts by their method; where it is another one, the last is weighed."""
        if self.sheet is None or of_sheet(self.sheet) != of_sheet(case):
            self.weigh()
            self.sheet = case
        if case.operation in PLANNING:
            self.lifts[case.method] = got.numbers[2]

    def weigh(self) -> None:
        """Holds the lifts of the sheet kept last to each other, by all methods, and to what document 02 names."""
        case, lifts = self.sheet, self.lifts
        self.sheet, self.lifts = None, {}
        if case is None:
            return
        planned = by_office(case)._replace(method=1, space=plan_space(len(case.now)), lifts=())
        for other in (planned._replace(method=method) for method in METHODS if method not in lifts):
            got = self.outcome(self.library, other)
            if isinstance(got, str) or got.numbers[0] != 0:
                self.count(False, other, lambda: f"an accepted sheet: {told(got)}")
                return
            lifts[other.method] = got.numbers[2]
        astray = sheets.astray(case.now, case.goal)
        wrong = promises.unkept_beside_us(all_down(case.now, case.goal, astray), lifts)
        if len(case.now) <= SMALL and astray != misplaced(case.now, case.goal):
            wrong.append(f"{astray} are misplaced from the ground up, which is not what the reading says")
        self.count(not wrong, planned, lambda: "; ".join(wrong))

    def run(self, cases: Iterable[Case]) -> None:
        """Compares cases one by one."""
        for case in cases:
            self.compare(case)


def lists(n: int) -> list[Yard]:
    """Every list of n entries up to n + 1, the accepted arrangements among them."""
    return list(itertools.product(range(n + 2), repeat=n))


def every_small() -> Iterator[Case]:
    """Every pair of lists of up to three entries; on accepted sheets every list of up to two pairs."""
    for n in range(4):
        for now, goal in itertools.product(lists(n), repeat=2):
            yield from operations(now, goal)
    short = [entries for n in range(3) for entries in lists(n)]
    for now, goal in itertools.product(short, repeat=2):
        if len(now) != len(goal):
            yield from operations(now, goal)
    for n in range(4):
        pairs = list(itertools.product(range(n + 2), repeat=2))
        for now, goal in itertools.product(sheets.arrangements(n), repeat=2):
            for method, more in itertools.product((0, *METHODS, 4), (-plan_space(n), -1, 1)):
                yield planning(method, now, goal, max(plan_space(n) + more, 0))
            for space in {0, 2 * n, *(deadlock_space(n) + more for more in (-1, 1))} - {-1}:
                yield testing(now, goal, space)
            for one in pairs:
                yield replaying(now, goal, one)
            for one, two in itertools.product(pairs, repeat=2):
                yield replaying(now, goal, one + two)


def random_yard(rng: Random, n: int) -> list[int]:
    """A random arrangement, of tall piles, low ones or few."""
    order = rng.sample(range(1, n + 1), n)
    chance = rng.choice((0.5, 0.2, n**-0.5, 1 / n)) if n else 0
    return sheets.piled(order, lambda: rng.random() < chance)


def near_or_far(rng: Random, n: int) -> Sheet:
    """A random sheet; in half of them the goal is a few lifts away."""
    now = random_yard(rng, n)
    if rng.random() < 0.5:
        return now, random_yard(rng, n)
    walk = Walk(rng, now)
    walk.lifts(rng.randint(0, n), walk.clear_pair)
    return now, walk.yard


def altered_lists(rng: Random, now: Yard, right: list[int]) -> Iterator[list[int]]:
    """A right list, and the same with one number changed, a detour, a pair short and a number short."""
    n = len(now)
    yield right
    if not right:
        return
    one = list(right)
    one[rng.randrange(len(one))] = rng.choice((rng.randint(0, n + 1), 0, TOP))
    yield one
    at = 2 * rng.randrange(len(right) // 2)
    yard = list(now)
    for slab, place in paired(right[:at]):
        yard[slab - 1] = place
    walk = Walk(rng, yard)
    for slab, place, rested in walk.lifts(1, walk.clear_pair):
        yield [*right[:at], slab, place, slab, rested, *right[at:]]
    yield right[:at] + right[at + 2 :]
    yield right[:-1]


def damaged(rng: Random, yard: Yard) -> list[int]:
    """A copy of an arrangement with an entry or its length spoilt."""
    bad = list(yard)
    if bad and rng.random() < 0.8:
        wrong = (len(bad) + 1, TOP, rng.randint(0, len(bad)), rng.randint(0, len(bad)))
        bad[rng.randrange(len(bad))] = rng.choice(wrong)
    elif rng.random() < 0.5:
        bad.append(0)
    else:
        bad = bad[:-1]
    return bad


def plan_of(trial: Trial, now: Yard, goal: Yard, method: int) -> list[int]:
    """The list that the plain program writes."""
    numbers, space = trial.plain.run(planning(method, now, goal))
    return list(space[: 2 * numbers[2]])


def randoms(trial: Trial, rng: Random, number: int, sizes: tuple[int, int]) -> Iterator[Case]:
    """Random sheets of some sizes with every operation, right and altered lists, and spoilt copies."""
    for _ in range(number):
        n = rng.randint(*sizes)
        now, goal = near_or_far(rng, n)
        yield from operations(now, goal)
        for lifts in altered_lists(rng, now, plan_of(trial, now, goal, rng.choice(METHODS))):
            yield replaying(now, goal, lifts)
        if rng.random() < 0.5:
            yield from operations(damaged(rng, now), goal, [1, 0])
        else:
            yield from operations(now, damaged(rng, goal), [1, 0])
        yield planning(rng.choice(METHODS), now, goal, plan_space(n) - 1)
        yield planning(rng.choice(METHODS), now, goal, plan_space(n) + rng.randint(1, 9))
        yield testing(now, goal, 2 * n)
        yield testing(now, goal, deadlock_space(n) - 1)
        yield testing(now, goal, deadlock_space(n) + rng.randint(1, 9))


def keeps(trial: Trial, sheet: promises.Searched, cases: Iterable[Case]) -> None:
    """Holds the library's answers to what is promised of a sheet."""
    for case in cases:
        made = trial.compare(case)
        if isinstance(made, str):
            continue
        written = grouped(made.space[: width(case) * made.numbers[2]], width(case)) if case.space else []
        unkept = promises.unkept(sheet, case, Answer(made.numbers, written))
        trial.count(not unkept, case, lambda: "; ".join(unkept))


def hold_promises(trial: Trial, rng: Random, number: int, n: int) -> None:
    """Holds the library's lists and its deadlock test to the breadth-first search and the definitions."""
    for _ in range(number):
        now, goal = near_or_far(rng, n)
        cases = [*by_all(now, goal), *by_panel(planning(rng.choice(METHODS), now, goal))]
        keeps(trial, promises.searched(now, goal), cases)


# ---- lengths


def some_lengths(rng: Random, n: int) -> list[int]:
    """Random lengths: of few values or many, or the least and the most there are."""
    values = rng.choice(((250, 300), (0, TOP), (1, 2, 3), range(200, 1200), range(TOP + 1)))
    return rng.choices(values, k=n)


def fitted(rng: Random, n: int) -> tuple[Yard, Yard, list[int]]:
    """A random accepted sheet with lengths: it is made for the lengths, or these are cut for it where it is small."""
    lengths = some_lengths(rng, n)
    if n > SMALL or rng.random() < 0.7:
        return sheets.fitting(rng, lengths), sheets.fitting(rng, lengths), lengths
    now, goal = near_or_far(rng, n)
    return now, goal, sheets.lowered(lengths, now, goal)


def spoilt(rng: Random, lengths: Yard) -> list[int]:
    """Lengths of which one is another, or one is missing or too many."""
    bad = list(lengths)
    if bad and rng.random() < 0.7:
        bad[rng.randrange(len(bad))] = rng.choice((0, TOP, rng.choice(bad), rng.randint(0, TOP)))
    elif rng.random() < 0.5:
        bad.append(rng.randint(0, TOP))
    else:
        bad = bad[:-1]
    return bad


def every_measured() -> Iterator[Case]:
    """Every two arrangements of up to three slabs with every order of lengths, and with every list of one pair.

    And with too few and too many lengths; each list also in the place of a bad one.
    """
    for n in range(4):
        pairs = list(itertools.product(range(n + 2), repeat=2))
        for now, goal in itertools.product(sheets.arrangements(n), repeat=2):
            for lengths in sheets.ranks(n):
                yield from measured(operations(now, goal), lengths)
                if check(now, goal, lengths) == (0, 0):
                    yield from measured((replaying(now, goal, one) for one in pairs), lengths)
            for count in {0, n - 1, n + 1} - {-1, n}:
                yield from measured(operations(now, goal), [1] * count)
    for n in range(3):
        for now, goal in itertools.product(lists(n), repeat=2):
            for lengths in ([1] * n, [1] * (n + 1), [*range(n)]):
                yield from measured(operations(now, goal, [1]), lengths)


def measured_randoms(trial: Trial, rng: Random, number: int, sizes: tuple[int, int]) -> Iterator[Case]:
    """Random sheets with lengths by every operation: right and altered lists, spoilt copies, and any options."""
    for _ in range(number):
        now, goal, lengths = fitted(rng, rng.randint(*sizes))
        n, bad = len(now), spoilt(rng, lengths)
        right = plan_of(trial, now, goal, rng.choice(METHODS))
        replays = [replaying(now, goal, lifts) for lifts in altered_lists(rng, now, right)]
        walk = Walk(rng, now)
        hasty = flat((slab, place) for slab, place, _ in walk.lifts(rng.randint(1, 9), walk.clear_pair))
        yield from measured([*operations(now, goal), *replays, replaying(now, walk.yard, hasty)], lengths)
        yield from measured(operations(now, goal, right), bad)
        yield from measured(operations(damaged(rng, now), damaged(rng, goal), [1]), bad)
        for some in (lengths, bad):
            method = rng.choice((0, *METHODS, 4))
            tight = planning(method, now, goal, plan_space(n) - 1), testing(now, goal, deadlock_space(n) - 1)
            yield from measured([*tight, testing(now, goal, 2 * n), replaying(now, goal, [1])] if n else [], some)
            yield from measured(operations(now, goal, hasty), some, rng.randint(0, TOP))


def as_without(trial: Trial, rng: Random, number: int, sizes: tuple[int, int]) -> None:
    """Equal lengths, any lengths that the options do not name, and any other options are answered as none are."""
    for _ in range(number):
        now, goal = near_or_far(rng, rng.randint(*sizes))
        right = plan_of(trial, now, goal, rng.choice(METHODS))
        cases = [*operations(now, goal), *(replaying(now, goal, lifts) for lifts in altered_lists(rng, now, right))]
        cases += operations(damaged(rng, now), damaged(rng, goal), right)
        for case in cases:
            without, any_of = trial.compare(case), some_lengths(rng, rng.randint(0, len(now) + 1))
            equal = measured([case], [rng.randint(0, TOP)] * len(case.now))
            named = LENGTHS | PANEL if case.operation in PLANNING else LENGTHS
            unnamed = measured([case], any_of, rng.randint(0, TOP) & ~named)
            for other in (*equal, *unnamed):
                got = trial.compare(other)
                trial.count(got == without, other, lambda: f"{told(got)} where without lengths it is {told(without)}")


def hold_measured_promises(trial: Trial, rng: Random, number: int, n: int) -> None:
    """Holds lists, deadlock tests and verdicts to the search and the definitions, with lengths of a few orders."""
    orders = rng.sample(sheets.ranks(n), 10)
    for _ in range(number):
        lengths = rng.choice(orders)
        now, goal = sheets.fitting(rng, lengths), sheets.fitting(rng, lengths)
        right = plan_of(trial, now, goal, rng.choice(METHODS))
        replays = (replaying(now, goal, lifts) for lifts in altered_lists(rng, now, right) if len(lifts) % 2 == 0)
        cases = [*measured([*by_all(now, goal), *replays], lengths)]
        keeps(trial, promises.searched(now, goal, lengths), [*cases, *by_panel(rng.choice(cases[: len(METHODS)]))])


def measured_large(trial: Trial, rng: Random) -> Iterator[Case]:
    """Random sheets with lengths of 100 slabs to a full yard, and the hard families with equal lengths."""
    yield from measured_randoms(trial, rng, LARGE_MEASURED, (100, MOST))
    yield from measured_randoms(trial, rng, 2, (MOST - 1, MOST))
    for now, goal in sheets.families(MOST):
        yield from measured(operations(now, goal, plan_of(trial, now, goal, 1)), [300] * len(now))


def measured_hostile() -> Iterator[Case]:
    """Wrong counts of lengths, the first and last places of both overhangs in a full yard, and all kinds of options."""
    n = MOST
    ground, tower = [0] * n, sheets.tower(n)
    counts = [[300] * count for count in (0, 1, n - 1, n + 1, TOP, TOP + 1, LONG)]
    first, last = [0, *[TOP] * (n - 1)], [*[0] * (n - 1), TOP]
    falling = [*range(n, 0, -1)]
    for now, goal in ((ground, tower), (tower, ground), (tower, tower), (ground, ground)):
        for lengths in (*counts, first, last, falling, falling[::-1], [0] * n, [TOP] * n):
            yield from measured(operations(now, goal, [n, 0]), lengths)
    for lengths in ((), (0,), (TOP, TOP), [0] * LONG):
        for options in (0, 1, 2, 3, 254, 255, 256, 257, 2**15, 2**15 + 1, TOP - 1, TOP):
            yield from measured(operations((), ()), lengths, options)
            yield from measured(operations((0, 1), (2, 0), (2, 0, 1, 2)), lengths, options)
            yield from measured(operations((0,), ()), lengths, options)


# ---- the panel's limit

# What planning answers before question 3, by the number of slabs: the yard office's entry and the panel's; 0 where it
# asks on.
LIMITS = {0: (0, 0), 599: (0, 0), 600: (0, 0), 601: (0, 19), 4000: (0, 19), 4001: (2, 2)}


class Stated(NamedTuple):
    """A sheet and the space lent, with what planning answers by each method where it asks on."""

    now: Yard
    goal: Yard
    lengths: Lengths
    space: int
    answers: list[Answer]

    def by(self, method: int) -> Case:
        """The case of a method."""
        case = planning(method, self.now, self.goal, self.space)
        return case if self.lengths is None else next(measured([case], self.lengths))


def refused(now: Yard, goal: Yard, lengths: Lengths, number: int, place: int, short: int = 0) -> Stated:
    """A sheet that is refused by every method, with a space that is so much too short."""
    return Stated(now, goal, lengths, plan_space(len(now)) - short, [Answer((number, place, 0, 0), [])] * len(METHODS))


def bad_yards(n: int) -> list[tuple[int, int, Yard]]:
    """Lists of three entries and more that are no arrangements: how many questions get a yes, and the no's place."""
    ground = [0] * n
    return [
        (0, 1, [n + 1, *ground[1:]]),
        (0, n, [*ground[1:], TOP]),
        (1, 2, [n, n, *ground[2:]]),
        (1, n, [2, *ground[2:], 2]),
        (2, 1, [1, *ground[1:]]),
        (2, n - 1, [*range(n - 2), n, n - 1]),
    ]


def refused_sheets(n: int) -> Iterator[Stated]:
    """Sheets of three slabs and more with each refusal from 3 on, at first and last places, others behind it."""
    ground, tower, equal = [0] * n, sheets.tower(n), [300] * n
    for goal in ([], ground[1:], [*ground, 0], [0] * LONG):
        yield refused(tower, goal, None, 3, 0)
        yield refused([TOP] * n, goal, equal[1:], 3, 0, short=1)
    for after, place, bad in bad_yards(n):
        for lengths in (None, equal, equal[1:]):
            yield refused(bad, [TOP] * n, lengths, 4 + after, place)
            yield refused(tower, bad, lengths, 7 + after, place, short=1)
    for lengths in ([], [*range(n - 1)], [*range(n + 1)], [0] * LONG):
        yield refused(tower, tower, lengths, 16, 0, short=1)
    for lengths, place in (([*range(n)], 2), ([*ground[1:], 1], n)):
        yield refused(tower, tower, lengths, 17, place)
        yield refused(ground, tower, lengths, 18, place, short=1)
    for lengths in (None, equal):
        yield refused(ground, tower, lengths, 10, 0, short=1)
        yield refused(ground, ground, lengths, 10, 0, short=plan_space(n))


def planned_sheets(n: int) -> Iterator[Stated]:
    """Sheets of four slabs and more with their lists in closed form, without lengths, with equal and falling ones."""
    ground, tower, built = [0] * n, sheets.tower(n), [(slab, slab - 1) for slab in range(2, n + 1)]
    for make in (sheets.turned, sheets.ring, sheets.begun, *[sheets.exchanged] * (n % 4 == 0)):
        known = make(n)
        answers = [Answer((0, 0, len(pairs), known.misplaced()), pairs) for pairs in map(known.pairs, METHODS)]
        for lengths in (None, [TOP] * n):
            yield Stated(known.now, known.goal, lengths, plan_space(n), answers)
    for lengths in (None, [*range(n, 0, -1)]):
        yield Stated(ground, tower, lengths, plan_space(n), [Answer((0, 0, n - 1, n - 1), built)] * len(METHODS))
        yield Stated(tower, tower, lengths, plan_space(n) + 9, [Answer((0, 0, 0, 0), [])] * len(METHODS))


def no_slabs() -> Iterator[Stated]:
    """Sheets of no slabs."""
    for lengths, space in itertools.product((None, []), (0, 9)):
        yield Stated([], [], lengths, space, [Answer((0, 0, 0, 0), [])] * len(METHODS))
    yield refused([], [0], None, 3, 0)
    yield refused([], [0] * LONG, [], 3, 0)
    yield refused([], [], [0], 16, 0)


def hold_limit(trial: Trial, n: int) -> None:
    """Holds both entries, the panel's in both ways, to what the documents state of n slabs, by every kind of method.

    And the reading, which answers questions 1 to 3 and 19 soon of any sheet.
    """
    office, panel = LIMITS[n]
    for sheet in [*refused_sheets(n), *planned_sheets(n)] if n else no_slabs():
        for method in (0, *METHODS, 4, TOP):
            case = sheet.by(method)
            for one, first in ((case, office), *((other, panel) for other in by_panel(case))):
                number = first if method in METHODS else 1
                stated = Answer((number, 0, 0, 0), []) if number else sheet.answers[method - 1]
                hold(trial, one, stated)
                if stated.numbers[0] in (1, 2, 3, 19):
                    trial.count(read(one) == stated, one, lambda: f"stated {stated}; reading {read(one)}")
        not_looked_at(trial, sheet)


def not_looked_at(trial: Trial, sheet: Stated) -> None:
    """The panel's bit changes nothing for check, the deadlock test and replay."""
    now, goal, lifts = sheet.now, sheet.goal, flat(sheet.answers[0].pairs) or [1, 0]
    options = 0 if sheet.lengths is None else LENGTHS
    others = checking(now, goal), testing(now, goal), replaying(now, goal, lifts)
    for case in measured(others, sheet.lengths or (), options):
        without, other = trial.compare(case), case._replace(options=options | PANEL)
        got = trial.compare(other)
        trial.count(got == without, other, lambda: f"{told(got)} where without the panel's bit it is {told(without)}")


def hold_limits(trial: Trial, rng: Random) -> None:
    """Holds both entries at every limit, and compares them on random sheets about the panel's."""
    for n in LIMITS:
        hold_limit(trial, n)
    trial.run(randoms(trial, rng, 8, (MOST_PANEL - 1, MOST_PANEL + 1)))
    trial.run(measured_randoms(trial, rng, 4, (MOST_PANEL - 1, MOST_PANEL + 1)))


# ---- where the good part of a goal pile ends


def hold_rows(trial: Trial, now: Yard, goal: Yard, rows: list[Row]) -> None:
    """Holds the rows of a deadlock, in every space about 3 × n and with equal lengths; less is refused by 10."""
    n, found, none = len(now), Answer((0, 0, len(rows)), rows), Answer((10, 0, 0), [])
    for space in (0, 2 * n, 3 * n - 1, 3 * n, 3 * n + 1, 4 * n):
        case, stated = testing(now, goal, space), found if space >= 3 * n else none
        for one in (case, *measured([case], [300] * n), *measured([case], [300, 200], 0)):
            hold(trial, one, stated)


def hold_good_parts(trial: Trial, rng: Random) -> None:
    """Holds the rows of sheets by hand, also by other numbers, and of closed forms up to a full yard."""
    for part in sheets.GOOD_PARTS:
        hold_rows(trial, part.now, part.goal, part.rows)
        trial.run(operations(*sheets.renumbered(rng, part.now, part.goal)))
    for make, few in sheets.KNOWN:
        for known in map(make, (*few, MOST_PANEL, MOST)):
            hold_rows(trial, known.now, known.goal, known.loop)


def large(trial: Trial, rng: Random) -> Iterator[Case]:
    """Random sheets of 100 slabs to a full yard, the largest sizes, and the hard families, also renumbered."""
    yield from randoms(trial, rng, LARGE_SHEETS, (100, MOST))
    yield from randoms(trial, rng, 4, (MOST - 1, MOST))
    for n in (100, 500, MOST // 2, MOST):
        for now, goal in sheets.families(n):
            for method in METHODS:
                yield replaying(now, goal, plan_of(trial, now, goal, method))
            yield from operations(now, goal)
            yield from operations(*sheets.renumbered(rng, now, goal))


def hostile(rng: Random) -> Iterator[Case]:
    """Wrong lengths, methods and spaces, and the first and last places of every refusal in a full yard."""
    for method in {0, 4, 5, 255, 256, 257, 258, 259, 32768, TOP - 1, TOP, *rng.sample(range(4, TOP), 50)}:
        yield planning(method, [2, 0], [0, 1])
        yield planning(method, [TOP], [0, 1], 0)
    for long in (MOST + 1, 4096, 32768, TOP, TOP + 1, LONG):
        yield from operations([0] * long, [0] * long)
        yield from operations([TOP] * long, [0])
        yield from operations([0], [TOP] * long)
        yield from operations([0] * MOST, [0] * long)
    n = MOST
    sound = sheets.tower(n)
    for bad in (
        [n + 1] * n,
        [0] * (n - 1) + [n + 1],
        [TOP] * n,
        [0] * (n - 1) + [TOP],
        [1] * n,
        [n] * n,
        [2, *[0] * (n - 2), 2],
        [*range(2, n + 1), 1],
        [*range(n - 1), n],
        [*range(n - 2), n, n - 1],
        [1, *[0] * (n - 1)],
    ):
        for now, goal in ((bad, sound), (sound, bad), (bad, [TOP] * n), ([0] * n, bad)):
            yield from operations(now, goal, [1])
    for space in (0, 1, *(plan_space(n) + more for more in (-1, 0, 1)), LONG):
        yield planning(2, sound, [0] * n, space)
    for space in (0, 1, 2 * n, *(deadlock_space(n) + more for more in (-1, 0, 1)), LONG):
        yield testing(sound, [0] * n, space)
    for lifts in ([1], [0, 0], [TOP, TOP], [1, TOP], [n, 0, 1], [n + 1, 0], [n, n + 1], [n, n]):
        yield replaying(sound, [0] * n, lifts)


def long_lists(rng: Random) -> Iterator[Case]:
    """Lists of 100,000 lifts and more: back to where they began, changed near the end, and cut short."""
    for n in (2, SMALL, 100, MOST):
        now = random_yard(rng, n)
        walk = Walk(rng, now)
        made = walk.lifts(50_000, walk.clear_pair)
        there = flat((slab, place) for slab, place, _ in made)
        back = flat((slab, rested) for slab, _, rested in reversed(made))
        yield replaying(now, now, there + back)
        yield replaying(now, walk.yard, there + back + there)
        yield replaying(now, walk.yard, there + back)
        for number in (0, n + 1, TOP):
            changed = there + back
            changed[-2 - 2 * rng.randrange(50)] = number
            yield replaying(now, now, changed)
        again = there + back
        again[-2:] = again[-4:-2]
        yield replaying(now, now, again)
        yield replaying(now, now, (there + back)[:-1])


def hold(trial: Trial, case: Case, stated: Answer) -> None:
    """Holds the outcome of a case to a stated answer."""
    got = trial.compare(case)
    expected = Outcome.of(stated, case.space)
    trial.count(got == expected, case, lambda: f"stated {told(expected)}; library {told(got)}")


def stated_check(case: Case, stated: Answer) -> Answer | None:
    """What an answer states of `check`: every operation puts its questions, and 1 and 19 are not among them."""
    named = dict(zip(fields(case), stated.numbers))
    number = named["refusal"]
    if case.operation == "check" or number in (1, 19):
        return None
    return Answer((number, named["place"]) if number in (*range(2, 10), 16, 17, 18) else (0, 0), [])


def filled(stated: str, right: Sequence[int]) -> list[int]:
    """The numbers of a list as a line states it, with the reading's for each that it leaves open."""
    words = [] if stated in ("-", "") else stated.split(",")
    known = dict(enumerate(right))
    return [known.get(at, -1) if word == UNSTATED else int(word) for at, word in enumerate(words)]


def given(trial: Trial, lines: Iterable[str]) -> None:
    """Runs lines; where one states an answer after `=>`, holds the outcome to it, and `check` to what follows.

    Lines from before a request leave open what it has changed: of a plan that is made the last number (document 02,
    Job 2), and of a deadlocked slab the third (Job 6).
    """
    for text in filter(str.strip, lines):
        wanted, _, after = text.partition("=>")
        case = case_of(wanted)
        if not after:
            print(told(trial.compare(case)))
            continue
        front, _, behind = after.partition("|")
        right = read(case)
        numbers = tuple(filled(front.strip(), right.numbers))
        if case.operation == "replay":
            numbers = (numbers[0], NO_VERDICT, numbers[1]) if len(numbers) == 2 else (0, *numbers[2:])
        stated = Answer(numbers, grouped(filled((behind.split() or ["-"])[0], flat(right.written)), width(case)))
        hold(trial, case, stated)
        if shortest := re.search(r"shortest=(\d+)", behind):
            fewest, count = int(shortest[1]), stated.numbers[2]
            trial.count(fewest <= count <= 2 * fewest, case, lambda: f"{count} lifts, where {fewest} are the fewest")
        checked = stated_check(case, stated)
        if checked:
            hold(trial, case._replace(operation="check", space=0), checked)


def plain_library() -> Path:
    """Builds the plain program as a shared object."""
    build = TARGET / "plain"
    words = ["cargo", "build", "--offline", "--quiet", "--release", "--target-dir", str(build)]
    subprocess.run(words, check=True, cwd=ROOT / "tests" / "plain")
    return build / "release" / "libplain.so"


def tests(trial: Trial, seed: int) -> None:
    """Runs every part, each with its own random numbers from the seed."""
    parts: list[tuple[str, Callable[[Random], None]]] = [
        ("all up to 3 slabs", lambda rng: trial.run(every_small())),
        ("random, 4 to 8 slabs", lambda rng: trial.run(randoms(trial, rng, SMALL_SHEETS, (4, SMALL)))),
        ("promises, 4 slabs", lambda rng: hold_promises(trial, rng, 1000, 4)),
        ("promises, 5 slabs", lambda rng: hold_promises(trial, rng, 1000, 5)),
        ("promises, 6 slabs", lambda rng: hold_promises(trial, rng, 200, 6)),
        ("promises, 7 slabs", lambda rng: hold_promises(trial, rng, 5, 7)),
        ("lengths, all up to 3 slabs", lambda rng: trial.run(every_measured())),
        ("lengths, 0 to 8 slabs", lambda rng: trial.run(measured_randoms(trial, rng, MEASURED_SHEETS, (0, SMALL)))),
        ("lengths as none", lambda rng: as_without(trial, rng, 300, (0, SMALL))),
        ("lengths as none, larger", lambda rng: as_without(trial, rng, 10, (100, MOST))),
        ("lengths, promises, 4 slabs", lambda rng: hold_measured_promises(trial, rng, 400, 4)),
        ("lengths, promises, 5 slabs", lambda rng: hold_measured_promises(trial, rng, 300, 5)),
        ("lengths, hostile", lambda rng: trial.run(measured_hostile())),
        (f"lengths, 100 to {MOST:,} slabs", lambda rng: trial.run(measured_large(trial, rng))),
        ("both entries at their limits", lambda rng: hold_limits(trial, rng)),
        ("where good parts end", lambda rng: hold_good_parts(trial, rng)),
        ("hostile", lambda rng: trial.run(hostile(rng))),
        ("long lists", lambda rng: trial.run(long_lists(rng))),
        (f"100 to {MOST:,} slabs", lambda rng: trial.run(large(trial, rng))),
    ]
    for name, part in parts:
        before, failed, start = trial.passed, len(trial.failures), time.monotonic()
        part(Random(f"{seed} {name}"))
        trial.weigh()
        good, bad = trial.passed - before, len(trial.failures) - failed
        print(f"{name}: {good} passed, {bad} failed, {time.monotonic() - start:.1f} s", flush=True)


def ended(child: int, progress: mmap.mmap) -> int | str:
    """Waits for a process: its exit status, or how it ended otherwise. One that no longer moves is ended."""
    seen, since = bytes(8), time.monotonic()
    while True:
        pid, status = os.waitpid(child, os.WNOHANG)
        if pid and os.WIFEXITED(status):
            return os.WEXITSTATUS(status)
        if pid:
            return f"ended by {signal.Signals(os.WTERMSIG(status)).name}"
        if progress[:] != seen:
            seen, since = progress[:], time.monotonic()
        elif time.monotonic() - since > PATIENCE:
            os.kill(child, signal.SIGKILL)
            os.waitpid(child, 0)
            return f"no answer within {PATIENCE:.0f} s"
        time.sleep(0.05)


def watched(work: Callable[[Trial], int], library: Library, plain: Library) -> int:
    """Does the work in a child process; where that does not come to its end, prints the case it was at."""
    trial = Trial(library, plain)
    sys.stdout.flush()
    child = os.fork()
    if child == 0:
        os._exit(work(trial))
    end = ended(child, trial.progress)
    if isinstance(end, int):
        return end
    print(f"failed: {end}, in this case, by another method on the sheet before it, or before the next case")
    try:
        with contextlib.redirect_stdout(io.StringIO()):
            work(Trial(library, plain, int.from_bytes(trial.progress[:], "little")))
    except Reached as reached:
        FAILED.parent.mkdir(parents=True, exist_ok=True)
        FAILED.write_text(f"{reached}\n")
        print(reached if len(str(reached)) <= WIDEST else f"line 1 of {FAILED.relative_to(ROOT)}")
    print("0 passed, 1 failed")
    return 1


def main() -> int:
    """Runs the tests, or the lines of a file; the last line is 'N passed, M failed'."""
    parser = argparse.ArgumentParser(description="Differential tests of the library.")
    parser.add_argument("--library", type=Path, default=TARGET / "staticlib" / "libtopjeska.a")
    parser.add_argument("--prefix", default="topjeska", help="what the library's names begin with")
    parser.add_argument("--seed", type=int, default=sheets.SEED)
    parser.add_argument("--cases", help="a file of lines to run instead; - for standard input")
    words = parser.parse_args()
    path = words.library.resolve()
    if not path.exists():
        print(f"{path} is missing; `tools/library` writes the usual one\n0 passed, 1 failed")
        return 1
    if path.suffix == ".a":
        path = shared_object(path, TARGET / "differential")
    lines: list[str] = []
    if words.cases:
        text = sys.stdin.read() if words.cases == "-" else Path(words.cases).read_text()
        lines = text.splitlines()

    def work(trial: Trial) -> int:
        """The whole run; its exit status."""
        if words.cases:
            given(trial, lines)
            trial.weigh()
        else:
            print(f"seed {words.seed}", flush=True)
            tests(trial, words.seed)
        if trial.failures:
            FAILED.parent.mkdir(parents=True, exist_ok=True)
            FAILED.write_text("\n".join(trial.failures) + "\n")
        print(f"{trial.passed} passed, {len(trial.failures)} failed", flush=True)
        return 1 if trial.failures or not trial.passed else 0

    return watched(work, Library(path, words.prefix), Library(plain_library(), "plain"))


if __name__ == "__main__":
    sys.exit(main())
