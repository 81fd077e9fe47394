"""A case: an operation with what it is lent. It is made here, written as a line, and answered by the reading.

As a line: `plan m=2 now=2,0 goal=0,1 space=8`; with lengths `plan m=2 now=2,0 goal=0,1 lengths=300,250 space=8`,
and where the options are others than the lengths' bit, `options=65534` before them. Planning by the panel's entry is
`panel m=2 now=2,0 goal=0,1 space=8`, or `plan` with options that have its bit.
"""

from collections.abc import Iterable, Iterator, Sequence
from typing import NamedTuple

import reading
from reading import LENGTHS, METHODS, MOST, MOST_PANEL, PANEL, WIDTH, Lengths, Pair, Row, Yard

# The operations that plan, the yard office's and the panel's, and all that are lent space.
PLANNING = ("plan", "panel")
SPACED = (*PLANNING, "deadlock")


class Case(NamedTuple):
    """A call: the operation, the two lists, and what only some operations take.

    Without options it is a call of the function that takes none, and no lengths; `panel` never has options.
    """

    operation: str
    now: Yard
    goal: Yard
    method: int = 0
    space: int = 0
    lifts: Sequence[int] = ()
    options: int | None = None
    lengths: Yard = ()

    def looked_at(self) -> Lengths:
        """The lengths, where the options say that there are some."""
        return self.lengths if (self.options or 0) & LENGTHS else None

    def most(self) -> int:
        """How many slabs the operation takes; planning alone looks at the panel's bit."""
        panel = self.operation == "panel" or self.operation == "plan" and (self.options or 0) & PANEL
        return MOST_PANEL if panel else MOST


class Answer(NamedTuple):
    """The numbers of an answer in the header's order, and what is written to the front of the space.

    That is the pairs of a list, or the rows of a deadlock.
    """

    numbers: tuple[int, ...]
    written: Sequence[tuple[int, ...]]

    @property
    def pairs(self) -> list[Pair]:
        """What planning writes."""
        return [(slab, destination) for slab, destination in self.written]

    @property
    def rows(self) -> list[Row]:
        """What the deadlock test writes."""
        return [(slab, through, c) for slab, through, c in self.written]


def width(case: Case) -> int:
    """How many numbers a case writes of a lift, or of a slab."""
    return WIDTH if case.operation == "deadlock" else 2


def flat(written: Iterable[Sequence[int]]) -> list[int]:
    """The numbers of some pairs or rows."""
    return [number for one in written for number in one]


def grouped(numbers: Sequence[int], wide: int) -> list[tuple[int, ...]]:
    """Some numbers, so many together; the last are fewer where they are left over."""
    return [tuple(numbers[at : at + wide]) for at in range(0, len(numbers), wide)]


def paired(numbers: Sequence[int]) -> list[Pair]:
    """The pairs of some numbers."""
    return list(zip(numbers[::2], numbers[1::2]))


# ---- one case of each operation


def checking(now: Yard, goal: Yard) -> Case:
    """A case of check."""
    return Case("check", now, goal)


def replaying(now: Yard, goal: Yard, lifts: Sequence[int] = ()) -> Case:
    """A case of replay, its list given as numbers."""
    return Case("replay", now, goal, lifts=lifts)


def following(now: Yard, goal: Yard, pairs: Sequence[Pair]) -> Case:
    """A case of replay, its list given as pairs."""
    return replaying(now, goal, flat(pairs))


def planning(method: int, now: Yard, goal: Yard, space: int | None = None) -> Case:
    """A case of planning; where no space is given it is just large enough."""
    return Case("plan", now, goal, method, reading.plan_space(len(now)) if space is None else space)


def testing(now: Yard, goal: Yard, space: int | None = None) -> Case:
    """A case of the deadlock test; where no space is given it is just large enough."""
    return Case("deadlock", now, goal, space=reading.deadlock_space(len(now)) if space is None else space)


def by_all(now: Yard, goal: Yard, space: int | None = None) -> Iterator[Case]:
    """A sheet by each method and by the deadlock test."""
    for method in METHODS:
        yield planning(method, now, goal, space)
    yield testing(now, goal, space)


def operations(now: Yard, goal: Yard, lifts: Sequence[int] = ()) -> Iterator[Case]:
    """A sheet by every operation, the space just large enough."""
    yield checking(now, goal)
    yield from by_all(now, goal)
    yield replaying(now, goal, lifts)


def measured(cases: Iterable[Case], lengths: Yard, options: int = LENGTHS) -> Iterator[Case]:
    """Cases with lengths."""
    return (case._replace(options=options, lengths=lengths) for case in cases)


def by_panel(case: Case) -> list[Case]:
    """A case of planning by the panel's entry: by its option, and where it has no options by its function before."""
    by_option = case._replace(options=(case.options or 0) | PANEL)
    return [by_option] if case.options is not None else [case._replace(operation="panel"), by_option]


def by_office(case: Case) -> Case:
    """A case as one of planning by the yard office's entry."""
    return case._replace(operation="plan", options=case.options and case.options & ~PANEL)


# ---- the answer of the reading


def read(case: Case) -> Answer:
    """What the reading answers and writes."""
    now, goal, lengths = case.now, case.goal, case.looked_at()
    numbers: Sequence[int]
    written: Sequence[tuple[int, ...]] = []
    if case.operation == "check":
        numbers = reading.check(now, goal, lengths)
    elif case.operation in PLANNING:
        *numbers, written = reading.plan(case.method, now, goal, case.space, lengths, case.most())
    elif case.operation == "deadlock":
        *numbers, written = reading.deadlock(now, goal, case.space, lengths)
    else:
        numbers = reading.replay(now, goal, case.lifts, lengths)
    return Answer(tuple(numbers), written)


# ---- a case as a line


def listed(numbers: Iterable[int]) -> str:
    """Numbers as a line has them; `-` where there are none."""
    return ",".join(map(str, numbers)) or "-"


def numbers_of(text: str) -> list[int]:
    """The numbers of a comma-separated list."""
    return [] if text in ("-", "") else [int(word) for word in text.split(",")]


def line(case: Case) -> str:
    """A case as a line."""
    words = [case.operation]
    if case.operation in PLANNING:
        words.append(f"m={case.method}")
    words += [f"now={listed(case.now)}", f"goal={listed(case.goal)}"]
    if case.options is not None:
        words += [f"options={case.options}"] * (case.options != LENGTHS) + [f"lengths={listed(case.lengths)}"]
    if case.operation in SPACED:
        words.append(f"space={case.space}")
    if case.operation == "replay":
        words.append(f"lifts={listed(case.lifts)}")
    return " ".join(words)


def case_of(text: str) -> Case:
    """The case of a line."""
    operation, *words = text.split()
    named = dict(word.split("=", 1) for word in words)
    return Case(
        operation,
        numbers_of(named["now"]),
        numbers_of(named["goal"]),
        int(named.get("m", 0)),
        int(named.get("space", 0)),
        numbers_of(named.get("lifts", "-")),
        int(named.get("options", LENGTHS)) if "lengths" in named else None,
        numbers_of(named.get("lengths", "-")),
    )
