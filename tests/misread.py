"""Readings of documents 01 and 02 that are wrong in one thing, each as functions in the place of the reading's own.

Of the deadlock test and the loop, of replay and its verdicts, of the questions and their places, of lengths, of what is
in position or constructive, and of what the methods do. A wrong reading may come to no answer, or to no end.
"""

import itertools
from collections.abc import Callable, Iterator, Sequence
from contextlib import AbstractContextManager
from typing import Any, NamedTuple
from unittest import mock

import reading
from reading import METHODS, MOST, Lengths, Pair, Row, Yard, beneath, clear
from ties import perched, pile, ready, waiting

PLANS = ("plan 1", "plan 2", "plan 3")
LOOPS = ("plan 3", "deadlock")
PATIENCE = 400

Instead = dict[str, Callable[..., Any]]

# The reading's own, which others are made from.
LIFTED, ROW, VISITS, FOOT, MISPLACED = reading.lifted, reading.row, reading.visits, reading.foot, reading.misplaced
CONSTRUCTIVE, READY, POSITION = reading.constructive, reading.is_constructive, reading.position
FAULT, CHECK, PLAN, DEADLOCK = reading.lift_fault, reading.check, reading.plan, reading.deadlock
REPLAY, METHOD_GN = reading.replay, reading.method_gn


class Wrong(NamedTuple):
    """A wrong reading: what is wrong, the operations that it can change, and what stands in the place of what."""

    what: str
    operations: Sequence[str]
    instead: Instead

    def __str__(self) -> str:
        """What is wrong."""
        return self.what

    def read(self) -> AbstractContextManager[Any]:
        """The reading with these functions; a list that has too many lifts ends with an error."""
        left = itertools.repeat(0, PATIENCE)

        def lifted(yard: Yard, slab: int, destination: int) -> list[int]:
            if next(left, None) is None:
                raise ValueError("no end")
            return LIFTED(yard, slab, destination)

        return mock.patch.multiple(reading, **{"lifted": lifted, **self.instead})


# ---- the loop and the rows


def in_the_way(of: Callable[[Yard, int, int], int]) -> Instead:
    """What is in a slab's way, by the yard, c and d: the walk goes by it, and the rows say it."""

    def row(now: Yard, goal: Yard, slab: int) -> Row:
        c, d = FOOT(now, goal, slab)
        return slab, of(now, c, d), c

    return {"row": row}


WAYS: dict[str, Callable[[Yard, int, int], int]] = {
    "d before c where both carry a slab": lambda now, c, d: c if clear(now, d) else d,
    "d always": lambda now, c, d: d,
    "c where it is a slab, be it clear": lambda now, c, d: c or d,
    "d where c is not clear": lambda now, c, d: c if clear(now, c) and c else d,
    "the foot of c's pile": lambda now, c, d: d if clear(now, c) else pile(now, c)[0],
    "what lies on c": lambda now, c, d: d if clear(now, c) else now.index(c) + 1,
    "the foot of d's pile": lambda now, c, d: c if not clear(now, c) else pile(now, d)[0],
    "what lies on d": lambda now, c, d: c if not clear(now, c) else d if clear(now, d) else now.index(d) + 1,
}


def rows(of: Callable[[Yard, Yard, Row], Row]) -> Instead:
    """The rows that are written, by those that are right; the walk goes on by what is right."""
    return {
        "row": lambda now, goal, slab: of(now, goal, ROW(now, goal, slab)),
        "in_the_way": lambda now, goal, slab: ROW(now, goal, slab)[1],
    }


def between(now: Yard, goal: Yard, row: Row) -> list[int]:
    """What is beneath a row's slab in the goal and beneath its successor now, from the highest down."""
    lower = beneath(now, reading.top(now, row[1]))
    return [slab for slab in beneath(goal, row[0]) if slab in lower]


NUMBERS: dict[str, Callable[[Yard, Yard, Row], int]] = {
    "what c rests on": lambda now, goal, row: now[row[2] - 1] if row[2] else 0,
    "what c rests on, be it a slab and c not clear": lambda now, goal, row: (
        now[row[2] - 1] or row[2] if row[1] == row[2] else row[1]
    ),
    "what d rests on": lambda now, goal, row: now[FOOT(now, goal, row[0])[1] - 1],
    "c": lambda now, goal, row: row[2],
    "c, or d where c is the ground": lambda now, goal, row: row[2] or row[1],
    "d": lambda now, goal, row: FOOT(now, goal, row[0])[1],
    "what is in the way": lambda now, goal, row: row[1],
    "its goal support": lambda now, goal, row: goal[row[0] - 1],
    "its support": lambda now, goal, row: now[row[0] - 1],
    "the successor": lambda now, goal, row: reading.top(now, row[1]),
    "the successor's support": lambda now, goal, row: now[reading.top(now, row[1]) - 1],
    "the highest that is beneath both": lambda now, goal, row: between(now, goal, row)[0],
    "the lowest that is beneath both": lambda now, goal, row: between(now, goal, row)[-1],
    "the highest number beneath both": lambda now, goal, row: max(between(now, goal, row)),
    "the lowest number beneath both": lambda now, goal, row: min(between(now, goal, row)),
    "the foot of the successor's pile": lambda now, goal, row: pile(now, row[1])[0],
    "the foot of its goal pile": lambda now, goal, row: pile(goal, row[0])[0],
    "how high c lies": lambda now, goal, row: len(pile(now, row[2])) if row[2] else 0,
    "0": lambda now, goal, row: 0,
}


def written(of: Callable[[Yard, Yard, list[Row]], list[Row]]) -> Instead:
    """The rows as they are written, by the yard at the start."""

    def deadlock(now: Yard, goal: Yard, space: int, lengths: Lengths = None) -> tuple[int, int, int, list[Row]]:
        number, place, count, found = DEADLOCK(now, goal, space, lengths)
        return number, place, count, of(now, goal, found)

    return {"deadlock": deadlock}


def turned(found: Sequence[Any], first: Any) -> list[Any]:
    """A loop from one of it on."""
    at = found.index(first)
    return [*found[at:], *found[:at]]


ORDERS: dict[str, Callable[[Yard, Yard, list[Row]], list[Row]]] = {
    "backwards from the lowest": lambda now, goal, found: [*found[:1], *found[:0:-1]],
    "by number": lambda now, goal, found: sorted(found),
    "from the highest down": lambda now, goal, found: sorted(found, reverse=True),
    "from the highest on": lambda now, goal, found: turned(found, max(found)) if found else [],
    "from the second on": lambda now, goal, found: found[1:] + found[:1],
    "without those between": lambda now, goal, found: found[:1] + found[1:][-1:],
    "with c as at the start": lambda now, goal, found: [(s, x, FOOT(now, goal, s)[0]) for s, x, _ in found],
    "with what is in the way at the start": lambda now, goal, found: [
        (s, ROW(now, goal, s)[1], c) for s, _, c in found
    ],
}


def looped(of: Callable[[list[int], list[int]], list[int]]) -> Instead:
    """The loop, by what is visited and what the loop is."""
    return {"loop": lambda now, goal: of(*VISITS(now, goal, waiting(now, goal)[0]))}


PARTS: dict[str, Callable[[list[int], list[int]], list[int]]] = {
    "all that is visited": lambda visited, loop: visited,
    "the first that is visited": lambda visited, loop: visited[:1],
    "the last that is visited": lambda visited, loop: visited[-1:],
    "the first of the loop": lambda visited, loop: loop[:1],
    "the second of the loop": lambda visited, loop: loop[1:2] or loop,
    "the loop without its first": lambda visited, loop: loop[1:] or loop,
    "the loop without its last": lambda visited, loop: loop[:-1] or loop,
    "the first two of the loop": lambda visited, loop: loop[:2],
    "the first three of the loop": lambda visited, loop: loop[:3],
    "the highest of the loop": lambda visited, loop: [max(loop)],
    "what comes after the lowest": lambda visited, loop: [turned([*loop], min(loop))[1 % len(loop)]],
    "what comes before the lowest": lambda visited, loop: [turned([*loop], min(loop))[-1]],
}


def all_loops(now: Yard, goal: Yard) -> list[list[int]]:
    """The loop of each misplaced clear slab."""
    return [VISITS(now, goal, start)[1] for start in waiting(now, goal)]


OTHER_LOOPS: dict[str, Callable[[Yard, Yard], list[int]]] = {
    "the largest loop": lambda now, goal: max(all_loops(now, goal), key=len),
    "the smallest loop": lambda now, goal: min(all_loops(now, goal), key=len),
    "the loop with the lowest number": lambda now, goal: min(all_loops(now, goal), key=min),
    "the loop with the highest number": lambda now, goal: max(all_loops(now, goal), key=max),
    "the loop of the slab above the lowest misplaced one": lambda now, goal: (
        VISITS(now, goal, reading.top(now, MISPLACED(now, goal)[0]))[1]
    ),
    "the loop of the lowest one off the ground": lambda now, goal: VISITS(now, goal, perched(now, goal)[0])[1],
}


def of_the_loop() -> Iterator[Wrong]:
    """Wrong readings of the walk, the loop and the rows."""
    for what, through in WAYS.items():
        yield Wrong(f"in the way: {what}", LOOPS, in_the_way(through))
    for what, number in NUMBERS.items():
        if what != "what is in the way":
            second = rows(lambda now, goal, row, of=number: (row[0], of(now, goal, row), row[2]))
            yield Wrong(f"the second number: {what}", ["deadlock"], second)
        if what != "c":
            third = rows(lambda now, goal, row, of=number: (row[0], row[1], of(now, goal, row)))
            yield Wrong(f"the third number: {what}", ["deadlock"], third)
    for what, order in ORDERS.items():
        yield Wrong(f"the rows: {what}", ["deadlock"], written(order))
    loops = {what: looped(part) for what, part in PARTS.items()}
    loops |= {what: {"loop": other} for what, other in OTHER_LOOPS.items()}
    for what, instead in loops.items():
        yield Wrong(f"method 3 puts down the lowest of: {what}", ["plan 3"], instead)
        yield Wrong(f"the rows are those of: {what}", ["deadlock"], instead)
    early = {"constructive": lambda now, goal, lengths=None: 0}
    yield Wrong("the deadlock test looks at the start", ["deadlock"], early)
    highest = {"constructive": lambda now, goal, lengths=None: max(ready(now, goal), default=0)}
    yield Wrong("the deadlock test makes the highest lift first", ["deadlock"], highest)


# ---- replay


def judged(of: Callable[[Yard, int, int, Lengths], int]) -> Instead:
    """The verdict of a lift."""
    return {"lift_fault": lambda yard, slab, to, lengths=None: of(yard, slab, to, lengths)}


def tests_of(yard: Yard, slab: int, to: int, lengths: Lengths) -> dict[int, bool]:
    """The tests behind 1, and which of them a lift does not pass."""
    return {
        2: not clear(yard, slab),
        3: yard[slab - 1] == to,
        4: to == slab or not clear(yard, to),
        6: reading.overhangs(lengths, slab, to),
    }


def in_order(order: Sequence[int]) -> Instead:
    """The tests behind 1 in another order."""

    def fault(yard: Yard, slab: int, to: int, lengths: Lengths) -> int:
        if not 1 <= slab <= len(yard) or to > len(yard):
            return 1
        tests = tests_of(yard, slab, to, lengths)
        return next((test for test in order if tests[test]), 0)

    return judged(fault)


def yielding(first: int, other: int) -> Instead:
    """A verdict yields to a later one that could be given too; of a slab that is none only "onto itself" could."""

    def fault(yard: Yard, slab: int, to: int, lengths: Lengths) -> int:
        given = FAULT(yard, slab, to, lengths)
        if given != first:
            return given
        there = 1 <= slab <= len(yard) and to <= len(yard)
        tests = tests_of(yard, slab, to, lengths) if there else {4: slab == to}
        return other if tests.get(other) else given

    return judged(fault)


def unless(verdict: int, may: Callable[[Yard, int, int], bool]) -> Instead:
    """A verdict is not given in some cases, and the tests behind it go on."""

    def fault(yard: Yard, slab: int, to: int, lengths: Lengths) -> int:
        given = FAULT(yard, slab, to, lengths)
        if given != verdict or not may(yard, slab, to):
            return given
        return next((test for test, bad in tests_of(yard, slab, to, lengths).items() if test > given and bad), 0)

    return judged(fault)


LAX: dict[str, tuple[int, Callable[[Yard, int, int], bool]]] = {
    "2 is not asked of a slab that goes to the ground": (2, lambda yard, slab, to: to == 0),
    "2 is not asked of a slab on the ground": (2, lambda yard, slab, to: yard[slab - 1] == 0),
    "2 is not asked of a slab off the ground": (2, lambda yard, slab, to: yard[slab - 1] != 0),
    "3 is not asked of the ground": (3, lambda yard, slab, to: to == 0),
    "3 is asked of the ground alone": (3, lambda yard, slab, to: to != 0),
    "4 is not asked of the slab itself": (4, lambda yard, slab, to: to == slab),
    "4 is asked of the slab itself alone": (4, lambda yard, slab, to: to != slab),
    "4 is not asked of a destination on the ground": (4, lambda yard, slab, to: to != slab and yard[to - 1] == 0),
    "4 is not asked of a destination off the ground": (4, lambda yard, slab, to: to != slab and yard[to - 1] != 0),
}

ONES: dict[str, Callable[[Yard, int, int, Lengths], int]] = {
    "1 is asked of the destination behind 2": lambda yard, slab, to, lengths: (
        2 if 1 <= slab <= len(yard) < to and not clear(yard, slab) else FAULT(yard, slab, to, lengths)
    ),
    "a destination that is none is 4": lambda yard, slab, to, lengths: (
        4 if 1 <= slab <= len(yard) < to else FAULT(yard, slab, to, lengths)
    ),
    "a slab that is none is 2": lambda yard, slab, to, lengths: (
        FAULT(yard, slab, to, lengths) if 1 <= slab <= len(yard) or to > len(yard) else 2
    ),
    "the ground is no destination": lambda yard, slab, to, lengths: FAULT(yard, slab, to, lengths) or int(to == 0),
    "6 is given for the slab's old support too": lambda yard, slab, to, lengths: (
        FAULT(yard, slab, to, lengths) or 6 * reading.overhangs(lengths, slab, yard[slab - 1])
    ),
    "6 is given for the destination's support too": lambda yard, slab, to, lengths: (
        FAULT(yard, slab, to, lengths) or 6 * (to != 0 and reading.overhangs(lengths, slab, yard[to - 1]))
    ),
    "6 is given for a lift to the ground too": lambda yard, slab, to, lengths: (
        FAULT(yard, slab, to, lengths) or 6 * (lengths is not None and to == 0)
    ),
    "6 is given for equal lengths too": lambda yard, slab, to, lengths: (
        FAULT(yard, slab, to, lengths) or 6 * (lengths is not None and to != 0 and lengths[slab - 1] == lengths[to - 1])
    ),
    "6 is not given": lambda yard, slab, to, lengths: FAULT(yard, slab, to),
}


def replayed(of: Callable[[Yard, Yard, Sequence[int], Lengths, Pair], Pair]) -> Instead:
    """Verdict and place, by what they are."""

    def replay(now: Yard, goal: Yard, lifts: Sequence[int], lengths: Lengths = None) -> tuple[int, int, int]:
        number, *said = REPLAY(now, goal, lifts, lengths)
        verdict, place = said if number else of(now, goal, lifts, lengths, (said[0], said[1]))
        return number, verdict, place

    return {"replay": replay}


def bad_place(of: Callable[[int, Sequence[int]], int]) -> Instead:
    """The place of a bad lift, by its number and the list."""
    return replayed(
        lambda now, goal, lifts, lengths, said: said if said[0] in (0, 5) else (said[0], of(said[1], lifts))
    )


def followed(now: Yard, lifts: Sequence[int], lengths: Lengths) -> Iterator[tuple[int, int, list[int]]]:
    """Each lift's number, its fault, and the yard behind it; a bad lift is left out."""
    yard = list(now)
    for k, pair in enumerate(zip(lifts[::2], lifts[1::2])):
        fault = FAULT(yard, *pair, lengths)
        yard = yard if fault else LIFTED(yard, *pair)
        yield k + 1, fault, yard


def yards(now: Yard, lifts: Sequence[int], lengths: Lengths) -> list[list[int]]:
    """The yards on the way of a list."""
    return [list(now), *(yard for _, _, yard in followed(now, lifts, lengths))]


def differing(yard: Yard, goal: Yard) -> list[int]:
    """The slabs that rest elsewhere than in the goal."""
    return [slab for slab in reading.slabs(yard) if yard[slab - 1] != goal[slab - 1]]


def end_place(of: Callable[[Yard, Yard, Sequence[int]], int]) -> Instead:
    """The place of verdict 5, by the yard at the end, the goal and the list."""
    return replayed(
        lambda now, goal, lifts, lengths, said: (
            (5, of(yards(now, lifts, lengths)[-1], goal, lifts)) if said[0] == 5 else said
        )
    )


def preferred(of: Callable[[Yard, Yard, Sequence[int], int], int]) -> Instead:
    """The place of verdict 5 by something else first: by the yard at the end, the goal, the list and the slab."""
    return end_place(
        lambda end, goal, lifts: min(differing(end, goal), key=lambda slab: (of(end, goal, lifts, slab), slab))
    )


KINDS: dict[str, Callable[[Yard, Yard, Sequence[int], int], int]] = {
    "on the ground": lambda end, goal, lifts, slab: end[slab - 1] != 0,
    "that go to the ground": lambda end, goal, lifts, slab: goal[slab - 1] != 0,
    "that are lifted": lambda end, goal, lifts, slab: slab not in lifts[::2],
    "that are clear": lambda end, goal, lifts, slab: not clear(end, slab),
    "that are to be clear": lambda end, goal, lifts, slab: not clear(goal, slab),
    "that lie lowest": lambda end, goal, lifts, slab: len(pile(end, slab)),
    "that go lowest": lambda end, goal, lifts, slab: len(pile(goal, slab)),
    "with the lowest entry": lambda end, goal, lifts, slab: end[slab - 1],
    "with the lowest goal entry": lambda end, goal, lifts, slab: goal[slab - 1],
    "whose goal support is clear": lambda end, goal, lifts, slab: not clear(end, goal[slab - 1]),
    "whose goal support rests where it shall": lambda end, goal, lifts, slab: (
        goal[slab - 1] != 0 and not agrees(end, goal, goal[slab - 1])
    ),
}


def last_bad(now: Yard, goal: Yard, lifts: Sequence[int], lengths: Lengths, said: Pair) -> Pair:
    """The last bad lift in the place of the first."""
    return [said, *((fault, k) for k, fault, _ in followed(now, lifts, lengths) if fault)][-1]


def bad_left_out(now: Yard, goal: Yard, lifts: Sequence[int], lengths: Lengths, said: Pair) -> Pair:
    """Bad lifts are left out, and the end is judged."""
    off = differing(yards(now, lifts, lengths)[-1], goal)
    return (5, off[0]) if off else (0, 0)


REPLAYS: dict[str, Instead] = {
    "the last lift is named for a bad one": bad_place(lambda k, lifts: len(lifts) // 2),
    "the first lift is named for a bad one": bad_place(lambda k, lifts: 1),
    "lifts are counted from 0": bad_place(lambda k, lifts: k - 1),
    "lifts are counted from the end": bad_place(lambda k, lifts: len(lifts) // 2 - k + 1),
    "the lift after a bad one is named": bad_place(lambda k, lifts: k + 1),
    "the slab of a bad lift is named": bad_place(lambda k, lifts: lifts[2 * k - 2]),
    "the destination of a bad lift is named": bad_place(lambda k, lifts: lifts[2 * k - 1]),
    "the last bad lift is named": replayed(last_bad),
    "bad lifts are left out": replayed(bad_left_out),
    "the highest slab that differs is named": end_place(lambda end, goal, lifts: differing(end, goal)[-1]),
    "how many slabs differ is named": end_place(lambda end, goal, lifts: len(differing(end, goal))),
    "one more than the lifts is named": end_place(lambda end, goal, lifts: len(lifts) // 2 + 1),
    "the lifts are named": end_place(lambda end, goal, lifts: len(lifts) // 2),
    "slab 1 is named": end_place(lambda end, goal, lifts: 1),
    "the last slab lifted is named": end_place(lambda end, goal, lifts: lifts[-2] if lifts else 1),
    "the lowest misplaced slab is named": end_place(lambda end, goal, lifts: MISPLACED(end, goal)[0]),
    "the goal entry of the lowest that differs is named": end_place(
        lambda end, goal, lifts: goal[differing(end, goal)[0] - 1]
    ),
    "a list arrives that has been there": replayed(
        lambda now, goal, lifts, lengths, said: (
            (0, 0) if said[0] == 5 and list(goal) in yards(now, lifts, lengths) else said
        )
    ),
    "a list arrives that brings home what it lifts": replayed(
        lambda now, goal, lifts, lengths, said: (
            (0, 0)
            if said[0] == 5 and not set(differing(yards(now, lifts, lengths)[-1], goal)) & set(lifts[::2])
            else said
        )
    ),
    "a bad lift at the end is looked over": replayed(
        lambda now, goal, lifts, lengths, said: (
            said
            if said[0] in (0, 5) or said[1] < len(lifts) // 2
            else bad_left_out(now, goal, lifts, lengths, said)
        )
    ),
    "a list has at most twice as many lifts as slabs": replayed(
        lambda now, goal, lifts, lengths, said: said if len(lifts) <= 4 * len(now) else (1, 2 * len(now) + 1)
    ),
}


def of_replay() -> Iterator[Wrong]:
    """Wrong readings of replay."""
    for order in itertools.permutations((2, 3, 4, 6)):
        if order != (2, 3, 4, 6):
            yield Wrong(f"replay tests 1, then {', '.join(map(str, order))}", ["replay"], in_order(order))
    for first, other in itertools.combinations((1, 2, 3, 4, 6), 2):
        if (first, other) not in ((1, 2), (1, 3), (1, 6)):
            yield Wrong(f"replay: {first} yields to {other}", ["replay"], yielding(first, other))
    for what, kind in KINDS.items():
        yield Wrong(f"replay: of those that differ, slabs {what} first", ["replay"], preferred(kind))
        last = preferred(lambda end, goal, lifts, slab, of=kind: -of(end, goal, lifts, slab))
        yield Wrong(f"replay: of those that differ, slabs {what} last", ["replay"], last)
    for what, (verdict, may) in LAX.items():
        yield Wrong(f"replay: {what}", ["replay"], unless(verdict, may))
    for what, fault in ONES.items():
        yield Wrong(f"replay: {what}", ["replay"], judged(fault))
    for what, instead in REPLAYS.items():
        yield Wrong(f"replay: {what}", ["replay"], instead)


# ---- the questions

ORDER = (4, 5, 6, 7, 8, 9, 16, 17, 18)


def floats(yard: Yard, slab: int) -> bool:
    """Whether a slab does not come down to the ground; a number that is no slab is no ground."""
    at, steps = slab, 0
    while 1 <= at <= len(yard) and steps <= len(yard):
        at, steps = yard[at - 1], steps + 1
    return at != 0


def too_long(lengths: Sequence[int], slab: int, below: int) -> bool:
    """Whether a slab is longer than what it rests on, where both have a length."""
    return max(slab, below) <= len(lengths) and below != 0 and lengths[slab - 1] > lengths[below - 1]


def faults(now: Yard, goal: Yard, lengths: Lengths) -> dict[int, list[int]]:
    """All faults of two lists of one length by their numbers, each with the slabs that have it."""
    found: dict[int, list[int]] = {}
    for yard, first in ((now, 4), (goal, 7)):
        slabs = reading.slabs(yard)
        found[first] = [slab for slab in slabs if yard[slab - 1] > len(yard)]
        found[first + 1] = [slab for slab in slabs if yard[slab - 1] != 0 and yard[slab - 1] in yard[: slab - 1]]
        found[first + 2] = [slab for slab in slabs if floats(yard, slab)]
    if lengths is not None:
        found[16] = [0] * (len(lengths) != len(now))
        for yard, number in ((now, 17), (goal, 18)):
            found[number] = [slab for slab in reading.slabs(yard) if too_long(lengths, slab, yard[slab - 1])]
    return found


def checked(of: Callable[[Yard, Yard, Lengths, int, int], Pair]) -> Instead:
    """Number and place of a check, by what they are."""

    def check(now: Yard, goal: Yard, lengths: Lengths = None, most: int = MOST) -> Pair:
        return of(now, goal, lengths, *CHECK(now, goal, lengths, most))

    return {"check": check}


def asked(order: Sequence[int]) -> Instead:
    """The questions behind 3 in another order."""

    def first(now: Yard, goal: Yard, lengths: Lengths, number: int, place: int) -> Pair:
        if number in (2, 3, 19):
            return number, place
        found = faults(now, goal, lengths)
        return next(((question, found[question][0]) for question in order if found.get(question)), (0, 0))

    return checked(first)


def orders() -> Iterator[Sequence[int]]:
    """Orders in which a question stands at another's place and those between move up, or two are exchanged."""
    found = set()
    for i, j in itertools.permutations(range(len(ORDER)), 2):
        moved = [*ORDER[:i], *ORDER[i + 1 :]]
        moved.insert(j, ORDER[i])
        both = list(ORDER)
        both[i], both[j] = both[j], both[i]
        found |= {tuple(moved), tuple(both)}
    yield from sorted(found - {ORDER})


def giving_way(first: int, other: int) -> Instead:
    """A question yields to a later one to which the answer would be no too."""

    def change(now: Yard, goal: Yard, lengths: Lengths, number: int, place: int) -> Pair:
        slabs = faults(now, goal, lengths).get(other) if number == first else None
        return (other, slabs[0]) if slabs else (number, place)

    return checked(change)


def placed(number: int, of: Callable[[Sequence[int], Sequence[int]], int]) -> Instead:
    """Another place of a number, by the list that it is about and the slabs that have the fault."""

    def place(now: Yard, goal: Yard, lengths: Lengths, first: int, place: int) -> Pair:
        about = now if number in (4, 5, 6, 17) else goal
        return (first, of(about, faults(now, goal, lengths)[number])) if first == number else (first, place)

    return checked(place)


PLACES: dict[str, Callable[[Sequence[int], Sequence[int]], int]] = {
    "the highest slab": lambda yard, slabs: slabs[-1],
    "how many slabs there are": lambda yard, slabs: len(slabs),
    "0": lambda yard, slabs: 0,
    "1": lambda yard, slabs: 1,
    "n": lambda yard, slabs: len(yard),
    "counted from 0": lambda yard, slabs: slabs[0] - 1,
    "the slab's entry": lambda yard, slabs: yard[slabs[0] - 1],
    "the first slab with that entry": lambda yard, slabs: yard.index(yard[slabs[0] - 1]) + 1,
    "the slab with the lowest entry": lambda yard, slabs: min(slabs, key=lambda slab: yard[slab - 1]),
    "the slab with the highest entry": lambda yard, slabs: max(slabs, key=lambda slab: yard[slab - 1]),
    "a slab on which none rests": lambda yard, slabs: min(slabs, key=lambda slab: slab in yard),
    "a slab on which one rests": lambda yard, slabs: min(slabs, key=lambda slab: slab not in yard),
    "a slab that rests on itself": lambda yard, slabs: min(slabs, key=lambda slab: yard[slab - 1] != slab),
    "a slab that does not rest on itself": lambda yard, slabs: min(slabs, key=lambda slab: yard[slab - 1] == slab),
    "a slab that rests on a lower number": lambda yard, slabs: min(slabs, key=lambda slab: yard[slab - 1] > slab),
    "a slab that rests on a higher number": lambda yard, slabs: min(slabs, key=lambda slab: yard[slab - 1] < slab),
    "the slab that lies lowest": lambda yard, slabs: min(slabs, key=lambda slab: depth(yard, slab)),
    "the slab that lies highest": lambda yard, slabs: max(slabs, key=lambda slab: depth(yard, slab)),
}


def depth(yard: Sequence[int], slab: int) -> int:
    """How many steps a slab is above the ground; no more are counted than there are slabs."""
    steps = 0
    while 1 <= slab <= len(yard) and steps <= len(yard):
        slab, steps = yard[slab - 1], steps + 1
    return steps



def overhanging(of: Callable[[Sequence[int], Yard, int, int], bool]) -> Instead:
    """When a slab overhangs, by the lengths, the yard, the slab and what it rests on."""

    def lowest(yard: Yard, lengths: Lengths) -> int:
        slabs = reading.slabs(yard) if lengths is not None else ()
        return next((slab for slab in slabs if of(lengths or (), yard, slab, yard[slab - 1])), 0)

    return {"overhanging": lowest}


def longer(lengths: Sequence[int], slab: int, other: int) -> bool:
    """Whether a slab is longer than another; the ground is longer than any."""
    return other != 0 and lengths[slab - 1] > lengths[other - 1]


HANGS: dict[str, Callable[[Sequence[int], Yard, int, int], bool]] = {
    "also where it is longer than its support's support": lambda l, yard, slab, on: (
        longer(l, slab, on) or on != 0 and longer(l, slab, yard[on - 1])
    ),
    "where it is longer than some slab beneath": lambda l, yard, slab, on: (
        any(longer(l, slab, other) for other in beneath(yard, slab))
    ),
    "where it is longer than every slab beneath": lambda l, yard, slab, on: (
        on != 0 and all(longer(l, slab, other) for other in beneath(yard, slab))
    ),
    "where it is longer than the foot of its pile": lambda l, yard, slab, on: longer(l, slab, pile(yard, slab)[0]),
    "where it is as long": lambda l, yard, slab, on: on != 0 and not longer(l, on, slab),
    "where it is shorter": lambda l, yard, slab, on: on != 0 and longer(l, on, slab),
    "where what lies on it is longer": lambda l, yard, slab, on: slab in yard and longer(l, yard.index(slab) + 1, slab),
    "where it is longer and clear": lambda l, yard, slab, on: longer(l, slab, on) and clear(yard, slab),
    "where it is longer and carries one": lambda l, yard, slab, on: longer(l, slab, on) and not clear(yard, slab),
    "where its support is on the ground": lambda l, yard, slab, on: longer(l, slab, on) and yard[on - 1] == 0,
    "where its support is off the ground": lambda l, yard, slab, on: longer(l, slab, on) and yard[on - 1] != 0,
    "where it is twice as long": lambda l, yard, slab, on: on != 0 and l[slab - 1] > 2 * l[on - 1],
    "where its support has a higher number": lambda l, yard, slab, on: longer(l, slab, on) and on > slab,
    "where its support has a lower number": lambda l, yard, slab, on: longer(l, slab, on) and on < slab,
    "also on the ground where it is the longest": lambda l, yard, slab, on: (
        longer(l, slab, on) or on == 0 and all(longer(l, slab, other) for other in reading.slabs(yard) if other != slab)
    ),
}


def spaced(needed: Callable[[int, int], bool]) -> tuple[Instead, Instead]:
    """Which lent space is enough, by what is needed and lent: of planning, and of the deadlock test."""

    def plan(method: int, now: Yard, goal: Yard, space: int, *rest: Any) -> tuple[Any, ...]:
        found = PLAN(method, now, goal, reading.plan_space(len(now)), *rest)
        return found if found[0] or needed(reading.plan_space(len(now)), space) else (10, 0, 0, 0, [])

    def deadlock(now: Yard, goal: Yard, space: int, lengths: Lengths = None) -> tuple[Any, ...]:
        found = DEADLOCK(now, goal, reading.deadlock_space(len(now)), lengths)
        return found if found[0] or needed(reading.deadlock_space(len(now)), space) else (10, 0, 0, [])

    return {"plan": plan}, {"deadlock": deadlock}


SPACES: dict[str, Callable[[int, int], bool]] = {
    "just so much": lambda needed, lent: lent == needed,
    "one number more": lambda needed, lent: lent > needed,
    "any": lambda needed, lent: True,
    "one number less": lambda needed, lent: lent + 1 >= needed,
}


def of_questions() -> Iterator[Wrong]:
    """Wrong readings of the questions."""
    for order in orders():
        yield Wrong(f"the questions are asked {', '.join(map(str, order))}", ["check"], asked(order))
    for first, other in itertools.combinations(ORDER, 2):
        yield Wrong(f"question {first} yields to {other}", ["check"], giving_way(first, other))
    for number, (what, place) in itertools.product(ORDER, PLACES.items()):
        if number != 16:
            yield Wrong(f"the place of {number}: {what}", ["check"], placed(number, place))
    for what, enough in SPACES.items():
        plan, deadlock = spaced(enough)
        yield Wrong(f"planning's space: {what}", PLANS, plan)
        yield Wrong(f"the deadlock test's space: {what}", ["deadlock"], deadlock)
    for what, overhangs in HANGS.items():
        yield Wrong(f"a slab overhangs {what}", ["check"], overhanging(overhangs))


# ---- what is in position, what is constructive, and what the methods do


def positioned(of: Callable[[Yard, Yard, int], bool]) -> Instead:
    """When a slab is in position; c goes by it."""

    def position(now: Yard, goal: Yard, slab: int) -> int | None:
        place = slab
        while place != 0 and not of(now, goal, place):
            place = goal[place - 1]
        return None if place == slab else place

    return {"position": position}


def agrees(now: Yard, goal: Yard, slab: int) -> bool:
    """Whether a slab rests where it shall."""
    return now[slab - 1] == goal[slab - 1]


POSITIONS: dict[str, Callable[[Yard, Yard, int], bool]] = {
    "it rests where it shall": agrees,
    "it and its support do": lambda now, goal, slab: all(agrees(now, goal, s) for s in pile(now, slab)[-2:]),
    "it and its support's support do": lambda now, goal, slab: all(agrees(now, goal, s) for s in pile(now, slab)[-3:]),
    "it and the foot of its pile do": lambda now, goal, slab: (
        agrees(now, goal, slab) and pile(now, slab)[0] == pile(goal, slab)[0]
    ),
    "it lies as high on the same foot": lambda now, goal, slab: (
        len(pile(now, slab)) == len(pile(goal, slab)) and pile(now, slab)[0] == pile(goal, slab)[0]
    ),
    "it lies as high": lambda now, goal, slab: len(pile(now, slab)) == len(pile(goal, slab)),
    "the same slabs are beneath it in any order": lambda now, goal, slab: (
        agrees(now, goal, slab) and set(pile(now, slab)) == set(pile(goal, slab))
    ),
    "all slabs above it rest where they shall too": lambda now, goal, slab: (
        pile(now, slab) == pile(goal, slab)
        and all(agrees(now, goal, other) for other in reading.slabs(now) if slab in pile(now, other))
    ),
    "it is to be clear, or rests right": lambda now, goal, slab: (
        pile(now, slab) == pile(goal, slab) and (clear(goal, slab) or not clear(now, slab))
    ),
}

BUILT: dict[str, Callable[[Yard, Yard, int], bool]] = {
    "its goal support may be misplaced": lambda now, goal, slab: (
        POSITION(now, goal, slab) is not None and reading.is_lift(now, slab, goal[slab - 1])
    ),
    "it goes onto a slab": lambda now, goal, slab: goal[slab - 1] != 0 and READY(now, goal, slab),
    "it is off the ground": lambda now, goal, slab: now[slab - 1] != 0 and READY(now, goal, slab),
    "its goal support may carry a slab": lambda now, goal, slab: (
        POSITION(now, goal, slab) == goal[slab - 1] and clear(now, slab)
    ),
    "it may carry a slab": lambda now, goal, slab: (
        POSITION(now, goal, slab) == goal[slab - 1] and clear(now, goal[slab - 1])
    ),
    "it goes no higher than three": lambda now, goal, slab: READY(now, goal, slab) and len(pile(goal, slab)) < 4,
}

COUNTS: dict[str, Callable[[Yard, Yard], int]] = {
    "that are clear": lambda now, goal: len(waiting(now, goal)),
    "whose entry differs": lambda now, goal: len(differing(now, goal)),
    "off the ground": lambda now, goal: sum(now[slab - 1] != 0 for slab in MISPLACED(now, goal)),
    "that do not go to the ground": lambda now, goal: sum(goal[slab - 1] != 0 for slab in MISPLACED(now, goal)),
    "and one more for a deadlock": lambda now, goal: len(MISPLACED(now, goal)) + reading.deadlocked(now, goal),
    "when the yard stalls": lambda now, goal: len(MISPLACED(built(now, goal), goal)),
    "that are off the ground or shall be": lambda now, goal: (
        sum(now[slab - 1] != 0 or goal[slab - 1] != 0 for slab in MISPLACED(now, goal))
    ),
}


def built(now: Yard, goal: Yard) -> Yard:
    """The yard after all constructive lifts."""
    while slab := CONSTRUCTIVE(now, goal):
        now = LIFTED(now, slab, goal[slab - 1])
    return now


def counting(of: Callable[[Yard, Yard], int]) -> Instead:
    """What is counted as misplaced."""

    def plan(method: int, now: Yard, goal: Yard, *rest: Any) -> tuple[Any, ...]:
        number, place, lifts, misplaced, pairs = PLAN(method, now, goal, *rest)
        return number, place, lifts, misplaced if number else of(now, goal), pairs

    return {"plan": plan}


Step = Callable[[Yard, Yard, Sequence[Pair]], Pair | None]


def stepwise(step: Step) -> Callable[..., list[Pair]]:
    """The list of one step after the other until there is none."""

    def method(now: Yard, goal: Yard, lengths: Lengths = None) -> list[Pair]:
        pairs: list[Pair] = []
        while MISPLACED(now, goal) and (lift := step(now, goal, pairs)) is not None:
            pairs.append(lift)
            now = reading.lifted(now, *lift)
        return pairs

    return method


def home(now: Yard, goal: Yard) -> Pair | None:
    """The lowest slab's constructive lift."""
    slab = CONSTRUCTIVE(now, goal)
    return (slab, goal[slab - 1]) if slab else None


def down(now: Yard, goal: Yard) -> Pair | None:
    """The lowest misplaced clear slab off the ground goes to the ground."""
    return (perched(now, goal)[0], 0) if perched(now, goal) else None


def unready(now: Yard, goal: Yard) -> Pair | None:
    """The lowest such slab that has no constructive lift goes to the ground."""
    slabs = [slab for slab in perched(now, goal) if not READY(now, goal, slab)]
    return (slabs[0], 0) if slabs else None


def unlocked(now: Yard, goal: Yard) -> Pair:
    """The lowest slab on the loop goes to the ground."""
    return min(reading.loop(now, goal)), 0


def put_down_before(now: Yard, pairs: Sequence[Pair]) -> bool:
    """Whether the last lift put a slab down."""
    return bool(pairs) and pairs[-1][1] == 0


STEPS: dict[str, tuple[int, Step]] = {
    "builds wherever it can": (1, lambda now, goal, pairs: home(now, goal) or down(now, goal)),
    "brings home at once what can go home": (1, lambda now, goal, pairs: unready(now, goal) or home(now, goal)),
    "puts down one slab, and builds then": (
        1,
        lambda now, goal, pairs: (home(now, goal) if put_down_before(now, pairs) else None)
        or down(now, goal)
        or home(now, goal),
    ),
    "puts down all at a stall": (
        2,
        lambda now, goal, pairs: (
            (down(now, goal) if put_down_before(now, pairs) else None) or home(now, goal) or down(now, goal)
        ),
    ),
    "puts down what has no constructive lift first": (
        2,
        lambda now, goal, pairs: unready(now, goal) or home(now, goal) or down(now, goal),
    ),
    "puts down the lowest on the loop": (2, lambda now, goal, pairs: home(now, goal) or unlocked(now, goal)),
    "puts down the lowest off the ground": (3, lambda now, goal, pairs: home(now, goal) or down(now, goal)),
    "unlocks the first stall alone": (
        3,
        lambda now, goal, pairs: (
            home(now, goal) or (unlocked(now, goal) if all(to != 0 for _, to in pairs) else down(now, goal))
        ),
    ),
    "unlocks a loop of two or more alone": (
        3,
        lambda now, goal, pairs: (
            home(now, goal) or (unlocked(now, goal) if len(reading.loop(now, goal)) > 1 else down(now, goal))
        ),
    ),
}


def remembered(choose: Callable[[list[int], Yard, Yard], int]) -> Callable[[int], Callable[..., list[Pair]]]:
    """Methods that keep the slabs with a constructive lift in the order in which they got it, and choose from these."""

    def of(method: int) -> Callable[..., list[Pair]]:
        def lists(now: Yard, goal: Yard, lengths: Lengths = None) -> list[Pair]:
            pairs: list[Pair] = []
            kept: list[int] = []
            while MISPLACED(now, goal):
                loose, can = perched(now, goal), ready(now, goal)
                kept = [slab for slab in kept if slab in can]
                kept += [slab for slab in can if slab not in kept]
                if method == 1 and loose and all(to == 0 for _, to in pairs) or not can:
                    lift = (min(reading.loop(now, goal)) if method == 3 else loose[0], 0)
                else:
                    slab = choose(kept, now, goal)
                    lift = (slab, goal[slab - 1])
                pairs.append(lift)
                now = reading.lifted(now, *lift)
            return pairs

        return lists

    return of


MEMORIES = {
    "makes first the lift that was there first": remembered(lambda kept, now, goal: kept[0]),
    "makes first the lift that came last": remembered(lambda kept, now, goal: kept[-1]),
}


def in_rounds(method: int) -> Callable[..., list[Pair]]:
    """A method that makes all constructive lifts that there are before it looks for others."""

    def lists(now: Yard, goal: Yard, lengths: Lengths = None) -> list[Pair]:
        pairs: list[Pair] = []
        while method == 1 and perched(now, goal):
            pairs.append((perched(now, goal)[0], 0))
            now = reading.lifted(now, *pairs[-1])
        while MISPLACED(now, goal):
            found = [(slab, goal[slab - 1]) for slab in ready(now, goal)]
            if not found:
                found = [(min(reading.loop(now, goal)) if method == 3 else perched(now, goal)[0], 0)]
            for lift in found:
                now = reading.lifted(now, *lift)
            pairs += found
        return pairs

    return lists


def keeps_start(now: Yard, goal: Yard, lengths: Lengths = None) -> list[Pair]:
    """Method 3 with a walk that begins where the last one did while that slab still waits."""
    pairs: list[Pair] = []
    start = 0
    while MISPLACED(now, goal):
        if slab := CONSTRUCTIVE(now, goal):
            lift = (slab, goal[slab - 1])
        else:
            start = start if start in waiting(now, goal) else waiting(now, goal)[0]
            lift = (min(VISITS(now, goal, start)[1]), 0)
        pairs.append(lift)
        now = reading.lifted(now, *lift)
    return pairs


def in_place_of(method: int, lists: Callable[..., list[Pair]]) -> Instead:
    """A method's lists in the place of the reading's."""
    if method == 1:
        return {"method_us": lists}

    def other(m: int, now: Yard, goal: Yard, lengths: Lengths = None) -> list[Pair] | None:
        return lists(now, goal) if m == method else METHOD_GN(m, now, goal, lengths)

    return {"method_gn": other}


def of_methods() -> Iterator[Wrong]:
    """Wrong readings of position, of constructive lifts, of the count and of the methods."""
    everything = (*PLANS, "deadlock")
    for what, position in POSITIONS.items():
        yield Wrong(f"in position: {what}", everything, positioned(position))
    for what, test in BUILT.items():
        instead = {"is_constructive": lambda now, goal, slab, lengths=None, of=test: of(now, goal, slab)}
        yield Wrong(f"constructive: {what}", everything, instead)
    for what, count in COUNTS.items():
        yield Wrong(f"counted: the misplaced slabs {what}", PLANS, counting(count))
    for what, (method, step) in STEPS.items():
        yield Wrong(f"method {method} {what}", [f"plan {method}"], in_place_of(method, stepwise(step)))
    for method in METHODS:
        for what, made in MEMORIES.items():
            yield Wrong(f"method {method} {what}", [f"plan {method}"], in_place_of(method, made(method)))
        rounds = in_place_of(method, in_rounds(method))
        yield Wrong(f"method {method} makes lifts in rounds", [f"plan {method}"], rounds)
    yield Wrong("method 3 keeps the start of its walk", ["plan 3"], in_place_of(3, keeps_start))


def wrongs() -> Iterator[Wrong]:
    """All of them."""
    yield from itertools.chain(of_the_loop(), of_replay(), of_questions(), of_methods())

