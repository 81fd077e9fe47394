"""Ties: what there is to choose from on the way of the methods and of the deadlock test, and other rules to choose by.

Document 01 takes the lowest number at each of these points. Another rule goes by something else first: by a slab that
belongs to the one that is chosen, as what it rests on, and what is said of that, as whether it is clear; by two such
slabs beside each other; by piles and loops, by what the lift leads to, or by what was lifted before.
"""

import itertools
from collections.abc import Callable, Iterator, Sequence
from typing import NamedTuple

import reading
from reading import METHODS, Pair, Yard
from sheets import Sheet

WALKS = ("method 3 begins its walk", "the test begins its walk")
POINTS = (*(f"method {method} {does}" for method in METHODS for does in ("builds", "puts down")), *WALKS)


class Place(NamedTuple):
    """Where something is chosen: the yard, the goal, the lifts before, and what the last of them left."""

    now: Yard
    goal: Yard
    lifts: Sequence[Pair] = ()
    left: int = 0

    def after(self, slab: int, destination: int) -> "Place":
        """The place behind a lift."""
        yard = reading.lifted(self.now, slab, destination)
        return Place(yard, self.goal, [*self.lifts, (slab, destination)], self.now[slab - 1])


class Decision(NamedTuple):
    """What is chosen from, and what follows from each choice."""

    place: Place
    follows: dict[int, object]

    def is_one(self) -> bool:
        """Whether the choice makes a difference."""
        first, *others = self.follows.values()
        return any(other != first for other in others)


def ready(now: Yard, goal: Yard) -> list[int]:
    """The slabs that have a constructive lift."""
    return [slab for slab in reading.slabs(now) if reading.is_constructive(now, goal, slab)]


def waiting(now: Yard, goal: Yard) -> list[int]:
    """The misplaced clear slabs."""
    return [slab for slab in reading.misplaced(now, goal) if reading.clear(now, slab)]


def perched(now: Yard, goal: Yard) -> list[int]:
    """The misplaced clear slabs off the ground."""
    return [slab for slab in waiting(now, goal) if now[slab - 1] != 0]


def lifting(place: Place, slabs: Sequence[int]) -> Decision:
    """Which slab is lifted: each choice is another list."""
    return Decision(place, {slab: slab for slab in slabs})


def walking(place: Place, seen: Callable[[list[int]], object]) -> Decision:
    """Where a walk begins: choices that come to the same loop are the same."""
    starts = waiting(place.now, place.goal)
    return Decision(place, {start: seen(reading.visits(place.now, place.goal, start)[1]) for start in starts})


def of_method(method: int, now: Yard, goal: Yard) -> Iterator[tuple[str, Decision]]:
    """The choices on the way of a method, each with the point where it is made."""
    place = Place(now, goal)
    clearing = method == 1
    while reading.misplaced(place.now, goal):
        loose, home = perched(place.now, goal), ready(place.now, goal)
        clearing = clearing and bool(loose)
        if not clearing and home:
            yield f"method {method} builds", lifting(place, home)
            place = place.after(home[0], goal[home[0] - 1])
            continue
        if method == 3:
            yield WALKS[0], walking(place, min)
            loose = reading.loop(place.now, goal)
        yield f"method {method} puts down", lifting(place, loose)
        place = place.after(min(loose), 0)


def of_test(now: Yard, goal: Yard) -> Iterator[tuple[str, Decision]]:
    """The choice of the deadlock test, whose lifts come to the same yard in any order."""
    place = Place(now, goal)
    while home := ready(place.now, goal):
        place = place.after(home[0], goal[home[0] - 1])
    if waiting(place.now, goal):
        yield WALKS[1], walking(place, sorted)


def decisions(sheet: Sheet) -> Iterator[tuple[str, Decision]]:
    """All choices on a sheet."""
    yield from itertools.chain(*(of_method(method, *sheet) for method in METHODS), of_test(*sheet))


# ---- what a slab can be chosen by


def pile(yard: Yard, slab: int) -> list[int]:
    """The slabs of a pile from its foot up to a slab."""
    return [*reversed(reading.beneath(yard, slab)), slab]


def above(yard: Yard, slab: int) -> int:
    """How many slabs are above a slab."""
    return len(pile(yard, reading.top(yard, slab))) - len(pile(yard, slab))


def on(yard: Yard, slab: int) -> int:
    """What a slab rests on; of the ground the ground."""
    return yard[slab - 1] if slab else 0


def load(yard: Yard, slab: int) -> int:
    """What rests on a slab; 0 for nothing, and of the ground."""
    return yard.index(slab) + 1 if slab and slab in yard else 0


def right(place: Place, slab: int) -> bool:
    """Whether a slab is in position, or is the ground."""
    return slab == 0 or reading.in_position(place.now, place.goal, slab)


def successor(place: Place, slab: int) -> int:
    """The successor of a misplaced slab."""
    return reading.top(place.now, reading.in_the_way(place.now, place.goal, slab))


def last(place: Place) -> Pair:
    """The last lift; 0, 0 before the first."""
    return place.lifts[-1] if place.lifts else (0, 0)


def behind(place: Place, slab: int) -> Yard:
    """The yard when a slab has gone home where it can, else to the ground."""
    home = reading.is_constructive(place.now, place.goal, slab)
    return reading.lifted(place.now, slab, place.goal[slab - 1] if home else 0)


def wait_for(place: Place, slab: int) -> int:
    """How many misplaced clear slabs have a slab as their successor."""
    return sum(successor(place, other) == slab for other in waiting(place.now, place.goal))


def lifted_last(place: Place, slab: int) -> int:
    """When a slab was lifted last; 0 where it never was."""
    return max((k + 1 for k, lift in enumerate(place.lifts) if lift[0] == slab), default=0)


def common(place: Place, slab: int) -> int:
    """How many slabs are beneath a slab both now and in the goal."""
    return len(set(reading.beneath(place.now, slab)) & set(reading.beneath(place.goal, slab)))


Key = Callable[[Place, int], int]

# Slabs that belong to a slab; 0 is the ground, or none.
NEAR: dict[str, Key] = {
    "itself": lambda p, s: s,
    "its support": lambda p, s: on(p.now, s),
    "its goal support": lambda p, s: on(p.goal, s),
    "its support's support": lambda p, s: on(p.now, on(p.now, s)),
    "its support's goal support": lambda p, s: on(p.goal, on(p.now, s)),
    "its goal support's support": lambda p, s: on(p.now, on(p.goal, s)),
    "its goal support's goal support": lambda p, s: on(p.goal, on(p.goal, s)),
    "what lies on its goal support": lambda p, s: load(p.now, on(p.goal, s)),
    "what goes onto it": lambda p, s: load(p.goal, s),
    "what goes onto its support": lambda p, s: load(p.goal, on(p.now, s)),
    "c": lambda p, s: reading.foot(p.now, p.goal, s)[0],
}
FAR: dict[str, Key] = {
    "d": lambda p, s: reading.foot(p.now, p.goal, s)[1],
    "what is in its way": lambda p, s: reading.in_the_way(p.now, p.goal, s),
    "its successor": successor,
    "the foot of its pile": lambda p, s: pile(p.now, s)[0],
    "the foot of its goal pile": lambda p, s: pile(p.goal, s)[0],
    "the top of its goal pile": lambda p, s: reading.top(p.goal, s),
}

# What can be said of a slab; of the ground too.
SAID: dict[str, Key] = {
    "by number": lambda p, x: x,
    "is the ground or none": lambda p, x: x == 0,
    "has an even number": lambda p, x: x % 2 == 0,
    "is clear": lambda p, x: reading.clear(p.now, x),
    "is to be clear": lambda p, x: reading.clear(p.goal, x),
    "is right": right,
    "is a slab that is right": lambda p, x: x != 0 and right(p, x),
    "is on the ground": lambda p, x: x != 0 and on(p.now, x) == 0,
    "goes to the ground": lambda p, x: x != 0 and on(p.goal, x) == 0,
    "by how high it lies": lambda p, x: len(pile(p.now, x)) if x else 0,
    "by how high it goes": lambda p, x: len(pile(p.goal, x)) if x else 0,
    "by how many lie above it": lambda p, x: above(p.now, x) if x else 0,
    "by how many go above it": lambda p, x: above(p.goal, x) if x else 0,
    "was lifted before": lambda p, x: lifted_last(p, x) != 0,
}

# Whole piles, what a lift leads to, and what was lifted before.
OTHERS: dict[str, Key] = {
    "the size of its pile": lambda p, s: len(pile(p.now, reading.top(p.now, s))),
    "the size of its goal pile": lambda p, s: len(pile(p.goal, reading.top(p.goal, s))),
    "the lowest number of its pile": lambda p, s: min(pile(p.now, s)),
    "the highest number of its pile": lambda p, s: max(pile(p.now, s)),
    "the lowest number of its goal pile": lambda p, s: min(pile(p.goal, reading.top(p.goal, s))),
    "the highest number of its goal pile": lambda p, s: max(pile(p.goal, reading.top(p.goal, s))),
    "the misplaced slabs of its pile": lambda p, s: sum(not right(p, one) for one in pile(p.now, s)),
    "the misplaced slabs of its goal pile": lambda p, s: sum(not right(p, one) for one in pile(p.goal, s)),
    "goes onto its own pile": lambda p, s: on(p.goal, s) in pile(p.now, s),
    "its support goes above it": lambda p, s: on(p.now, s) != 0 and s in pile(p.goal, on(p.now, s)),
    "is off the ground both now and in the goal": lambda p, s: on(p.now, s) != 0 and on(p.goal, s) != 0,
    "how many are beneath it both now and in the goal": common,
    "is in its own way": lambda p, s: successor(p, s) == s,
    "how many wait for it": wait_for,
    "is on its loop": lambda p, s: s in reading.visits(p.now, p.goal, s)[1],
    "the size of its loop": lambda p, s: len(reading.visits(p.now, p.goal, s)[1]),
    "how many its walk visits": lambda p, s: len(reading.visits(p.now, p.goal, s)[0]),
    "the constructive lifts after it": lambda p, s: len(ready(behind(p, s), p.goal)),
    "what it uncovers is ready then": lambda p, s: on(p.now, s) in ready(behind(p, s), p.goal),
    "what goes onto it is ready then": lambda p, s: load(p.goal, s) in ready(behind(p, s), p.goal),
    "the misplaced clear slabs after it": lambda p, s: len(waiting(behind(p, s), p.goal)),
    "when it was lifted last": lifted_last,
    "how far its number is from the last lift's": lambda p, s: abs(s - last(p)[0]),
    "its turn behind the last lift's slab": lambda p, s: (s - last(p)[0] - 1) % len(p.now),
    "its turn before the last lift's slab": lambda p, s: (last(p)[0] - s - 1) % len(p.now),
    "was uncovered by the last lift": lambda p, s: bool(p.lifts) and p.left == s,
    "rests on the last lift's destination": lambda p, s: bool(p.lifts) and on(p.now, s) == last(p)[1],
    "goes onto the last lift's slab": lambda p, s: bool(p.lifts) and on(p.goal, s) == last(p)[0],
    "goes to where the last lift's slab was": lambda p, s: bool(p.lifts) and on(p.goal, s) == p.left,
    "its number, in turn lowest and highest": lambda p, s: s if len(p.lifts) % 2 else -s,
    "its number, after the first lift the highest": lambda p, s: -s if p.lifts else s,
}


def keys() -> Iterator[tuple[str, Key]]:
    """All that a slab can be chosen by."""
    for (name, near), (said, holds) in itertools.product({**NEAR, **FAR}.items(), SAID.items()):
        yield f"{name} {said}", lambda p, s, x=near, of=holds: of(p, x(p, s))
    for (name, near), (other, far) in itertools.combinations(NEAR.items(), 2):
        yield f"{name} is {other}", lambda p, s, x=near, y=far: x(p, s) == y(p, s)
        yield f"{name} has a lower number than {other}", lambda p, s, x=near, y=far: x(p, s) < y(p, s)
    yield from OTHERS.items()


KEYS = dict(keys())
LOWEST = "itself by number"

# On the loop also by when the walk comes to a slab: the slabs of a loop are in the order of the walk.
LOOP_KEY = "its place on the loop"


class Rule(NamedTuple):
    """Another rule for a tie: at which point, by what, the least or the most of it first, and then by the number."""

    point: str
    key: str
    most: bool
    highest: bool

    def __str__(self) -> str:
        """The rule in words."""
        order, number = "most" if self.most else "least", "highest" if self.highest else "lowest"
        return f"{self.point} by: {self.key}, {order} first, then the {number} number"

    def differs(self, decision: Decision, values: Sequence[int]) -> bool:
        """Whether what is chosen by this rule, and what its slabs have of the key, leads elsewhere than the lowest."""
        least, lowest = -1 if self.most else 1, -1 if self.highest else 1
        slabs = list(decision.follows)
        _, number = min((least * value, lowest * slab) for value, slab in zip(values, slabs))
        return decision.follows[lowest * number] != decision.follows[min(slabs)]


def values(key: str, decision: Decision) -> list[int]:
    """What the slabs of a decision have of a key."""
    if key == LOOP_KEY:
        return list(range(len(decision.follows)))
    return [int(KEYS[key](decision.place, slab)) for slab in decision.follows]


def rules() -> Iterator[Rule]:
    """Every rule but document 01's own."""
    for point, key, most, highest in itertools.product(POINTS, [*KEYS, LOOP_KEY], (False, True), (False, True)):
        if (key, most) != (LOWEST, False) and (key != LOOP_KEY or point == "method 3 puts down"):
            yield Rule(point, key, most, highest)
