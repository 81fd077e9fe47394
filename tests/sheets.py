"""Sheets for the tests: those that documents state, those whose answers are known in closed form, and random ones."""

import itertools
import random
from collections.abc import Callable, Iterator, Sequence
from typing import NamedTuple

import reading
from reading import MOST, Pair, Row, Yard

SEED = 4001
RANDOM_SHEETS = 600
RANDOM_RINGS = 100

Sheet = tuple[Yard, Yard]


# ---- documents 01 and 02


class End(NamedTuple):
    """A sheet with a known end: the list of a method, and the deadlock rows where the documents state them."""

    now: list[int]
    goal: list[int]
    method: int
    pairs: list[Pair]
    loop: list[Row] | None


ENDS = [
    End([], [], 1, [], []),
    End([2, 0], [0, 1], 2, [(1, 0), (2, 1)], []),
    End([0, 0, 1], [2, 3, 0], 1, [(3, 0), (2, 3), (1, 2)], None),
    End([0, 0, 1], [2, 3, 0], 2, [(3, 0), (2, 3), (1, 2)], None),
    End([0, 0, 1], [2, 3, 0], 3, [(3, 0), (2, 3), (1, 2)], None),
    End([2, 0, 4, 0], [4, 0, 2, 0], 2, [(1, 0), (3, 2), (1, 4)], [(1, 4, 4), (3, 2, 2)]),
    End([2, 3, 0, 5, 0], [5, 0, 0, 3, 2], 2, [(1, 0), (2, 0), (4, 3), (5, 2), (1, 5)], [(1, 2, 0)]),
    End([2, 3, 0, 5, 0], [5, 0, 0, 3, 2], 3, [(1, 0), (2, 0), (4, 3), (5, 2), (1, 5)], [(1, 2, 0)]),
    End([2, 3, 0], [2, 0, 0], 2, [(1, 0), (2, 0), (1, 2)], None),
]

# S1 to S6.
STATED: list[Sheet] = list(dict.fromkeys((tuple(end.now), tuple(end.goal)) for end in ENDS))

# Lift counts of method 1, and misplaced slabs, that it states without a list: now, goal, lifts, misplaced.
COUNTS: list[tuple[list[int], list[int], int | None, int | None]] = [
    ([2, 0, 4, 0], [4, 0, 2, 0], 4, None),
    ([2, 3, 0, 5, 0], [5, 0, 0, 3, 2], 6, None),
    ([2, 3, 0], [2, 0, 0], None, 2),
]

# The sheets that it refuses: now, goal, number, place.
REFUSED: list[tuple[list[int], list[int], int, int]] = [
    ([2, 1, 5], [0, 0, 0], 4, 3),
    ([0, 1, 1], [0, 0, 0], 5, 3),
    ([1], [0], 6, 1),
]

# Sheets that tell readings of the loop apart: a walk that starts off it, and methods 2 and 3 with different lists.
TRIALS: list[Sheet] = [
    ([0, 6, 7, 8, 9, 0, 0, 0, 0], [8, 7, 6, 9, 1, 0, 0, 0, 0]),
    ([0, 0, 2, 5, 1], [0, 0, 1, 2, 4]),
    ([3, 0, 4, 0, 2, 1], [2, 0, 1, 0, 4, 5]),
]


# ---- where the good part of a goal pile ends


class GoodPart(NamedTuple):
    """A deadlocked sheet by hand: the rows of its test, and c of their slabs as the yard stands at the start."""

    now: list[int]
    goal: list[int]
    rows: list[Row]
    at_start: list[int]

    def sheet(self) -> Sheet:
        """The sheet."""
        return self.now, self.goal


GOOD_PARTS = [
    # Nothing goes home before the stall. c is the goal support itself, and carries what is in the way; c is the ground,
    # beneath one misplaced slab and beneath three; c lies beneath two, and carries what is in the way.
    GoodPart([2, 0, 4, 0], [4, 0, 2, 0], [(1, 4, 4), (3, 2, 2)], [4, 2]),
    GoodPart([2, 3, 0], [2, 0, 0], [(1, 2, 0)], [0]),
    GoodPart([4, 0, 0, 5, 0], [2, 3, 4, 0, 0], [(1, 4, 0)], [0]),
    GoodPart([6, 0, 0, 0, 4, 0], [2, 3, 4, 0, 6, 0], [(1, 4, 4), (5, 6, 6)], [4, 6]),
    # Slabs go home onto c, or to the ground, before the stall: one, two, one beneath two misplaced slabs, one to the
    # ground. In the way is what stands above d, the slab that shall rest on the new c, which is clear.
    GoodPart([2, 0, 0, 0], [2, 4, 0, 3], [(1, 2, 4)], [3]),
    GoodPart([2, 0, 0, 0, 0], [2, 5, 0, 3, 4], [(1, 2, 5)], [3]),
    GoodPart([5, 0, 0, 0, 0], [2, 5, 0, 3, 4], [(1, 5, 4)], [3]),
    GoodPart([2, 0, 4, 0], [2, 3, 0, 0], [(1, 2, 3)], [0]),
    # A ring of both kinds: 2 is above c of 1, and 1 above d of 2, whose c goes to the ground before the stall.
    GoodPart([4, 3, 0, 0, 6, 0], [3, 4, 0, 5, 0, 0], [(1, 3, 3), (2, 4, 5)], [3, 0]),
]


# ---- closed forms, and sheets that are hard in one way


class Known(NamedTuple):
    """A sheet with its lists in closed form: method 1's, that of methods 2 and 3, and the deadlock rows."""

    now: list[int]
    goal: list[int]
    first: list[Pair]
    others: list[Pair]
    loop: list[Row]

    def pairs(self, method: int) -> list[Pair]:
        """The list of a method."""
        return self.first if method == 1 else self.others

    def misplaced(self) -> int:
        """How many slabs are misplaced: a list lifts each of them and no other."""
        return len({slab for slab, _ in self.others})


def tower(n: int) -> list[int]:
    """One pile with slab 1 at its foot."""
    return list(range(n))


def copies(now: Yard, goal: Yard, n: int) -> tuple[list[int], list[int]]:
    """A sheet repeated to about n slabs."""
    firsts = range(0, n - len(now) + 1, len(now))
    many = [[x and x + first for first in firsts for x in yard] for yard in (now, goal)]
    return many[0], many[1]


def turned(n: int) -> Known:
    """One pile to be turned over: method 1 puts all but the foot down and builds; the others build at once."""
    built = [(slab, slab - 1) for slab in range(2, n + 1)]
    down = [(slab, 0) for slab in range(1, n)]
    return Known([*range(2, n + 1), 0], tower(n), down + built, down[:1] + built, [])


def exchanged(n: int) -> Known:
    """Two piles of two that exchange their upper slabs, n / 4 times: as many deadlocks of two slabs."""
    feet = range(0, n, 4)
    now, goal = copies([2, 0, 4, 0], [4, 0, 2, 0], n)
    down = [(k + s, 0) for k in feet for s in (1, 3)]
    up = [pair for k in feet for pair in ((k + 1, k + 4), (k + 3, k + 2))]
    others = [pair for k in feet for pair in ((k + 1, 0), (k + 3, k + 2), (k + 1, k + 4))]
    return Known(now, goal, down + up, others, [(1, 4, 4), (3, 2, 2)])


def ring(n: int) -> Known:
    """n / 2 piles of two, each upper slab bound for the next pile; with n odd slab 1, bound for 2, starts the walk."""
    beside, half = n % 2, n // 2
    feet = [0] * half
    first, foot = beside + 1, beside + half + 1
    now = [*[0] * beside, *range(foot, n + 1), *feet]
    goal = [*[2] * beside, *range(foot + 1, n + 1), foot, *feet]
    up = [(slab, goal[slab - 1]) for slab in range(first, foot)]
    down = [(slab, 0) for slab in range(first, foot)]
    last = [(1, 2)] * beside
    rows = [(slab, to, to) for slab, to in up]
    return Known(now, goal, [*down, up[0], *last, *up[1:]], [down[0], *reversed(up), *last], rows)


def begun(n: int) -> Known:
    """One pile wanted, all on the ground but its top slab, which is on the one halfway up: it grows to beneath that.

    The slab that shall rest on the one halfway up starts the walk, and only waits.
    """
    half = n // 2
    built = [(slab, slab - 1) for slab in range(2, n + 1)]
    down, grown = [(n, 0)], built[: half - 2]
    rows = [(n, half, half - 1)]
    return Known([*[0] * (n - 1), half], tower(n), down + built, grown + down + built[half - 2 :], rows)


# The closed forms, each with the numbers of slabs at which the reading confirms it.
KNOWN = ((turned, range(2, 17)), (exchanged, range(4, 17, 4)), (ring, range(4, 17)), (begun, range(4, 17)))


def full_yards() -> Iterator[Known]:
    """The closed forms for as many slabs as a sheet may have; the ring also with a slab beside it."""
    for make, _ in KNOWN:
        yield make(MOST)
    yield ring(MOST - 1)


def families(n: int) -> Iterator[Sheet]:
    """Sheets of about n slabs that are hard in one way each; n is a multiple of 4."""
    yield turned(n).goal, turned(n).now
    yield [0] * n, tower(n)
    yield exchanged(n)[:2]
    yield copies([2, 3, 0, 5, 0], [5, 0, 0, 3, 2], n)
    yield ring(n)[:2]
    yield begun(n)[:2]
    # k slabs that wait in a row before a pile whose top slab is in its own way.
    k = n // 4
    pile = list(range(2 * k + 1, n))
    now = [*range(k + 1, 2 * k + 1), *[0] * k, 0, *pile]
    yield now, [*range(k + 2, 2 * k + 2), *[0] * k, 0, 0, *pile[1:]]


# ---- the misplaced slabs of large sheets


def astray(now: Yard, goal: Yard) -> list[int]:
    """The misplaced slabs, lowest first: each pile is climbed from the ground to the first slab that rests wrong."""
    above = {support: slab for slab, support in enumerate(now, 1)}
    right: set[int] = set()
    for foot in reading.slabs(now):
        slab = foot if now[foot - 1] == 0 else 0
        while slab and now[slab - 1] == goal[slab - 1]:
            right.add(slab)
            slab = above.get(slab, 0)
    return [slab for slab in reading.slabs(now) if slab not in right]


# ---- every small sheet


def arrangements(n: int) -> list[tuple[int, ...]]:
    """Every sound arrangement of n slabs."""
    entries = itertools.product(range(n + 1), repeat=n)
    return [yard for yard in entries if reading.arrangement_fault(yard) == (0, 0)]


def small_sheets() -> Iterator[Sheet]:
    """Every accepted sheet of at most three slabs."""
    for n in range(4):
        yield from itertools.product(arrangements(n), repeat=2)


# ---- random sheets


def piled(order: Sequence[int], cut: Callable[[], bool]) -> list[int]:
    """Slabs piled in an order, a new pile begun at each cut."""
    yard = [0] * len(order)
    for below, slab in itertools.pairwise(order):
        yard[slab - 1] = 0 if cut() else below
    return yard


def random_piles(rng: random.Random, n: int) -> list[int]:
    """A sound arrangement of n slabs in random piles."""
    order = list(range(1, n + 1))
    rng.shuffle(order)
    return piled(order, lambda: rng.randint(0, 9) >= 7)


def regrouped(rng: random.Random, n: int, feet: int) -> Sheet:
    """A sheet whose other slabs are stacked at random on the same feet, now and in the goal: it has longer loops."""
    slabs = rng.sample(range(1, n + 1), n)
    yards = [0] * n, [0] * n
    for yard in yards:
        tops = slabs[:feet]
        for slab in rng.sample(slabs[feet:], n - feet):
            at = rng.randrange(feet)
            yard[slab - 1], tops[at] = tops[at], slab
    return yards


def random_sheet(rng: random.Random, n: int, kind: int) -> Sheet:
    """A random sheet of one of three kinds: any piles, and the slabs regrouped on few or many feet."""
    if kind == 0:
        return random_piles(rng, n), random_piles(rng, n)
    return regrouped(rng, n, (n + 1) // (4 - kind))


def renumbered(rng: random.Random, now: Yard, goal: Yard) -> Sheet:
    """A sheet with other numbers for its slabs."""
    n = len(now)
    names = [0, *rng.sample(range(1, n + 1), n)]
    yards = [0] * n, [0] * n
    for yard, old in zip(yards, (now, goal)):
        for slab in range(1, n + 1):
            yard[names[slab] - 1] = names[old[slab - 1]]
    return yards


def fitting(rng: random.Random, lengths: Sequence[int]) -> list[int]:
    """A random arrangement in which no slab overhangs: each comes, longest first, to the ground or on any pile."""
    yard, tops = [0] * len(lengths), [0]
    order = sorted(reading.slabs(lengths), key=lambda slab: (-lengths[slab - 1], rng.random()))
    for slab in order:
        support = rng.choice(tops)
        yard[slab - 1] = support
        if support:
            tops.remove(support)
        tops += [slab, *([0] if rng.random() < 0.2 else [])]
    return yard


def lowered(lengths: Sequence[int], *yards: Yard) -> list[int]:
    """Lengths cut so that no slab overhangs in some arrangements."""
    cut, before = list(lengths), []
    while cut != before:
        before = list(cut)
        for slab, support in itertools.chain.from_iterable(enumerate(yard, 1) for yard in yards):
            cut[slab - 1] = min(cut[slab - 1], cut[support - 1]) if support else cut[slab - 1]
    return cut


def ranks(n: int) -> list[tuple[int, ...]]:
    """Every way in which n slabs can be shorter, equal or longer than each other, as lengths from 1 on."""
    every = itertools.product(range(1, n + 1), repeat=n)
    return [lengths for lengths in every if set(lengths) == set(range(1, len(set(lengths)) + 1))]


def random_sheets() -> Iterator[Sheet]:
    """Random sheets of four to eight slabs, and small rings whose loops may be entered at any slab."""
    rng = random.Random(SEED)
    for number in range(RANDOM_SHEETS):
        yield random_sheet(rng, 4 + number // 3 % 5, number % 3)
    for number in range(RANDOM_RINGS):
        known = ring(5 + number % 2 * 2)
        yield renumbered(rng, known.now, known.goal)


class Walk:
    """An arrangement that random lifts are made in."""

    def __init__(self, rng: random.Random, yard: Yard) -> None:
        """The arrangement before the lifts."""
        self.rng, self.yard = rng, list(yard)
        self.under = set(yard) - {0}
        self.clear = [slab for slab in reading.slabs(yard) if slab not in self.under]

    def any_pair(self) -> Pair:
        """Any slab and any destination, a lift or not."""
        return self.rng.randint(1, len(self.yard)), self.rng.randint(0, len(self.yard))

    def clear_pair(self) -> Pair:
        """A clear slab, and the ground or a clear slab: in high piles a lift sooner than any pair."""
        return self.rng.choice(self.clear), self.rng.choice([0, *self.rng.choices(self.clear, k=2)])

    def lift(self, slab: int, place: int) -> tuple[int, int, int] | None:
        """Makes a lift and gives slab, destination and where the slab rested; None for a pair that is none."""
        rested = self.yard[slab - 1]
        if slab in self.under or place in self.under or place in (slab, rested):
            return None
        self.yard[slab - 1] = place
        if place:
            self.clear.remove(place)
            self.under.add(place)
        if rested:
            self.clear.append(rested)
            self.under.remove(rested)
        return slab, place, rested

    def lifts(self, wished: int, pair: Callable[[], Pair]) -> list[tuple[int, int, int]]:
        """Random lifts, as many as wished; none where the yard has none."""
        made: list[tuple[int, int, int]] = []
        while len(made) < wished and len(self.yard) > 1:
            if lift := self.lift(*pair()):
                made.append(lift)
        return made
