"""Document 01 read literally: the questions, the three methods, the deadlock test and replay.

Of document 02 training, lengths, how many lifts method 1 takes, the panel's entry, and what the position test names.
An arrangement is a list of n numbers: entry i - 1 says what slab i rests on, 0 for the ground. Lengths are None where a
sheet has none, which is not the same as a list of none.
Each function follows its sentence and none is meant to be fast. `shortest` and `deadlocked`
decide by search what the document only defines.
"""

import functools
import itertools
from collections import deque
from collections.abc import Sequence

Yard = Sequence[int]
Pair = tuple[int, int]
Row = tuple[int, int, int]
Lengths = Sequence[int] | None

# The most slabs of a sheet, by the panel's entry and of a training sheet, the highest 16-bit number, the numbers of the
# methods, how many numbers the deadlock test writes of a slab, what a refused replay has in place of a verdict, and the
# bits of options: that a sheet has lengths, and that planning is the panel's.
MOST = 4000
MOST_PANEL = 600
MOST_TRAINED = 16
TOP = 65535
METHODS = (1, 2, 3)
WIDTH = 3
NO_VERDICT = 65535
LENGTHS = 1
PANEL = 2

# What the verdicts of replay say.
VERDICTS = {
    1: "the slab is not in 1 to n or the destination is above n",
    2: "the slab is not clear",
    3: "it already rests there",
    4: "the destination is the slab itself or a slab that is not clear",
    5: "all lifts are legal and the end differs from the goal",
    6: "it is too long for its destination",
}


def slabs(yard: Yard) -> range:
    """The numbers of the slabs, lowest first."""
    return range(1, len(yard) + 1)


def clear(yard: Yard, place: int) -> bool:
    """Whether no slab rests on it; the ground is always clear."""
    return place == 0 or place not in yard


def beneath(yard: Yard, slab: int) -> list[int]:
    """The slabs that a slab is above, from its support down; the ground is none."""
    found: list[int] = []
    while yard[slab - 1] != 0:
        slab = yard[slab - 1]
        found.append(slab)
    return found


def top(yard: Yard, slab: int) -> int:
    """The clear slab of the pile that holds a slab: itself, or the one above it."""
    while not clear(yard, slab):
        slab = yard.index(slab) + 1
    return slab


def position(now: Yard, goal: Yard, slab: int) -> int | None:
    """The position test: None in position; of a misplaced slab the nearest beneath it in the goal pile that is, or 0.

    A slab is in position when it and every slab beneath it rest now on what they rest on in the goal.
    """
    place = slab
    while place != 0 and any(now[s - 1] != goal[s - 1] for s in [place, *beneath(now, place)]):
        place = goal[place - 1]
    return None if place == slab else place


def in_position(now: Yard, goal: Yard, slab: int) -> bool:
    """Whether the position test names nothing."""
    return position(now, goal, slab) is None


def misplaced(now: Yard, goal: Yard) -> list[int]:
    """The slabs that are not in position, lowest first."""
    return [s for s in slabs(now) if not in_position(now, goal, s)]


def twice(now: Yard, goal: Yard, astray: Sequence[int]) -> list[int]:
    """Of the misplaced slabs, which are given, those that are off the ground both now and in the goal."""
    return [s for s in astray if now[s - 1] != 0 and goal[s - 1] != 0]


def all_down(now: Yard, goal: Yard, astray: Sequence[int]) -> int:
    """The misplaced slabs plus those misplaced slabs that are off the ground both now and in the goal."""
    return len(astray) + len(twice(now, goal, astray))


def overhangs(lengths: Lengths, slab: int, support: int) -> bool:
    """Whether a slab is longer than the slab that it rests on; the ground takes any."""
    return lengths is not None and support != 0 and lengths[slab - 1] > lengths[support - 1]


def overhanging(yard: Yard, lengths: Lengths) -> int:
    """The lowest slab that overhangs; 0 where none does."""
    return next((s for s in slabs(yard) if overhangs(lengths, s, yard[s - 1])), 0)


def is_lift(yard: Yard, slab: int, destination: int, lengths: Lengths = None) -> bool:
    """Whether a clear slab goes to the ground or another clear slab that is not shorter, and not to where it rests."""
    return (
        clear(yard, slab)
        and clear(yard, destination)
        and destination != slab
        and destination != yard[slab - 1]
        and not overhangs(lengths, slab, destination)
    )


def lifted(yard: Yard, slab: int, destination: int) -> list[int]:
    """The yard after a lift: that slab's entry becomes the destination."""
    return [destination if s == slab else yard[s - 1] for s in slabs(yard)]


def is_constructive(now: Yard, goal: Yard, slab: int, lengths: Lengths = None) -> bool:
    """Whether a misplaced slab has a lift to its goal support, the ground or a slab in position: c is that support."""
    support = goal[slab - 1]
    return position(now, goal, slab) == support and is_lift(now, slab, support, lengths)


def constructive(now: Yard, goal: Yard, lengths: Lengths = None) -> int:
    """The lowest-numbered slab that has a constructive lift; 0 where none has."""
    return next((s for s in slabs(now) if is_constructive(now, goal, s, lengths)), 0)


def to_put_down(now: Yard, goal: Yard) -> int:
    """The lowest-numbered misplaced clear slab off the ground; 0 where there is none."""
    return next((s for s in misplaced(now, goal) if clear(now, s) and now[s - 1] != 0), 0)


def arrangement_fault(yard: Yard) -> tuple[int, int]:
    """The first "no" to one arrangement's three questions: 1, 2 or 3 and the place; 0, 0 for none."""
    n = len(yard)
    for slab in slabs(yard):
        if yard[slab - 1] > n:
            return 1, slab
    rested_on: set[int] = set()
    for slab in slabs(yard):
        if yard[slab - 1] != 0 and yard[slab - 1] in rested_on:
            return 2, slab
        rested_on.add(yard[slab - 1])
    for slab in slabs(yard):
        at, steps = slab, 0
        while at != 0 and steps < n:
            at, steps = yard[at - 1], steps + 1
        if at != 0:
            return 3, slab
    return 0, 0


def check(now: Yard, goal: Yard, lengths: Lengths = None, most: int = MOST) -> tuple[int, int]:
    """Questions 2 to 9, with lengths 16 to 18: the number and the place of the first "no"; 0, 0 where all get a yes.

    19 is for more than an entry takes, directly after 2; the yard office takes as many as there may be.
    """
    if len(now) > MOST:
        return 2, 0
    if len(now) > most:
        return 19, 0
    if len(goal) != len(now):
        return 3, 0
    for yard, before in ((now, 3), (goal, 6)):
        fault, place = arrangement_fault(yard)
        if fault != 0:
            return before + fault, place
    if lengths is not None and len(lengths) != len(now):
        return 16, 0
    for yard, number in ((now, 17), (goal, 18)):
        if slab := overhanging(yard, lengths):
            return number, slab
    return 0, 0


def foot(now: Yard, goal: Yard, slab: int) -> Pair:
    """c, which the position test names of a misplaced slab, and d, what rests on c in its goal pile."""
    c = position(now, goal, slab)
    if c is None:
        raise ValueError(f"slab {slab} is in position")
    return c, next(d for d in [slab, *beneath(goal, slab)] if goal[d - 1] == c)


def row(now: Yard, goal: Yard, slab: int) -> Row:
    """A slab, the slab through which its successor is in its way (c when c is not clear, else d), and c."""
    c, d = foot(now, goal, slab)
    return slab, d if clear(now, c) else c, c


def in_the_way(now: Yard, goal: Yard, slab: int) -> int:
    """The slab through which its successor is in a slab's way."""
    return row(now, goal, slab)[1]


def visits(now: Yard, goal: Yard, slab: int) -> tuple[list[int], list[int]]:
    """The slabs met from one to its successor and on until one returns, and those of them from its first visit on."""
    visited: list[int] = []
    while slab not in visited:
        visited.append(slab)
        slab = top(now, in_the_way(now, goal, slab))
    return visited, visited[visited.index(slab) :]


def loop(now: Yard, goal: Yard) -> list[int]:
    """The loop of a stalled yard, from the slab that returns first onward."""
    return visits(now, goal, next(s for s in misplaced(now, goal) if clear(now, s)))[1]


def method_us(now: Yard, goal: Yard, lengths: Lengths = None) -> list[Pair]:
    """Method 1: all misplaced slabs to the ground, then the constructive lifts."""
    pairs: list[Pair] = []
    while slab := to_put_down(now, goal):
        pairs.append((slab, 0))
        now = lifted(now, slab, 0)
    while slab := constructive(now, goal, lengths):
        pairs.append((slab, goal[slab - 1]))
        now = lifted(now, slab, goal[slab - 1])
    return pairs


def method_gn(method: int, now: Yard, goal: Yard, lengths: Lengths = None) -> list[Pair] | None:
    """Methods 2 and 3: constructive lifts, at a stall one slab to the ground; None where there is none."""
    pairs: list[Pair] = []
    while misplaced(now, goal):
        if slab := constructive(now, goal, lengths):
            destination = goal[slab - 1]
        else:
            slab = to_put_down(now, goal) if method == 2 else min(loop(now, goal))
            destination = 0
        if slab == 0:
            return None
        pairs.append((slab, destination))
        now = lifted(now, slab, destination)
    return pairs


def plan_space(n: int) -> int:
    """How many numbers of lent space planning needs."""
    return 4 * n


def deadlock_space(n: int) -> int:
    """How many numbers of lent space the deadlock test needs."""
    return WIDTH * n


def plan(
    method: int, now: Yard, goal: Yard, space_len: int, lengths: Lengths = None, most: int = MOST
) -> tuple[int, int, int, int, list[Pair]]:
    """Planning by an entry's limit: number, place, lift count, misplaced slabs at the start and the pairs written."""
    if method not in METHODS:
        return 1, 0, 0, 0, []
    number, place = check(now, goal, lengths, most)
    if number != 0:
        return number, place, 0, 0, []
    if space_len < plan_space(len(now)):
        return 10, 0, 0, 0, []
    pairs = method_us(now, goal, lengths) if method == 1 else method_gn(method, now, goal, lengths)
    if pairs is None:
        return 13, 0, 0, 0, []
    return 0, 0, len(pairs), len(misplaced(now, goal)), pairs


def deadlock(now: Yard, goal: Yard, space_len: int, lengths: Lengths = None) -> tuple[int, int, int, list[Row]]:
    """The deadlock test: number, place, count and the rows written, each as the yard stands when it stalls."""
    number, place = check(now, goal, lengths)
    if number != 0:
        return number, place, 0, []
    if space_len < deadlock_space(len(now)):
        return 10, 0, 0, []
    yard: Yard = list(now)
    while slab := constructive(yard, goal, lengths):
        yard = lifted(yard, slab, goal[slab - 1])
    if not misplaced(yard, goal):
        return 0, 0, 0, []
    found = loop(yard, goal)
    lowest = found.index(min(found))
    turned = found[lowest:] + found[:lowest]
    return 0, 0, len(turned), [row(yard, goal, s) for s in turned]


def lift_fault(yard: Yard, slab: int, destination: int, lengths: Lengths = None) -> int:
    """What is bad about a pair, by the tests in their order; 0 for a lift."""
    n = len(yard)
    if not 1 <= slab <= n or destination > n:
        return 1
    if not clear(yard, slab):
        return 2
    if yard[slab - 1] == destination:
        return 3
    if destination == slab or not clear(yard, destination):
        return 4
    return 6 if overhangs(lengths, slab, destination) else 0


def replay(now: Yard, goal: Yard, lifts: Sequence[int], lengths: Lengths = None) -> tuple[int, int, int]:
    """Replay: number, verdict and place; a refusal has no verdict, and the place is the refusal's."""
    number, place = check(now, goal, lengths)
    if number != 0:
        return number, NO_VERDICT, place
    if len(lifts) % 2 != 0:
        return 11, NO_VERDICT, 0
    yard: Yard = list(now)
    for k in range(len(lifts) // 2):
        slab, destination = lifts[2 * k], lifts[2 * k + 1]
        verdict = lift_fault(yard, slab, destination, lengths)
        if verdict != 0:
            return 0, verdict, k + 1
        yard = lifted(yard, slab, destination)
    for slab in slabs(yard):
        if yard[slab - 1] != goal[slab - 1]:
            return 0, 5, slab
    return 0, 0, 0


@functools.cache
def ways(n: int, k: int) -> int:
    """The ways to finish a yard with n piles not yet on the ground and k that are."""
    return 1 if n == 0 else ways(n - 1, k + 1) + (n - 1 + k) * ways(n - 1, k)


def arranged(n: int, r: int) -> list[int]:
    """The arrangement of n slabs that a number below `ways(n, 0)` turns into; piles are written from the foot up."""
    loose = [[slab] for slab in range(1, n + 1)]
    grounded: list[list[int]] = []
    for slab in range(1, n + 1):
        pile = next(pile for pile in loose if slab in pile)
        others = sorted([other for other in loose + grounded if other is not pile], key=lambda other: other[-1])
        with_it_grounded = ways(len(loose) - 1, len(grounded) + 1)
        with_one_fewer = ways(len(loose) - 1, len(grounded))
        loose.remove(pile)
        if r < with_it_grounded:
            grounded.append(pile)
        else:
            quotient, r = divmod(r - with_it_grounded, with_one_fewer)
            others[quotient].extend(pile)
    rests_on = {slab: below for pile in grounded for below, slab in itertools.pairwise([0, *pile])}
    return [rests_on[slab] for slab in range(1, n + 1)]


def next_seed(seed: int) -> int:
    """The next seed: shifted left 13, right 7, left 17, each time exclusive or with the value before, in 64 bits."""
    seed = (seed << 13 ^ seed) % 2**64
    seed = seed >> 7 ^ seed
    return (seed << 17 ^ seed) % 2**64


def training(n: int, r: int, space_len: int) -> tuple[int, int, list[int]]:
    """Training from a number: number of the refusal, place and the entries written."""
    if n > MOST_TRAINED:
        return 14, 0, []
    if not r < ways(n, 0):
        return 15, 0, []
    if space_len < n:
        return 10, 0, []
    return 0, 0, arranged(n, r)


def training_draw(seed: int, n: int, space_len: int) -> tuple[int, int, int, list[int]]:
    """Training by a generator: number of the refusal, place, the seed afterwards and the entries written."""
    if n > MOST_TRAINED:
        return 14, 0, seed, []
    if seed == 0:
        return 15, 0, seed, []
    if space_len < n:
        return 10, 0, seed, []
    after = next_seed(seed)
    return 0, 0, after, arranged(n, after % ways(n, 0))


def all_lifts(yard: Yard, lengths: Lengths = None) -> list[Pair]:
    """Every pair that is a lift in a yard."""
    return [(s, d) for s in slabs(yard) for d in range(len(yard) + 1) if is_lift(yard, s, d, lengths)]


@functools.cache
def yards_after(yard: tuple[int, ...], lengths: tuple[int, ...] | None = None) -> list[tuple[int, ...]]:
    """The yards that one lift leads to."""
    return [tuple(lifted(yard, slab, destination)) for slab, destination in all_lifts(yard, lengths)]


def shortest(now: Yard, goal: Yard, lengths: Lengths = None) -> int:
    """The fewest lifts of an accepted sheet of at most 7 slabs, by breadth-first search under the rule of lengths."""
    wished, rule = tuple(goal), None if lengths is None else tuple(lengths)
    far = {tuple(now): 0}
    waiting = deque(far)
    while waiting:
        yard = waiting.popleft()
        if yard == wished:
            return far[yard]
        for after in yards_after(yard, rule):
            if after not in far:
                far[after] = far[yard] + 1
                waiting.append(after)
    raise ValueError("the goal is not reached")


def deadlocked(now: Yard, goal: Yard) -> bool:
    """Whether some slabs are deadlocked: a cycle of "some d is beneath b' now and beneath b in the goal"."""
    left = set(misplaced(now, goal))
    lower = {s: set(beneath(now, s)) for s in left}
    wished = {s: set(beneath(goal, s)) for s in left}
    while True:
        waits = {b for b in left if any(wished[b] & lower[other] for other in left)}
        if waits == left:
            return bool(left)
        left = waits


def floor(now: Yard, goal: Yard) -> int:
    """A number of lifts that no list that arrives goes below: the misplaced slabs, and one more for a deadlock."""
    return len(misplaced(now, goal)) + deadlocked(now, goal)


def ringed(now: Yard, goal: Yard) -> list[int]:
    """The slabs that are in some deadlock: those from which such steps lead back to themselves."""
    left = misplaced(now, goal)
    steps = {b: [o for o in left if set(beneath(goal, b)) & set(beneath(now, o))] for b in left}
    found = []
    for slab in left:
        met: set[int] = set()
        ahead = list(steps[slab])
        while ahead:
            other = ahead.pop()
            if other not in met:
                met.add(other)
                ahead += steps[other]
        found += [slab] * (slab in met)
    return found


def shows_deadlock(now: Yard, goal: Yard, pairs: Sequence[Pair]) -> bool:
    """Whether the slabs of some pairs are deadlocked, each with the next one's d beside it."""
    if not pairs or any(slab not in slabs(now) for slab, _ in pairs):
        return False
    return all(
        not in_position(now, goal, slab) and d in beneath(goal, slab) and d in beneath(now, after)
        for (slab, d), (after, _) in zip(pairs, [*pairs[1:], pairs[0]])
    )
