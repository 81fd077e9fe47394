"""What the library says of a sheet and of a list: how short a list can be, what is misplaced and what waits before and
after each lift, and why a method makes it.

Nothing is planned here. Misplaced slabs, stalls, and loops with c of their slabs are read off the library's answers to
the yard as it stands. What is worked out beside them, d and who is in whose way, is held to the rows of the deadlock
test; c of a slab that waits and is not on the loop is worked out from the misplaced slabs.
"""

import itertools
from collections.abc import Iterator, Sequence
from typing import NamedTuple

from lines import Fault, Lift, Sheet, counted
from rules import METHODS, VERDICTS
from topjeska import Lent, Library, Row

# So many slabs of a loop are named before the rest is only counted.
NAMED = 12

# What is said of a slab whose successors lead to the loop of its yard.
WAITS = "waits on it"


class Wait(NamedTuple):
    """A misplaced clear slab of a stalled yard: c and d of document 01, which of them its successor is above, it."""

    slab: int
    c: int
    d: int
    through: int
    successor: int


class Frame(NamedTuple):
    """A yard, its misplaced slabs, and, where it is stalled, the loop as the deadlock test writes it."""

    yard: list[int]
    misplaced: set[int]
    loop: list[Row]


class Step(NamedTuple):
    """A lift: whether the slab is in position after it, and the loop where the yard before it is stalled.

    Of a slab that is put down there, `leads` is the loop that its successors lead to: the one above, or another.
    """

    slab: int
    destination: int
    home: bool
    loop: list[Row]
    leads: list[int]


class Told(NamedTuple):
    """An accepted sheet: how many slabs are misplaced, and which; a deadlock at the start or none; lifts by method."""

    sheet: Sheet
    head: int
    misplaced: list[int]
    ring: list[Row]
    counts: dict[int, int]

    def floor(self) -> int:
        """No list that arrives is shorter: theorems `HeadCount.floor` and `Promise.costs`."""
        return self.head + bool(self.ring)


# ---- the library's answers


def told(library: Library, sheet: Sheet) -> Told:
    """What the library says of an accepted sheet."""
    plans = {method: library.plan(method, sheet) for method in METHODS}
    misplaced = sorted(set(plans[2].slabs()))
    counts = {method: len(plan.slabs()) for method, plan in plans.items()}
    return Told(sheet, plans[2].misplaced, misplaced, library.deadlock(sheet).rows, counts)


def frame(library: Library, given: Lent) -> Frame:
    """A yard by the library's answers to it.

    Method 2 lifts the misplaced slabs and no others. It begins with a put-down where the yard is stalled and nowhere
    else, and a slab is put down exactly where it is lifted again. The deadlock test of a stalled yard is its loop.
    """
    slabs = library.plan_of(2, given).slabs()
    stalled = len(slabs) > 0 and slabs.count(slabs[0]) > 1
    return Frame(given.now.tolist(), set(slabs), library.deadlock_of(given).rows if stalled else [])


def frames(library: Library, sheet: Sheet, lifts: Sequence[Lift]) -> Iterator[Frame]:
    """The yard before the first lift, and after each; the lifts must be legal."""
    given = Lent.of(sheet)
    yield frame(library, given)
    for slab, destination in lifts:
        given.now[slab - 1] = destination
        yield frame(library, given)


def steps(library: Library, sheet: Sheet, lifts: Sequence[Lift]) -> Iterator[Step]:
    """Each lift of a legal list."""
    each = frames(library, sheet, lifts)
    before = next(each)
    for (slab, destination), after in zip(lifts, each):
        home = slab not in after.misplaced
        waits_there = before.loop and not home and slab in before.misplaced
        leads = led(before, sheet.goal, slab) if waits_there else []
        yield Step(slab, destination, home, before.loop, leads)
        before = after


# ---- who is in whose way


class Stall:
    """A stalled yard: what rests on each slab that carries one, and what the deadlock test names of the loop."""

    def __init__(self, stalled: Frame, goal: Sequence[int]) -> None:
        """Reads both off; of a slab on the loop the one in between, c and the next one are named."""
        self.stalled, self.goal, loop = stalled, goal, stalled.loop
        self.carried = {support: slab for slab, support in enumerate(stalled.yard, 1) if support}
        self.named = {row[0]: (*row[1:], after[0]) for row, after in zip(loop, turned(loop))}

    def down(self, slab: int) -> Iterator[int]:
        """The goal pile of a slab from it to the ground."""
        yield slab
        while slab:
            slab = self.goal[slab - 1]
            yield slab

    def c(self, slab: int) -> int:
        """c of a slab that waits: on the loop what the deadlock test names, else the first that is not misplaced."""
        if slab in self.named:
            return self.named[slab][1]
        return next(one for one in self.down(slab) if one not in self.stalled.misplaced)

    def wait(self, slab: int) -> Wait:
        """What a slab waits for, which on the loop must be what the deadlock test names."""
        c = self.c(slab)
        d = next((one for one, below in itertools.pairwise(self.down(slab)) if below == c), 0)
        through = successor = c if c in self.carried else d
        while successor in self.carried:
            successor = self.carried[successor]
        if not d or self.named.get(slab, (through, c, successor)) != (through, c, successor):
            raise Fault(f"slab {slab}: what waits does not agree with the deadlock test {self.stalled.loop}")
        return Wait(slab, c, d, through, successor)


def waits(stalled: Frame, goal: Sequence[int]) -> list[Wait]:
    """All that wait in a stalled yard, lowest number first."""
    stall = Stall(stalled, goal)
    return [stall.wait(slab) for slab in sorted(stalled.misplaced) if slab not in stall.carried]


def led(stalled: Frame, goal: Sequence[int], slab: int) -> list[int]:
    """The loop that the successors of a slab that waits lead to, from its lowest number onward."""
    stall, visited = Stall(stalled, goal), {}
    while slab not in visited:
        visited[slab] = len(visited)
        slab = stall.wait(slab).successor
    loop = list(visited)[visited[slab] :]
    at = loop.index(min(loop))
    return [*loop[at:], *loop[:at]]


def standing(slab: int, leads: Sequence[int], loop: Sequence[Row]) -> str:
    """How a slab that waits stands to the loop of its yard, by the loop that its successors lead to."""
    if leads == slabs_of(loop):
        return "on the loop" if slab in leads else WAITS
    return "on another loop" if slab in leads else "waits on another loop"


def slabs_of(ring: Sequence[Row]) -> list[int]:
    """The slabs of a ring."""
    return [slab for slab, _, _ in ring]


def turned(ring: list[Row]) -> list[Row]:
    """A ring from its second slab on: beside each slab stands the next."""
    return [*ring[1:], *ring[:1]]


# ---- in words


def listed(slabs: Sequence[int], last: str = ", ") -> str:
    """Slabs by their numbers, the rest counted where they are many."""
    if len(slabs) > NAMED:
        return f"{', '.join(map(str, slabs[:NAMED]))} and {len(slabs) - NAMED} more"
    return last.join(filter(None, [", ".join(map(str, slabs[:-1])), *map(str, slabs[-1:])]))


def links(ring: list[Row]) -> list[str]:
    """How each slab of a ring is in the way of the one before it, in words."""
    if len(ring) == 1:
        return [f"{ring[0][0]} above {ring[0][1]} now and in the goal"]
    return [
        f"{slab} shall stand above {through}, and {after} stands above {through} now"
        for (slab, through, _), (after, _, _) in zip(ring, turned(ring))
    ]


def good_parts(ring: list[Row]) -> list[str]:
    """Up to where the goal pile of each slab of a ring is in position when the yard stalls, in words."""
    some, none = "the goal pile of {} is in position up to {}", "nothing beneath {} in its goal pile is in position"
    return [(some if c else none).format(slab, c) for slab, _, c in ring]


def deadlocked(ring: list[Row]) -> str:
    """The slabs of a deadlock, and why they are one."""
    slabs = slabs_of(ring)
    who = f"slab {slabs[0]} is" if len(slabs) == 1 else f"slabs {listed(slabs, ' and ')} are"
    why = "; ".join(links(ring)) if len(ring) <= NAMED // 3 else f"a ring of {len(ring)} slabs"
    return f"{who} deadlocked ({why})"


def lifts_in_words(number: int) -> str:
    """A number of lifts."""
    return counted(number, "lift", "lifts")


def floor_in_words(about: Told) -> str:
    """How many lifts every list that arrives has at least, and why."""
    astray = counted(about.head, "slab is", "slabs are")
    cost = f", and {deadlocked(about.ring)}" if about.ring else ""
    return f"at least {lifts_in_words(about.floor())}: {astray} misplaced{cost}"


def length_in_words(about: Told, count: int) -> str:
    """How short a list of so many lifts is, and why."""
    if not about.misplaced:
        return "no lifts are needed: nothing is misplaced" + (f"; this list has {count}" if count else "")
    floor, fewest = about.floor(), min(about.counts.values())
    if count == floor:
        return f"{floor_in_words(about)}; this list has {count}, so none is shorter"
    best = [method for method, number in about.counts.items() if number == fewest < count]
    known = f"; {methods_in_words(best)} {fewest}" if best else ""
    if fewest == floor:
        return f"{floor_in_words(about)}; this list has {count}, {count - floor} more than the shortest{known}"
    gap = f"at most {count - floor} more than the shortest"
    return f"{floor_in_words(about)}; this list has {count}, {gap}{known}"


def methods_in_words(methods: Sequence[int]) -> str:
    """Who writes a list."""
    return f"method {methods[0]} writes" if len(methods) == 1 else f"methods {listed(methods, ' and ')} write"


def lift_in_words(slab: int, destination: int) -> str:
    """A lift."""
    return f"slab {slab} " + (f"onto {destination}" if destination else "to the ground")


def reason(method: int, step: Step) -> str:
    """Why a method makes a lift: it brings the slab home, or puts it down."""
    if step.home:
        return "home"
    if method == 1:
        return "put down, the first part of method 1"
    slabs = slabs_of(step.loop)
    if step.slab in slabs:
        return f"stalled, loop {listed(slabs)}"
    return f"stalled, loop {listed(slabs)}; {step.slab} {apart(step.slab, step.leads, step.loop)}"


def apart(slab: int, leads: Sequence[int], loop: Sequence[Row]) -> str:
    """How a slab that waits and is not on the loop of its yard stands to it."""
    if leads == [slab]:
        return "is in its own way"
    how = standing(slab, leads, loop)
    return how if how == WAITS else f"{'' if how.startswith('waits') else 'is '}{how}, {listed(leads)}"


def long(sheet: Sheet, slab: int) -> str:
    """The length of a slab of a sheet that has lengths."""
    return f"{(sheet.lengths or [])[slab - 1]} cm"


def verdict_in_words(sheet: Sheet, lifts: Sequence[Lift], verdict: int, place: int) -> str:
    """A verdict of replay with the lift or the slab it is about, and what lies in the way."""
    if verdict == 0:
        return f"arrives: {counted(len(lifts), 'lift is', 'lifts are')} legal, and the end is the goal"
    yard = list(sheet.now)
    for slab, destination in lifts if verdict == 5 else lifts[: place - 1]:
        yard[slab - 1] = destination
    n = len(yard)
    if verdict == 5:
        rests, shall = (f"on {s}" if s else "on the ground" for s in (yard[place - 1], sheet.goal[place - 1]))
        return f"{VERDICTS[5].words}: slab {place} rests {rests} and shall rest {shall}"
    slab, destination = lifts[place - 1]
    details = {
        1: lambda: f"there is no slab {slab}" if not 1 <= slab <= n else f"there is no slab {destination} to rest on",
        2: lambda: f"slab {yard.index(slab) + 1} rests on slab {slab}",
        3: lambda: f"slab {slab} rests on {destination or 'the ground'} already",
        4: lambda: f"slab {yard.index(destination) + 1} rests on slab {destination}"
        if destination != slab
        else f"slab {slab} cannot rest on itself",
        6: lambda: f"slab {slab} is {long(sheet, slab)} long, and slab {destination} {long(sheet, destination)}",
    }
    return f"lift {place}, {slab}→{destination}: {VERDICTS[verdict].words}: {details[verdict]()}"
