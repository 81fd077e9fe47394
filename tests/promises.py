"""Demands 2 and 3 on a small accepted sheet: what a list, a count, a verdict and a deadlock answer keep, by search.

With lengths the comparison is with lists that are legal under their rule. Of a deadlock answer also document 02, Job 6:
where the good part of each goal pile ends when the yard stalls. And document 02, Job 4, on any accepted sheet: how many
lifts method 1 takes, and that no method takes more.
"""

from collections.abc import Mapping, Sequence
from typing import NamedTuple

import reading
from case import PLANNING, Answer, Case, paired
from reading import Lengths, Pair, Row, Yard


class Searched(NamedTuple):
    """A sheet with its fewest lifts, and whether some slabs are deadlocked at the start."""

    now: Yard
    goal: Yard
    lengths: Lengths
    fewest: int
    deadlocked: bool


def searched(now: Yard, goal: Yard, lengths: Lengths = None) -> Searched:
    """What search and definition say of a sheet of at most 7 slabs."""
    # Of an accepted sheet the fewest lifts are as many with lengths and without: a search that does not heed their rule
    # is not noticed by its number. Lists that do not heed it are noticed by `arrives`.
    fewest = reading.shortest(now, goal, lengths)
    return Searched(now, goal, lengths, fewest, reading.deadlocked(now, goal))


def arrives(sheet: Searched, pairs: Sequence[Pair]) -> bool:
    """Whether each pair in turn is a lift in the yard as those before it left it, and the end is the goal."""
    yard = list(sheet.now)
    for pair in pairs:
        if pair not in reading.all_lifts(yard, sheet.lengths):
            return False
        yard = reading.lifted(yard, *pair)
    return yard == list(sheet.goal)


def unkept_by_list(sheet: Searched, method: int, pairs: Sequence[Pair]) -> list[str]:
    """What the list of a method breaks: it arrives, in at most 2 × L lifts, or L without a deadlock."""
    wrong: list[str] = []
    if not arrives(sheet, pairs):
        wrong.append(f"method {method} does not arrive")
    at_once = method != 1 and not sheet.deadlocked
    if len(pairs) > (1 if at_once else 2) * sheet.fewest:
        wrong.append(f"method {method} takes {len(pairs)} lifts where {sheet.fewest} are enough")
    return wrong


def unkept_beside_us(named: int, lifts: Mapping[int, int]) -> list[str]:
    """What the lifts of the three methods break: 2 and 3 take no more than 1, which takes what document 02 names."""
    more = [f"method {m} takes {lifts[m]} lifts, method 1 {lifts[1]}" for m in (2, 3) if lifts[m] > lifts[1]]
    return more + [f"method 1 takes {lifts[1]} lifts, document 02 names {named}"] * (lifts[1] != named)


def stands(yard: Yard, goal: Yard, slab: int) -> bool:
    """Whether a slab is in position: from it down to the ground there is what is there in the goal."""
    return reading.beneath(yard, slab) == reading.beneath(goal, slab)


def when_stalled(sheet: Searched) -> list[int]:
    """The yard after all constructive lifts, the highest slab first: their order does not change where they end."""
    yard, goal = list(sheet.now), sheet.goal
    while True:
        wished = [lift for lift in reading.all_lifts(yard, sheet.lengths) if lift[1] == goal[lift[0] - 1]]
        home = [lift for lift in wished if stands(reading.lifted(yard, *lift), goal, lift[0])]
        if not home:
            return yard
        yard = reading.lifted(yard, *home[-1])


def misnamed(yard: Yard, goal: Yard, row: Row) -> bool:
    """Whether a row of a stalled yard names others than c, and beside it c where it carries a slab, else d.

    c is the ground or in position and beneath the slab in its goal pile, and every slab from that one down to c is not.
    """
    slab, through, c = row
    pile = [slab, *reading.beneath(goal, slab), 0]
    if c not in pile[1:]:
        return True
    above = pile[: pile.index(c)]
    ends = (c == 0 or stands(yard, goal, c)) and not any(stands(yard, goal, one) for one in above)
    return not ends or through != (c if c and c in yard else above[-1])


def unkept_by_test(sheet: Searched, rows: Sequence[Row]) -> list[str]:
    """What the rows of a deadlock answer break; and a deadlock costs every list a lift."""
    wrong: list[str] = []
    pairs = [(slab, through) for slab, through, _ in rows]
    if sheet.deadlocked and sheet.fewest <= len(reading.misplaced(sheet.now, sheet.goal)):
        wrong.append("a deadlock costs no lift")
    if bool(rows) != sheet.deadlocked or reading.shows_deadlock(sheet.now, sheet.goal, pairs) != sheet.deadlocked:
        return [*wrong, "the deadlock test differs from the definition"]
    if rows and rows[0] != min(rows):
        wrong.append("the loop is not written from its lowest number")
    yard = when_stalled(sheet)
    return wrong + [f"{row} in the stalled yard {yard}" for row in rows if misnamed(yard, sheet.goal, row)]


def unkept_by_count(sheet: Searched, misplaced: int) -> list[str]:
    """What the count of misplaced slabs breaks: no list is shorter; it is the fewest just without a deadlock."""
    if misplaced > sheet.fewest:
        return [f"{misplaced} are misplaced where {sheet.fewest} lifts are enough"]
    if (misplaced == sheet.fewest) == sheet.deadlocked:
        return [f"{misplaced} are misplaced, {sheet.fewest} lifts are the fewest, deadlocked: {sheet.deadlocked}"]
    return []


def unkept_by_verdict(sheet: Searched, lifts: Sequence[int], numbers: Sequence[int]) -> list[str]:
    """What a verdict breaks: it is 0 just where the list is legal and arrives."""
    right = len(lifts) % 2 == 0 and arrives(sheet, paired(lifts))
    return [f"{numbers} for a list of which it is {right} that it arrives"] if (numbers[:2] == (0, 0)) != right else []


def unkept(sheet: Searched, case: Case, made: Answer) -> list[str]:
    """What the answer to a case of planning, of the deadlock test or of replay breaks."""
    if case.operation in PLANNING:
        return unkept_by_list(sheet, case.method, made.pairs) + unkept_by_count(sheet, made.numbers[3])
    if case.operation == "deadlock":
        return unkept_by_test(sheet, made.rows)
    return unkept_by_verdict(sheet, case.lifts, made.numbers)
