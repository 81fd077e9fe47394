"""What tools/sheet should say of a sheet, in words and as objects, by the reading; and whether its claims are true.

And the training sheets that it should draw. Lengths change what a list may be and nothing that is said of it.
"""

import re
from collections.abc import Sequence
from typing import Any

import reading
from case import planning, read, testing
from reading import METHODS, VERDICTS, Lengths, Pair, Row, Yard
from tested import list_line, sheet_line

# So many slabs are named before the rest is only counted, and so many links of a ring are spelled out.
NAMED, LINKED = 12, 4

Object = dict[str, Any]


# ---- parts of sentences


def from_lowest(ring: Sequence[int]) -> list[int]:
    """A loop from its lowest number onward."""
    at = ring.index(min(ring))
    return [*ring[at:], *ring[:at]]


def numbered(slabs: Sequence[int], last: str = ", ") -> str:
    """Slabs by their numbers, the rest counted where they are many."""
    if len(slabs) > NAMED:
        return f"{', '.join(map(str, slabs[:NAMED]))} and {len(slabs) - NAMED} more"
    return ", ".join(map(str, slabs[:-1])) + (last if len(slabs) > 1 else "") + "".join(map(str, slabs[-1:]))


def apart(yard: Yard, goal: Yard, slab: int, loop: Sequence[int]) -> str:
    """How a slab that waits stands to a loop that it is not on."""
    leads = from_lowest(reading.visits(yard, goal, slab)[1])
    if leads == [slab]:
        return "is in its own way"
    if set(leads) == set(loop):
        return "waits on it"
    return f"{'is on' if slab in leads else 'waits on'} another loop, {numbered(leads)}"


def lift_words(number: int, slab: int, destination: int, why: str) -> str:
    """A lift with its reason."""
    return f"{number}. slab {slab} {f'onto {destination}' if destination else 'to the ground'}: {why}"


def right_lifts(method: int, now: Yard, goal: Yard, pairs: Sequence[Pair]) -> list[Object]:
    """Each lift of a method's list: home where it is constructive, else put down; the loop where it stalls."""
    said, yard = [], now
    for slab, destination in pairs:
        home = reading.is_constructive(yard, goal, slab) and destination == goal[slab - 1]
        stalled = bool(reading.misplaced(yard, goal)) and not reading.constructive(yard, goal)
        ring = ring_of(yard, goal) if stalled else []
        loop = [one for one, _, _ in ring]
        why = "home" if home else "put down, the first part of method 1"
        if not home and method != 1:
            other = "" if slab in loop else f"; {slab} {apart(yard, goal, slab, loop)}"
            why = f"stalled, loop {numbered(loop)}{other}"
        lift = {"slab": slab, "destination": destination, "home": home}
        said.append({**lift, "loop": [list(row) for row in ring], "reason": why})
        yard = reading.lifted(yard, slab, destination)
    return said


def reasons(method: int, now: Yard, goal: Yard, pairs: Sequence[Pair]) -> list[str]:
    """The line of each lift of a method's list."""
    each = enumerate(right_lifts(method, now, goal, pairs), 1)
    return [lift_words(number, lift["slab"], lift["destination"], lift["reason"]) for number, lift in each]


def ring_of(now: Yard, goal: Yard) -> list[Row]:
    """The rows of the deadlock test; none without a deadlock."""
    return read(testing(now, goal)).rows


def ring_words(now: Yard, goal: Yard) -> list[str]:
    """The links of the deadlock at the start, in words; none without one."""
    ring = ring_of(now, goal)
    if len(ring) == 1:
        return [f"{ring[0][0]} above {ring[0][1]} now and in the goal"]
    after = [*ring[1:], *ring[:1]]
    return [
        f"{slab} shall stand above {d}, and {other} stands above {d} now"
        for (slab, d, _), (other, _, _) in zip(ring, after)
    ]


def pile_words(now: Yard, goal: Yard) -> list[str]:
    """Up to where the goal pile of each slab of the deadlock is in position when the yard stalls."""
    said = []
    for slab, _, c in ring_of(now, goal):
        part = f"the goal pile of {slab} is in position up to {c}"
        said.append(part if c else f"nothing beneath {slab} in its goal pile is in position")
    return said


def counted(number: int, one: str, many: str) -> str:
    """A number with its noun."""
    return f"{number} {one if number == 1 else many}"


def named_slabs(slabs: Sequence[int], are: bool) -> str:
    """Slabs with their verb, or without it."""
    if len(slabs) == 1:
        return f"slab {slabs[0]}" + (" is" if are else "")
    return f"slabs {numbered(slabs, ' and ')}" + (" are" if are else "")


def deadlocked(now: Yard, goal: Yard) -> str:
    """The deadlock that the test shows, and why it is one; empty without one."""
    slabs, links = [slab for slab, _, _ in ring_of(now, goal)], ring_words(now, goal)
    why = "; ".join(links) if len(links) <= LINKED else f"a ring of {len(links)} slabs"
    return f"{named_slabs(slabs, True)} deadlocked ({why})" if slabs else ""


# ---- sentences


def right_floor(now: Yard, goal: Yard) -> str:
    """The sentence on what every list needs."""
    astray, ring = len(reading.misplaced(now, goal)), deadlocked(now, goal)
    text = f"at least {counted(reading.floor(now, goal), 'lift', 'lifts')}"
    return f"{text}: {counted(astray, 'slab is', 'slabs are')} misplaced" + (f", and {ring}" if ring else "")


def writers(methods: Sequence[int]) -> str:
    """Methods that write a list."""
    return f"method {methods[0]} writes" if len(methods) == 1 else f"methods {numbered(methods, ' and ')} write"


def right_length(now: Yard, goal: Yard, count: int) -> str:
    """The sentence on a list of so many lifts; `untrue` holds what such a sentence claims to the search."""
    astray = reading.misplaced(now, goal)
    if not astray:
        return "no lifts are needed: nothing is misplaced" + (f"; this list has {count}" if count else "")
    more = count - reading.floor(now, goal)
    counts = [len(read(planning(method, now, goal)).pairs) for method in METHODS]
    best = [method for method in METHODS if counts[method - 1] == min(counts) < count]
    about = "" if count - min(counts) == more else "at most "
    end = f"{about}{more} more than the shortest" if more else "so none is shorter"
    known = f"; {writers(best)} {min(counts)}" if best else ""
    return f"{right_floor(now, goal)}; this list has {count}, {end}{known}"


def untrue(now: Yard, goal: Yard, count: int, sentence: str, lengths: Lengths = None) -> str:
    """What a sentence on a list claims of the shortest one that the search does not find."""
    fewest = reading.shortest(now, goal, lengths)
    wrong = []
    if found := re.match(r"at least (\d+) lift", sentence):
        wrong += [found[0]] * (fewest < int(found[1]))
    if "none is shorter" in sentence or "no lifts are needed: nothing is misplaced" == sentence:
        wrong += ["none is shorter"] * (fewest != count)
    if found := re.search(r"(at most )?(\d+) more than the shortest", sentence):
        more = int(found[2])
        wrong += [found[0]] * (count - fewest > more or not found[1] and count - fewest != more)
    return f"{sheet_line(now, goal, lengths)}: {wrong}, and the shortest has {fewest}" if wrong else ""


def right_head(now: Yard, goal: Yard) -> str:
    """The row on the number of misplaced slabs, and what it means for every list."""
    (_, _, _, head), _ = read(planning(2, now, goal))
    means = "every list has more lifts" if reading.deadlocked(now, goal) else "the fewest lifts that could do"
    return f"{head} at the start, {means}"


def right_plan(method: int, now: Yard, goal: Yard, lengths: Lengths = None) -> str:
    """All that the tool should print of a plan, its lines unwrapped."""
    (_, _, count, _), pairs = read(planning(method, now, goal))
    counts = ", ".join(f"{len(read(planning(m, now, goal)).pairs)} by method {m}" for m in METHODS)
    rows = [
        f"list: {list_line(pairs) or 'no lifts'}",
        f"sheet: {sheet_line(now, goal, lengths)}",
        f"method: {method} ({('US', 'GN1', 'GN2')[method - 1]})",
        f"lifts: {counts}",
        f"misplaced: {right_head(now, goal)}",
    ]
    return "\n".join([right_length(now, goal, count), *reasons(method, now, goal, pairs), *rows])


def right_cost(now: Yard, goal: Yard) -> str:
    """What the deadlock at the start, or that there is none, means for every list."""
    astray = len(reading.misplaced(now, goal))
    are = counted(astray, "slab is", "slabs are")
    if reading.deadlocked(now, goal):
        return f"{are} misplaced, so every list that arrives has at least {astray + 1} lifts, one more than that"
    return f"{are} misplaced, and methods 2 and 3 lift each once: none is shorter"


def right_deadlock(now: Yard, goal: Yard, lengths: Lengths = None) -> str:
    """All that the tool should print of a deadlock test, its lines unwrapped."""
    ring = ring_of(now, goal)
    if ring:
        head = f"deadlock: {named_slabs([slab for slab, _, _ in ring], False)}"
        stalled = "once all constructive lifts are made and the yard stalls:"
        said = [head, *ring_words(now, goal), stalled, *pile_words(now, goal)]
    else:
        said = ["no deadlock" + ("" if reading.misplaced(now, goal) else ": nothing is misplaced")]
    cost = [right_cost(now, goal)] if reading.misplaced(now, goal) else []
    rows = f"rows: {', '.join(' '.join(map(str, row)) for row in ring) or 'none'}"
    return "\n".join([*said, *cost, rows, f"sheet: {sheet_line(now, goal, lengths)}"])


def right_accepted(now: Yard, goal: Yard, lengths: Lengths = None) -> str:
    """What is said of an accepted sheet first."""
    piles = [counted(list(yard).count(0), "pile", "piles") for yard in (now, goal)]
    long = "" if lengths is None else " with lengths"
    return f"accepted: {counted(len(now), 'slab', 'slabs')}{long}, {piles[0]} now and {piles[1]} in the goal"


def right_check(now: Yard, goal: Yard, lengths: Lengths = None) -> str:
    """All that the tool should print of an accepted sheet, its lines unwrapped."""
    astray, ring = reading.misplaced(now, goal), deadlocked(now, goal)
    some = f"{counted(len(astray), 'slab', 'slabs')} misplaced" + (f": {numbered(astray)}" if astray else "")
    said = [right_accepted(now, goal, lengths), some + (f"; {ring}" if ring else "")]
    return "\n".join([*said, f"sheet: {sheet_line(now, goal, lengths)}"])


def resting(support: int) -> str:
    """Where a slab rests."""
    return f"on {support}" if support else "on the ground"


def in_the_way(yard: Yard, slab: int, destination: int, verdict: int, lengths: Lengths = None) -> str:
    """What is in the way of a bad lift."""
    if verdict == 6 and lengths is not None:
        long, short = lengths[slab - 1], lengths[destination - 1]
        return f"slab {slab} is {long} cm long, and slab {destination} {short} cm"
    if verdict == 1:
        return f"there is no slab {f'{destination} to rest on' if slab in reading.slabs(yard) else slab}"
    if verdict == 2:
        return f"slab {list(yard).index(slab) + 1} rests on slab {slab}"
    if verdict == 3:
        return f"slab {slab} rests on {destination or 'the ground'} already"
    if destination == slab:
        return f"slab {slab} cannot rest on itself"
    return f"slab {list(yard).index(destination) + 1} rests on slab {destination}"


def right_verdict(now: Yard, goal: Yard, pairs: Sequence[Pair], lengths: Lengths = None) -> str:
    """What is said of a list first: the verdict, and the lift or the slab that it is about."""
    _, verdict, place = replayed(now, goal, pairs, lengths)
    if verdict == 0:
        return f"arrives: {counted(len(pairs), 'lift is', 'lifts are')} legal, and the end is the goal"
    yard = now
    for pair in pairs if verdict == 5 else pairs[: place - 1]:
        yard = reading.lifted(yard, *pair)
    if verdict == 5:
        rests, shall = resting(yard[place - 1]), resting(goal[place - 1])
        return f"{VERDICTS[5]}: slab {place} rests {rests} and shall rest {shall}"
    slab, destination = pairs[place - 1]
    way = in_the_way(yard, slab, destination, verdict, lengths)
    return f"lift {place}, {slab}→{destination}: {VERDICTS[verdict]}: {way}"


def replayed(now: Yard, goal: Yard, pairs: Sequence[Pair], lengths: Lengths = None) -> tuple[int, int, int]:
    """The reading's replay of some pairs."""
    return reading.replay(now, goal, [number for pair in pairs for number in pair], lengths)


def right_replay(now: Yard, goal: Yard, pairs: Sequence[Pair], lengths: Lengths = None) -> str:
    """All that the tool should print of a replay, its lines unwrapped."""
    _, verdict, place = replayed(now, goal, pairs, lengths)
    length = [right_length(now, goal, len(pairs))] if verdict == 0 else []
    rows = [f"verdict: {verdict}, place {place}", f"list: {list_line(pairs) or 'no lifts'}"]
    sheet = f"sheet: {sheet_line(now, goal, lengths)}"
    return "\n".join([right_verdict(now, goal, pairs, lengths), *length, *rows, sheet])


# ---- objects


def begun(command: str, now: Yard, goal: Yard, lengths: Lengths = None) -> Object:
    """What every object has of an accepted sheet."""
    return {"command": command, "sheet": sheet_line(now, goal, lengths), "name": "", "refusal": 0}


def ringed(now: Yard, goal: Yard) -> Object:
    """What most objects say of a sheet."""
    ring = [list(row) for row in ring_of(now, goal)]
    return {"misplaced": reading.misplaced(now, goal), "deadlock": ring, "floor": reading.floor(now, goal)}


def plan_object(method: int, now: Yard, goal: Yard, lengths: Lengths = None) -> Object:
    """The object of a plan."""
    (_, _, count, head), pairs = read(planning(method, now, goal))
    counts = {str(m): len(read(planning(m, now, goal)).pairs) for m in METHODS}
    numbers = {"method": method, "place": 0, "count": count, "head": head, "counts": counts}
    words = {"words": right_length(now, goal, count), "lifts": right_lifts(method, now, goal, pairs)}
    return {**begun("plan", now, goal, lengths), **ringed(now, goal), **numbers, **words}


def deadlock_object(now: Yard, goal: Yard, lengths: Lengths = None) -> Object:
    """The object of a deadlock test."""
    ring, astray = deadlocked(now, goal), reading.misplaced(now, goal)
    words = f"deadlock: {ring}" if ring else "no deadlock" + ("" if astray else ": nothing is misplaced")
    numbers = {"place": 0, "count": len(ring_of(now, goal))}
    said = {"words": words, "cost": right_cost(now, goal)}
    return {**begun("deadlock", now, goal, lengths), **ringed(now, goal), **numbers, **said}


def check_object(now: Yard, goal: Yard, lengths: Lengths = None) -> Object:
    """The object of an accepted sheet."""
    numbers = {"place": 0, "slabs": len(now), "words": right_accepted(now, goal, lengths)}
    return {**begun("check", now, goal, lengths), **ringed(now, goal), **numbers}


def replay_object(now: Yard, goal: Yard, pairs: Sequence[Pair], lengths: Lengths = None) -> Object:
    """The object of a replay."""
    _, verdict, place = replayed(now, goal, pairs, lengths)
    numbers = {"verdict": verdict, "place": place, "count": len(pairs), "list": list_line(pairs)}
    length = right_length(now, goal, len(pairs)) if verdict == 0 else ""
    words = {"words": right_verdict(now, goal, pairs, lengths), "length": length}
    return {**begun("replay", now, goal, lengths), **numbers, **words}


# ---- training


def all_of(n: int) -> str:
    """How many arrangements so many slabs have."""
    return f"{counted(n, 'slab has', 'slabs have')} {counted(reading.ways(n, 0), 'arrangement', 'arrangements')}"


def arranged_object(n: int, number: int) -> Object:
    """The object of an arrangement that has a number."""
    line, words = " ".join(map(str, reading.arranged(n, number))), f"{all_of(n)}: this is number {number}"
    told = {"command": "train", "slabs": n, "number": str(number), "arrangement": line}
    return {**told, "refusal": 0, "place": 0, "words": words}


def trained_objects(n: int, seed: int, count: int) -> list[Object]:
    """The objects of the sheets that a seed draws: two draws each, one sheet after the other."""
    found = []
    for _ in range(count):
        _, _, between, now = reading.training_draw(seed, n, n)
        _, _, after, goal = reading.training_draw(between, n, n)
        first, second = (drawn % reading.ways(n, 0) for drawn in (between, after))
        words = f"{all_of(n)}: number {first} now, number {second} in the goal"
        seeds = {"seed": str(seed), "next": str(after), "numbers": [first, second]}
        found.append({**begun("train", now, goal), "place": 0, "slabs": n, **seeds, "words": words})
        seed = after
    return found
