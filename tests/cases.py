"""Makes the cases of crates/library_cases from the reading of documents 01 and 02 in reading.py.

Without an argument it writes the program's stdin and stdout. With --check it makes them in memory
and compares them with the stored files. The answers come from the reading, never from the program;
those of some full yards in closed form, which the reading confirms for few slabs. The reading is
held to what the documents state, to sheets by hand, and on small sheets to demand 3 by a breadth-first search.
"""

import itertools
import random
import sys
from collections.abc import Iterator, Sequence
from pathlib import Path

import promises
import reading
import sheets
from case import SPACED, Case, by_all, checking, flat, following, line, planning, read, replaying, testing
from reading import MOST, TOP, Pair, Yard, deadlock_space, plan_space, position
from sheets import ENDS, SEED, Known, tower

HERE = Path(__file__).resolve().parent.parent / "crates" / "library_cases"
RANDOM_CASES = 300
SEARCHED = 6
SHOWN = 16

# The operations as a frame numbers them.
NUMBERS = {"check": 1, "replay": 2, "plan": 3, "deadlock": 4}

# Lists of unequal lengths.
UNEQUAL: list[tuple[list[int], list[int]]] = [([], [0]), ([0], []), ([0, 0], [0]), ([0], [0, 0]), ([9, 9], [9])]


def frame(case: Case) -> bytes:
    """The bytes of a case: operation, three lengths, three lists, 16 bits each, high byte first."""
    # The third list has the lifts, or the method and the length of the space.
    lists = (case.now, case.goal, [case.method, case.space] if case.operation in SPACED else case.lifts)
    numbers = [NUMBERS[case.operation], *map(len, lists), *itertools.chain(*lists)]
    return b"".join(number.to_bytes(2, "big") for number in numbers)


def as_line(*numbers: int) -> str:
    """An answer as the program writes it."""
    return " ".join(map(str, numbers)) + "\n"


def checksum(numbers: Sequence[int]) -> int:
    """The polynomial with these coefficients at 65599, modulo the largest prime below 2^32."""
    total = 0
    for number in numbers:
        total = (total * 65599 + number) % 4294967291
    return total


def space_after(length: int, written: Sequence[tuple[int, ...]]) -> list[int]:
    """What the program tells of a space with some pairs or rows written: its checksum and the first of them."""
    front = flat(written)
    space = [*front, *range(TOP - len(front), TOP - length, -1)]
    return [checksum(space), *flat(written[:SHOWN])]


def answer(case: Case) -> str:
    """What the reading answers, as the program writes it."""
    numbers, written = read(case)
    return as_line(*numbers, *(space_after(case.space, written) if case.operation in SPACED else []))


# The other answers that document 01 states.
STATED: list[tuple[Case, str]] = [
    *((checking(now, goal), as_line(number, place)) for now, goal, number, place in sheets.REFUSED),
    (checking([0] * MOST, [0] * MOST), "0 0\n"),
    (checking([0] * (MOST + 1), []), "2 0\n"),
    (replaying([2, 0], [0, 1]), "0 5 1\n"),
    *((checking(end.now, end.goal), "0 0\n") for end in ENDS),
    *((following(end.now, end.goal, end.pairs), "0 0 0\n") for end in ENDS),
]


def misread() -> list[str]:
    """Where the reading differs from what the documents state; empty when it agrees."""
    wrong = [f"{line(case)}: {answer(case)}" for case, wished in STATED if answer(case) != wished]
    for now, goal, method, pairs, loop in ENDS:
        (number, place, count, _), written = read(planning(method, now, goal))
        if (number, place, count, written) != (0, 0, len(pairs), pairs):
            wrong.append(f"method {method} on {now} / {goal}")
        scant = plan_space(len(now)) - 1
        if now and read(planning(method, now, goal, scant)) != ((10, 0, 0, 0), []):
            wrong.append(f"too little space for {now} / {goal}")
        if loop is not None and read(testing(now, goal)) != ((0, 0, len(loop)), loop):
            wrong.append(f"deadlock of {now} / {goal}")
        if now and read(testing(now, goal, 3 * len(now) - 1)) != ((10, 0, 0), []):
            wrong.append(f"too little space for the deadlock of {now} / {goal}")
        if read(testing(now, goal, 3 * len(now))).numbers[0] != 0:
            wrong.append(f"enough space for the deadlock of {now} / {goal}")
    for now, goal, lifts, astray in sheets.COUNTS:
        (_, _, count, misplaced), _ = read(planning(1, now, goal))
        if lifts not in (None, count) or astray not in (None, misplaced):
            wrong.append(f"counts of {now} / {goal}")
    return wrong


def misnamed() -> list[str]:
    """Where the reading differs from what is found by hand of c, at the start and when the yard stalls."""
    wrong = []
    for now, goal, rows, at_start in sheets.GOOD_PARTS:
        if read(testing(now, goal)) != ((0, 0, len(rows)), rows):
            wrong.append(f"the rows of {now} / {goal}")
        if [position(now, goal, slab) for slab, _, _ in rows] != at_start:
            wrong.append(f"c at the start of {now} / {goal}")
    return wrong


def broken(now: Yard, goal: Yard) -> list[str]:
    """Where the reading breaks demands 2 and 3 or document 02, Job 4, on a small accepted sheet; empty when nowhere."""
    sheet, wrong, lifts = promises.searched(now, goal), [], {}
    for case in by_all(now, goal):
        made = read(case)
        lifts |= {case.method: len(made.written)} if case.operation == "plan" else {}
        if made.numbers[0] != 0 or made.numbers[2] != len(made.written):
            wrong.append(f"{case.operation} is refused, or counts others than it writes")
        wrong += promises.unkept(sheet, case, made)
    wrong += promises.unkept_beside_us(reading.all_down(now, goal, reading.misplaced(now, goal)), lifts)
    return [f"{now} / {goal}: {sentence}" for sentence in wrong]


def sizes() -> Iterator[Case]:
    """No slabs, unequal lengths, a full yard."""
    for lifts in ([], [1], [1, 0], [0, 0], [1, 0, 1], [TOP, TOP]):
        yield replaying([], [], lifts)
    for now, goal in UNEQUAL:
        yield checking(now, goal)
        yield replaying(now, goal, [1])
    yield replaying([0] * MOST, [TOP], [1])
    yield replaying([0] * MOST, tower(MOST), [MOST])


def faulty(question: int, n: int, first: bool) -> list[int]:
    """An arrangement that fails question 4, 5 or 6 at its first or last possible place, and not before it."""
    if question == 4:
        return [n + 1] * n if first else [0] * (n - 1) + [TOP]
    if question == 5:
        return [n] * (n - 1) + [0 if n > 2 else 2] if first else [2] + [0] * (n - 2) + [2]
    return [*range(2, n + 1), 1] if first else [*tower(n - 1), n]


def refusals() -> Iterator[Case]:
    """Each refusal of an arrangement at its first and last possible place, in either list; and odd lists."""
    for n, question, first in itertools.product((1, 2, 5, MOST), (4, 5, 6), (True, False)):
        if n == 1 and question == 5:
            continue
        bad = faulty(question, n, first)
        other = faulty(4, n, True)
        sound = tower(n) if n < MOST else [0] * n
        if n == MOST and first:
            yield checking(bad, other)
            yield checking(sound, bad)
        elif n == MOST:
            yield replaying(bad, other, [1])
            yield replaying(sound, bad, [1])
        else:
            for now, goal in ((bad, sound), (bad, other), (sound, bad)):
                yield checking(now, goal)
                yield replaying(now, goal, [1])
                yield replaying(now, goal, [0, TOP])
    for n, lifts in itertools.product((1, 2, 5), ([1], [1, 0, TOP], [1, 0, TOP] * 7)):
        yield replaying(tower(n), [0] * n, lifts)


def small_lists() -> Iterator[Case]:
    """Every two lists of one or two entries up to n + 1; every list of three as now and as goal."""
    for n in (1, 2):
        lists = list(itertools.product(range(n + 2), repeat=n))
        yield from itertools.starmap(checking, itertools.product(lists, lists))
    for entries in itertools.product(range(5), repeat=3):
        yield checking(entries, [0, 1, 2])
        yield checking([0, 1, 2], entries)


def order() -> Iterator[Case]:
    """Sheets with several faults: the first question decides, and in it the lowest place."""
    for now, goal in itertools.product(
        ([0, 0, 0, 0, 6], [2, 2, 0, 0, 6], [0, 4, 0, 4, 5], [0, 0, 4, 3, 5], [0, 3, 2, 3, 5]),
        ([0, 0, 0, 0, 0], [0, 0, 0, 0, 6], [3, 3, 0, 0, 6], [3, 3, 5, 0, 5], [2, 1, 0, 0, 5]),
    ):
        yield checking(now, goal)
        yield checking(goal, now)
        yield replaying(goal, now, [1])


def small_lifts() -> Iterator[Case]:
    """Every pair from every yard of at most three slabs, up to n + 1 for at most two; a lift arrives."""
    for n, numbers in ((1, range(3)), (2, range(4)), (3, range(4))):
        for now in sheets.arrangements(n):
            for slab, destination in itertools.product(numbers, repeat=2):
                legal = reading.lift_fault(now, slab, destination) == 0
                goal = reading.lifted(now, slab, destination) if legal else now
                yield following(now, goal, [(slab, destination)])


def bad_pairs(yard: Yard) -> list[Pair]:
    """Pairs that are no lifts in a yard: for each test, and for several at once."""
    n = len(yard)
    outside = [*itertools.product((0, n + 1, TOP), (0, n + 1)), *itertools.product((1, n), (n + 1, TOP))]
    inside = itertools.product(range(1, n + 1), range(n + 1))
    return outside + [(s, d) for s, d in inside if not reading.is_lift(yard, s, d)]


def bad_lifts() -> Iterator[Case]:
    """Right lists with a bad pair in place of the first, the middle and the last, the later ones kept."""
    for now, goal, _, pairs, _ in (ENDS[2], ENDS[6]):
        for k in (0, len(pairs) // 2, len(pairs) - 1):
            yard: Yard = now
            for slab, destination in pairs[:k]:
                yard = reading.lifted(yard, slab, destination)
            for bad in bad_pairs(yard):
                yield following(now, goal, [*pairs[:k], bad, *pairs[k + 1 :]])


def other_ends() -> Iterator[Case]:
    """Legal lists that end elsewhere: the lowest differing slab is the first, a middle and the last."""
    for slab in range(1, 6):
        support = 5 if slab != 5 else 4
        goal = reading.lifted([0] * 5, slab, support)
        yield following([0] * 5, goal, [])
        yield following(goal, [0] * 5, [])
        yield following([0] * 5, goal, [(slab, support), (slab, 0)])
        yield following([0] * 5, goal, [(slab, support)])
    yield following([0] * 5, [0, 1, 2, 3, 4], [(2, 1), (3, 2), (4, 3)])
    yield following([0] * 5, [0, 1, 2, 3, 4], [(2, 1), (4, 3), (5, 4)])


def changed_lists(rng: random.Random) -> Iterator[Case]:
    """Right lists: as they are, cut, doubled, with one pair changed, with two exchanged, with a detour."""
    for now, goal, _, pairs, _ in (ENDS[k] for k in (1, 2, 5, 6, 8)):
        yield following(now, goal, pairs[:-1])
        yield following(now, goal, pairs[1:])
        yield following(now, goal, pairs + pairs)
        yard: Yard = now
        for k, (slab, destination) in enumerate(pairs):
            yield following(now, goal, [*pairs[:k], (slab, rng.randint(0, len(now))), *pairs[k + 1 :]])
            yield following(now, goal, [*pairs[:k], (rng.randint(1, len(now)), destination), *pairs[k + 1 :]])
            yield following(now, goal, [*pairs[:k], *pairs[k : k + 2][::-1], *pairs[k + 2 :]])
            away, to = rng.choice(reading.all_lifts(yard))
            detour = [(away, to), (away, yard[away - 1])]
            yield following(now, goal, [*pairs[:k], *detour, *pairs[k:]])
            yield following(now, goal, [*pairs[:k], *detour[:1], *pairs[k:]])
            yard = reading.lifted(yard, slab, destination)


def long_lists() -> Iterator[Case]:
    """Lists longer than any that planning writes, right and with the last pair bad."""
    there_and_back = [(2, 1), (2, 0)] * 150
    yield following([0, 0], [0, 1], [*there_and_back, (2, 1)])
    yield following([0, 0], [0, 0], [*there_and_back, (2, 0)])


def led_away(rng: random.Random, goal: Yard, steps: int) -> tuple[list[int], list[Pair]]:
    """Where some random lifts lead, and the list that leads back."""
    walk = sheets.Walk(rng, goal)
    made = walk.lifts(steps, walk.any_pair)
    return walk.yard, [(slab, rested) for slab, _, rested in reversed(made)]


def full_sheet(rng: random.Random) -> tuple[list[int], list[int], list[Pair]]:
    """As many slabs as a sheet may have, in random piles a few lifts from the goal, and these lifts."""
    goal = sheets.random_piles(rng, MOST)
    now, pairs = led_away(rng, goal, 12)
    return now, goal, pairs


def random_case(rng: random.Random, kind: int) -> Case:
    """A small random sheet with a random list of one of six kinds."""
    n = rng.randint(2 if kind == 4 else 0, 6)
    now, goal = sheets.random_piles(rng, n), sheets.random_piles(rng, n)
    pairs = read(planning(rng.randint(1, 3), now, goal)).pairs
    if kind == 0:
        pairs = [(rng.randint(min(n, 1), n), rng.randint(0, n)) for _ in range(rng.randint(0, 5))]
        return following(now, goal, pairs)
    if kind == 1:
        return following(now, goal, pairs)
    if kind == 2 and pairs:
        pairs[rng.randrange(len(pairs))] = rng.randint(0, n), rng.randint(0, n)
        return following(now, goal, pairs)
    if kind == 3:
        return following(now, goal, pairs[: rng.randint(0, len(pairs))])
    if kind == 4:
        now, pairs = led_away(rng, goal, rng.randint(0, 8))
        return following(now, goal, pairs)
    for yard in (now, goal):
        if n > 0 and rng.randint(0, 1) == 0:
            yard[rng.randrange(n)] = rng.randint(0, n + 1)
    return checking(now, goal) if rng.randint(0, 1) == 0 else following(now, goal, pairs)


def stated_plans() -> Iterator[Case]:
    """Every sheet of document 01 by every method and the deadlock test, and the sheets of the loop and of c."""
    for now, goal in sheets.STATED:
        yield from by_all(now, goal)
    for now, goal, _, _ in sheets.REFUSED:
        yield from by_all(now, goal)
        yield from by_all(goal, now)
    for now, goal in (*sheets.TRIALS, *(part.sheet() for part in sheets.GOOD_PARTS)):
        yield from by_all(now, goal)
        yield from by_all(goal, now)


def bad_methods() -> Iterator[Case]:
    """Question 1 before all others: numbers that are no method on sound and bad sheets, with and without space."""
    for method in (0, 4, 5, 256, 257, TOP):
        for now, goal in (([], []), ([2, 0], [0, 1]), ([2, 0], [0]), ([3, 3], [0, 0]), ([0, 0], [2, 1])):
            yield planning(method, now, goal)
            yield planning(method, now, goal, 0)
    yield planning(0, [0] * (MOST + 1), [TOP])
    yield planning(4, [0] * MOST, [0] * MOST)


def spaces() -> Iterator[Case]:
    """Question 10: spaces about 4 × n and 3 × n, also 2 × n, with and without a deadlock, up to a full yard."""
    for now, goal, _, _, _ in (ENDS[k] for k in (0, 1, 2, 5, 6)):
        n = len(now)
        enough = (deadlock_space(n), plan_space(n))
        edges = {0, 1, n, 2 * n, *(size + d for size in enough for d in (-1, 0, 1, 99))}
        for length in sorted(edges - {-1}):
            yield from by_all(now, goal, length)
    yield planning(1, [0], [0], 3)
    yield planning(1, [0], [0], 4)
    yield testing([0], [0], 2)
    yield testing([0], [0], 3)
    full = [0] * MOST, [0] * (MOST - 1) + [1]
    for length in (plan_space(MOST) - 1, plan_space(MOST), 16384):
        yield planning(2, *full, length)
    for length in (2 * MOST, deadlock_space(MOST) - 1, deadlock_space(MOST)):
        yield testing(*full, length)


def plan_refusals() -> Iterator[Case]:
    """Questions 2 to 9 at their first and last places, alone and before question 10, by all."""
    for now, goal in UNEQUAL:
        for length in (0, 8):
            yield from by_all(now, goal, length)
    for n, question, first in itertools.product((1, 2, 5), (4, 5, 6), (True, False)):
        if n == 1 and question == 5:
            continue
        bad, other = faulty(question, n, first), faulty(4, n, True)
        for now, goal in ((bad, tower(n)), (bad, other), (tower(n), bad)):
            yield from by_all(now, goal)
            yield planning(2, now, goal, plan_space(n) - 1)
            yield testing(now, goal, deadlock_space(n) - 1)
    for now, goal in itertools.product(
        ([0, 0, 0, 0, 0], [2, 2, 0, 0, 6], [0, 4, 0, 4, 5], [0, 0, 4, 3, 5]),
        ([0, 0, 0, 0, 6], [3, 3, 5, 0, 5], [2, 1, 0, 0, 5]),
    ):
        yield from by_all(now, goal)
        yield planning(3, now, goal, 0)
        yield testing(now, goal, 0)
    full, over = [0] * MOST, [0] * (MOST + 1)
    yield planning(2, over, [TOP], 0)
    yield planning(2, over, over)
    yield testing(over, over)
    yield planning(3, full, over)
    yield planning(1, full, faulty(6, MOST, True))
    yield testing(full, faulty(5, MOST, False), 0)


def larger_plans() -> Iterator[Case]:
    """Random sheets of 100 to 400 slabs, and a full yard a few lifts from its goal."""
    rng = random.Random(SEED)
    for n, kind in ((100, 0), (100, 1), (100, 2), (150, 0), (200, 2), (250, 0), (300, 1), (400, 2)):
        yield from by_all(*sheets.random_sheet(rng, n, kind))
    now, goal, _ = full_sheet(rng)
    yield from by_all(now, goal)


def known_answers(known: Known) -> Iterator[tuple[Case, str]]:
    """The cases of a sheet in closed form with their answers."""
    for case in by_all(known.now, known.goal):
        planned = case.operation == "plan"
        written = known.pairs(case.method) if planned else known.loop
        more = [known.misplaced()] if planned else []
        yield case, as_line(0, 0, len(written), *more, *space_after(case.space, written))


def misknown() -> list[str]:
    """Where the reading differs from a closed form for few slabs; empty when it agrees."""
    return [
        f"{make.__name__}: {line(case)}"
        for make, few in sheets.KNOWN
        for n in few
        for case, told in known_answers(make(n))
        if answer(case) != told
    ]


def all_cases() -> list[Case]:
    """All cases that the reading answers, in the order of the stored files."""
    rng = random.Random(SEED)
    return [
        *(case for case, _ in STATED),
        *sizes(),
        *refusals(),
        *small_lists(),
        *order(),
        *small_lifts(),
        *bad_lifts(),
        *other_ends(),
        *changed_lists(rng),
        *long_lists(),
        following(*full_sheet(rng)),
        *(random_case(rng, number % 6) for number in range(RANDOM_CASES)),
        *stated_plans(),
        *bad_methods(),
        *spaces(),
        *plan_refusals(),
        *(case for sheet in sheets.small_sheets() for case in by_all(*sheet)),
        *(case for sheet in sheets.random_sheets() for case in by_all(*sheet)),
        *larger_plans(),
    ]


def unkept() -> tuple[int, list[str]]:
    """How many small sheets were searched, and where the reading breaks a demand on one of them."""
    every = itertools.chain(sheets.small_sheets(), sheets.random_sheets())
    few = [sheet for sheet in every if len(sheet[0]) <= SEARCHED]
    return len(few), [sentence for sheet in few for sentence in broken(*sheet)]


def compare(frames: list[bytes], lines: list[str]) -> int:
    """How many cases, or tails, of the stored files differ from those made."""
    stored = (HERE / "stdin").read_bytes()
    answers = (HERE / "stdout").read_text().splitlines(keepends=True)
    failed, at = 0, 0
    for number, (wished, told) in enumerate(zip(frames, lines)):
        if stored[at : at + len(wished)] != wished or answers[number : number + 1] != [told]:
            print(f"case {number + 1} differs")
            failed += 1
        at += len(wished)
    if at != len(stored) or len(answers) != len(lines):
        print("the stored files have another length")
        failed += 1
    return failed


def main() -> int:
    """Writes the stored files, or with --check compares them."""
    print(f"seed {SEED}")
    searched, breaches = unkept()
    print(f"{searched} sheets searched")
    wrong = [f"the reading differs from the documents: {sentence}" for sentence in misread()]
    wrong += [f"the reading differs from a sheet by hand: {sentence}" for sentence in misnamed()]
    wrong += [f"the reading breaks a demand: {sentence}" for sentence in breaches]
    wrong += [f"the reading differs from a closed form: {sentence}" for sentence in misknown()]
    for sentence in wrong:
        print(sentence)
    answers = [(case, answer(case)) for case in all_cases()]
    answers += itertools.chain.from_iterable(map(known_answers, sheets.full_yards()))
    frames = [frame(case) for case, _ in answers]
    lines = [told for _, told in answers]
    if sys.argv[1:] == ["--check"]:
        failed = compare(frames, lines)
        print(f"{len(lines) - min(failed, len(lines))} passed, {failed + len(wrong)} failed")
        return 1 if failed or wrong else 0
    (HERE / "stdin").write_bytes(b"".join(frames))
    (HERE / "stdout").write_text("".join(lines))
    print(f"{len(lines)} cases written")
    return 1 if wrong else 0


if __name__ == "__main__":
    sys.exit(main())
