"""Training: what the library answers, writes and keeps, for numbers and for seeds, held to the reading.

The reading's counts are held to what document 001 states of them. Every number up to 6 slabs gives an arrangement of
its own, and all of them that questions 4 to 6 accept. Above, numbers on both sides of every count that decides, and
random ones; refusals at their edges and several at once; draws in a row; and the answers of tests/vectors/training.txt.
Of document 02, Job 7: how many counts the library holds, by the constants of crate `counts` that are lists and by the
size of the functions. The last line is 'N passed, M failed'.
"""

import argparse
import faulthandler
import math
import random
import re
import subprocess
import sys
from collections.abc import Iterable, Iterator
from pathlib import Path
from typing import NamedTuple

import reading
import sheets
from case import checking, numbers_of
from library import Fault, Library, Outcome, Trainer, shared_object, written
from reading import MOST_TRAINED, ways
from tested import ROOT, Test, counted, unlike

TARGET = ROOT / "target"
VECTORS = ROOT / "tests" / "vectors" / "training.txt"
COUNTS = ROOT / "crates" / "counts" / "src"
WHOLLY = 6
RANDOM_NUMBERS = 300
WAYS_THERE = 3
DRAWS = 1_000
SEEDS = (1, 2, 7, 4001, 2**32, 2**63, 2**64 - 1, 11400714819323198485, 88172645463325252, 0xDEADBEEFCAFEF00D)

# Document 001, Table 1: the counts for n from 0 to 9, each for k from 0 to 5.
TABLE = [
    [1, 1, 1, 1, 1, 1],
    [1, 2, 3, 4, 5, 6],
    [3, 7, 13, 21, 31, 43],
    [13, 34, 73, 136, 229, 358],
    [73, 209, 501, 1045, 1961, 3393],
    [501, 1546, 4051, 9276, 19081, 36046],
    [4051, 13327, 37633, 93289, 207775, 424051],
    [37633, 130922, 394353, 1047376, 2501801, 5470158],
    [394353, 1441729, 4596553, 12975561, 32989969, 76751233],
    [4596553, 17572114, 58941091, 175721140, 472630861, 1163391958],
]

# The constants of crate `counts` that are lists: the counts whose n is even, and nothing beside them.
LISTS = [("TABLE", "u64", "81")]
LIST = re.compile(r"(?:const|static)(?: mut)? (\w+)\s*:\s*&?(?:'static )?\[\s*(\w+)\s*;\s*(\w+)\s*\]")

# How many bytes `count_of` may have in the library, and all functions of training. They have 914 and 1,480 with half of
# the counts, and had 1,782 and 2,348 with all of them.
COUNT_OF_BYTES = 1_000
TRAINING_BYTES = 1_600
OF_TRAINING = re.compile(r"counts::|generator::|training::|topjeska::topjeska_training|topjeska_training")

# How many arrangements some numbers of slabs have; document 001 states that of 30.
ARRANGEMENTS = {3: 13, 16: 1290434218669921, 30: 197987401295571718915006598239796851}


class Call(NamedTuple):
    """A call: how many slabs, what is given (`r` or `seed`) and its value, and the length of the list lent."""

    n: int
    given: str
    value: int
    space: int

    def __str__(self) -> str:
        """The call as a line."""
        return f"training n={self.n} {self.given}={self.value} space={self.space}"


def call_of(line: str) -> Call:
    """The call of a line."""
    _, slabs, given, space = line.split()
    (_, n), (name, value), (_, length) = (word.split("=") for word in (slabs, given, space))
    return Call(int(n), name, int(value), int(length))


def read(call: Call) -> Outcome:
    """What the reading answers and writes."""
    if call.given == "r":
        *numbers, entries = reading.training(call.n, call.value, call.space)
    else:
        *numbers, entries = reading.training_draw(call.value, call.n, call.space)
    return Outcome(tuple(numbers), written(entries, call.space))


def made(trainer: Trainer, call: Call) -> Outcome | str:
    """What the library answers and writes, or what it did that it may not."""
    try:
        if call.given == "r":
            return trainer.number(call.n, call.value, call.space)
        return trainer.draw(call.value, call.n, call.space)
    except Fault as fault:
        return str(fault)


def misread(trainer: Trainer, calls: Iterable[Call]) -> str:
    """The first call that the library does not answer as the reading does."""
    for call in calls:
        if wrong := unlike(made(trainer, call), read(call)):
            return f"{call}: {wrong}"
    return ""


# ---- the counts of the reading


def closed(n: int, k: int) -> int:
    """Document 001's closed form of a count; the quotient of factorials is a product from i + k to n + k - 1."""
    return sum(math.comb(n, i) * math.prod(range(i + k, n + k)) for i in range(n + 1))


def counts() -> Iterator[Test]:
    """The counts that document 001 states, and its closed form for all that the library may hold."""
    for n, row in enumerate(TABLE):
        yield f"the counts of document 001 for n = {n}", unlike([ways(n, k) for k in range(len(row))], row)
    for n, count in ARRANGEMENTS.items():
        yield f"the count of arrangements of {n} slabs", unlike(ways(n, 0), count)
    for n in range(MOST_TRAINED + 1):
        ks = range(MOST_TRAINED - n + 1)
        wrong = unlike([ways(n, k) for k in ks], [closed(n, k) for k in ks])
        yield f"the closed form for n = {n} and k up to {MOST_TRAINED - n}", wrong


# ---- the counts that the library holds


def lists_of(text: str) -> list[tuple[str, ...]]:
    """The constants of a source that are lists: name, type and number of entries."""
    return LIST.findall(re.sub(r"//.*", "", text))


def above(found: int, most: int) -> str:
    """By how much a number of bytes is too large; none at all is wrong too."""
    return "" if 0 < found <= most else f"{found:,} bytes, of which {most:,} are the most"


def held_counts(library: Path) -> Iterator[Test]:
    """Document 02, Job 7: only the counts whose n is even are held, in the source and by the size of the functions."""
    found = [one for source in sorted(COUNTS.glob("*.rt")) for one in lists_of(source.read_text(encoding="utf-8"))]
    yield "one list of 81 counts is held", unlike(found, LISTS)
    if library.suffix == ".a":
        named = subprocess.run(["nm", "-S", library], capture_output=True, text=True, check=True).stdout
        sizes = {words[3]: int(words[1], 16) for words in map(str.split, named.splitlines()) if len(words) == 4}
        yield "the size of count_of with its table", above(sizes.get("counts::count_of", 0), COUNT_OF_BYTES)
        training = sum(size for name, size in sizes.items() if OF_TRAINING.match(name))
        yield "the size of all functions of training", above(training, TRAINING_BYTES)


# ---- numbers


def unaccepted(library: Library, yards: Iterable[tuple[int, ...]]) -> str:
    """The first arrangement that the library does not accept as a now list."""
    for yard in yards:
        if wrong := unlike(library.run(checking(yard, yard)).numbers, (0, 0)):
            return f"{yard}: {wrong}"
    return ""


def every_number(trainer: Trainer, library: Library) -> Iterator[Test]:
    """All numbers of few slabs: as the reading, each arrangement once, accepted, and none missing."""
    for n in range(WHOLLY + 1):
        calls = [Call(n, "r", r, n) for r in range(ways(n, 0))]
        yield f"n = {n}, all {len(calls)} numbers", misread(trainer, calls)
        outcomes = [made(trainer, call) for call in calls]
        found = [tuple(one.space) for one in outcomes if isinstance(one, Outcome) and one.numbers == (0, 0)]
        yield f"n = {n}, different arrangements", unlike(len(set(found)), len(calls))
        yield f"n = {n}, each arrangement accepted", unaccepted(library, found)
        accepted = sheets.arrangements(n)
        yield f"n = {n}, all arrangements that are accepted", unlike(sorted(set(found)), sorted(accepted))


def deciding(rng: random.Random, n: int, loose: int, grounded: int) -> Iterator[int]:
    """Numbers of n slabs that come by some way to so many piles and have there a rest on both sides of a limit."""
    turns = n - loose
    down = set(rng.sample(range(turns), grounded))
    r, left, on_ground = 0, n, 0
    for turn in range(turns):
        left -= 1
        if turn in down:
            on_ground += 1
        else:
            quotient = rng.randrange(left + on_ground)
            r += ways(left, on_ground + 1) + quotient * ways(left, on_ground)
    limit, each = ways(loose - 1, grounded + 1), ways(loose - 1, grounded)
    rests = (0, limit - 1, limit, limit + each - 1, limit + each, limit + 2 * each, ways(loose, grounded) - 1)
    yield from (r + rest for rest in rests if rest < ways(loose, grounded))


def some_numbers(trainer: Trainer) -> Iterator[Test]:
    """Numbers where a count decides, for every count of the table, and random ones; the list may be longer than n."""
    rng = random.Random(sheets.SEED)
    for n in range(MOST_TRAINED + 1):
        piles = [(loose, grounded) for loose in range(1, n + 1) for grounded in range(n - loose + 1)]
        near = [r for pair in piles * WAYS_THERE for r in deciding(rng, n, *pair)]
        if near:
            wrong = misread(trainer, (Call(n, "r", r, n) for r in near))
            yield f"n = {n}, {len(near)} numbers where a count decides", wrong
        far = [Call(n, "r", rng.randrange(ways(n, 0)), n + rng.randint(0, 3)) for _ in range(RANDOM_NUMBERS)]
        yield f"n = {n}, {len(far)} random numbers", misread(trainer, far)


# ---- refusals


def calls_of(n: int, given: str, values: Iterable[int], spaces: Iterable[int]) -> Iterator[Call]:
    """Every value with every length of the list."""
    return (Call(n, given, value, space) for value in values for space in spaces)


def refusals(trainer: Trainer) -> Iterator[Test]:
    """Numbers and seeds at the edges of a refusal, with lists too short, just long enough and longer."""
    last = 2**64 - 1
    for n in range(MOST_TRAINED + 1):
        spaces = sorted({0, max(n - 1, 0), n, n + 3})
        numbers = [0, ways(n, 0) - 1, ways(n, 0), ways(n, 0) + 1, 2**32, 2**63, last]
        yield f"n = {n}, refusals of numbers", misread(trainer, calls_of(n, "r", numbers, spaces))
        yield f"n = {n}, refusals of seeds", misread(trainer, calls_of(n, "seed", (0, 1, 2**63, last), spaces))
    for n in (17, 18, 32, 255, 256, 2**16, 2**16 + 3, 2**32, 2**32 + 3, 2**63 + 16, last):
        spaces = (0, 3, 16, 17, 20)
        yield f"n = {n}, every number refused", misread(trainer, calls_of(n, "r", (0, 12, ways(17, 0), last), spaces))
        yield f"n = {n}, every seed refused", misread(trainer, calls_of(n, "seed", (0, 1, last), spaces))


# ---- draws


def in_a_row(seed: int) -> Iterator[Call]:
    """Draws in a row from a seed, of every size in turn, each from the seed that the one before leaves."""
    for number in range(DRAWS):
        yield Call(number % (MOST_TRAINED + 1), "seed", seed, MOST_TRAINED)
        seed = reading.next_seed(seed)


def draws(trainer: Trainer) -> Iterator[Test]:
    """The first draws of some seeds."""
    for seed in SEEDS:
        yield f"{DRAWS:,} draws of seed {seed}", misread(trainer, in_a_row(seed))


# ---- the lines of the sample


def sample(trainer: Trainer) -> Iterator[Test]:
    """Each line of the sample, through the reading and through the library."""
    for line in VECTORS.read_text().splitlines():
        asked, _, answer = line.partition("=>")
        numbers, entries = (numbers_of(part.strip()) for part in answer.split("|"))
        call = call_of(asked)
        stated = Outcome(tuple(numbers), written(entries, call.space))
        yield f"{call} by the reading", unlike(read(call), stated)
        yield f"{call} by the library", unlike(made(trainer, call), stated)


def main() -> int:
    """Runs all tests and counts; where the library crashes, it is said by which part it was called."""
    faulthandler.enable()
    parser = argparse.ArgumentParser(description="Training held to the reading.")
    parser.add_argument("--library", type=Path, default=TARGET / "staticlib" / "libtopjeska.a")
    path = parser.parse_args().library.resolve()
    if not path.exists():
        return counted([(str(path), "is missing; `tools/library` writes the usual one")])
    held = held_counts(path)
    if path.suffix == ".a":
        path = shared_object(path, TARGET / "training")
    trainer, library = Trainer(path), Library(path, "topjeska")
    parts = (every_number(trainer, library), some_numbers(trainer), refusals(trainer), draws(trainer), sample(trainer))
    return counted(test for part in (counts(), held, *parts) for test in part)


if __name__ == "__main__":
    sys.exit(main())
