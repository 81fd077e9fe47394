"""The table of mean lifts in docs/WHY.md: random sheets of 10, 30, 100 and 300 slabs by each method of the library.

Both arrangements of a sheet are drawn from all arrangements of its n slabs, each as likely as any other (document 001,
section 2.3): the number of piles by how many arrangements have so many, then an order of the slabs and the places where
it is cut. The generator is that of document 02's training, so a seed gives the same table on every machine.
"""

import argparse
import itertools
import sys
from bisect import bisect_right
from collections import Counter
from collections.abc import Collection, Iterator, Sequence
from functools import cache
from math import comb, factorial
from typing import NamedTuple

import reading
import sheets
from case import planning
from library import Library, current, shared_object
from reading import METHODS, MOST
from sheets import Sheet
from tested import ROOT, Test, unlike

SIZES = (10, 30, 100, 300)
SHEETS = 1_000
SEED = sheets.SEED
BITS = 64
ENUMERATED = 5
HEAD = ["slabs", "misplaced", *(f"method {method}" for method in METHODS), "sheets: 2 beats 3", "3 beats 2"]


class Draws:
    """Numbers that a seed draws."""

    def __init__(self, seed: int) -> None:
        """Nothing is drawn yet."""
        self.seed = seed

    def below(self, bound: int) -> int:
        """A number below a bound: so many draws that what the remainder favours is less than one part in 2^64."""
        number = 0
        for _ in range(bound.bit_length() // BITS + 2):
            self.seed = reading.next_seed(self.seed)
            number = number << BITS | self.seed
        return number % bound

    def shuffled(self, things: Sequence[int]) -> list[int]:
        """Things in an order drawn from all orders."""
        order = list(things)
        for last in range(len(order) - 1, 0, -1):
            at = self.below(last + 1)
            order[at], order[last] = order[last], order[at]
        return order


@cache
def by_piles(n: int) -> list[int]:
    """How many arrangements of n slabs have at most 1, 2, … n piles: k! orders with their cuts make the same one."""
    return list(itertools.accumulate(factorial(n) * comb(n - 1, k - 1) // factorial(k) for k in range(1, n + 1)))


def cut_at(order: Sequence[int], cuts: Collection[int]) -> list[int]:
    """The arrangement of an order that is cut behind some of its places, counted from 1."""
    places = itertools.count(1)
    return sheets.piled(order, lambda: next(places) in cuts)


def piles_of(n: int, number: int) -> int:
    """The piles of n slabs that a number below the count of arrangements stands for."""
    return bisect_right(by_piles(n), number) + 1


def arrangement(draws: Draws, n: int) -> list[int]:
    """An arrangement drawn from all arrangements of n slabs."""
    piles = piles_of(n, draws.below(by_piles(n)[-1]))
    return cut_at(draws.shuffled(range(1, n + 1)), set(draws.shuffled(range(1, n))[: piles - 1]))


def drawn(seed: int, n: int, number: int) -> Iterator[Sheet]:
    """Random sheets of n slabs."""
    draws = Draws(seed)
    return ((arrangement(draws, n), arrangement(draws, n)) for _ in range(number))


class Means(NamedTuple):
    """Means over random sheets: misplaced slabs, lifts by each method, and on how many one method is the shorter."""

    slabs: int
    misplaced: float
    lifts: list[float]
    shorter: list[int]

    def cells(self) -> list[str]:
        """A row of the table."""
        rounded = [f"{mean:.1f}" for mean in (self.misplaced, *self.lifts)]
        return [str(self.slabs), *rounded, *map(str, self.shorter)]


def means(library: Library, seed: int, n: int, number: int) -> Means:
    """What the library answers for random sheets of n slabs, in the mean."""
    answers = []
    for now, goal in drawn(seed, n, number):
        answers.append([library.run(planning(method, now, goal)).numbers for method in METHODS])
    refused = {by_method[0] for by_all in answers for by_method in by_all} - {0}
    if refused:
        raise ValueError(f"a sheet of {n} slabs is refused: {refused}")
    lifts = [[by_method[2] for by_method in by_all] for by_all in answers]
    misplaced = sum(by_all[0][3] for by_all in answers) / number
    shorter = [sum(two < three for _, two, three in lifts), sum(three < two for _, two, three in lifts)]
    return Means(n, misplaced, [sum(by_method) / number for by_method in zip(*lifts)], shorter)


def table(seed: int, number: int, sizes: Sequence[int]) -> Iterator[list[str]]:
    """The table by the library, which is built where it is missing or older than its sources: head and rows."""
    yield HEAD
    library = Library(shared_object(current(), ROOT / "target" / "means"), "topjeska")
    yield from (means(library, seed, n, number).cells() for n in sizes)


def tests(stated: Sequence[Sequence[str]]) -> Iterator[Test]:
    """The page's table against one made again; that piles are drawn as often as there are arrangements with so many."""
    for row, right in itertools.zip_longest(stated, table(SEED, SHEETS, SIZES)):
        yield f"WHY.md, mean lifts, {right and right[0]}", unlike(row, right)
    for n in range(1, reading.MOST_TRAINED + 1):
        yield f"arrangements of {n} slabs by their piles", unlike(by_piles(n)[-1], reading.ways(n, 0))
    for n in range(1, ENUMERATED + 1):
        piles = Counter(piles_of(n, number) for number in range(by_piles(n)[-1]))
        yield f"arrangements of {n} slabs", unlike(piles, Counter(yard.count(0) for yard in sheets.arrangements(n)))
        cuts = itertools.chain.from_iterable(itertools.combinations(range(1, n), k) for k in range(n))
        orders = itertools.permutations(range(1, n + 1))
        made = Counter(tuple(cut_at(order, cut)) for order, cut in itertools.product(orders, cuts))
        right = {yard: factorial(yard.count(0)) for yard in sheets.arrangements(n)}
        yield f"orders and cuts that make an arrangement of {n} slabs", unlike(dict(made), right)


def main() -> int:
    """Prints the table."""
    parser = argparse.ArgumentParser(description="Mean lifts by method over random sheets, as a table.")
    parser.add_argument("sizes", nargs="*", type=int, default=SIZES, help=f"numbers of slabs, 1 to {MOST:,}")
    parser.add_argument("--seed", type=int, default=SEED, help="a number of 64 bits that is not 0")
    parser.add_argument("--sheets", type=int, default=SHEETS, help="how many sheets of each size, 1 or more")
    words = parser.parse_args()
    if not (0 < words.seed < 2**BITS and words.sheets > 0 and all(0 < n <= MOST for n in words.sizes)):
        parser.error("a number is out of its range")
    for row in table(words.seed, words.sheets, words.sizes):
        print(f"| {' | '.join(row)} |", flush=True)
        if row is HEAD:
            print("|---" * len(HEAD) + "|", flush=True)
    return 0


if __name__ == "__main__":
    sys.exit(main())
