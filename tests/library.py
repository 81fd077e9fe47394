"""A library of the operations, called as tools/topjeska.py has them, with guards about what it is lent.

An outcome is the answer's numbers and the whole space afterwards.
"""

import sys
from array import array
from collections.abc import Sequence
from pathlib import Path
from typing import NamedTuple

from case import PLANNING, SPACED, Answer, Case, flat

sys.path.append(str(Path(__file__).resolve().parent.parent / "tools"))
from topjeska import FIELDS, OF_PANEL, OF_TRAINING, ON_SHEETS, WITH_OPTIONS  # noqa: E402
from topjeska import answer_of, current, functions, shared_object  # noqa: E402


class Outcome(NamedTuple):
    """The answer's numbers in the header's order, and what the lent space holds."""

    numbers: tuple[int, ...]
    space: array

    @classmethod
    def of(cls, answer: Answer, length: int) -> "Outcome":
        """The outcome of an answer whose pairs or rows go to the front of a space of a length."""
        return cls(answer.numbers, written(flat(answer.written), length))


class Fault(Exception):
    """A call altered what it may only read, or wrote beside its space."""


UNWRITTEN = array("H", range(0x8000, 0x10000))


def unwritten(length: int) -> array:
    """A space as it is lent: numbers that no operation writes, each unlike its neighbours."""
    times, rest = divmod(length, len(UNWRITTEN))
    return UNWRITTEN * times + UNWRITTEN[:rest]


def written(front: Sequence[int], length: int) -> array:
    """A space of a length after numbers were written to its front."""
    return array("H", front) + unwritten(length)[len(front) :]


GUARD = unwritten(16)


class Space:
    """A space that is lent, with a guard on both sides."""

    def __init__(self, length: int) -> None:
        """Nothing is written yet."""
        self.length = length
        self.numbers = GUARD + unwritten(length) + GUARD

    def lent(self) -> tuple[int, int]:
        """Where it lies, and how long it is."""
        return self.numbers.buffer_info()[0] + len(GUARD) * self.numbers.itemsize, self.length

    def held(self) -> array:
        """What it holds after a call, which must not have written beside it."""
        end = len(GUARD) + self.length
        if self.numbers[: len(GUARD)] != GUARD or self.numbers[end:] != GUARD:
            raise Fault("it wrote beside the space")
        return self.numbers[len(GUARD) : end]


def function(case: Case) -> str:
    """The name of the function that a case calls; the panel's has none with options."""
    name = "plan_panel" if case.operation == "panel" else case.operation
    return name if case.options is None else f"{name}_with"


def fields(case: Case) -> tuple[str, ...]:
    """The names of an answer's numbers."""
    return FIELDS[answer_of(function(case))]


class Library:
    """The operations on a sheet of a shared object."""

    def __init__(self, path: Path, prefix: str) -> None:
        """Loads the shared object; every name begins with the prefix."""
        self.functions = functions(path, prefix, ON_SHEETS | OF_PANEL | WITH_OPTIONS)

    def run(self, case: Case) -> Outcome:
        """Makes the call, with a guard on both sides of the space and behind each list."""
        operation, space, bare = case.operation, Space(case.space), case.options is None
        read = [case.now, case.goal, *([] if bare else [case.lengths]), *([case.lifts] * (operation == "replay"))]
        lists = [array("H", numbers) + GUARD for numbers in read]
        before = [bytes(numbers) for numbers in lists]
        words = [*([] if bare else [case.options]), *([case.method] * (operation in PLANNING))]
        for numbers in lists:
            words += [numbers.buffer_info()[0], len(numbers) - len(GUARD)]
        if operation in SPACED:
            words += space.lent()
        answer = self.functions[function(case)](*words)
        if before != [bytes(numbers) for numbers in lists]:
            raise Fault("it altered a list that it may only read")
        return Outcome(tuple(getattr(answer, field) for field in fields(case)), space.held())


# What stands before and behind a generator.
BESIDE = 0x8000_8001_8002_8003


class Trainer:
    """The operations of training of a shared object."""

    def __init__(self, path: Path) -> None:
        """Loads the shared object."""
        self.functions = functions(path, "topjeska", OF_TRAINING)

    def number(self, n: int, r: int, length: int) -> Outcome:
        """The arrangement of a number, in a list of a length."""
        space = Space(length)
        answer = self.functions["training"](n, r, *space.lent())
        return Outcome((answer.refusal, answer.place), space.held())

    def draw(self, seed: int, n: int, length: int) -> Outcome:
        """The arrangement that a seed draws, in a list of a length; the seed afterwards is the last of the numbers."""
        generator, space = array("Q", [BESIDE, seed, BESIDE]), Space(length)
        address = generator.buffer_info()[0] + generator.itemsize
        answer = self.functions["training_draw"](address, n, *space.lent())
        if (generator[0], generator[2]) != (BESIDE, BESIDE):
            raise Fault("it wrote beside the generator")
        return Outcome((answer.refusal, answer.place, generator[1]), space.held())
