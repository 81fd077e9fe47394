"""The proved library in Python: the operations of include/topjeska.h through a shared object.

The shared object is made from target/staticlib/libtopjeska.a, or from the one in the folder that TOPJESKA_LIB_DIR
names; where the usual one is missing or older than its sources it is built first. Both are said on standard error.
"""

import ctypes
import functools
import os
import subprocess
import sys
import tempfile
from array import array
from collections.abc import Callable, Sequence
from pathlib import Path
from typing import Any, NamedTuple

from lines import Fault, Lift, Sheet
from rules import MOST_TRAINED

ROOT = Path(__file__).resolve().parent.parent
USUAL = ROOT / "target" / "staticlib"
MADE = ROOT / "target" / "tools"

# The bits of options: that a sheet has lengths, and that planning is the panel's.
LENGTHS = 1
PANEL = 2

# What the deadlock test writes of a slab: it, the slab through which the next one is in its way, and c of document 01.
Row = tuple[int, int, int]
WIDTH = 3

# The fields of each answer, in the header's order.
FIELDS = {
    "check": ("refusal", "place"),
    "plan": ("refusal", "place", "count", "misplaced"),
    "deadlock": ("refusal", "place", "count"),
    "replay": ("refusal", "verdict", "place"),
    "training": ("refusal", "place"),
}

# What the operations on a sheet take, that of the panel, these with options and lengths, and those of training, in the
# header's order; a list is lent as a pointer and a length.
Takes = dict[str, list[Any]]
LENT = [ctypes.c_void_p, ctypes.c_size_t]
ON_SHEETS: Takes = {
    "check": LENT * 2,
    "plan": [ctypes.c_uint16, *LENT * 3],
    "deadlock": LENT * 3,
    "replay": LENT * 3,
}
OF_PANEL: Takes = {"plan_panel": ON_SHEETS["plan"]}
WITH_OPTIONS: Takes = {
    "check_with": [ctypes.c_uint16, *LENT * 3],
    "plan_with": [ctypes.c_uint16, ctypes.c_uint16, *LENT * 4],
    "deadlock_with": [ctypes.c_uint16, *LENT * 4],
    "replay_with": [ctypes.c_uint16, *LENT * 4],
}
OF_TRAINING: Takes = {
    "training": [ctypes.c_size_t, ctypes.c_uint64, *LENT],
    "training_draw": [ctypes.c_void_p, ctypes.c_size_t, *LENT],
}


class Check(NamedTuple):
    """Whether two lists are a sheet."""

    refusal: int
    place: int


class Plan(NamedTuple):
    """A list of lifts, as the numbers that the library wrote, and the count of misplaced slabs at the start."""

    refusal: int
    place: int
    misplaced: int
    numbers: array

    def lifts(self) -> list[Lift]:
        """The lifts as pairs."""
        return list(zip(self.numbers[::2], self.numbers[1::2]))

    def slabs(self) -> array:
        """The slab of each lift: all misplaced slabs and no others (theorems `moves_all` and `Economy.only`)."""
        return self.numbers[::2]


class Deadlock(NamedTuple):
    """The slabs of one deadlock, a row for each; none without a deadlock."""

    refusal: int
    place: int
    rows: list[Row]


class Replay(NamedTuple):
    """The verdict on a list, and its place or the refusal's."""

    refusal: int
    verdict: int
    place: int


class Training(NamedTuple):
    """An arrangement; no entries after a refusal."""

    refusal: int
    place: int
    entries: list[int]


class Generator(ctypes.Structure):
    """What training draws by: its seed, which each draw moves on."""

    _fields_ = [("seed", ctypes.c_uint64)]


# ---- the shared object


def say(words: str) -> None:
    """A line for who waits."""
    print(words, file=sys.stderr, flush=True)


def done(command: Sequence[str], what: str) -> None:
    """Runs a command that builds something; its output is shown where it fails."""
    try:
        ended = subprocess.run(command, cwd=ROOT, capture_output=True, text=True, check=False)
    except OSError as error:
        raise Fault(f"{what} is not built: {error}") from error
    if ended.returncode != 0:
        lines = (ended.stdout + ended.stderr).strip().splitlines()[-12:]
        raise Fault("\n  ".join([f"{what} is not built: {command[0]} ends with {ended.returncode}", *lines]))


def stale(archive: Path) -> bool:
    """Whether the usual static library is missing or older than a source."""
    if not archive.is_file():
        return True
    age = archive.stat().st_mtime
    return any(source.stat().st_mtime > age for source in [ROOT / "crates.txt", *ROOT.glob("crates/*/src/**/*.rt")])


def shared_object(archive: Path, folder: Path) -> Path:
    """A shared object with everything of a static library."""
    folder.mkdir(parents=True, exist_ok=True)
    made = folder / f"{archive.stem}.so"
    handle, name = tempfile.mkstemp(".so", dir=folder)
    os.close(handle)
    whole = ["-Wl,--whole-archive", str(archive), "-Wl,--no-whole-archive"]
    try:
        done(["cc", "-shared", "-o", name, *whole], "the shared object")
        os.chmod(name, 0o755)
        os.replace(name, made)
    finally:
        Path(name).unlink(missing_ok=True)
    return made


def current() -> Path:
    """The usual static library, built where it must be, with a line that says so."""
    archive = USUAL / "libtopjeska.a"
    if stale(archive):
        say("building the library: tools/library (it proves what it builds; some minutes the first time)")
        done(["tools/library"], "the library")
    return archive


# ---- the operations


def answer_of(operation: str) -> str:
    """The name of an operation's answer, which those of one kind share."""
    return operation.partition("_")[0]


def functions(path: Path, prefix: str, takes: Takes) -> dict[str, Callable[..., Any]]:
    """Operations of a shared object whose names begin with a prefix, with their types."""
    loaded = ctypes.CDLL(str(path))
    named = {}
    for operation, taken in takes.items():
        function = getattr(loaded, f"{prefix}_{operation}")
        layout = [(field, ctypes.c_uint64) for field in FIELDS[answer_of(operation)]]
        function.restype = type(operation, (ctypes.Structure,), {"_fields_": layout})
        function.argtypes = taken
        named[operation] = function
    return named


def lent(numbers: array) -> tuple[int, int]:
    """A list as the library takes it: where it lies, and how long it is."""
    return numbers.buffer_info()


class Lent(NamedTuple):
    """A sheet's lists as they are lent, with the options that say what it has."""

    options: int
    now: array
    goal: array
    lengths: array

    @classmethod
    def of(cls, sheet: Sheet, options: int = 0) -> "Lent":
        """The lists of a sheet, with options beside that of its lengths."""
        options |= 0 if sheet.lengths is None else LENGTHS
        return cls(options, *(array("H", numbers) for numbers in (sheet.now, sheet.goal, sheet.lengths or [])))

    def lists(self) -> tuple[int, ...]:
        """The lists as the library takes them."""
        return *lent(self.now), *lent(self.goal), *lent(self.lengths)


class Library:
    """The four operations on a sheet, and the two of training."""

    def __init__(self, path: Path) -> None:
        """Loads a shared object."""
        try:
            self.called = functions(path, "topjeska", WITH_OPTIONS | OF_TRAINING)
        except (OSError, AttributeError) as error:
            raise Fault(f"the library {path} cannot be loaded: {error}") from error

    def check(self, sheet: Sheet) -> Check:
        """Puts questions 2 to 9, and 16 to 18 where there are lengths."""
        given = Lent.of(sheet)
        answer = self.called["check_with"](given.options, *given.lists())
        return Check(answer.refusal, answer.place)

    def plan(self, method: int, sheet: Sheet, panel: bool = False) -> Plan:
        """The list of a method, by the panel's entry or the yard office's."""
        return self.plan_of(method, Lent.of(sheet, PANEL if panel else 0))

    def plan_of(self, method: int, given: Lent) -> Plan:
        """The list of a method for lists that are lent as they are."""
        space = array("H", bytes(8 * len(given.now)))
        answer = self.called["plan_with"](given.options, method, *given.lists(), *lent(space))
        return Plan(answer.refusal, answer.place, answer.misplaced, space[: 2 * answer.count])

    def deadlock(self, sheet: Sheet) -> Deadlock:
        """The deadlock test."""
        return self.deadlock_of(Lent.of(sheet))

    def deadlock_of(self, given: Lent) -> Deadlock:
        """The deadlock test of lists that are lent as they are."""
        space = array("H", bytes(2 * WIDTH * len(given.now)))
        answer = self.called["deadlock_with"](given.options, *given.lists(), *lent(space))
        slabs, throughs, ends = (space[at : WIDTH * answer.count : WIDTH] for at in range(WIDTH))
        return Deadlock(answer.refusal, answer.place, list(zip(slabs, throughs, ends)))

    def replay(self, sheet: Sheet, lifts: Sequence[Lift]) -> Replay:
        """The verdict on a list."""
        given, numbers = Lent.of(sheet), array("H", [number for lift in lifts for number in lift])
        answer = self.called["replay_with"](given.options, *given.lists(), *lent(numbers))
        return Replay(answer.refusal, answer.verdict, answer.place)

    def training(self, n: int, number: int) -> Training:
        """The arrangement of n slabs that has a number."""
        return self.arranged("training", n, n, number)

    def training_draw(self, generator: Generator, n: int) -> Training:
        """The arrangement of n slabs that a generator draws; a refusal keeps its seed."""
        return self.arranged("training_draw", n, ctypes.byref(generator), n)

    def arranged(self, operation: str, n: int, *words: object) -> Training:
        """What an operation of training writes to a list that is long enough for every n that it arranges."""
        out = array("H", bytes(2 * min(n, MOST_TRAINED)))
        answer = self.called[operation](*words, *lent(out))
        return Training(answer.refusal, answer.place, [] if answer.refusal else out.tolist())


def kept(archive: Path) -> Library:
    """The library of a shared object that is kept, and made where it is missing, older or damaged."""
    made = MADE / f"{archive.stem}.so"
    if made.is_file() and made.stat().st_mtime >= archive.stat().st_mtime:
        try:
            return Library(made)
        except Fault as fault:
            say(str(fault))
    say(f"making the shared object {made.relative_to(ROOT)} from {archive.relative_to(ROOT)}")
    return Library(shared_object(archive, MADE))


def unkept(archive: Path) -> Library:
    """The library of a shared object that is made for this once."""
    with tempfile.TemporaryDirectory() as folder:
        return Library(shared_object(archive, Path(folder)))


@functools.cache
def library() -> Library:
    """The library, loaded once."""
    named = os.environ.get("TOPJESKA_LIB_DIR")
    archive = Path(named).resolve() / "libtopjeska.a" if named else current()
    if not archive.is_file():
        raise Fault(f"there is no {archive}; TOPJESKA_LIB_DIR names its folder: correct it, or unset it")
    try:
        return unkept(archive) if named else kept(archive)
    except OSError as error:
        say(f"the shared object cannot be kept: {error}")
        return unkept(archive)
