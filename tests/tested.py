"""Tests as pairs of what is held and what is wrong: how they are made and counted; sheets and lists as typed lines."""

import subprocess
from collections.abc import Iterable, Sequence
from pathlib import Path

from reading import Lengths, Pair, Yard

ROOT = Path(__file__).resolve().parent.parent

# So much of what differs is shown from either end.
SHOWN = 800

# A test: what it holds, and what is wrong; empty when nothing is.
Test = tuple[str, str]
Ended = subprocess.CompletedProcess[str]


def brief(what: object) -> str:
    """Something as it is told, its middle left out where it is long."""
    text = repr(what)
    return text if len(text) <= 2 * SHOWN else f"{text[:SHOWN]} … {text[-SHOWN:]}"


def unlike(found: object, right: object) -> str:
    """How what was found differs from what is right."""
    return "" if found == right else f"{brief(found)} where {brief(right)} is right"


def lacking(text: str, parts: Sequence[str]) -> str:
    """The parts that a text does not have."""
    missing = [part for part in parts if part not in text]
    return f"{missing} not in {brief(text)}" if missing else ""


def misended(ended: Ended, status: int, parts: Sequence[str] = ()) -> str:
    """What is wrong with how a command ended, and with what it printed."""
    if ended.returncode != status:
        return f"ends with {ended.returncode}: {ended.stderr}"
    return lacking(ended.stdout + ended.stderr, parts)


def counted(tests: Iterable[Test]) -> int:
    """Runs tests, prints what is wrong and their count, 'N passed, M failed'; the exit status."""
    passed = failed = 0
    for what, wrong in tests:
        passed, failed = passed + (not wrong), failed + bool(wrong)
        if wrong:
            print(f"failed: {what}: {wrong}", flush=True)
    print(f"{passed} passed, {failed} failed")
    return 1 if failed or not passed else 0


def sheet_line(now: Yard, goal: Yard, lengths: Lengths = None) -> str:
    """A sheet as it is typed."""
    line = f"{' '.join(map(str, now))} / {' '.join(map(str, goal))}".strip()
    return line if lengths is None else f"{line} / {' '.join(map(str, lengths))}".strip()


def sheet_of(line: str) -> tuple[list[int], list[int]]:
    """The sheet of a line, its name left out."""
    now, goal = ([int(entry) for entry in part.split()] for part in line.rpartition(":")[2].split("/"))
    return now, goal


def list_line(pairs: Sequence[Pair]) -> str:
    """A list of lifts as it is typed."""
    return ", ".join(f"{slab}→{destination}" for slab, destination in pairs)
