"""Inputs and answers of the planning program, packed and unpacked by running tools/records.py.

One run of the tool answers all lines, so that a record costs no start of a program.
"""

import functools
import subprocess
import sys
from collections.abc import Sequence
from pathlib import Path
from typing import NamedTuple

from reading import MOST, Lengths, Pair, Yard

TOOL = Path(__file__).resolve().parent.parent / "tools" / "records.py"

# The bytes of HD, HL, PL and NO, of NW, GL and LN, and of LF.
HEAD, ENTRY, LIFT = 6, 4, 6
# The longest input is one with lengths.
LONGEST_INPUT = HEAD + 3 * MOST * ENTRY
# What the program keeps of its input: one byte more than the longest has, so that it sees a tail.
KEPT = LONGEST_INPUT + 1
# PL and two lifts of each slab.
LONGEST_ANSWER = HEAD + 2 * MOST * LIFT

# Document 01's whole example, in and out.
EXAMPLE = (
    bytes.fromhex("48 44 00 02 00 02 4E 57 00 02 4E 57 00 00 47 4C 00 00 47 4C 00 01"),
    bytes.fromhex("50 4C 00 02 00 02 4C 46 00 01 00 00 4C 46 00 02 00 01"),
)


class Record(NamedTuple):
    """A record: its mark and its fields."""

    mark: str
    fields: list[int]


@functools.cache
def running(command: str) -> subprocess.Popen[str]:
    """The tool, which answers each line with a line until this program ends."""
    words = [sys.executable, str(TOOL), command]
    return subprocess.Popen(words, stdin=subprocess.PIPE, stdout=subprocess.PIPE, text=True)


def told(command: str, line: str) -> str:
    """The tool's answer to a line."""
    tool = running(command)
    assert tool.stdin is not None and tool.stdout is not None
    tool.stdin.write(f"{line}\n")
    tool.stdin.flush()
    answer = tool.stdout.readline()
    if not answer.endswith("\n"):
        raise ValueError(f"tools/records.py {command} does not answer {line[:80]}")
    return answer.strip()


def packed(line: str) -> bytes:
    """The bytes of records in words: `HD 2 2, NW 2`."""
    return bytes.fromhex(told("pack", line))


def unpacked(data: bytes) -> tuple[list[Record], bytes]:
    """The records at the front of some bytes, and the bytes from the first on that begin none."""
    line, _, rest = told("unpack", data.hex()).partition("|")
    records = [words.split() for words in line.split(",") if words.strip()]
    return [Record(mark, [int(field) for field in fields]) for mark, *fields in records], bytes.fromhex(rest)


# The marks of heads, of sheets without lengths and with them.
HEADS = ("HD", "HL")


def head(n: int, method: int, mark: str = "HD") -> bytes:
    """The head of an input."""
    return packed(f"{mark} {n} {method}")


def asked(method: int, now: Yard, goal: Yard, lengths: Lengths = None) -> bytes:
    """The input of a sheet: HD, the NW records, the GL records; with lengths HL, and the LN records last."""
    entries = [*(f"NW {entry}" for entry in now), *(f"GL {entry}" for entry in goal)]
    entries += [f"LN {length}" for length in lengths or ()]
    return packed(", ".join([f"{HEADS[lengths is not None]} {len(now)} {method}", *entries]))


def planned(misplaced: int, pairs: Sequence[Pair]) -> bytes:
    """The answer of a plan: PL and the LF records."""
    return packed(", ".join([f"PL {len(pairs)} {misplaced}", *(f"LF {slab} {place}" for slab, place in pairs)]))


def refused(number: int, place: int) -> bytes:
    """The answer of a refusal: one NO."""
    return packed(f"NO {number} {place}")
