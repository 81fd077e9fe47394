#!/usr/bin/env python3
"""Packs and unpacks the records of document 01, "Records of the program"; tools and tests pack them nowhere else.
HL and LN are those of document 02, Job 3, of a sheet with lengths.

    echo "HD 1 2, NW 0, GL 0" | tools/records.py pack         each line as a line of hexadecimal
    echo "4844 0001 0002 4E57" | tools/records.py unpack      and back: HD 1 2 | 4E57

Bytes that begin no record stand last, behind a bar. Ends with 2 at a line that cannot be read, and with 3 where the
answer could not be written.
"""

import argparse
import struct
import sys
from collections.abc import Iterable
from typing import NamedTuple

from command import arguments, ended, put
from lines import Fault, is_number
from rules import TOP

# The marks with their field counts.
FIELDS = {"HD": 2, "HL": 2, "NW": 1, "GL": 1, "LN": 1, "PL": 2, "LF": 2, "NO": 2}


class Record(NamedTuple):
    """A record: its mark and its fields."""

    mark: str
    fields: tuple[int, ...]


def layout(mark: str) -> str:
    """How the fields of a record lie: each in 2 bytes, high byte first."""
    return f">{FIELDS[mark]}H"


def packed(records: Iterable[Record]) -> bytes:
    """The bytes of some records."""
    return b"".join(mark.encode() + struct.pack(layout(mark), *fields) for mark, fields in records)


def unpacked(data: bytes) -> tuple[list[Record], bytes]:
    """The records at the front of some bytes, and the bytes from the first on that begin none."""
    found: list[Record] = []
    at = 0
    while (mark := data[at : at + 2].decode("latin-1")) in FIELDS:
        end = at + 2 + struct.calcsize(layout(mark))
        if end > len(data):
            break
        found.append(Record(mark, struct.unpack(layout(mark), data[at + 2 : end])))
        at = end
    return found, data[at:]


def record_of(words: str) -> Record:
    """The record of a mark and its fields in words."""
    mark, *fields = words.split() or [""]
    if mark not in FIELDS:
        raise Fault(f"'{words.strip()}' does not begin with one of the marks {', '.join(FIELDS)}")
    if len(fields) != FIELDS[mark] or not all(map(is_number, fields)):
        raise Fault(f"'{words.strip()}': the fields of {mark} are {FIELDS[mark]}, each a number from 0 to {TOP}")
    return Record(mark, tuple(map(int, fields)))


def bytes_of(line: str) -> bytes:
    """The bytes of hexadecimal."""
    try:
        return bytes.fromhex(line)
    except ValueError as error:
        raise Fault(f"'{line[:40].strip()}' is not hexadecimal: {error}") from error


def pack(line: str) -> str:
    """A line of records as a line of hexadecimal."""
    records, _, rest = line.partition("|")
    words = records.split(",") if records.strip() else []
    return (packed(map(record_of, words)) + bytes_of(rest)).hex().upper()


def unpack(line: str) -> str:
    """A line of hexadecimal as a line of records."""
    records, rest = unpacked(bytes_of(line))
    words = ", ".join(" ".join([mark, *map(str, fields)]) for mark, fields in records)
    return f"{words} | {rest.hex().upper()}" if rest else words


def main() -> int:
    """Answers each line of standard input with a line, at once."""
    raw = argparse.RawDescriptionHelpFormatter
    parser = argparse.ArgumentParser("tools/records.py", description=__doc__, formatter_class=raw)
    parser.add_argument("command", choices=("pack", "unpack"))
    answer = {"pack": pack, "unpack": unpack}[parser.parse_args(arguments()).command]
    for line in sys.stdin:
        put(f"{answer(line)}\n".encode())
    return 0


if __name__ == "__main__":
    sys.exit(ended("tools/records.py", main))
