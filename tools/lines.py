"""Sheets and lists of lifts as people type them, `2 0 / 0 1` and `1→0, 2→1`; what is wrong with a line, by its column.

A sheet may have a name, `S2: 2 0 / 0 1`, and lengths, `2 0 / 0 0 / 250 300`. What tools/sheet prints of a plan, in
words or as JSON, is read back here.
"""

import itertools
import json
import os
import re
import sys
from collections.abc import Iterator
from pathlib import Path
from typing import Any, NamedTuple

from rules import TOP

WIDE = 40
# The highest number of 64 bits.
TOP_64 = 2**64 - 1
WORD = re.compile(r"[^\s,]+")
LIFT = re.compile(r"([0-9]+)(?:→|->)([0-9]+)")
NAME = re.compile(r"\s*([^:/]*?)\s*:")
ROW = re.compile(r"^(sheet|method|list|refused): *(.*(?:\n +.*)*)", re.MULTILINE)
BLOCK = re.compile(r"\n[ \t]*\n")
PRINTED = re.compile(r"^(?:list|method|pairs|rows|verdict|refused|accepted): ", re.MULTILINE)
ONCE = "standard input, -, can be read once"

# How a sheet is typed, for the help of every tool.
FORM = (
    "what each slab rests on now, a slash, what each shall rest on, 0 for the ground. '2 0 / 0 1' says that slab 1 "
    "rests on slab 2 and slab 2 on the ground, and that slab 1 shall rest on the ground and slab 2 on slab 1. Behind a "
    "second slash the length of each slab in cm may stand, '2 0 / 0 0 / 250 300': then no slab may rest on a shorter "
    "one. A name may stand before it, 'S2: 2 0 / 0 1'. Or the name of a file with a sheet on each line (# begins a "
    "remark), or - for such lines from standard input; both may hold what tools/sheet printed."
)

Lift = tuple[int, int]


class Fault(Exception):
    """What is wrong with what was typed, and where."""


class Sheet(NamedTuple):
    """Two arrangements: entry i - 1 says what slab i rests on, 0 for the ground. A name or none, lengths or None."""

    now: list[int]
    goal: list[int]
    name: str = ""
    lengths: list[int] | None = None

    def line(self) -> str:
        """The sheet as it is typed, its name left out."""
        parts = [self.now, self.goal, *([] if self.lengths is None else [self.lengths])]
        return " ".join(" / ".join(" ".join(map(str, part)) for part in parts).split())


class Typed(NamedTuple):
    """A sheet with the method and the list that stand beside it; method 0 and None where none does."""

    sheet: Sheet
    method: int = 0
    lifts: list[Lift] | None = None


# ---- one line


def at(line: str, column: int, what: str) -> Fault:
    """A fault with the line about it, and a mark beneath the column counted from 0."""
    left = max(0, column - WIDE)
    part = line[left : column + WIDE]
    return Fault(f"column {column + 1}: {what}\n  {part}\n  {' ' * (column - left)}^")


def shortened(word: str) -> str:
    """The digits of a number without zeros in front, which may be too many to be counted."""
    return word.lstrip("0") or "0"


def is_number(word: str, most: int = TOP) -> bool:
    """Whether a word is a number that is not too high: by default one that a record's field of 2 bytes can hold."""
    digits = shortened(word)
    return word.isascii() and word.isdecimal() and len(digits) <= len(str(most)) and int(digits) <= most


def number_of(word: str, name: str, least: int = 0) -> int:
    """A number of 64 bits as it was typed."""
    if not is_number(word, TOP_64) or int(shortened(word)) < least:
        raise Fault(f"{name}, '{word}', is not a number from {least} to {TOP_64}")
    return int(shortened(word))


def entries(line: str, first: int, last: int, name: str) -> list[int]:
    """The entries of one arrangement, or the lengths, typed between two columns."""
    found: list[int] = []
    for word in WORD.finditer(line, first, last):
        if not is_number(word.group()):
            entry = f"{name} {len(found) + 1}, '{word.group()}',"
            raise at(line, word.start(), f"{entry} is not a number from 0 to {TOP}")
        found.append(int(shortened(word.group())))
    return found


def counted(number: int, one: str, many: str) -> str:
    """A number with its noun."""
    return f"{number} {one if number == 1 else many}"


def sheet_of(line: str) -> Sheet:
    """The sheet of a line: a name or none, the now entries, a slash, as many goal entries, a slash and lengths or none.

    Whether there are as many lengths is asked by the library.
    """
    line = " ".join(line.splitlines())
    named = NAME.match(line)
    start = named.end() if named else 0
    slash = line.find("/", start)
    if slash < 0:
        raise at(line, len(line), "there is no '/' between the now entries and the goal entries")
    second = line.find("/", slash + 1)
    end = len(line) if second < 0 else second
    third = line.find("/", end + 1)
    if third >= 0:
        raise at(line, third, "a third '/': a sheet is now / goal, or now / goal / lengths")
    now, goal = entries(line, start, slash, "now entry"), entries(line, slash + 1, end, "goal entry")
    lengths = None if second < 0 else entries(line, second + 1, len(line), "length")
    if len(goal) < len(now):
        raise at(line, end, f"slab {len(goal) + 1} has no goal entry: {len(now)} now, {len(goal)} in the goal")
    if len(goal) > len(now):
        extra = list(WORD.finditer(line, slash + 1, end))[len(now)]
        raise at(line, extra.start(), f"slab {len(now) + 1} has no now entry: {len(now)} now, {len(goal)} in the goal")
    return Sheet(now, goal, name_of(named[1], line) if named else "", lengths)


def name_of(name: str, line: str) -> str:
    """A sheet's name, which must be such that it can be printed."""
    for column, letter in enumerate(name, line.index(name)):
        if not letter.isprintable():
            raise at(line.replace(letter, "?"), column, f"the name has a character that cannot be shown, {letter!r}")
    return name


def lifts_of(line: str) -> list[Lift]:
    """The lifts of a line: `1→0` or `1->0` each, with spaces or commas between."""
    line = " ".join(line.splitlines())
    found: list[Lift] = []
    for word in WORD.finditer(line):
        lift = LIFT.fullmatch(word.group())
        if lift is None or not all(map(is_number, lift.groups())):
            raise at(line, word.start(), f"lift {len(found) + 1}, '{word.group()}', is not of the form 1→0")
        found.append((int(shortened(lift[1])), int(shortened(lift[2]))))
    return found


def method_of(word: str) -> int:
    """The method's number as it was typed; whether it is a method is asked by the library."""
    if not is_number(word):
        raise Fault(f"the method, '{word}', is not a number from 0 to {TOP}; the methods are 1, 2 and 3")
    return int(shortened(word))


# ---- files, standard input, and what tools/sheet prints


def field(told: dict[str, Any], name: str) -> int:
    """A number of an object, which must be one that a record's field can hold."""
    number = told[name]
    if type(number) is not int or not 0 <= number <= TOP:
        raise Fault(f"{name}, {number!r}, is not a number from 0 to {TOP}")
    return number


def listed_in(told: dict[str, Any]) -> list[Lift] | None:
    """The list of an object: of a plan, of a replay, none for a refusal, None where there is none."""
    if "lifts" in told:
        return [(field(lift, "slab"), field(lift, "destination")) for lift in told["lifts"]]
    return lifts_of(told["list"]) if "list" in told else [] if told.get("refusal") else None


def from_json(text: str) -> Typed:
    """The sheet, method and list of an object that `tools/sheet --json` prints."""
    try:
        told = json.loads(text)
        sheet, name = sheet_of(told["sheet"]), told.get("name", "")
        method = field(told, "method") if "method" in told else 0
        return Typed(sheet._replace(name=name_of(name, name)), method, listed_in(told))
    except (ValueError, KeyError, TypeError, AttributeError, RecursionError) as error:
        raise Fault(f"this is not what `tools/sheet --json` prints of a sheet: {text[:WIDE]} ({error!r})") from error


def from_words(block: str) -> Typed:
    """The sheet, method and list among the rows that tools/sheet prints."""
    rows = {name: " ".join(words.split()) for name, words in ROW.findall(block)}
    method = method_of(rows["method"].split()[0]) if rows.get("method") else 0
    listed = "no lifts" if "refused" in rows else rows.get("list")
    lifts = None if listed is None else [] if listed == "no lifts" else lifts_of(listed)
    return Typed(sheet_of(rows["sheet"]), method, lifts)


def is_printed(block: str) -> bool:
    """Whether a block of lines is an answer that tools/sheet printed, and nothing else."""
    sheets = re.findall(r"^sheet: ", block, re.MULTILINE)
    if not (PRINTED.search(block) and sheets):
        return False
    if len(sheets) > 1:
        raise Fault("two answers of tools/sheet stand together: an empty line belongs between them")
    for line in block.splitlines():
        if "/" in line and not line.startswith(("sheet:", " ")):
            raise Fault(f"a sheet stands among what tools/sheet printed: {line[:WIDE]}")
    return True


def from_line(line: str) -> Typed | None:
    """The sheet of a line; None where there is but a remark."""
    if line.lstrip().startswith("{"):
        return from_json(line)
    content = line.partition("#")[0]
    return Typed(sheet_of(content)) if content.strip() else None


def from_text(text: str, source: str) -> Iterator[Typed]:
    """The sheets of a file or of standard input: one a line, or the answers that tools/sheet printed."""
    number = 1
    for block in BLOCK.split(text):
        try:
            if is_printed(block):
                yield from_words(block)
                number += block.count("\n")
            else:
                for line in block.split("\n"):
                    if typed := from_line(line):
                        yield typed
                    number += 1
                number -= 1
        except Fault as fault:
            raise Fault(f"{source}, line {number}: {fault}") from fault
        number += 2


def read_text(word: str) -> str | None:
    """What `-` or the name of a file stands for; None for a word that is neither."""
    try:
        if word == "-":
            if sys.stdin is None:
                raise OSError("it is closed")
            return sys.stdin.buffer.read().decode("utf-8-sig").replace("\r\n", "\n")
        return Path(word).read_text(encoding="utf-8-sig") if os.path.isfile(word) else None
    except (OSError, UnicodeDecodeError) as error:
        raise Fault(f"{source_of(word)} cannot be read: {error}") from error


def source_of(word: str) -> str:
    """How a word is called in a message."""
    return "standard input" if word == "-" else word


def all_typed(word: str) -> Iterator[Typed]:
    """The sheets that a word of the command line stands for, one at least."""
    text = read_text(word)
    if text is None:
        yield typed_here(word)
        return
    some = False
    for some, typed in enumerate(from_text(text, source_of(word)), 1):
        yield typed
    if not some:
        raise Fault(f"there is no sheet in {source_of(word)}")


def typed_here(word: str) -> Typed:
    """The sheet of a word that names no file."""
    try:
        return Typed(sheet_of(word))
    except Fault as fault:
        kind = "a folder" if os.path.isdir(word) else "no file"
        hint = "" if re.search(r"\s", word.strip()) else f"\n  (and {word} is {kind})"
        raise Fault(f"{fault}{hint}") from fault


def every_typed(words: list[str]) -> Iterator[Typed]:
    """The sheets that the words of a command line stand for."""
    if words.count("-") > 1:
        raise Fault(ONCE)
    return itertools.chain.from_iterable(map(all_typed, words))


def all_lifts(word: str) -> list[Lift]:
    """The list that a word of the command line stands for: a line, or what a file or `-` holds, remarks left out."""
    text = read_text(word)
    if text is None:
        return lifts_of(word)
    if PRINTED.search(text):
        found = [typed.lifts for typed in from_text(text, source_of(word))]
        if len(found) != 1 or found[0] is None:
            raise Fault(f"{source_of(word)} holds {counted(len(found), 'answer', 'answers')}, where one list is wanted")
        return found[0]
    try:
        return lifts_of("\n".join(line.partition("#")[0] for line in text.splitlines()))
    except Fault as fault:
        raise Fault(f"{source_of(word)}: {fault}") from fault


# ---- lists as they are written


def shown(slab: int, destination: int) -> str:
    """A lift as it is written in a list."""
    return f"{slab}→{destination}"


def all_shown(lifts: list[Lift]) -> str:
    """A list of lifts as a line."""
    return ", ".join(shown(*lift) for lift in lifts)
