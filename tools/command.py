"""How every tool reads its words, writes, and ends: 2 where there is no answer, 3 where it could not be written."""

import io
import os
import sys
import traceback
from collections.abc import Callable

from lines import Fault

NO_ANSWER = 2
UNWRITTEN = 3


class Unwritten(Exception):
    """Standard output did not take what was written."""


def arguments() -> list[str]:
    """The words of the command line, which are UTF-8 whatever the locale is; and what is printed is so too."""
    for stream in (sys.stdout, sys.stderr):
        if isinstance(stream, io.TextIOWrapper):
            stream.reconfigure(encoding="utf-8", errors="backslashreplace")
    try:
        return [os.fsencode(word).decode("utf-8") for word in sys.argv[1:]]
    except UnicodeDecodeError as error:
        raise Fault(f"a word of the command line is not UTF-8: {error}") from error


def put(data: bytes) -> None:
    """Writes to standard output, at once."""
    try:
        if sys.stdout is None:
            raise OSError("standard output is closed")
        sys.stdout.flush()
        sys.stdout.buffer.write(data)
        sys.stdout.buffer.flush()
    except OSError as error:
        raise Unwritten(str(error)) from error


def flushed(work: Callable[[], int]) -> int:
    """Does a tool's work; what a help text has left in the buffer is written before it ends."""
    try:
        return work()
    except SystemExit:
        if sys.stdout is not None:
            put(b"")
        raise


def ended(name: str, work: Callable[[], int]) -> int:
    """The exit status of a tool's work; a fault of the tool itself is no answer, and no refusal."""
    try:
        return flushed(work)
    except Fault as fault:
        print(f"{name}: {fault}", file=sys.stderr)
    except Unwritten as error:
        print(f"{name}: the answer could not be written: {error}", file=sys.stderr)
        if sys.stdout is not None:
            # What is left in the buffer goes nowhere, so that the interpreter does not fail on it again.
            os.dup2(os.open(os.devnull, os.O_WRONLY), sys.stdout.fileno())
        return UNWRITTEN
    except Exception:  # noqa: BLE001
        traceback.print_exc()
    return NO_ANSWER
