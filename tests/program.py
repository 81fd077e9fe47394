"""Runs the planning program, target/bin/plan, on whole files of records and compares what it writes.

What it should write comes from document 01's question 12 read literally here, with the heads and lengths of document
02, and from the plans of reading.py; full yards take their plans from the closed forms of sheets.py. Each run has 512
KiB of stack.
An input whose records decide the answer is answered within a second, though it never ends or is not closed.
"""

import itertools
import os
import random
import resource
import signal
import subprocess
import sys
import tempfile
import threading
import time
from collections.abc import Iterator
from pathlib import Path

import reading
import sheets
from case import measured, planning, read
from reading import METHODS, MOST, MOST_PANEL, TOP
from records import ENTRY, EXAMPLE, HEAD, HEADS, KEPT, LIFT, LONGEST_ANSWER, LONGEST_INPUT
from records import asked, head, packed, planned, refused, unpacked

PROGRAM = Path(__file__).resolve().parent.parent / "target" / "bin" / "plan"
VECTORS = Path(__file__).resolve().parent / "vectors" / "program.txt"
SEED = 12
SHEETS = 200
STACK = 512 * 1024
# The marks of the lists of a sheet.
MARKS = ("NW", "GL", "LN")
TAIL = 3_000_000
SOON = 1.0


def answer(data: bytes) -> bytes:
    """What document 01 has the program write: 12 of the head, 1, 2, 12 of the other records in order, then 4 on."""
    found, rest = unpacked(data)
    marks = [mark for mark, _ in found]
    if not marks or marks[0] not in HEADS:
        return refused(12, 0)
    n, method = found[0].fields
    if method not in METHODS:
        return refused(1, 0)
    if n > MOST:
        return refused(2, 0)
    wished = [marks[0], *["NW"] * n, *["GL"] * n, *["LN"] * (n if marks[0] == "HL" else 0)]
    for before, mark in enumerate(wished):
        if marks[before : before + 1] != [mark]:
            return refused(12, before)
    if len(marks) > len(wished) or rest:
        return refused(12, len(wished))
    entries = [record.fields[0] for record in found[1:]]
    cases = [planning(method, entries[:n], entries[n : 2 * n])]
    (number, place, _, misplaced), pairs = read(*(measured(cases, entries[2 * n :]) if marks[0] == "HL" else cases))
    return refused(number, place) if number else planned(misplaced, pairs)


def vectors() -> Iterator[tuple[bytes, bytes]]:
    """Inputs with their outputs by another reading, a line each in hexadecimal; - is the empty input.

    It read document 01 alone, and document 02, Job 2, has another number in PL's second field: dots stand for it.
    """
    for line in VECTORS.read_text().splitlines():
        words, told = line.split()
        data = bytes.fromhex(words.replace("-", ""))
        yield data, bytes.fromhex(told.replace("....", answer(data)[4:HEAD].hex()))


def documents() -> Iterator[bytes]:
    """The sheets of document 01, starred and others, and the trials, by every method and by numbers that are none.

    Each also with equal lengths.
    """
    for now, goal, *_ in (*sheets.ENDS, *sheets.COUNTS, *sheets.TRIALS, *sheets.REFUSED):
        for lengths in (None, [300] * len(now)):
            yield from (asked(method, now, goal, lengths) for method in (0, *METHODS, 4, TOP))


# S5 of document 01, and with lengths that fit.
S5 = [2, 3, 0, 5, 0], [5, 0, 0, 3, 2]
S5_LONG = *S5, [100, 250, 300, 200, 200]


def marred() -> Iterator[bytes]:
    """Valid inputs cut at every byte, with each byte of each mark turned, and with one byte after their end."""
    for whole in (asked(3, *S5), asked(3, *S5_LONG)):
        yield from (whole[:size] for size in range(len(whole) + 1))
        for start in (0, *range(HEAD, len(whole), ENTRY)):
            for at in (start, start + 1):
                yield whole[:at] + bytes([whole[at] ^ 1]) + whole[at + 1 :]
        yield from (whole + bytes([last]) for last in (0, 0x4C, 0x4E, 0xFF))
        yield from (whole + packed(f"{mark} 0") for mark in ("NW", "GL", "LN"))


def remarked() -> Iterator[bytes]:
    """Valid inputs with the mark of each record that of another, by every mark that is read; and heads exchanged."""
    for whole in (asked(3, *S5), asked(3, *S5_LONG)):
        for at, mark in itertools.product((0, *range(HEAD, len(whole), ENTRY)), (b"HD", b"HL", b"NW", b"GL", b"LN")):
            yield whole[:at] + mark + whole[at + 2 :]
    now, goal, lengths = (packed(", ".join(f"{mark} {k}" for k in part)) for mark, part in zip(MARKS, S5_LONG))
    for parts in itertools.permutations((now, goal, lengths)):
        yield head(5, 2, "HL") + b"".join(parts)
    for mark in HEADS:
        yield head(5, 2, mark) + now + goal + lengths + lengths
        yield head(5, 2, mark) + now + goal + lengths[:-ENTRY]


def heads() -> Iterator[bytes]:
    """Inputs of a head alone: cut short, of another mark, with and without a tail, of each method and of large n."""
    for mark in HEADS:
        whole = head(0, 1, mark)
        yield from (whole[:size] for size in range(len(whole) + 1))
        yield from (other + whole[len(other) :] for other in (b"XD", b"HX", b"NW", b"DH", b"LH", b"LN"))
        for n in (0, 1, MOST, MOST + 1, TOP):
            for method in (0, *METHODS, 4, 256, 513, TOP):
                yield head(n, method, mark)
                yield head(n, method, mark) + b"N"


def damaged(rng: random.Random, data: bytes) -> Iterator[bytes]:
    """An input with one bit turned, one byte lost, its end cut off, and a tail."""
    at = rng.randrange(len(data))
    yield data[:at] + bytes([data[at] ^ 1 << rng.randrange(8)]) + data[at + 1 :]
    yield data[:at] + data[at + 1 :]
    yield data[:at]
    yield data + rng.randbytes(rng.randint(1, 5))


def random_inputs() -> Iterator[bytes]:
    """Random sheets of at most eight slabs, each whole, damaged, and with entries that may be bad."""
    rng = random.Random(SEED)
    for number in range(SHEETS):
        n, method = number % 9, rng.choice(METHODS)
        now, goal = sheets.random_sheet(rng, n, number % 3) if n > 1 else ([0] * n, [0] * n)
        loose = [rng.randint(0, n + 1) for _ in range(n)]
        yield asked(method, now, goal)
        yield from damaged(rng, asked(method, now, goal))
        yield asked(method, loose, goal)
        yield asked(method, now, loose)
        lengths = rng.choices((0, 250, 300, TOP), k=n)
        fitted = sheets.fitting(rng, lengths), sheets.fitting(rng, lengths), lengths
        yield asked(method, *fitted)
        yield from damaged(rng, asked(method, *fitted))
        yield from (asked(method, *some, lengths) for some in ((now, fitted[1]), (fitted[0], goal), (now, loose)))


def full() -> Iterator[bytes]:
    """Full yards that are refused: cut off, with a bad mark in the last record of each kind, with tails short and long.

    With lengths also the first and the last slab that overhangs, now and in the goal.
    """
    flat, tower = [0] * MOST, sheets.tower(MOST)
    for lengths, kinds in ((None, 2), (flat, 3)):
        whole = asked(1, flat, flat, lengths)
        yield from (whole[:-size] for size in (1, ENTRY - 1, ENTRY, ENTRY + 1, ENTRY * MOST, ENTRY * MOST + 1))
        for kind in range(kinds):
            at = HEAD + ENTRY * (MOST * (kind + 1) - 1)
            marred = whole[:at] + b"X" + whole[at + 1 :]
            yield from (marred, marred + bytes(TAIL))
        yield from (whole + bytes(size) for size in (1, 2, TAIL))
        yield asked(0, flat, flat, lengths) + bytes(TAIL)
        yield asked(2, [TOP, *flat[1:]], flat, lengths)
    for lengths in ([0, *[1] * (MOST - 1)], [*flat[1:], 1]):
        yield from (asked(2, now, goal, lengths) for now, goal in ((tower, flat), (flat, tower)))


def plans() -> Iterator[tuple[bytes, bytes]]:
    """Full yards with their plans in closed form, also with equal lengths: the longest input, and the longest plans.

    And a pile to be built of as many slabs as the panel takes, and of one more: the program is the yard office's.
    """
    for known in sheets.full_yards():
        for method, lengths in itertools.product(METHODS, (None, [TOP] * len(known.now))):
            told = planned(known.misplaced(), known.pairs(method))
            yield asked(method, known.now, known.goal, lengths), told
    for n in (MOST_PANEL, MOST_PANEL + 1, MOST):
        flat, tower, falling = [0] * n, sheets.tower(n), [*range(n, 0, -1)]
        told = planned(n - 1, [(slab, slab - 1) for slab in range(2, n + 1)])
        yield from ((asked(2, flat, tower, lengths), told) for lengths in (None, falling))


def sizes() -> Iterator[tuple[bool, str]]:
    """The lengths of records, of the longest input, and of the longest plan, in which all but one are lifted twice."""
    known = sheets.turned(MOST)
    longest = planned(known.misplaced(), known.pairs(1))
    for words in ("HD 0 0", "HL 0 0", "PL 0 0", "NO 0 0"):
        yield len(packed(words)) == HEAD, f"the length of {words}"
    for words, size in (("NW 0", ENTRY), ("GL 0", ENTRY), ("LN 0", ENTRY), ("LF 0 0", LIFT)):
        yield len(packed(words)) == size, f"the length of {words}"
    longest_input = asked(1, known.now, known.goal, [0] * MOST)
    yield len(longest_input) == LONGEST_INPUT == 48_006, "the length of the longest input"
    yield len(longest) + 2 * LIFT == LONGEST_ANSWER, "the length of the longest answer"


def run(data: bytes) -> bytes:
    """What the program writes."""
    limit = (STACK, STACK)
    done = subprocess.run(
        [PROGRAM], input=data, capture_output=True, preexec_fn=lambda: resource.setrlimit(resource.RLIMIT_STACK, limit)
    )
    return done.stdout if done.returncode == 0 else b""


def slowly(data: bytes, size: int) -> bytes:
    """What the program writes where its input comes in pieces of some size."""
    with subprocess.Popen([PROGRAM], stdin=subprocess.PIPE, stdout=subprocess.PIPE, bufsize=0) as program:
        assert program.stdin is not None and program.stdout is not None
        for start in range(0, len(data), size):
            program.stdin.write(data[start : start + size])
            time.sleep(0.001)
        program.stdin.close()
        return program.stdout.read()


def decided() -> Iterator[tuple[bytes, bytes]]:
    """Inputs with their answers by questions 12, 1 and 2, which no byte behind them can change."""
    whole, long = asked(3, *S5), asked(3, *S5_LONG)
    flat = [0] * MOST
    yield bytes(HEAD), refused(12, 0)
    yield from ((head(5, method, mark), refused(1, 0)) for method in (0, 4, TOP) for mark in HEADS)
    yield from ((head(MOST + 1, 1, mark), refused(2, 0)) for mark in HEADS)
    yield whole[:HEAD] + packed("GL 0"), refused(12, 1)
    yield whole[: HEAD + 2 * ENTRY] + bytes(ENTRY), refused(12, 3)
    yield whole[: HEAD + 7 * ENTRY] + packed("NW 0"), refused(12, 8)
    yield whole + b"\0", refused(12, 2 * 5 + 1)
    yield long[: HEAD + 10 * ENTRY] + packed("GL 0"), refused(12, 11)
    yield long[: HEAD + 14 * ENTRY] + packed("NW 0"), refused(12, 15)
    yield long + b"\0", refused(12, 3 * 5 + 1)
    yield head(0, 2, "HL") + b"L", refused(12, 1)
    yield asked(1, flat, flat, flat) + b"\0", refused(12, 3 * MOST + 1)
    yield EXAMPLE[0] + b"N", refused(12, 2 * 2 + 1)
    yield asked(1, flat, flat) + b"\0", refused(12, 2 * MOST + 1)


def soon(program: subprocess.Popen[bytes]) -> bytes:
    """What the program writes, where it ends within a second."""
    assert program.stdout is not None
    try:
        program.wait(SOON)
    except subprocess.TimeoutExpired:
        program.kill()
        return b""
    return program.stdout.read()


def pour(front: bytes, pipe: int) -> None:
    """Writes the bytes and then zeros, until nobody reads them."""
    with open(pipe, "wb", buffering=0) as writer:
        try:
            writer.write(front)
            while True:
                writer.write(bytes(4096))
        except BrokenPipeError:
            pass


def endless(front: bytes) -> bytes:
    """What the program soon writes where its input begins so and goes on in zeros without end."""
    read, write = os.pipe()
    with open(read, "rb") as reader, subprocess.Popen([PROGRAM], stdin=reader, stdout=subprocess.PIPE) as program:
        reader.close()
        pouring = threading.Thread(target=pour, args=(front, write))
        pouring.start()
        answered = soon(program)
        pouring.join()
        return answered


def zeros() -> bytes:
    """What the program soon writes where its input is /dev/zero."""
    with open("/dev/zero", "rb") as source:
        with subprocess.Popen([PROGRAM], stdin=source, stdout=subprocess.PIPE) as program:
            return soon(program)


def held(front: bytes) -> bytes:
    """What the program soon writes where its input begins so, and no more comes though it is not closed."""
    with subprocess.Popen([PROGRAM], stdin=subprocess.PIPE, stdout=subprocess.PIPE, bufsize=0) as program:
        assert program.stdin is not None
        program.stdin.write(front)
        return soon(program)


def taken(data: bytes) -> int:
    """How many bytes of a file the program reads."""
    with tempfile.TemporaryFile() as file:
        file.write(data)
        file.seek(0)
        subprocess.run([PROGRAM], stdin=file, capture_output=True, check=True)
        return os.lseek(file.fileno(), 0, os.SEEK_CUR)


def stops() -> Iterator[tuple[bool, str]]:
    """Inputs that come in pieces, that never end, that are held open, and how far a file is read."""
    measured_example = asked(2, *S5_LONG), answer(asked(2, *S5_LONG))
    for data, told in (EXAMPLE, measured_example, *decided()):
        for size in (1, 3, 5, 7) if len(data) < 100 else (1001, 4096):
            yield run(data) == told == slowly(data, size), f"{len(data)} bytes in pieces of {size}: {data[:40].hex()}"
    yield zeros() == refused(12, 0), "zeros without end"
    yield endless(EXAMPLE[0]) == refused(12, 5), "the example and zeros without end"
    for front, told in decided():
        yield endless(front) == told, f"{len(front)} bytes and zeros without end: {front[:40].hex()}"
        yield held(front) == told, f"{len(front)} bytes held open: {front[:40].hex()}"
    long = asked(3, *S5_LONG)
    full_yard = asked(1, *[[0] * MOST] * 3)
    for front in (EXAMPLE[0], long, full_yard):
        yield taken(front + bytes(TAIL)) == len(front) + 1, f"reading {len(front) + 1} bytes of a long file"
    yield len(full_yard) + 1 == KEPT, "the most bytes that are read"
    for front, size in ((b"", HEAD), (head(5, 0), HEAD), (head(5, 0, "HL"), HEAD)):
        yield taken(front + bytes(TAIL)) == size, f"reading {size} bytes of a long file: {front.hex()}"


def unheard(data: bytes) -> bool:
    """Whether the program ends where nobody reads its answer."""
    read, write = os.pipe()
    os.close(read)
    with open(write, "wb") as closed:
        done = subprocess.run([PROGRAM], input=data, stdout=closed, timeout=60)
    return done.returncode in (0, -signal.SIGPIPE)


def main() -> int:
    """Runs all inputs and counts those that are answered as they should be."""
    print(f"seed {SEED}")
    inputs = [*documents(), *marred(), *remarked(), *heads(), *random_inputs(), *full()]
    pairs = [EXAMPLE, *vectors(), *((data, answer(data)) for data in inputs), *plans()]
    others = [
        (unheard(pairs[-1][0]), "a full yard's plan into a closed pipe"),
        *sizes(),
        *stops(),
    ]
    failed = 0
    for number, (data, told) in enumerate(pairs):
        if run(data) != told:
            print(f"input {number + 1}, {len(data)} bytes, is answered otherwise: {data[:40].hex()}")
            failed += 1
    for good, name in others:
        if not good:
            print(f"{name} fails")
            failed += 1
    print(f"{len(pairs) + len(others) - failed} passed, {failed} failed")
    return 1 if failed else 0


if __name__ == "__main__":
    sys.exit(main())
