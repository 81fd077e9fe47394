"""Empty lists lent as NULL: every operation, from C and, where a compiler is there, from C++.

Each program of tests/c runs as it is and under the address and undefined-behaviour sanitizers, where
the compiler has them; and once with functions before memcpy, memmove and memset that allow no NULL.
The last line is 'N passed, M failed'.
"""

import argparse
import shutil
import subprocess
import sys
from collections.abc import Iterator
from pathlib import Path

from compiled import COMPILERS, LIBRARY, TARGET, tried

SANITIZED = ["-g", "-O1", "-fsanitize=address,undefined", "-fno-sanitize-recover=all"]
WRAPPED = ["-O2", "-Wl,--wrap=memcpy,--wrap=memmove,--wrap=memset"]


def sanitizes(suffix: str) -> bool:
    """Whether the compiler of a kind of source builds with the sanitizers, and what it builds runs."""
    source, made = TARGET / f"probe{suffix}", TARGET / "probe"
    TARGET.mkdir(parents=True, exist_ok=True)
    source.write_text("int main() { return 0; }\n")
    words = [COMPILERS[suffix][0], *SANITIZED, "-o", str(made), str(source)]
    steps = (words, [str(made)])
    return all(subprocess.run(step, capture_output=True, check=False).returncode == 0 for step in steps)


def programs() -> Iterator[tuple[str, list[str], list[str]]]:
    """Each program by a name, with its sources and flags."""
    for source in ("empty.c", "empty.cc"):
        suffix = Path(source).suffix
        compiler = COMPILERS[suffix][0]
        if not shutil.which(compiler):
            print(f"{source}: there is no {compiler} here")
            continue
        yield source, [source], ["-O2"]
        if sanitizes(suffix):
            yield f"{source}, sanitized", [source], SANITIZED
        else:
            print(f"{source}: {compiler} has no sanitizers here")
    yield "empty.c, wrapped", ["empty.c", "wrapped.c"], WRAPPED


def main() -> int:
    """Builds, runs and counts."""
    parser = argparse.ArgumentParser(description="Empty lists lent as NULL.")
    parser.add_argument("--library", type=Path, default=LIBRARY)
    library = parser.parse_args().library.resolve()
    passed = failed = 0
    for name, sources, flags in programs():
        count = tried(TARGET / name.replace(", ", "."), sources, library, flags)
        print(f"{name}: {count.passed} passed, {count.failed} failed", *filter(None, [count.said]), sep="\n")
        passed, failed = passed + count.passed, failed + count.failed
    print(f"{passed} passed, {failed} failed")
    return 1 if failed or not passed else 0


if __name__ == "__main__":
    sys.exit(main())
