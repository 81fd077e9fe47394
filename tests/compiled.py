"""The programs of tests/c: built against the static library, run, and their tests counted."""

import os
import re
import subprocess
from collections.abc import Sequence
from pathlib import Path
from typing import NamedTuple

from tested import ROOT

TARGET = ROOT / "target" / "compiled"
LIBRARY = ROOT / "target" / "staticlib" / "libtopjeska.a"
INCLUDE = ROOT / "include"
SOURCES = ROOT / "tests" / "c"
STRICT = ["-pedantic", "-Wall", "-Wextra", "-Werror"]
COMPILERS = {".c": ["cc", "-std=c99", *STRICT], ".cc": ["c++", "-std=c++11", *STRICT]}
COUNT = re.compile(r"^(\d+) passed, (\d+) failed\n\Z", re.MULTILINE)
PATIENCE = 60.0


class Count(NamedTuple):
    """How many tests passed and failed, and what was printed beside that."""

    passed: int
    failed: int
    said: str


def build(made: Path, sources: Sequence[str], library: Path, flags: Sequence[str], include: Path) -> str:
    """Builds a program from sources of tests/c; what the compiler says against it, empty where it is built."""
    made.parent.mkdir(parents=True, exist_ok=True)
    compiler = COMPILERS[Path(sources[0]).suffix]
    files = [str(SOURCES / source) for source in sources]
    words = [*compiler, *flags, f"-I{include}", f"-I{SOURCES}", "-o", str(made), *files, str(library)]
    done = subprocess.run(words, capture_output=True, text=True, check=False)
    return "" if done.returncode == 0 else done.stderr.strip() or f"the compiler ends with {done.returncode}"


def run(program: Path) -> Count:
    """Runs a program whose last line is its count; one failure where it ends otherwise."""
    # The programs keep no memory, and where a process is traced the search for leaks fails.
    env = {**os.environ, "ASAN_OPTIONS": "detect_leaks=0"}
    try:
        done = subprocess.run([program], capture_output=True, text=True, check=False, env=env, timeout=PATIENCE)
    except subprocess.TimeoutExpired:
        return Count(0, 1, f"no answer within {PATIENCE:.0f} s")
    counted = COUNT.search(done.stdout)
    said = (COUNT.sub("", done.stdout) + done.stderr).strip()
    passed, failed = map(int, counted.groups()) if counted else (0, 0)
    if failed == 0 and (done.returncode != 0 or passed == 0):
        return Count(passed, 1, f"{said}\nit ends with {done.returncode}".strip())
    return Count(passed, failed, said)


def tried(
    made: Path, sources: Sequence[str], library: Path, flags: Sequence[str] = (), include: Path = INCLUDE
) -> Count:
    """Builds and runs a program; one failure where it is not built."""
    wrong = build(made, sources, library, flags, include)
    return Count(0, 1, wrong) if wrong else run(made)
