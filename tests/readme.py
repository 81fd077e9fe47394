"""Holds README.md to what it speaks of.

What its commands print, the lines that build and install a program in C, the last lines of what builds, the
commands for a desk and their options, every path and every crate; and that the gate runs all files of tests. The last
line is 'N passed, M failed'.
"""

import os
import re
import shlex
import shutil
import subprocess
import sys
import tempfile
from collections.abc import Iterator
from pathlib import Path

from records import KEPT
from tested import ROOT, Ended, Test, counted, lacking, misended, unlike

README = (ROOT / "README.md").read_text(encoding="utf-8")
BLOCKS = [re.sub(r"^ {4}", "", block, flags=re.M) for block in re.findall(r"(?:^ {4}.*\n)+", README, re.M)]
EXPECTED = (ROOT / "examples" / "expected.txt").read_text(encoding="utf-8")
TICKED = re.compile(r"`([^`\n]+)`")

# Paths that are made, or stand for the reader's own.
MADE = re.compile(r"target/|DIR/|\./example$|\.\.\./")


def block(begin: str) -> str:
    """The first block of the page that begins with some words."""
    return next((text for text in BLOCKS if text.startswith(begin)), "")


def section(heading: str) -> str:
    """What stands under a heading."""
    return README.partition(f"\n## {heading}\n")[2].partition("\n## ")[0]


def table(heading: str) -> list[list[str]]:
    """The rows of the table under a heading, its head left out."""
    rows = [line.strip("|").split("|") for line in section(heading).splitlines() if line.startswith("|")]
    return [[cell.strip() for cell in row] for row in rows[2:]]


def run(command: str, cwd: Path = ROOT) -> Ended:
    """Runs a line of the page as a shell does."""
    env = {**os.environ, "DESTDIR": ""}
    return subprocess.run(["bash", "-c", command], cwd=cwd, env=env, capture_output=True, text=True, check=False)


def printed(command: str, right: str, cwd: Path = ROOT) -> str:
    """What is wrong with what a line of the page prints."""
    if not command:
        return "the page has no such line"
    ended = run(command, cwd)
    return misended(ended, 0) or unlike(ended.stdout, right)


# ---- what commands print


def samples() -> Iterator[Test]:
    """The list of the first sheet, and the bytes of the planning program."""
    yield "a list", printed(block("tools/library plan && tools/sheet plan ").partition(" && ")[2], block("at least "))
    if (ROOT / "target" / "bin" / "plan").is_file():
        yield "the program's bytes", printed(block("tools/sheet records "), block(" 50 4c"))
    else:
        print("there is no target/bin/plan here: tools/library plan builds it")
    yield "the program's input", lacking(section("The planning program"), [f"at most {KEPT:,} bytes"])


def crates() -> dict[str, list[str]]:
    """What each crate stands on."""
    lines = re.findall(r"^(\w+)(?: staticlib)?:(.*)$", (ROOT / "crates.txt").read_text(encoding="utf-8"), re.M)
    return {crate: others.split() for crate, others in lines}


def builds() -> Iterator[Test]:
    """What tools/library is asked, and the last lines of what it says, a file that it wrote."""
    script = (ROOT / "tools" / "library").read_text(encoding="utf-8")
    for place, made in (("target/staticlib/libtopjeska.a",) * 2, ("target/bin/$1", "target/bin/plan")):
        yield f"tools/library, {made}", lacking(script, [f' "{place}"\n', 'echo "wrote $2"'])
        yield f"the last line, {made}", unlike(block(f"wrote {made}"), f"wrote {made}\n")
    yield "tools/library", unlike(block("tools/library\n"), "tools/library\n")


# ---- programs in C


def built(folder: Path) -> Iterator[Test]:
    """The line that builds the example, its program put elsewhere."""
    made = shlex.quote(str(folder / "example"))
    line = block("cc -O2 ")
    yield "cc, what it makes", lacking(line, [" -o example "])
    yield "cc", printed(line and f"{line.replace(' -o example ', f' -o {made} ').strip()} && {made}", EXPECTED)


def installed(folder: Path) -> Iterator[Test]:
    """The lines that install, build by pkg-config and uninstall, with a folder for DIR."""
    prefix = folder / "dir"
    lines = [re.sub(r"\bDIR\b", str(prefix), text) for text in (block("./install"), block("export PKG_CONFIG_PATH="))]
    install, _, uninstall = lines[0].partition("\n")
    yield "install", misended(run(install), 0, [f"wrote {prefix}/"])
    shutil.copy(ROOT / "examples" / "c" / "main.c", folder / "program.c")
    if shutil.which("pkg-config"):
        yield "cc by pkg-config", printed(lines[1] and f"{lines[1].strip()} && ./a.out", EXPECTED, folder)
    else:
        print("there is no pkg-config here")
    yield "uninstall", misended(run(uninstall), 0, [f"removed {prefix}\n"])


def versions() -> Iterator[Test]:
    """The oldest Rust, as the crates have it."""
    for crate in ("rust", "examples/rust"):
        manifest = (ROOT / crate / "Cargo.toml").read_text(encoding="utf-8")
        named = re.findall(r'^rust-version = "(.+)"$', manifest, re.M)
        yield f"Rust of {crate}", lacking(section("What you need"), [f"Rust {version} or newer" for version in named])


# ---- commands and paths


def desk() -> Iterator[Test]:
    """Each command of the table: its help is there, and has the options of its row."""
    rows = table("At a desk")
    yield "commands", "" if rows else "the page has none"
    for command, does in rows:
        tool, word, *_ = *command.strip("`").split(), ""
        words = [str(ROOT / tool), *([word] if re.fullmatch("[a-z]+", word) else []), "--help"]
        if not os.access(words[0], os.X_OK):
            yield command, "does not exist"
            continue
        ended = subprocess.run(words, capture_output=True, text=True, encoding="utf-8", check=False)
        yield command, misended(ended, 0, re.findall(r"--\w+", command + does))


def missing(name: str, places: list[Path]) -> str:
    """Whether a path is nowhere."""
    return "" if any((place / name).exists() for place in places) else "does not exist"


def paths() -> Iterator[Test]:
    """Every path of the page but those of the layout, in the text, in blocks and behind pictures."""
    text = README.replace(section("Layout"), "")
    words = [word for part in [*TICKED.findall(text), *BLOCKS] for word in part.split()]
    named = {word for word in words if re.fullmatch(r"[\w.-]*\w(?:/[\w.-]+)+/?|[\w-]+/|\./[\w.-]+", word)}
    for name in sorted({*named, *re.findall(r"\]\(([^)]+)\)", text)}):
        if not MADE.match(name):
            yield name, missing(name, [ROOT])


def layout() -> Iterator[Test]:
    """The folders of the layout, what their rows name, and a row for each crate."""
    rows = table("Layout")
    homes = [name for row in rows for name in TICKED.findall(row[0])]
    for first, text in rows:
        own = TICKED.findall(first)
        for name in own:
            yield f"layout, {name}", missing(name, [ROOT])
        for name in TICKED.findall(text):
            yield f"layout, {name} of {first}", missing(name, [*(ROOT / home for home in own), ROOT, ROOT / "crates"])
    yield "layout, crates", unlike(
        sorted(name for name in homes if name.startswith("crates/")), sorted(f"crates/{crate}" for crate in crates())
    )


# ---- the gate

# The files with tests that another one runs.
RUN_BY = {"commands.py": "docs.py", "means.py": "docs.py", "page_data.py": "docs.py", "pictures.py": "docs.py"}


def gate() -> Iterator[Test]:
    """Every file with tests is run by the gate, or by one that is."""
    text = (ROOT / ".ci" / "run").read_text(encoding="utf-8")
    run_there = set(re.findall(r"^counted python3 tests/(\w+\.py)", text, re.M))
    for path in sorted((ROOT / "tests").glob("*.py")):
        own = path.read_text(encoding="utf-8")
        if not re.search(r'^if __name__ == "__main__":|^def tests\(', own, re.M):
            continue
        by = RUN_BY.get(path.name)
        yield f"the gate and {path.name}", "" if (by or path.name) in run_there else f".ci/run has no {by or path.name}"
        if by:
            imports = re.search(rf"^import {path.stem}\b", (ROOT / "tests" / by).read_text(encoding="utf-8"), re.M)
            yield f"{by} and {path.name}", "" if imports else "is not imported"


def tests() -> Iterator[Test]:
    """All tests."""
    for group in (samples, builds, versions, desk, paths, layout, gate):
        yield from group()
    for group in (built, installed):
        with tempfile.TemporaryDirectory() as folder:
            yield from group(Path(folder).resolve())


if __name__ == "__main__":
    sys.exit(counted(tests()))
