"""Runs ./install into temporary folders: what it writes, that a program is built by it, and what is left behind.

The prefix has a space in its name. The example in C is built by the flags of the pkg-config file, read by
pkg-config where that is there, and by its own few lines here; it must print examples/expected.txt. Which
library is taken, and when it is built, is tried with an rt and a cargo that only say what they are asked.
The last line is 'N passed, M failed'.
"""

import os
import re
import shlex
import shutil
import subprocess
import sys
import tempfile
from collections.abc import Iterator
from pathlib import Path
from unittest import mock

from compiled import INCLUDE, LIBRARY
from tested import ROOT, Ended, Test, counted, misended, unlike

sys.path.append(str(ROOT / "tools"))
import topjeska  # noqa: E402

INSTALLED = ("include/topjeska.h", "lib/libtopjeska.a", "lib/pkgconfig/topjeska.pc")
# What the script needs of the path.
COMMANDS = ("bash", "cat", "chmod", "cp", "dirname", "mkdir", "mv", "sed")
NAMED = os.environ.get("TOPJESKA_LIB_DIR")
ARCHIVE = Path(NAMED).resolve() / LIBRARY.name if NAMED else LIBRARY


def called(command: list[str], cwd: Path, umask: int = -1, **around: str) -> Ended:
    """Runs a command in a folder, with variables around it."""
    env = {**os.environ, "DESTDIR": "", "TOPJESKA_LIB_DIR": str(ARCHIVE.parent) if NAMED else "", **around}
    return subprocess.run(command, cwd=cwd, env=env, umask=umask, capture_output=True, text=True, check=False)


def run(words: list[str], cwd: Path = ROOT, root: Path = ROOT, umask: int = -1, **around: str) -> Ended:
    """Runs the script of a root in a folder, with variables around it."""
    return called([str(root / "install"), *words], cwd, umask, **around)


def files(folder: Path) -> list[str]:
    """The files beneath a folder, and the folders without one."""
    found = (path for path in folder.rglob("*") if path.is_file() or not any(path.iterdir()))
    return sorted(str(path.relative_to(folder)) for path in found)


# ---- the flags of the pkg-config file


def told(pc: Path) -> list[str]:
    """The flags by pkg-config."""
    words = ["pkg-config", "--cflags", "--libs", "topjeska"]
    env = {**os.environ, "PKG_CONFIG_PATH": str(pc.parent)}
    return shlex.split(subprocess.run(words, env=env, capture_output=True, text=True, check=True).stdout)


def written(pc: Path) -> list[str]:
    """The flags by reading the file: its variables put in, and its quotation marks those of a shell."""
    text = pc.read_text()
    values = dict(re.findall(r"^(\w+)=(.*)$", text, re.MULTILINE))
    for _ in values:
        text = re.sub(r"\$\{(\w+)\}", lambda name: values[name[1]], text)
    lines = dict(re.findall(r"^(\w+): (.*)$", text, re.MULTILINE))
    return shlex.split(f"{lines['Cflags']} {lines['Libs']}")


def misbuilt(flags: list[str], folder: Path) -> str:
    """What is wrong with the example in C, built by some flags."""
    made = folder / "example"
    source = str(ROOT / "examples" / "c" / "main.c")
    built = subprocess.run(["cc", "-o", str(made), source, *flags], capture_output=True, text=True, check=False)
    if built.returncode != 0:
        return built.stderr
    printed = subprocess.run([made], capture_output=True, text=True, check=False).stdout
    made.unlink()
    return unlike(printed, (ROOT / "examples" / "expected.txt").read_text())


# ---- the tests


def version_of(path: Path, pattern: str) -> list[str]:
    """The version that a file names."""
    return re.findall(pattern, path.read_text(), re.MULTILINE)


def round_trip(folder: Path) -> Iterator[Test]:
    """Installs, builds the example, installs again, and uninstalls."""
    prefix = folder / "a prefix"
    there = [prefix / name for name in INSTALLED]
    words = ["--prefix", str(prefix)]
    yield "install", misended(run(words, umask=0o077), 0, [f"wrote {path}\n" for path in there])
    yield "who may read", unlike([oct(path.stat().st_mode & 0o777) for path in there], ["0o644"] * 3)
    yield "what is installed", unlike(files(prefix), list(INSTALLED))
    for path, source in ((there[0], INCLUDE / "topjeska.h"), (there[1], ARCHIVE)):
        same = path.read_bytes() == source.read_bytes()
        yield f"{path.name}, as it was built", "" if same else f"is not {source}"
    header = version_of(there[0], r'^#define TOPJESKA_VERSION "(.+)"$')
    crate = version_of(ROOT / "rust" / "Cargo.toml", r'^version = "(.+)"$')
    yield "version", unlike(version_of(there[2], r"^Version: (.+)$"), header) or unlike(header, crate)
    if shutil.which("pkg-config"):
        yield "the example by pkg-config", misbuilt(told(there[2]), folder)
    else:
        print("there is no pkg-config here")
    yield "the example by the file", misbuilt(written(there[2]), folder)
    yield "install again", misended(run([f"--prefix={prefix}/"]), 0) or unlike(files(prefix), list(INSTALLED))
    yield "uninstall", misended(run(["--uninstall", *words]), 0, [f"removed {path}\n" for path in there])
    yield "what is left", unlike(files(folder), [])
    yield "uninstall again", misended(run([*words, "--uninstall"]), 1, ["nothing of topjeska"])


# What uninstalling leaves under a DESTDIR, by the prefix.
STAYING = {
    "/": ["include", "lib/pkgconfig"],
    "/usr": ["usr/include", "usr/lib/pkgconfig"],
    "/usr/local": ["usr/local/include", "usr/local/lib/pkgconfig"],
    "/usr/local/": ["usr/local/include", "usr/local/lib/pkgconfig"],
    "/srv/slabs": ["srv"],
    "/usr/local/slabs": ["usr/local"],
}


def other_places(folder: Path) -> Iterator[Test]:
    """Another's file stays; a relative prefix; DESTDIR; where all folders stay."""
    prefix = folder / "shared"
    (prefix / "lib").mkdir(parents=True)
    (prefix / "lib" / "other.a").touch()
    wrong = misended(run(["--prefix", str(prefix)]), 0) or misended(run(["--uninstall", "--prefix", str(prefix)]), 0)
    yield "another's file stays", wrong or unlike(files(folder), ["shared/lib/other.a"])
    shutil.rmtree(prefix, ignore_errors=True)
    wrong = misended(run(["--prefix", "near by"], cwd=folder), 0)
    pc = folder / "near by" / INSTALLED[2]
    yield "a relative prefix", wrong or unlike(written(pc)[0], f"-I{folder}/near by/include")
    yield "and away", misended(run(["--uninstall", "--prefix", "near by"], cwd=folder), 0) or unlike(files(folder), [])
    stage = folder / "stage"
    wrong = misended(run([], DESTDIR=str(stage)), 0) or unlike(files(stage / "usr/local"), list(INSTALLED))
    yield "DESTDIR", wrong or unlike(written(stage / "usr/local" / INSTALLED[2])[0], "-I/usr/local/include")
    shutil.rmtree(stage, ignore_errors=True)
    for prefix, left in STAYING.items():
        words = ["--prefix", prefix]
        wrong = misended(run(words, cwd=folder, DESTDIR="stage"), 0)
        yield f"{prefix} under a relative DESTDIR", wrong or unlike(
            files(stage), sorted(f"{prefix.strip('/')}/{name}".lstrip("/") for name in INSTALLED)
        )
        wrong = misended(run(["--uninstall", *words], cwd=folder, DESTDIR="stage"), 0)
        yield f"and away from {prefix}", wrong or unlike(files(stage), left)
        shutil.rmtree(stage, ignore_errors=True)


def refused(folder: Path) -> Iterator[Test]:
    """Bad words, folders that cannot be written or named, and help: nothing is written."""
    before = files(folder)
    (folder / "file").touch()
    cases = [
        (["--help"], 0, "--uninstall"),
        (["--help"], 0, "missing or\nolder than a source"),
        (["--prefx", "x"], 2, "'--prefx' is no option"),
        (["--prefix"], 2, "needs a folder"),
        (["--prefix="], 2, "needs a folder"),
        (["--prefix", f"{folder}/$HOME"], 2, "cannot name"),
        *((["--prefix", f"{folder}/a{sign}b"], 2, "cannot name") for sign in ('"', "#", "\\", "\n")),
        (["--prefix", f"{folder}/b\n"], 2, "cannot name"),
        (["--prefix", f"{folder}/file"], 1, "is not written"),
    ]
    for words, status, said in cases:
        yield f"install {words} {said}", misended(run(words), status, [said])
    (folder / "a#b").mkdir()
    yield "a relative prefix in a folder that cannot be named", misended(
        run(["--prefix", "x"], cwd=folder / "a#b"), 2, ["cannot name"]
    )
    shutil.rmtree(folder / "a#b")
    ended = run(["--prefix", str(folder / "x")], TOPJESKA_LIB_DIR=str(folder))
    yield "install of a library that is not there", misended(ended, 1, ["is missing"])
    (folder / "file").unlink()
    yield "what refusals leave", unlike(files(folder), before)


def scripted(path: Path, text: str) -> None:
    """Writes a command."""
    path.write_text(f"#!/bin/sh\n{text}\n")
    path.chmod(0o755)


def building(folder: Path) -> Iterator[Test]:
    """A root without a library, or with one that is older than a source: rt builds it, here one that copies it."""
    root, commands = folder / "root", folder / "commands"
    shutil.copytree(INCLUDE, root / "include")
    shutil.copy(ROOT / "install", root)
    (root / "tools").mkdir()
    shutil.copy(ROOT / "tools" / "library", root / "tools")
    (root / "crates" / "topjeska").mkdir(parents=True)
    commands.mkdir()
    for name in COMMANDS:
        (commands / name).symlink_to(shutil.which(name) or name)
    words = ["--prefix", str(folder / "built")]
    around = {"PATH": str(commands), "TOPJESKA_LIB_DIR": ""}
    yield "install without rt", misended(run(words, root=root, **around), 1, ["no rt on the path"])
    rt, asked, made = commands / "rt", folder / "asked", root / "target" / "staticlib" / LIBRARY.name
    scripted(rt, "exit 3")
    yield "install where rt fails", misended(run(words, root=root, **around), 1, ["is not built"])
    yield "what they leave", "" if not (folder / "built").exists() else "something was written"
    own = f"out/{LIBRARY.name}"
    copied = f"mkdir -p out && cat {shlex.quote(str(ARCHIVE))} >{own}"
    # It says what it is asked and where, and leaves a library that is there as it is.
    said = f'echo asked; echo "$* in ${{PWD##*/}}" >>{shlex.quote(str(asked))}'
    scripted(rt, f"{said}; [ -f {own} ] || {{ {copied}; }}")
    yield "install by rt", misended(run(words, root=root, **around), 0) or unlike(
        files(folder / "built"), list(INSTALLED)
    )
    yield "what rt is asked", unlike(asked.read_text(), "lib in topjeska\n")
    sources = ["crates.txt", "crates/one/src/lib.rt", "crates/two/src/deep/er.rt", "crates/one/specs/Lib.antt"]
    for source in sources:
        (root / source).parent.mkdir(parents=True, exist_ok=True)
        (root / source).touch()
    for newer, builds in (*((source, source.endswith((".rt", ".txt"))) for source in sources), ("", False)):
        for source in sources:
            os.utime(root / source, (3000, 3000) if source == newer else (1000, 1000))
        os.utime(made, (2000, 2000))
        asked.write_text("")
        with mock.patch.object(topjeska, "ROOT", root):
            yield f"a newer {newer or 'nothing'}, by the tools", unlike(topjeska.stale(made), builds)
        for time in ("once", "again"):
            ended = run(["--library"], root=root, **around)
            yield f"a newer {newer or 'nothing'}, {time}", misended(ended, 0) or unlike(
                (ended.stdout, asked.read_text()), (f"{made}\n", "lib in topjeska\n" * builds)
            )
    os.utime(made, (2000, 2000))
    os.utime(root / sources[1], (3000, 3000))
    asked.write_text("")
    ended = run(["--library"], root=root, **{**around, "TOPJESKA_LIB_DIR": str(made.parent)})
    yield "an older library that is named", unlike((ended.stdout, asked.read_text()), (f"{made}\n", ""))
    rt.unlink()
    older = misended(run(words, root=root, **around), 1, ["older than a source", "no rt on the path"])
    yield "an older library without rt", older


def relative(folder: Path) -> Iterator[Test]:
    """A relative TOPJESKA_LIB_DIR is the caller's, for all that take it; cargo, which cannot know it, refuses it."""
    own, commands = folder / "own", folder / "commands"
    own.mkdir()
    commands.mkdir()
    (own / LIBRARY.name).write_text("own")
    yield "the library's path", unlike(
        run(["--library"], cwd=folder, TOPJESKA_LIB_DIR="own").stdout, f"{own / LIBRARY.name}\n"
    )
    wrong = misended(run(["--prefix", "there"], cwd=folder, TOPJESKA_LIB_DIR="own"), 0)
    yield "install of it", wrong or unlike((folder / "there" / INSTALLED[1]).read_text(), "own")
    around = {"PATH": f"{commands}:{os.environ['PATH']}", "TOPJESKA_LIB_DIR": "own"}
    scripted(commands / "cargo", 'echo "library in $TOPJESKA_LIB_DIR"')
    for words in (["examples/run", "wrapper"], ["tests/bench/run"]):
        ended = called([str(ROOT / words[0]), *words[1:]], folder, **around)
        yield words[0], misended(ended, 0, [f"library in {own}\n"])
    if not shutil.which("cargo"):
        print("there is no cargo here")
        return
    manifest = ["--manifest-path", str(ROOT / "rust" / "Cargo.toml"), "--target-dir", str(folder / "target")]
    build = ["cargo", "build", "--offline", "--locked", "--quiet", *manifest]
    yield "cargo", misended(called(build, folder, TOPJESKA_LIB_DIR="own"), 101, ["relative path 'own'", "begin with /"])
    yield "cargo and an empty name", misended(called(build, folder, TOPJESKA_LIB_DIR=""), 0)


def main() -> int:
    """Runs all tests, each group in a folder of its own, and counts."""
    done: list[Test] = []
    for group in (round_trip, other_places, refused, building, relative):
        with tempfile.TemporaryDirectory() as folder:
            done += group(Path(folder).resolve())
    return counted(done)


if __name__ == "__main__":
    sys.exit(main())
