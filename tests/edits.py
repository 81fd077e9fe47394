"""More edits that must fail, for which the gate has no time: those of tests/edits, beside each crate's own.

Without words: tries all of them, in a copy of the project, as `rt must-fail` tries a crate's own; some
minutes. With names of crates: those of these crates.
--check: that each still fits the sources, so that none grows stale unseen: the text that it replaces
stands once in what its earlier replacements made. Its last line is 'N passed, M failed'.
"""

import shutil
import subprocess
import sys
import tempfile
from pathlib import Path

ROOT = Path(__file__).resolve().parent.parent
EDITS = ROOT / "tests" / "edits"


def misfits(edit: Path) -> list[str]:
    """What the edit replaces and does not stand once in its file, as the edit has made it up to there."""
    crate = ROOT / "crates" / edit.parent.name
    file, old, texts, wrong = crate, "", {}, []
    for line in edit.read_text(encoding="utf-8").splitlines():
        if line.startswith("file: "):
            file = crate / line.removeprefix("file: ").strip()
            if file not in texts:
                texts[file] = file.read_text(encoding="utf-8") if file.is_file() else ""
        elif line.startswith("old: "):
            old = line.removeprefix("old: ")
            if texts.get(file, "").count(old) != 1:
                wrong.append(f"{file.relative_to(ROOT)} has not once: {old}")
        elif line.startswith("new:") and file in texts:
            texts[file] = texts[file].replace(old, line.removeprefix("new:").removeprefix(" "))
    return wrong


def check() -> int:
    passed = failed = 0
    for edit in sorted(EDITS.glob("*/*.edit")):
        wrong = misfits(edit)
        for what in wrong:
            print(f"{edit.relative_to(ROOT)}: {what}")
        passed, failed = (passed, failed + 1) if wrong else (passed + 1, failed)
    print(f"{passed} passed, {failed} failed")
    return 1 if failed else 0


def run(crates: list[str]) -> int:
    """The edits in place of the crates' own, in a copy; every crate with edits is asked for."""
    with tempfile.TemporaryDirectory() as scratch:
        copy = Path(scratch) / "project"
        shutil.copytree(ROOT, copy, symlinks=True, ignore=shutil.ignore_patterns(".git", "bench"))
        for own in copy.glob("crates/*/must-fail"):
            shutil.rmtree(own)
        for crate in crates:
            shutil.copytree(EDITS / crate, copy / "crates" / crate / "must-fail")
        return subprocess.run(["rt", "must-fail", *crates], cwd=copy, check=False).returncode


def main() -> int:
    words = sys.argv[1:]
    if words == ["--check"]:
        return check()
    there = sorted(folder.name for folder in EDITS.iterdir())
    unknown = [word for word in words if word not in there]
    if unknown:
        print(f"no edits here for {', '.join(unknown)}; there are some for {', '.join(there)}", file=sys.stderr)
        return 2
    return run(words or there)


if __name__ == "__main__":
    sys.exit(main())
