"""Holds the fault card to its tool: docs/fault-card.html is what tools/card writes.

Its tables have every refusal and every verdict of tools/rules.py and every record of tools/records.py, and
nothing else; it fetches nothing. The last line is 'N passed, M failed'.
"""

import importlib.util
import shutil
import subprocess
import sys
import tempfile
from collections.abc import Iterator
from html.parser import HTMLParser
from pathlib import Path
from types import ModuleType

from tested import ROOT, Ended, Test, counted, unlike

TOOLS = ROOT / "tools"
CARD = ROOT / "docs" / "fault-card.html"
sys.path.append(str(TOOLS))
import rules  # noqa: E402

Row = list[str]


def tool_records() -> ModuleType:
    """tools/records.py, which tests/records.py hides from an import."""
    spec = importlib.util.spec_from_file_location("tool_records", TOOLS / "records.py")
    assert spec is not None and spec.loader is not None
    module = importlib.util.module_from_spec(spec)
    spec.loader.exec_module(module)
    return module


class Tables(HTMLParser):
    """The tables of a page as rows of plain text, its names of elements, and its attributes."""

    def __init__(self, page: str) -> None:
        """Reads a page."""
        super().__init__()
        self.tables: list[list[Row]] = []
        self.names: set[str] = set()
        self.attributes: set[str] = set()
        self.in_cell = False
        self.feed(page)

    def handle_starttag(self, tag: str, attrs: list[tuple[str, str | None]]) -> None:
        """Begins a table, a row or a cell."""
        self.names.add(tag)
        self.attributes |= {name for name, _ in attrs}
        if tag == "table":
            self.tables.append([])
        elif tag == "tr":
            self.tables[-1].append([])
        elif tag in ("th", "td"):
            self.tables[-1][-1].append("")
            self.in_cell = True

    def handle_endtag(self, tag: str) -> None:
        """Ends a cell."""
        if tag in ("th", "td"):
            self.in_cell = False

    def handle_data(self, data: str) -> None:
        """Adds to the cell, if there is one."""
        if self.in_cell:
            self.tables[-1][-1][-1] += data


def rows(table: list[Row]) -> list[Row]:
    """The rows of a table below its head, each cell in one line."""
    return [[" ".join(cell.split()) for cell in row] for row in table[1:]]


def written(root: Path = ROOT) -> Ended:
    """Runs the tool of a root."""
    command = [sys.executable, str(root / "tools" / "card")]
    return subprocess.run(command, capture_output=True, text=True, encoding="utf-8", check=False)


def expected() -> list[list[Row]]:
    """The tables as they should be; of the records the mark, the bytes and how many fields."""
    refusals = []
    for number, (by, words, place) in rules.QUESTIONS.items():
        refusals.append([str(number), words + ("" if by == rules.ALL else f" ({by})"), place or "0"])
    verdicts = [[str(number), words, place or "0"] for number, (words, place) in rules.VERDICTS.items()]
    records = [[mark, mark.encode().hex(" ").upper(), str(count)] for mark, count in tool_records().FIELDS.items()]
    return [refusals, verdicts, records]


def contents(page: str) -> Iterator[Test]:
    """What a page has and has not."""
    read = Tables(page)
    found = [rows(table) for table in read.tables]
    yield "tables", unlike(len(found), 3)
    found[-1] = [[mark, code, str(len(fields.split(", ")))] for mark, code, fields, _ in found[-1]]
    for name, table, right in zip(("refusals", "verdicts", "records"), found, expected()):
        yield f"{name}, how many", unlike(len(table), len(right))
        for row, row_right in zip(table, right):
            yield f"{name}, {row_right[0]}", unlike(row, row_right)
    wanted = [f"{rules.MOST:,}", f"{rules.NO_VERDICT:,}", *(f"{n} ({name})" for n, name in rules.METHODS.items())]
    wanted.append("16 to 18 are asked of sheets with lengths, after 9.")
    wanted += ["at most 600 entries?", "19 is asked by the panel in the cabin alone, directly after 2;"]
    yield "words of the text", unlike([words for words in wanted if words not in page], [])
    yield "paper", "" if "@page { size: A4" in page else "is not A4"
    fetched = read.names & {"script", "link", "img", "iframe", "object"} | read.attributes & {"src", "href", "style"}
    yield "self-contained", unlike(fetched, set()) or ("url(" in page or "@import" in page) * "the style fetches"


def runs(page: str) -> Iterator[Test]:
    """The tool where nothing of the project is beside it, and where the names of a record's fields do not fit."""
    with tempfile.TemporaryDirectory() as folder:
        root = Path(folder)
        shutil.copytree(TOOLS, root / "tools", ignore=shutil.ignore_patterns("__pycache__"))
        ended = written(root)
        same = ended.returncode == 0 and ended.stdout == page
        yield "tools/card alone", "" if same else f"ends with {ended.returncode}: {ended.stderr}"
        records = root / "tools" / "records.py"
        records.write_text(records.read_text(encoding="utf-8").replace('"NW": 1', '"NW": 2'), encoding="utf-8")
        ended = written(root)
        yield "tools/card with a field more", unlike((ended.returncode, ended.stdout), (2, ""))


def main() -> int:
    """Runs all tests and counts."""
    page = written().stdout
    stored = CARD.read_text(encoding="utf-8") if CARD.is_file() else ""
    same = "" if page and page == stored else "is not what tools/card writes: tools/card > docs/fault-card.html"
    return counted([("docs/fault-card.html", same), *contents(page), *runs(page)])


if __name__ == "__main__":
    sys.exit(main())
