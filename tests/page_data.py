"""Holds the pages that tools/page writes and serves to the reading, without a browser.

The lists of all methods, misplaced slabs, loops and what waits at each stall, floors; that a page needs nothing beside
itself; names that would end its script; how the tool ends; and what the server answers, and to whom.
tests/page looks at the same pages in a browser.
"""

import http.client
import itertools
import json
import random
import re
import signal
import subprocess
import sys
import tempfile
from collections.abc import Iterator
from pathlib import Path
from typing import Any, NamedTuple

import reading
import sheets
from reading import METHODS, Lengths, Pair, Row, Yard
from tested import ROOT, Test, counted, sheet_line, sheet_of, unlike

TOOL = ROOT / "tools" / "page"
RANDOM_SHEETS = 40
PATIENCE = 20

Data = dict[str, Any]

EMBEDDED = re.compile(r'<script type="application/json" id="data">(.*?)</script>', re.S)
LINKED = re.compile(r'(?:\b(?:src|href|action|data|poster|srcset)\s*=\s*"([^"]*)")|url\(|@import|https?://', re.I)
NAMED = 12

S4 = "2 0 4 0 / 4 0 2 0"
FIVE = "0 1 0 3 4 0 6 0 8 0 / 7 0 0 3 10 0 8 0 6 0"

# Lines that are no sheets, and what the message must say.
UNREADABLE = [
    ("2 x / 0 1", ["column 3", "now entry 2", "'x'", "\n    ^"]),
    ("2 0 / 0 65536", ["column 9", "goal entry 2", "'65536'"]),
    ("2 0 0 1", ["column 8", "no '/'"]),
    ("a name: 2 0 / 0 1 / 300 300 / 0", ["column 29", "third '/'"]),
    ("2 0 / 0 1 / 300 x", ["column 17", "length 2", "'x'"]),
    ("2 0 / 0", ["column 8", "slab 2 has no goal entry"]),
    ("2 0 / 0 1 0", ["column 11", "slab 3 has no now entry"]),
]

# Words that make no page, and what the message must say.
UNUSABLE = [([], "SHEET"), (["no such file"], "no '/'"), (["--port", "x", "--serve"], "--port"), (["-"], "no sheet")]

# Names that would end the script that holds the data, or hide its end.
NAMES = ["</script><script>document.title = 1</script>", "<!--<script>", 'a "name" & \\ more', "Höfe → 2"]


# ---- what is right


class Wait(NamedTuple):
    """A waiting slab of a stalled yard: c, d, through which of them its successor is in its way, it, and the loop."""

    slab: int
    c: int
    d: int
    through: int
    successor: int
    standing: str


class Shot(NamedTuple):
    """A yard between two lifts: its misplaced slabs, and where it is stalled the loop and all that waits."""

    yard: list[int]
    misplaced: list[int]
    loop: list[Row]
    waits: list[Wait]


def wait(yard: Yard, goal: Yard, slab: int) -> Wait:
    """What a slab of a stalled yard waits for."""
    through = reading.in_the_way(yard, goal, slab)
    loop = reading.visits(yard, goal, slab)[1]
    another = set(loop) != set(reading.loop(yard, goal))
    on, waiting = ("on another loop", "waits on another loop") if another else ("on the loop", "waits on it")
    standing = on if slab in loop else waiting
    return Wait(slab, *reading.foot(yard, goal, slab), through, reading.top(yard, through), standing)


def shot(yard: Yard, goal: Yard) -> Shot:
    """A yard by the reading."""
    astray = reading.misplaced(yard, goal)
    if not astray or reading.constructive(yard, goal):
        return Shot(list(yard), astray, [], [])
    waiting = [wait(yard, goal, slab) for slab in astray if reading.clear(yard, slab)]
    loop = reading.deadlock(yard, goal, reading.deadlock_space(len(yard)))[3]
    return Shot(list(yard), astray, loop, waiting)


def listed(method: int, now: Yard, goal: Yard) -> list[Pair]:
    """The list of a method."""
    return reading.plan(method, now, goal, reading.plan_space(len(now)))[4]


def shots(method: int, now: Yard, goal: Yard) -> list[Shot]:
    """The yard before the first lift of a method's list, and after each."""
    found, yard = [shot(now, goal)], list(now)
    for slab, destination in listed(method, now, goal):
        yard = reading.lifted(yard, slab, destination)
        found.append(shot(yard, goal))
    return found


def misreasoned(reason: str, method: int, lift: Pair, before: Shot, after: Shot) -> str:
    """What is wrong with the reason of a lift; that of a slab that is not on the loop is held by commands.py."""
    slab, _ = lift
    if slab not in after.misplaced:
        return unlike(reason, "home")
    if method == 1:
        return "" if reason.startswith("put down") else f"{reason!r} for a slab that is put down"
    loop = [one for one, _, _ in before.loop]
    first, _, rest = reason.partition(";")
    numbers = [int(number) for number in re.findall(r"\d+", first)]
    right = loop if len(loop) <= NAMED else [*loop[:NAMED], len(loop) - NAMED]
    if not first.startswith("stalled, loop") or numbers != right:
        return f"{reason!r} where the loop is {loop}"
    return "" if (slab in loop) == (rest == "") else f"{reason!r} where the loop is {loop} and {slab} is put down"


# ---- sheets


def thirty() -> dict[str, sheets.Sheet]:
    """Two sheets of 30 slabs with about 40 lifts, by their names: high piles, and long loops."""
    high, rings = (sheets.random_sheet(random.Random(seed), 30, kind) for seed, kind in ((8, 0), (9, 1)))
    return {"thirty": high, "rings": rings}


def some_sheets() -> list[tuple[Yard, Yard, Lengths]]:
    """The sheets whose pages are read: stated ones, those of the classroom, random ones, and some with lengths."""
    rng = random.Random(sheets.SEED)
    drawn = [sheets.random_sheet(rng, 2 + number % 11, number % 3) for number in range(RANDOM_SHEETS)]
    known = [sheets.ring(27)[:2], sheets.exchanged(12)[:2], sheets.begun(12)[:2]]
    known += [part.sheet() for part in sheets.GOOD_PARTS]
    bare = [*sheets.STATED, *sheets.TRIALS, sheet_of(FIVE), *thirty().values(), *known, *drawn]
    found: list[tuple[Yard, Yard, Lengths]] = [(now, goal, None) for now, goal in bare]
    for number in range(RANDOM_SHEETS // 4):
        lengths = rng.choices((0, 200, 250, 300, reading.TOP), k=number)
        found.append((sheets.fitting(rng, lengths), sheets.fitting(rng, lengths), lengths))
    return found


# ---- the written page


def run(*words: str, given: str = "", to: Any = subprocess.PIPE) -> subprocess.CompletedProcess[str]:
    """Runs the tool."""
    command = [sys.executable, str(TOOL), *words]
    ends = {"stdout": to, "stderr": subprocess.PIPE, "timeout": PATIENCE, "check": False}
    return subprocess.run(command, input=given, text=True, encoding="utf-8", **ends)


def data_of(page: str) -> Data:
    """What is embedded in a page."""
    found = EMBEDDED.findall(page)
    return json.loads(found[0]) if len(found) == 1 else {"sheets": []}


def mislisted(told: Data, method: int, now: Yard, goal: Yard) -> str:
    """Where a method's answer in a page differs from the reading."""
    pairs, right = listed(method, now, goal), shots(method, now, goal)
    counts = {str(m): len(listed(m, now, goal)) for m in METHODS}
    ring = [list(row) for row in reading.deadlock(now, goal, reading.deadlock_space(len(now)))[3]]
    astray = right[0].misplaced
    numbers = [len(pairs), len(astray), astray, reading.floor(now, goal), counts, ring]
    found = [told.get(key) for key in ("count", "head", "misplaced", "floor", "counts", "deadlock")]
    if wrong := unlike(found, numbers):
        return wrong
    for lift, pair, before, after in zip(told["lifts"], pairs, right, right[1:]):
        waits = [tuple(one) for one in lift["stall"]["waits"]] if lift["stall"] else []
        seen = (lift["slab"], lift["destination"]), lift["home"], list(map(tuple, lift["loop"])), waits
        wrong = unlike(seen, (pair, pair[0] not in after.misplaced, before.loop, list(map(tuple, before.waits))))
        if wrong := wrong or misreasoned(lift["reason"], method, pair, before, after):
            return wrong
    return unlike(len(told["lifts"]), len(pairs))


def misshown(told: Data, now: Yard, goal: Yard, lengths: Lengths) -> str:
    """Where a sheet in a page differs from the reading."""
    found = [told[key] for key in ("now", "goal", "lengths", "line", "refusal")]
    if wrong := unlike(found, [list(now), list(goal), lengths, sheet_line(now, goal, lengths), 0]):
        return wrong
    ring = reading.deadlocked(now, goal)
    if told["start"].startswith("deadlock") != ring or told["words"].startswith("deadlock") != ring:
        return f"{told['start']!r} and {told['words']!r} where a deadlock at the start is {ring}"
    parts = [mislisted(told["answers"][str(method)], method, now, goal) for method in METHODS]
    return next(filter(None, parts), "")


def page_sheets() -> Iterator[Test]:
    """All that is embedded of some sheets, by the reading."""
    some = some_sheets()
    with tempfile.TemporaryDirectory() as folder:
        path = Path(folder) / "sheets"
        lines = [f"sheet {k}: {sheet_line(*one)} # {k}\n" for k, one in enumerate(some)]
        path.write_text("".join(lines), encoding="utf-8")
        ended = run(str(path))
    found = data_of(ended.stdout)["sheets"]
    yield "tools/page, a file of sheets", unlike((ended.returncode, len(found)), (0, len(some)))
    for number, (told, one) in enumerate(zip(found, some)):
        yield f"tools/page, {sheet_line(*one)}", unlike(told["name"], f"sheet {number}") or misshown(told, *one)


def alone() -> Iterator[Test]:
    """A page needs nothing beside itself, and no name of a sheet changes what it is."""
    told = "".join(json.dumps({"sheet": S4, "name": name}) + "\n" for name in NAMES)
    ended, plain = run("-", given=told), run(S4)
    linked = {found[1] or found[0] for found in LINKED.finditer(ended.stdout)}
    yield "tools/page, links", unlike(linked, {"data:,"})
    policy = re.findall(r'http-equiv="Content-Security-Policy" content="([^"]*)"', ended.stdout)
    strict = len(policy) == 1 and policy[0].startswith("default-src 'none'; ")
    yield "tools/page, policy", "" if strict else f"the policy is {policy}"
    yield "tools/page, no server", "the page may ask one" if "connect-src" in ended.stdout else ""
    names = [sheet["name"] for sheet in data_of(ended.stdout)["sheets"]]
    yield "tools/page, names", unlike((ended.returncode, names), (0, NAMES))
    ends = [[page.count(part) for part in ("<script", "</script", "<!--")] for page in (ended.stdout, plain.stdout)]
    yield "tools/page, script ends", unlike(ends[0], ends[1])
    yield "tools/page, one template", unlike(EMBEDDED.sub("", ended.stdout), EMBEDDED.sub("", plain.stdout))


def statuses() -> Iterator[Test]:
    """How the tool ends: a page, a page with a refused sheet, a line that cannot be read, output that is not taken."""
    yield "tools/page, status of a page", unlike(run(S4, FIVE).returncode, 0)
    ended = run(S4, "bad: 2 1 5 / 0 0 0", FIVE, "2 0 / 0 1 / 300", "2 0 / 0 1 / 250 300")
    found = [(one["refusal"], one["place"]) for one in data_of(ended.stdout)["sheets"]]
    right = [(0, 0), (4, 3), (0, 0), (16, 0), (18, 2)]
    yield "tools/page, refused sheets", unlike((ended.returncode, found), (1, right))
    for line, parts in UNREADABLE:
        ended = run(line)
        missing = [part for part in parts if part not in ended.stderr]
        yield f"tools/page, {line}", unlike((ended.returncode, ended.stdout, missing), (2, "", []))
    for words, part in UNUSABLE:
        ended = run(*words)
        yield f"tools/page, {words}", unlike((ended.returncode, ended.stdout, part in ended.stderr), (2, "", True))
    many, more = (sheet_line([0] * slabs, [0] * slabs) for slabs in (300, 301))
    yield "tools/page, 300 slabs", unlike((run(many).returncode, run("-", given=many).returncode), (0, 0))
    ended = run("-", given=more)
    told = "at most 300" in ended.stderr
    yield "tools/page, 301 slabs", unlike((ended.returncode, ended.stdout, told), (2, "", True))
    with open("/dev/full", "wb") as full:
        yield "tools/page, output not taken", unlike(run(S4, to=full).returncode, 3)


# ---- the served page


def heeding() -> None:
    """Ends at Ctrl-C even where these tests run in the background, which ignores it."""
    signal.signal(signal.SIGINT, signal.SIG_DFL)


class Server:
    """The tool as it serves a page."""

    def __init__(self, *words: str) -> None:
        """Starts it on any port, and waits for its address."""
        command = [sys.executable, str(TOOL), "--serve", "--port", "0", *words]
        ends = {"stdout": subprocess.PIPE, "stderr": subprocess.PIPE, "text": True}
        self.process = subprocess.Popen(command, preexec_fn=heeding, **ends)
        self.said = self.process.stdout.readline() if self.process.stdout else ""
        found = re.match(r"http://127\.0\.0\.1:(\d+)/", self.said)
        self.port = int(found[1]) if found else 0

    def ask(self, method: str, path: str, body: bytes | None = None, **headers: str) -> tuple[int, str, dict[str, str]]:
        """The answer to a request: its status, its text and its headers."""
        connection = http.client.HTTPConnection("127.0.0.1", self.port, timeout=PATIENCE)
        try:
            connection.request(method, path, body, {name.replace("_", "-"): words for name, words in headers.items()})
            reply = connection.getresponse()
            return reply.status, reply.read().decode(), dict(reply.getheaders())
        finally:
            connection.close()

    def typed(self, line: str) -> Data:
        """What is answered to a typed line."""
        status, text, _ = self.ask("POST", "/sheet", line.encode())
        return json.loads(text) if status == 200 else {"status": status}

    def stop(self) -> tuple[int, str]:
        """Stops it as Ctrl-C does: its status, and what it said at the end."""
        self.process.send_signal(signal.SIGINT)
        try:
            _, said = self.process.communicate(timeout=PATIENCE)
        except subprocess.TimeoutExpired:
            self.process.kill()
            return -1, "it does not end"
        return self.process.returncode, said


def listening(port: int) -> set[str]:
    """The addresses, as the system writes them, at which something listens to a port."""
    tables = [path for path in (Path("/proc/net/tcp"), Path("/proc/net/tcp6")) if path.is_file()]
    cells = [row.split() for path in tables for row in path.read_text().splitlines()[1:]]
    return {cell[1].split(":")[0] for cell in cells if cell[3] == "0A" and int(cell[1].split(":")[1], 16) == port}


def answers(server: Server) -> Iterator[Test]:
    """What is answered to typed lines: the data of a written page, the message of a bad line, a refusal."""
    line = f"five: {FIVE}"
    yield "--serve, a sheet", unlike(server.typed(line), {"sheet": data_of(run(line).stdout)["sheets"][0]})
    for bad, _ in UNREADABLE:
        right = run(bad).stderr.removeprefix("tools/page: ").rstrip("\n")
        yield f"--serve, {bad}", unlike(server.typed(bad), {"fault": right})
        command = [sys.executable, ROOT / "tools" / "sheet", "plan", "2", bad]
        asked = subprocess.run(command, capture_output=True, text=True, check=False)
        yield f"--serve, {bad}, as tools/sheet says it", unlike(asked.stderr.rstrip("\n"), f"tools/sheet: {right}")
    told = server.typed("1 / 0").get("sheet", {})
    yield "--serve, a refused sheet", unlike((told.get("refusal"), told.get("place"), "answers" in told), (6, 1, False))
    many = server.typed(sheet_line([0] * 4000, [0] * 4000)).get("fault", "")
    yield "--serve, 4,000 slabs", "" if "4000 slabs" in many and "300" in many else f"the answer is {many!r}"
    yield "--serve, no file is read", unlike(list(server.typed("README.md")), ["fault"])


def refusals(server: Server) -> Iterator[Test]:
    """Whom and what the server does not answer."""
    own, line = f"127.0.0.1:{server.port}", S4.encode()
    asked = {
        "a foreign name": (403, server.ask("GET", "/", Host="topjeska.example")),
        "a foreign port": (403, server.ask("GET", "/", Host="127.0.0.1:1")),
        "a foreign name, typed": (403, server.ask("POST", "/sheet", line, Host=f"topjeska.example:{server.port}")),
        "another page": (403, server.ask("POST", "/sheet", line, Host=own, Origin="http://topjeska.example")),
        "localhost": (200, server.ask("GET", "/", Host=f"localhost:{server.port}")),
        "its own page": (200, server.ask("POST", "/sheet", line, Host=own, Origin=f"http://{own}")),
        "a file": (404, server.ask("GET", "/README.md")),
        "a way out": (404, server.ask("GET", "/../README.md")),
        "a sheet by GET": (405, server.ask("GET", "/sheet")),
        "the page by POST": (405, server.ask("POST", "/", line)),
        "another method": (405, server.ask("PUT", "/sheet", line)),
        "a line too long": (413, server.ask("POST", "/sheet", b"0" * 65537)),
        "no length": (411, server.ask("POST", "/sheet", None, Transfer_Encoding="chunked")),
        "no text": (400, server.ask("POST", "/sheet", b"\xff / 0")),
    }
    for what, (right, (status, _, _)) in asked.items():
        yield f"--serve, {what}", unlike(status, right)


def serving() -> Iterator[Test]:
    """The server: its page, its answers, whom it listens to, and how it ends."""
    server = Server(f"S4: {S4}")
    try:
        yield "--serve, its address", "" if server.port and "Ctrl-C" in server.said else f"it says {server.said!r}"
        status, page, headers = server.ask("GET", "/")
        data, policy = data_of(page), headers.get("Content-Security-Policy", "")
        found = status, data.get("serving"), [one["name"] for one in data["sheets"]]
        yield "--serve, its page", unlike(found, (200, True, ["S4"]))
        forbids = all(part in policy for part in ("default-src 'none'", "connect-src 'self'", "frame-ancestors 'none'"))
        yield "--serve, policy", "" if forbids else f"the policy is {policy!r}"
        yield "--serve, listens on the loopback address alone", unlike(listening(server.port), {"0100007F"})
        yield from answers(server)
        yield from refusals(server)
        second = run("--serve", "--port", str(server.port))
        yield "--serve, a port in use", unlike((second.returncode, "--port" in second.stderr), (2, True))
    finally:
        ended = server.stop()
    yield "--serve, Ctrl-C", unlike((ended[0], "Traceback" in ended[1]), (0, False))


def tests() -> Iterator[Test]:
    """All tests of the page without a browser."""
    return itertools.chain(page_sheets(), alone(), statuses(), serving())


if __name__ == "__main__":
    sys.exit(counted(tests()))
