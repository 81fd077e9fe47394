"""Holds what C and Rust callers are told to what the library exports: no contract speaks of the order.

The structs with their fields in order, the functions with their parameters in order, the widths of
both, and the filler of a refused replay are read from include/topjeska.h, crates/topjeska/src/lib.rt
with the generator of crates/generator/src/lib.rt, and rust/src/ffi.rs, and held to each other; so is what
tools/topjeska.py and the tests in Python take for granted. The constants and the comments of header and
wrapper are held to each other, their numbers and words to tools/rules.py, and the version to
rust/Cargo.toml. The header's struct of a sheet has what the functions with options take, by these names. Then
tests/c/fields.c names every field, and every constant that a call takes or answers, where an exchange shows, and
tests/c/stack.c holds the stack of each operation to the header's bound and table. Last the test is tried itself: each
exchange of two fields, two parameters or two constants in one of the files, a field before the seed, another word in
each comment, each exchange of two fields, two lists or two numbers between fields.c and the library, each of two lists
of a sheet or of their lengths on the way to it, its options lost there, each constant of fields.c with another value,
and smaller bounds for stack.c must be noticed. The last line is 'N passed, M failed'.
"""

import argparse
import functools
import itertools
import re
import sys
from collections.abc import Callable, Iterator
from pathlib import Path
from typing import NamedTuple

import reading
from compiled import INCLUDE, LIBRARY, ROOT, TARGET, Count, tried

sys.path.append(str(ROOT / "tools"))
import rules  # noqa: E402
from topjeska import FIELDS, LENGTHS, OF_PANEL, OF_TRAINING, ON_SHEETS, PANEL, WITH_OPTIONS  # noqa: E402
from topjeska import Generator, answer_of  # noqa: E402

HEADER = INCLUDE / "topjeska.h"
EXPORTS = ROOT / "crates" / "topjeska" / "src" / "lib.rt"
GENERATOR = ROOT / "crates" / "generator" / "src" / "lib.rt"
WRAPPER = ROOT / "rust" / "src" / "ffi.rs"
SAFE = ROOT / "rust" / "src" / "lib.rs"
MANIFEST = ROOT / "rust" / "Cargo.toml"

# A field or a parameter: its name and its type, as Rust writes the type.
Named = tuple[str, str]

C_TYPES = {
    "uint16_t": "u16",
    "uint64_t": "u64",
    "size_t": "usize",
    "const uint16_t *": "*const u16",
    "uint16_t *": "*mut u16",
    "topjeska_generator *": "*mut Generator",
}

# What a caller lends for a slice, with its length, and for a generator; the header's words for the names of slices.
SLICES = {"&[u16]": "*const u16", "&mut [u16]": "*mut u16"}
LENT = {**SLICES, "&mut Generator": "*mut Generator"}
WORDS = {"initial": "now", "out": "space", "state": "out"}


class Constant(NamedTuple):
    """A constant: its number, of one slab where n is asked for, or that of the constant it names; the comment above."""

    number: int
    words: str


class Interface(NamedTuple):
    """What a file declares: by struct its fields, by operation its answer and its parameters, in order; constants."""

    fields: dict[str, list[Named]]
    functions: dict[str, tuple[str, list[Named]]]
    constants: dict[str, Constant]


class Language(NamedTuple):
    """How a file is read: its opening and its declarations, with their comments; what ends a field; names in a body."""

    opening: re.Pattern[str]
    struct: re.Pattern[str]
    function: re.Pattern[str]
    constant: re.Pattern[str]
    field_end: str
    names: re.Pattern[str]
    named: Callable[[str], Iterator[Named]]


# ---- reading the files


def in_c(part: str) -> Iterator[Named]:
    """The names that a part of a body declares in C, each with its type."""
    kind, names = re.findall(r"((?:const )?\w+ \*?)(.+)", " ".join(part.split()))[0]
    for name in names.split(", "):
        yield name, C_TYPES[kind.strip()]


def in_rust(part: str) -> Iterator[Named]:
    """The name that a part of a body declares in Rust, with its type; two of a slice, as a caller lends it."""
    name, kind = part.strip().removeprefix("pub ").split(": ")
    name = WORDS.get(name, name) if kind in SLICES else name
    yield name, LENT.get(kind, kind)
    if kind in SLICES:
        yield f"{name}_len", "usize"


ABOVE_C = r"(?:^/\* (?P<words>[^/]*?) \*/\n)?"
C = Language(
    re.compile(r"\A/\* .*\n(?P<words>(?s:.*?)) \*/\n"),
    re.compile(ABOVE_C + r"^typedef struct \{(?P<body>[^}]*)\} topjeska_(?P<name>\w+?)(?:_answer)?;", re.MULTILINE),
    re.compile(
        ABOVE_C + r"^topjeska_(?P<result>\w+)_answer topjeska_(?P<name>\w+)\((?P<body>[^)]*)\);", re.MULTILINE
    ),
    re.compile(
        ABOVE_C + r"^#define TOPJESKA_(?P<name>\w+)(?: |\(n\) \()(?P<number>\d+|TOPJESKA_[A-Z_]+)u?(?: \* \(n\)\))?$",
        re.MULTILINE,
    ),
    ";",
    re.compile(r"\w+(?=\s*(?:[,;]|$))"),
    in_c,
)
ABOVE_RUST = r"(?P<words>(?:^ */// .*\n)*)"
RUST = Language(
    re.compile(r"\A//! .*\n(?P<words>(?://!.*\n)+)"),
    re.compile(
        ABOVE_RUST + r"^#\[repr\(C\)\](?:\s#\[.*\])*\spub struct (?P<name>\w+?)(?:Answer)? \{(?P<body>[^}]*)\}",
        re.MULTILINE,
    ),
    re.compile(
        ABOVE_RUST + r'^ *pub (?:extern "C" )?fn topjeska_(?P<name>\w+)\((?P<body>[^)]*)\) -> (?P<result>\w+)Answer',
        re.MULTILINE,
    ),
    re.compile(
        ABOVE_RUST + r"^(?:pub )?const (?:fn )?(?P<name>\w+)"
        r"(?:: \w+ = |\(n: usize\) -> usize \{\s+)(?P<number>\d+|[A-Z_]+)(?: \* n$|;$)",
        re.MULTILINE,
    ),
    ",",
    re.compile(r"\w+(?=: )"),
    in_rust,
)
LANGUAGES = {HEADER: C, EXPORTS: RUST, WRAPPER: RUST}


def listed(language: Language, body: str, between: str) -> list[Named]:
    """All names that a body declares, each with its type."""
    return [named for part in body.split(between) if part.strip() for named in language.named(part)]


def one_line(comment: str) -> str:
    """The words of a comment in one line."""
    return " ".join(re.sub(r"^ *(?:\*|//[/!])", "", comment, flags=re.MULTILINE).split())


def constants_of(language: Language, text: str) -> dict[str, Constant]:
    """The constants of a text by name; without those that name one which has no number of its own there."""
    found = {match["name"].upper(): match for match in language.constant.finditer(text)}
    numbers = {name: int(match["number"]) for name, match in found.items() if match["number"].isdigit()}
    named = {name: match["number"].removeprefix("TOPJESKA_") for name, match in found.items() if name not in numbers}
    numbers |= {name: numbers[other] for name, other in named.items() if other in numbers}
    return {name: Constant(number, one_line(found[name]["words"] or "")) for name, number in numbers.items()}


def declared(language: Language, text: str) -> Interface:
    """What a text declares."""
    structs, functions = language.struct.finditer(text), language.function.finditer(text)
    return Interface(
        {found["name"].lower(): listed(language, found["body"], language.field_end) for found in structs},
        {found["name"]: (found["result"].lower(), listed(language, found["body"], ",")) for found in functions},
        constants_of(language, text),
    )


def interface(path: Path, text: str = "") -> Interface:
    """What one of the files declares, or would with another text; the exports take the generator from its crate."""
    beside = GENERATOR.read_text() if path == EXPORTS else ""
    return declared(LANGUAGES[path], (text or path.read_text()) + beside)


# ---- holding them to each other

# What each operation takes: numbers and a generator first, then lists, each with its length.
SHEET = [("now", "*const u16"), ("goal", "*const u16")]
MEASURED = [*SHEET, ("lengths", "*const u16")]
SPACE, OUT, LIFTS = ("space", "*mut u16"), ("out", "*mut u16"), ("lifts", "*const u16")
METHOD, OPTIONS = ("method", "u16"), ("options", "u16")
TAKEN: dict[str, tuple[list[Named], list[Named]]] = {
    "check": ([], SHEET),
    "plan": ([METHOD], [*SHEET, SPACE]),
    "plan_panel": ([METHOD], [*SHEET, SPACE]),
    "deadlock": ([], [*SHEET, SPACE]),
    "replay": ([], [*SHEET, LIFTS]),
    "check_with": ([OPTIONS], MEASURED),
    "plan_with": ([OPTIONS, METHOD], [*MEASURED, SPACE]),
    "deadlock_with": ([OPTIONS], [*MEASURED, SPACE]),
    "replay_with": ([OPTIONS], [*MEASURED, LIFTS]),
    "training": ([("n", "usize"), ("r", "u64")], [OUT]),
    "training_draw": ([("generator", "*mut Generator"), ("n", "usize")], [OUT]),
}


def expected(operation: str) -> list[Named]:
    """The parameters of an operation, as the tools and the tests in Python hand them over."""
    first, lists = TAKEN[operation]
    return [*first, *(named for name, kind in lists for named in ((name, kind), (f"{name}_len", "usize")))]


STRUCTS = {**FIELDS, "generator": [name for name, _ in Generator._fields_]}
OPERATIONS = ON_SHEETS | OF_PANEL | WITH_OPTIONS | OF_TRAINING
ASSUMED = Interface(
    {struct: [(name, "u64") for name in names] for struct, names in STRUCTS.items()},
    {operation: (answer_of(operation), expected(operation)) for operation in OPERATIONS},
    {"NO_VERDICT": Constant(reading.NO_VERDICT, "")},
)


# The struct that the header alone has, and the inline functions that take a sheet by it.
NAMING = "sheet"
INLINE = re.compile(
    r"^static inline topjeska_\w+_answer topjeska_(?P<name>\w+)\([^)]*\) \{(?P<body>[^}]*)\}", re.MULTILINE
)


def misnaming(header: Interface) -> list[str]:
    """Where the header's struct of a sheet has other fields than a function takes of one; its functions that lack."""
    fields = header.fields.get(NAMING, [])
    wrong = [] if fields == header.functions["check_with"][1] else [f"the fields of {NAMING}: {fields}"]
    found = {match["name"] for match in INLINE.finditer(HEADER.read_text())}
    return wrong + sorted(found ^ {f"{NAMING}_{operation}" for operation in ON_SHEETS})


def filler(of: Interface) -> int | None:
    """What a refused replay has in place of a verdict."""
    return of.constants["NO_VERDICT"].number if "NO_VERDICT" in of.constants else None


def differing(one: Interface, other: Interface) -> list[str]:
    """What two files declare differently of fields, parameters and the filler; empty where they agree."""
    wrong = [] if filler(one) == filler(other) else ["the filler of a refused replay"]
    for name in sorted({*one.fields, *other.fields, *one.functions, *other.functions} - {NAMING}):
        if one.fields.get(name) != other.fields.get(name):
            wrong.append(f"the fields of {name}")
        if one.functions.get(name) != other.functions.get(name):
            wrong.append(f"the parameters of {name}")
    return wrong


# ---- constants


def with_place(words: str, place: str) -> str:
    """Words and what their place means, as a comment has them, which in C is plain ASCII."""
    return (f"{words} Place: {place}." if place else words).replace("×", "*")


def asked(question: rules.Question) -> str:
    """A question as a comment has it, with who asks it where not all do."""
    by = "" if question.asked_by == rules.ALL else f" ({question.asked_by})"
    return with_place(question.words + by, question.place)


def judged(verdict: rules.Verdict) -> str:
    """A verdict as a comment has it."""
    return with_place(f"{verdict.words[0].upper()}{verdict.words[1:]}.", verdict.place)


# The constants whose name says all, and the words of the others by their numbers.
NAMED = {
    "MOST_SLABS": rules.MOST,
    "MOST_PANEL": rules.MOST_PANEL,
    "MOST_TRAINED": rules.MOST_TRAINED,
    "NO_VERDICT": rules.NO_VERDICT,
    "LENGTHS": LENGTHS,
    "PANEL": PANEL,
    "PLAN_SPACE": reading.plan_space(1),
    "DEADLOCK_WIDTH": reading.WIDTH,
    "DEADLOCK_ROOM": reading.deadlock_space(1),
    **{f"METHOD_{name}": number for number, name in rules.METHODS.items()},
}
WORDED = {
    "METHOD": {number: f"{name}: {rules.METHOD_WORDS[number]}." for number, name in rules.METHODS.items()},
    "REFUSAL": {number: asked(question) for number, question in (rules.QUESTIONS | rules.TRAINING).items()},
    "VERDICT": {number: judged(verdict) for number, verdict in rules.VERDICTS.items()},
}


@functools.cache
def version() -> str:
    """The version of the Rust crate."""
    return re.findall(r'^version = "(.*)"$', MANIFEST.read_text(), re.MULTILINE)[0]


def versions() -> dict[str, int]:
    """The parts of the version by the header's names; the wrapper has cargo's."""
    parts = ("VERSION_MAJOR", "VERSION_MINOR", "VERSION_PATCH")
    return dict(zip(parts, map(int, version().split(".")), strict=True))


def misnumbered(path: Path, constants: dict[str, Constant]) -> list[str]:
    """The constants of a file that are not what tools/rules.py, the reading and the crate's version say."""
    right = NAMED | (versions() if path == HEADER else {})
    wrong = [name for name, number in right.items() if name not in constants or constants[name].number != number]
    for kind, words in WORDED.items():
        found = {name: constant for name, constant in constants.items() if name.startswith(f"{kind}_")}
        wrong += [name for name, constant in found.items() if words.get(constant.number) != constant.words]
        wrong += [f"{kind} {number}" for number in words if number not in {c.number for c in found.values()}]
    return wrong


def unshared(header: Interface, wrapper: Interface) -> list[str]:
    """The constants that header and wrapper do not both have, or with two numbers; the version is cargo's."""
    one, other = ({name: c.number for name, c in of.constants.items()} for of in (header, wrapper))
    return sorted({name for name, _ in one.items() ^ other.items()} - versions().keys())


def constants_wrong() -> Iterator[tuple[str, list[str]]]:
    """What is wrong with the constants, by what is held to what."""
    header, wrapper = interface(HEADER), interface(WRAPPER)
    yield "the header, its numbers and words", misnumbered(HEADER, header.constants)
    yield "the Rust wrapper, its numbers and words", misnumbered(WRAPPER, wrapper.constants)
    yield "the header and the Rust wrapper", unshared(header, wrapper)
    told = re.findall(r'^#define TOPJESKA_VERSION "(.*)"$', HEADER.read_text(), re.MULTILINE)
    yield "the header and rust/Cargo.toml", [] if told == [version()] else [f"version {told}, {version()}"]


# ---- comments

# What callers must be told, however both files put the rest.
SIZES = {0: "no slab", 3: "three", rules.MOST_TRAINED: str(rules.MOST_TRAINED)}
COUNTS = [f"{reading.ways(n, 0):,} for {words}" for n, words in SIZES.items()]
ROOMS = [
    f"at most {reading.plan_space(rules.MOST):,} by the yard office's",
    f"{reading.plan_space(rules.MOST_PANEL):,} by the panel's",
]
IN_A_ROW = [
    "the slab through which the next one is in its way",
    "the nearest slab beneath that slab of the deadlock in its goal pile that is in position once all constructive "
    "lifts are made and the yard stalls, 0 for the ground",
]
TOLD = {
    "opening": [
        "entry i - 1 says what slab i rests on, 0 for the ground",
        "may be null where the length is 0",
        "what is lent holds what it held",
        "a lift onto a shorter one is not legal; slabs of equal lengths may rest on each other",
        "the ground takes any",
    ],
    "constant most_slabs": ["the limit of topjeska_plan, the yard office's entry"],
    "constant most_panel": ["the limit of topjeska_plan_panel, the panel's entry"],
    "constant lengths": ["without this bit the lengths are not looked at"],
    "constant panel": ["planning alone looks at this bit"],
    "constant plan_space": ["the numbers of lent space", *ROOMS],
    "constant deadlock_width": ["the numbers that the deadlock test writes for a slab", "begins at deadlock_width * i"],
    "constant deadlock_room": ["the numbers of lent space"],
    "constant stack_bytes": [f"as long for a few slabs as for {rules.MOST:,}, by the panel's entry too"],
    "struct plan": [
        "the count of slabs that are misplaced at the start",
        "no list that arrives has fewer lifts than that",
        "the fewest lifts that could do exactly when nothing is deadlocked at the start",
    ],
    "function plan": [
        "as pairs: slab, destination",
        "what lies behind the pairs keeps what it held",
        "one more for each of these that is off the ground both now and in the goal",
        "for the same sheet gn1 and gn2 write no more than us",
        "the yard office's entry, which takes at most most_slabs slabs",
    ],
    "function plan_panel": [
        "the panel in the crane cabin, which takes at most most_panel slabs",
        "refusal_panel is asked directly after refusal_too_many",
        "both entries give equal answers and leave equal space",
    ],
    "function deadlock": [
        "as rows of three: a slab of the deadlock;",
        *IN_A_ROW,
        "what lies behind the rows keeps what it held",
    ],
    "function check_with": ["with lengths 16, 17 and 18"],
    "function plan_with": [
        "with panel as topjeska_plan_panel",
        "a sheet that is accepted with lengths has the same list with them and without",
        "compares it with lists that are legal with lengths",
    ],
    "function deadlock_with": ["a sheet that is accepted with lengths has the same rows with them and without"],
    "function replay_with": ["every lift is tested for verdict_too_long, after verdict_taken"],
    "struct generator": ["the same sheets on every machine", "one that is not 0 never becomes 0"],
    "function training": ["what lies behind its n numbers keeps what it held", *COUNTS],
    "function training_draw": ["a refusal keeps the seed and the list", "two draws in a row"],
}


def comments(language: Language, text: str) -> dict[str, re.Match[str]]:
    """The comments of a text by what they are of: the opening, structs, functions and constants."""
    found = {"opening": language.opening.search(text)}
    for kind in ("struct", "function", "constant"):
        found |= {f"{kind} {match['name'].lower()}": match for match in getattr(language, kind).finditer(text)}
    return {of: match for of, match in found.items() if match and match["words"]}


def shared_words(path: Path, text: str) -> dict[str, str]:
    """The comments of the header's or the wrapper's text in the words of both.

    The table of stacks and the struct of a sheet are the header's.
    """
    found = comments(LANGUAGES[path], text).items()
    words = {of: one_line(match["words"]) for of, match in found if of != f"struct {NAMING}"}
    plain = {of: said.replace("TOPJESKA_", "").replace("`", "").lower() for of, said in words.items()}
    return {of: said.partition(" measured with a thread")[0] for of, said in plain.items()}


def misworded(header: str, wrapper: str) -> list[str]:
    """The comments that the texts of header and wrapper do not both have, or that differ."""
    one, other = shared_words(HEADER, header), shared_words(WRAPPER, wrapper)
    return sorted({of for of, _ in one.items() ^ other.items()})


def untold(header: str) -> list[str]:
    """What the header's comments should say and do not."""
    words = shared_words(HEADER, header)
    return [f"{of}: {part}" for of, parts in TOLD.items() for part in parts if part not in words.get(of, "")]


# What the safe wrapper must say above its own declarations.
TOLD_SAFELY = {"misplaced: u64,": TOLD["struct plan"], "type DeadlockRow =": ["a slab of the deadlock;", *IN_A_ROW]}


def unpromised() -> Iterator[str]:
    """What the safe wrapper should say of its count of misplaced slabs and of its rows, and does not."""
    for declaration, parts in TOLD_SAFELY.items():
        found = re.search(rf"((?: *///.*\n)+) *pub {declaration}", SAFE.read_text())
        words = one_line(found[1]).lower() if found else ""
        yield from (part for part in parts if part not in words)


def comments_wrong() -> Iterator[tuple[str, list[str]]]:
    """What is wrong with the comments."""
    header, wrapper = HEADER.read_text(), WRAPPER.read_text()
    yield "what the safe wrapper's comments must say", list(unpromised())
    yield "the comments of the header and the Rust wrapper", misworded(header, wrapper)
    yield "what the header's comments must say", untold(header)


# ---- the stack

STACK = ["-O2", "-pthread", "-Wl,-z,now"]  # The loader's work at a first call is not the library's.
# The thread's own part, which the table has too, is the C library's.
NEAR = 4.0


def table() -> dict[str, int]:
    """The header's table of stacks: KiB by operation."""
    rows = re.findall(r"^ \* {5}(\S.*\S) +(\d+) KiB", HEADER.read_text(), re.MULTILINE)
    return {name: int(kib) for name, kib in rows}


def mistabled(said: str) -> list[str]:
    """The rows of the header's table of stacks that are not near what stack.c has measured."""
    measured = dict(re.findall(r"^stack of (.*): (\d+) bytes$", said, re.MULTILINE))
    if table().keys() != measured.keys() or len(measured) != len(FIELDS) + len(OF_PANEL):
        return [f"rows {sorted(table())}, measured {sorted(measured)}"]
    rows = [(name, kib, int(measured[name]) / 1024) for name, kib in table().items()]
    far = [(name, kib, used) for name, kib, used in rows if abs(used - kib) > min(NEAR, kib / 2)]
    return [f"{name}: {kib} KiB, measured {used:.1f}" for name, kib, used in far]


def stacked(library: Path, folder: Path, include: Path = INCLUDE) -> Count:
    """The tests of stack.c against a header."""
    return tried(folder / "stack", ["stack.c"], library, STACK, include)


# ---- exchanges, which must be noticed


def exchanged(text: str, start: int, end: int, one: str, other: str) -> str:
    """A text with two names, and their lengths, exchanged between two places."""
    swap = {one: other, other: one, f"{one}_len": f"{other}_len", f"{other}_len": f"{one}_len"}
    return text[:start] + re.sub(r"\w+", lambda word: swap.get(word[0], word[0]), text[start:end]) + text[end:]


def exchanges(path: Path, pattern: re.Pattern[str]) -> Iterator[tuple[str, str]]:
    """A file with two names of a declaration exchanged, each time with what was done."""
    text = path.read_text()
    for found in pattern.finditer(text):
        if found["name"] == NAMING:
            continue
        names = LANGUAGES[path].names.findall(found["body"])
        for one, other in itertools.combinations([name for name in names if not name.endswith("_len")], 2):
            done = exchanged(text, *found.span("body"), one, other)
            yield f"{path.name}, {found['name']}: {one} and {other}", done


def replaced(text: str, found: re.Match[str], number: str) -> str:
    """A text with another number for a constant."""
    return text[: found.start("number")] + number + text[found.end("number") :]


def renumbered(path: Path) -> Iterator[tuple[str, str]]:
    """A file with the numbers of two constants exchanged, each time with what was done."""
    text, constants = path.read_text(), interface(path).constants
    for one, other in itertools.combinations(LANGUAGES[path].constant.finditer(text), 2):
        if constants[one["name"].upper()].number != constants[other["name"].upper()].number:
            done = replaced(replaced(text, other, one["number"]), one, other["number"])
            yield f"{path.name}: {one['name']} and {other['name']}", done


def reworded(path: Path) -> Iterator[tuple[str, str]]:
    """A file with another word at the beginning of one comment, each time with what was done."""
    text = path.read_text()
    for of, found in comments(LANGUAGES[path], text).items():
        if of == f"struct {NAMING}":
            continue
        start, end = found.span("words")
        yield f"{path.name}: {of}", text[:start] + re.sub(r"\w+", "Otherwise", text[start:end], count=1) + text[end:]


# A number that no constant has, and without the bits of the options; the constants that no call of fields.c takes or
# answers.
OTHER = "76"
UNCALLED = {"REFUSAL_RECORD", "REFUSAL_STALL", "STACK_BYTES", "VERSION_MAJOR", "VERSION_MINOR", "VERSION_PATCH"}


def altered() -> Iterator[tuple[str, str]]:
    """The header with another number for one constant that fields.c names."""
    text = HEADER.read_text()
    for found in C.constant.finditer(text):
        if found["name"] not in UNCALLED:
            yield f"{found['name']} {OTHER}", replaced(text, found, OTHER)


def shifted() -> Iterator[tuple[str, str]]:
    """The header with a field before the generator's only one, with what was done."""
    yield f"{HEADER.name}, generator: a field before seed", HEADER.read_text().replace(" seed;", " other, seed;")


def alike(parameters: list[Named]) -> Iterator[tuple[range, range]]:
    """The places of two lists that are read, each with its length, and of two numbers that are no such length."""
    lists = [range(k, k + 2) for k, (_, kind) in enumerate(parameters) if kind == "*const u16"]
    lengths = {k for place in lists for k in place}
    numbers = [range(k, k + 1) for k, (_, kind) in enumerate(parameters) if "*" not in kind and k not in lengths]
    return itertools.chain(itertools.combinations(lists, 2), itertools.combinations(numbers, 2))


def rerouted() -> Iterator[tuple[str, str]]:
    """The header with two lists of one type or two numbers exchanged on the way to the library, by a macro."""
    text = HEADER.read_text()
    for operation, (_, parameters) in interface(HEADER).functions.items():
        for one, other in alike(parameters):
            names = [f"a{k}" for k in range(len(parameters))]
            order = [*names]
            for here, there in zip(one, other, strict=True):
                order[here], order[there] = names[there], names[here]
            called = f"topjeska_{operation}"
            done = f"{text}#define {called}({', '.join(names)}) {called}({', '.join(order)})\n"
            yield f"the library, {operation}: {parameters[one[0]][0]} and {parameters[other[0]][0]}", done


def misled() -> Iterator[tuple[str, str]]:
    """The header with two lists of a sheet, or their lengths alone, exchanged in an inline function, or no options."""
    text, lists = HEADER.read_text(), [name for name, _ in MEASURED]
    for found in INLINE.finditer(text):
        start, end = found.span("body")
        for names in (lists, [f"{name}_len" for name in lists]):
            for one, other in itertools.combinations(names, 2):
                yield f"{found['name']}: {one} and {other}", exchanged(text, start, end, one, other)
        yield f"{found['name']}: no options", text[:start] + found["body"].replace("sheet.options", "0") + text[end:]


def trials(library: Path) -> Iterator[tuple[str, bool]]:
    """Each exchange, and whether it is noticed: in a file by reading it, before the library by running a program."""
    for path, language in LANGUAGES.items():
        for pattern in (language.struct, language.function):
            for name, text in exchanges(path, pattern):
                yield name, bool(differing(interface(path, text), ASSUMED))
    for name, text in shifted():
        yield name, bool(differing(interface(HEADER, text), ASSUMED))
    for path in (HEADER, WRAPPER):
        for name, text in renumbered(path):
            yield name, bool(misnumbered(path, interface(path, text).constants))
    for name, text in reworded(HEADER):
        yield name, bool(misworded(text, WRAPPER.read_text()))
    for name, text in reworded(WRAPPER):
        yield name, bool(misworded(HEADER.read_text(), text))
    folder = TARGET / "exchanged"
    folder.mkdir(parents=True, exist_ok=True)
    for name, text in itertools.chain(exchanges(HEADER, C.struct), shifted(), rerouted(), misled(), altered()):
        (folder / HEADER.name).write_text(text)
        count = tried(folder / "fields", ["fields.c"], library, include=folder)
        # It runs to its end and counts what differs: a program that is not built would show nothing.
        yield f"fields.c against {name}", count.passed > 0 and count.failed > 0
    bound = next(found for found in C.constant.finditer(HEADER.read_text()) if found["name"] == "STACK_BYTES")
    for kib in (32, 100):
        (folder / HEADER.name).write_text(replaced(HEADER.read_text(), bound, str(kib * 1024)))
        count = stacked(library, folder, folder)
        above = sum(used > kib for used in table().values())
        yield f"stack.c against a bound of {kib} KiB", count.passed > 0 and count.failed == above > 0


def main() -> int:
    """Reads, runs and tries; counts."""
    parser = argparse.ArgumentParser(description="The header, the exports and the wrapper held to each other.")
    parser.add_argument("--library", type=Path, default=LIBRARY)
    library = parser.parse_args().library.resolve()
    header = interface(HEADER)
    passed = failed = 0
    others = {"the exports": interface(EXPORTS), "the Rust wrapper": interface(WRAPPER), "the tests": ASSUMED}
    for name, other in others.items():
        wrong = differing(header, other)
        for what in wrong:
            print(f"failed: the header and {name}: {what}")
        passed, failed = passed + (not wrong), failed + len(wrong)
    stack = stacked(library, TARGET)
    tabled = ("the header's table and stack.c", mistabled(stack.said))
    named = ("the header's struct of a sheet and its functions", misnaming(header))
    for name, wrong in (named, *constants_wrong(), *comments_wrong(), tabled):
        for what in wrong:
            print(f"failed: {name}: {what}")
        passed, failed = passed + (not wrong), failed + len(wrong)
    fields = tried(TARGET / "fields", ["fields.c"], library, ["-O2"])
    for name, count in (("fields.c", fields), ("stack.c", stack)):
        print(f"{name}: {count.passed} passed, {count.failed} failed", *filter(None, [count.said]), sep="\n")
        passed, failed = passed + count.passed, failed + count.failed
    tests = list(trials(library))
    unseen = [name for name, noticed in tests if not noticed]
    for name in unseen:
        print(f"failed: not noticed: {name}")
    print(f"exchanges: {len(tests) - len(unseen)} passed, {len(unseen)} failed")
    passed, failed = passed + len(tests) - len(unseen), failed + len(unseen)
    print(f"{passed} passed, {failed} failed")
    return 1 if failed or not passed else 0


if __name__ == "__main__":
    sys.exit(main())
