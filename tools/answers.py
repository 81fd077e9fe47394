"""The library's answers as objects, which tools/sheet prints and tools/page embeds, and in words."""

import functools
import textwrap
from typing import Any

from lines import Lift, Sheet, all_shown, counted
from rules import METHODS, MOST, MOST_PANEL, QUESTIONS, TRAINING
from steps import Step, deadlocked, good_parts, length_in_words, lift_in_words, links, listed, long, reason, slabs_of
from steps import steps, told, verdict_in_words
from topjeska import Generator, Library, Row

# An answer: what was asked, the sheet, and the numbers and words of the answer.
Answer = dict[str, Any]

WIDTH = 100

# A space at which no line is broken, and the yard of which the third number of a row speaks.
TIED = "\u00a0"
STALLED = "once all constructive lifts are made and the yard stalls"


# ---- answers as objects


def asked(command: str, sheet: Sheet) -> Answer:
    """What every answer begins with."""
    return {"command": command, "sheet": sheet.line(), "name": sheet.name}


def refused(begun: Answer, sheet: Sheet, refusal: int, place: int) -> Answer:
    """A refusal: its number and place, and both in words."""
    words = refusal_in_words(begun.get("method", 0), sheet, refusal, place)
    return {**begun, "refusal": refusal, "place": place, "words": words}


def step_of(method: int, step: Step) -> Answer:
    """A lift with its reason."""
    told_of = {"slab": step.slab, "destination": step.destination, "home": step.home}
    return {**told_of, "loop": step.loop, "reason": reason(method, step)}


def plan(library: Library, method: int, sheet: Sheet, panel: bool = False) -> Answer:
    """Planning: the list with a reason for each lift, and how short it is; a list is the same by either entry."""
    begun = {**asked("plan", sheet), "method": method}
    made = library.plan(method, sheet, panel)
    if made.refusal:
        return refused(begun, sheet, made.refusal, made.place)
    about, lifts = told(library, sheet), made.lifts()
    return {
        **begun,
        "refusal": 0,
        "place": 0,
        "count": len(lifts),
        "head": about.head,
        "misplaced": about.misplaced,
        "deadlock": about.ring,
        "floor": about.floor(),
        "counts": about.counts,
        "words": length_in_words(about, len(lifts)),
        "lifts": [step_of(method, step) for step in steps(library, sheet, lifts)],
    }


def deadlock(library: Library, sheet: Sheet) -> Answer:
    """The deadlock test: the ring, and what it costs."""
    begun, found = asked("deadlock", sheet), library.deadlock(sheet)
    if found.refusal:
        return refused(begun, sheet, found.refusal, found.place)
    about = told(library, sheet)
    ends = {"refusal": 0, "place": 0, "count": len(found.rows), "deadlock": found.rows, "misplaced": about.misplaced}
    if found.rows:
        words = f"deadlock: {deadlocked(found.rows)}"
    else:
        words = "no deadlock" if about.misplaced else "no deadlock: nothing is misplaced"
    cost = cost_in_words(about.head, found.rows)
    return {**begun, **ends, "floor": about.floor(), "words": words, "cost": cost}


def replay(library: Library, sheet: Sheet, lifts: list[Lift]) -> Answer:
    """Replay: the verdict, the lift or slab it is about, and what lies in the way."""
    begun, said = {**asked("replay", sheet), "list": all_shown(lifts)}, library.replay(sheet, lifts)
    if said.refusal:
        return refused(begun, sheet, said.refusal, said.place)
    words = verdict_in_words(sheet, lifts, said.verdict, said.place)
    length = length_in_words(told(library, sheet), len(lifts)) if said.verdict == 0 else ""
    ends = {"refusal": 0, "verdict": said.verdict, "place": said.place, "count": len(lifts)}
    return {**begun, **ends, "words": words, "length": length}


def check(library: Library, sheet: Sheet) -> Answer:
    """Questions 2 to 9, 16 to 18 with lengths, and what is misplaced."""
    begun, said = asked("check", sheet), library.check(sheet)
    if said.refusal:
        return refused(begun, sheet, said.refusal, said.place)
    about = told(library, sheet)
    piles = [counted(yard.count(0), "pile", "piles") for yard in (sheet.now, sheet.goal)]
    slabs = counted(len(sheet.now), "slab", "slabs") + ("" if sheet.lengths is None else " with lengths")
    words = f"accepted: {slabs}, {piles[0]} now and {piles[1]} in the goal"
    ends = {"refusal": 0, "place": 0, "slabs": len(sheet.now), "misplaced": about.misplaced, "deadlock": about.ring}
    return {**begun, **ends, "floor": about.floor(), "words": words}


# ---- training


@functools.cache
def ways(loose: int, grounded: int) -> int:
    """How many ways there are to finish a yard with so many piles off the ground and so many on it (document 001)."""
    if loose == 0:
        return 1
    return ways(loose - 1, grounded + 1) + (loose - 1 + grounded) * ways(loose - 1, grounded)


def all_of(slabs: int) -> str:
    """How many arrangements so many slabs have."""
    return f"{counted(slabs, 'slab has', 'slabs have')} {counted(ways(slabs, 0), 'arrangement', 'arrangements')}"


def untrained(given: Answer, refusal: int, place: int) -> Answer:
    """A refusal of training, with what was given."""
    slabs, about = given["slabs"], ""
    if refusal == 14:
        about = f"there are {slabs}"
    elif refusal == 15:
        about = f"the number is {given['number']}, and {all_of(slabs)}" if "number" in given else "the seed is 0"
    words = question_in_words(refusal, about)
    return {"command": "train", **given, "refusal": refusal, "place": place, "words": words}


def train_number(library: Library, slabs: int, number: int) -> Answer:
    """Training from a number: the arrangement."""
    given, made = {"slabs": slabs, "number": str(number)}, library.training(slabs, number)
    if made.refusal:
        return untrained(given, made.refusal, made.place)
    line, words = " ".join(map(str, made.entries)), f"{all_of(slabs)}: this is number {number}"
    return {"command": "train", "arrangement": line, **given, "refusal": 0, "place": 0, "words": words}


def train_seed(library: Library, slabs: int, generator: Generator) -> Answer:
    """Training by a generator: a sheet, now and goal drawn one after the other."""
    given = {"slabs": slabs, "seed": str(generator.seed)}
    yards, numbers = [], []
    for _ in ("now", "goal"):
        made = library.training_draw(generator, slabs)
        if made.refusal:
            return untrained(given, made.refusal, made.place)
        yards.append(made.entries)
        numbers.append(generator.seed % ways(slabs, 0))
    words = f"{all_of(slabs)}: number {numbers[0]} now, number {numbers[1]} in the goal"
    ends = {"next": str(generator.seed), "numbers": numbers, "refusal": 0, "place": 0, "words": words}
    return {**asked("train", Sheet(*yards)), **given, **ends}


# ---- in words


def way_down(yard: list[int], slab: int) -> str:
    """The slabs met going down from a slab, up to the first one that returns."""
    seen: list[int] = []
    while slab not in seen and 1 <= slab <= len(yard):
        seen.append(slab)
        slab = yard[slab - 1]
    return listed([*seen, slab])


def about_place(method: int, sheet: Sheet, number: int, place: int) -> str:
    """What a refusal's place means for this sheet; empty where none is named."""
    n = len(sheet.now)
    if number == 1:
        return f"the method is {method}; the methods are {', '.join(f'{k} ({name})' for k, name in METHODS.items())}"
    if number in (2, 19):
        return f"the now list has {n:,} entries, {n - (MOST if number == 2 else MOST_PANEL):,} too many"
    if number == 16:
        return f"{counted(len(sheet.lengths or []), 'length', 'lengths')} for {counted(n, 'slab', 'slabs')}"
    if not (number in (*range(4, 10), 17, 18) and 1 <= place <= n):
        return ""
    yard, where = (sheet.now, "now") if number in (4, 5, 6, 17) else (sheet.goal, "in the goal")
    support = yard[place - 1]
    if number in (17, 18):
        who = f"slab {place}, the lowest that overhangs, is {long(sheet, place)} long"
        return f"{who} and rests on slab {support} {where}, which is {long(sheet, support)} long"
    if number in (4, 7):
        return f"slab {place}, the lowest with a bad entry, rests on {support} {where}, and n is {n}"
    if number in (5, 8):
        return f"slab {place} rests on slab {support} {where}, where slab {yard.index(support) + 1} rests too"
    return f"slab {place} is the lowest that does not; {where} the way down comes round: {way_down(yard, place)}"


def question_in_words(number: int, about: str) -> str:
    """The question that got a no, and what is wrong."""
    questions = QUESTIONS | TRAINING
    question = questions[number].words if number in questions else "No question has this number."
    return question + (f" No: {about}." if about else " No.")


def refusal_in_words(method: int, sheet: Sheet, number: int, place: int) -> str:
    """The question that got a no, and what is wrong with the sheet or the method."""
    return question_in_words(number, about_place(method, sheet, number, place))


def cost_in_words(misplaced: int, ring: list[Row]) -> str:
    """What a deadlock costs every list."""
    astray = counted(misplaced, "slab is", "slabs are")
    if ring:
        return f"{astray} misplaced, so every list that arrives has at least {misplaced + 1} lifts, one more than that"
    return f"{astray} misplaced, and methods 2 and 3 lift each once: none is shorter"


def head_in_words(head: int, ring: list[Row]) -> str:
    """What the number of misplaced slabs means for every list (theorem `HeadCount.fewest`)."""
    return f"{head} at the start, {'every list has more lifts' if ring else 'the fewest lifts that could do'}"


def rows(named: list[tuple[str, str]]) -> list[str]:
    """Rows of a name and its words, wrapped; tools read `sheet`, `method` and `list` back."""
    indent = " " * 11
    wrapped = textwrap.TextWrapper(WIDTH, subsequent_indent=indent, break_long_words=False, break_on_hyphens=False)
    return [wrapped.fill(f"{name + ':':11}{text}").replace(TIED, " ") for name, text in named]


def sentence(words: str) -> str:
    """A sentence, wrapped."""
    return textwrap.fill(words, WIDTH, subsequent_indent="  ", break_long_words=False, break_on_hyphens=False)


def sheet_row(answer: Answer) -> tuple[str, str]:
    """The row with the sheet, under its name where it has one."""
    return "sheet", (f"{answer['name']}: " if answer["name"] else "") + answer["sheet"]


def plan_in_words(answer: Answer) -> list[str]:
    """How short the list is, each lift with its reason, and the rows that other tools read."""
    lifts = answer["lifts"]
    each = [
        f"{number}. {lift_in_words(lift['slab'], lift['destination'])}: {lift['reason']}"
        for number, lift in enumerate(lifts, 1)
    ]
    method = answer["method"]
    counts = ", ".join(f"{count} by method {number}" for number, count in answer["counts"].items())
    line = all_shown([(lift["slab"], lift["destination"]) for lift in lifts])
    named = [
        ("list", line or "no lifts"),
        sheet_row(answer),
        ("method", f"{method} ({METHODS[method]})"),
        ("lifts", counts),
        ("misplaced", head_in_words(answer["head"], answer["deadlock"])),
    ]
    return [sentence(answer["words"]), *map(sentence, each), *rows(named)]


def indented(lines: list[str]) -> list[str]:
    """Lines that stand further in."""
    return [f"  {line}" for line in lines]


def ring_in_words(ring: list[Row]) -> list[str]:
    """A ring, slab by slab: who is in whose way, and up to where each goal pile is right."""
    head = f"deadlock: {'slab' if len(ring) == 1 else 'slabs'} {listed(slabs_of(ring), ' and ')}"
    return [sentence(head), *indented(links(ring)), f"{STALLED}:", *indented(good_parts(ring))]


def deadlock_in_words(answer: Answer) -> list[str]:
    """The ring, slab by slab, and what it costs."""
    ring = answer["deadlock"]
    said = ring_in_words(ring) if ring else [sentence(answer["words"])]
    said += [sentence(answer["cost"])] if answer["misplaced"] else []
    line = ", ".join(TIED.join(map(str, row)) for row in ring)
    return [*said, *rows([("rows", line or "none"), sheet_row(answer)])]


def replay_in_words(answer: Answer) -> list[str]:
    """The verdict, and how short a list that arrives is."""
    named = [("verdict", f"{answer['verdict']}, place {answer['place']}"), ("list", answer["list"] or "no lifts")]
    said = map(sentence, filter(None, [answer["words"], answer["length"]]))
    return [*said, *rows([*named, sheet_row(answer)])]


def check_in_words(answer: Answer) -> list[str]:
    """What is accepted, and what is misplaced."""
    astray = answer["misplaced"]
    ring = f"; {deadlocked(answer['deadlock'])}" if answer["deadlock"] else ""
    some = f"{counted(len(astray), 'slab', 'slabs')} misplaced" + (f": {listed(astray)}" if astray else "")
    return [sentence(answer["words"]), sentence(some + ring), *rows([sheet_row(answer)])]


def train_in_words(answer: Answer) -> list[str]:
    """The sheet or the arrangement alone, as it is typed."""
    return [answer["sheet"] if "sheet" in answer else answer["arrangement"]]


IN_WORDS = {
    "plan": plan_in_words,
    "deadlock": deadlock_in_words,
    "replay": replay_in_words,
    "check": check_in_words,
    "train": train_in_words,
}


def in_words(answer: Answer) -> str:
    """An answer as tools/sheet prints it."""
    if answer["refusal"]:
        head = f"refused: {answer['refusal']}, place {answer['place']}"
        row = [sheet_row(answer)] if "sheet" in answer else []
        return "\n".join([head, sentence(f"  {answer['words']}"), *rows(row)])
    return "\n".join(IN_WORDS[answer["command"]](answer))
