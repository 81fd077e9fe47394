"""What a page of sheets holds: the library's answers by all three methods, and who waits where the yard is stalled.

The template is page.html beside this file; its script shows these answers and plans nothing.
"""

import json
from pathlib import Path
from typing import Any

from answers import Answer, deadlock, plan
from lines import Fault, Sheet, counted
from rules import METHODS
from steps import Frame, deadlocked, frames, led, lift_in_words, listed, slabs_of, standing, waits
from topjeska import Library

TEMPLATE = Path(__file__).resolve().parent / "page.html"

# The most slabs of a sheet on a page: more would be too small to see, and the page too long to load.
MOST_SHOWN = 300

# What a page may do: nothing over a network, and where it is served, ask its own server.
ALONE = (
    "default-src 'none'; style-src 'unsafe-inline'; script-src 'unsafe-inline'; img-src data:; "
    "base-uri 'none'; form-action 'none'"
)
SERVED = f"{ALONE}; connect-src 'self'"

# A sheet as the page's script takes it.
Shown = dict[str, Any]


# ---- a sheet with its answers


def sized(sheet: Sheet) -> Sheet:
    """The sheet, where it is small enough for a page."""
    slabs = max(len(sheet.now), len(sheet.goal))
    if slabs > MOST_SHOWN:
        name = f"the sheet {sheet.name}" if sheet.name else "the sheet"
        hint = "tools/sheet answers larger ones"
        raise Fault(f"{name} has {counted(slabs, 'slab', 'slabs')}; a page shows at most {MOST_SHOWN} of them ({hint})")
    return sheet


def stall(before: Frame, goal: list[int]) -> Shown:
    """A stalled yard: its loop in words, what each waiting slab waits for, and how it stands to the loop."""
    each = [(*one, standing(one.slab, led(before, goal, one.slab), before.loop)) for one in waits(before, goal)]
    return {"words": deadlocked(before.loop), "waits": each}


def answered(library: Library, method: int, sheet: Sheet) -> Answer:
    """A method's answer, each lift also in words, and with the stall before it where there is one."""
    answer = plan(library, method, sheet)
    if answer["refusal"]:
        return answer
    lifts = [(lift["slab"], lift["destination"]) for lift in answer["lifts"]]
    for lift, before in zip(answer["lifts"], frames(library, sheet, lifts)):
        lift["words"] = lift_in_words(lift["slab"], lift["destination"])
        lift["stall"] = stall(before, sheet.goal) if before.loop else None
    return answer


def at_the_start(test: Answer) -> str:
    """What the deadlock test says of a sheet, without the links of the ring."""
    if not test["misplaced"]:
        return test["words"]
    slabs = slabs_of(test["deadlock"])
    ring = f": {'slab' if len(slabs) == 1 else 'slabs'} {listed(slabs, ' and ')}" if slabs else ""
    return f"{'deadlock' if slabs else 'no deadlock'} at the start{ring}; {test['cost']}"


def shown(library: Library, sheet: Sheet) -> Shown:
    """A sheet with all that the library says of it; a refused one with its refusal."""
    test = deadlock(library, sized(sheet))
    begun = {"name": sheet.name, "line": sheet.line(), "now": sheet.now, "goal": sheet.goal, "lengths": sheet.lengths}
    said = {key: test[key] for key in ("refusal", "place", "words")}
    if test["refusal"]:
        return {**begun, **said}
    answers = {method: answered(library, method, sheet) for method in METHODS}
    return {**begun, **said, "start": at_the_start(test), "answers": answers}


def refused(sheet: Shown) -> bool:
    """Whether the library refused a sheet."""
    return sheet["refusal"] != 0


# ---- the page


def embedded(data: object) -> str:
    """Data as JSON that ends no script, opens no remark, and has no line end of its own."""
    return json.dumps(data, ensure_ascii=True, separators=(",", ":")).replace("<", "\\u003c")


def page(sheets: list[Shown], serving: bool) -> bytes:
    """The page with some sheets; one that is served has a line to type others into."""
    data = embedded({"serving": serving, "methods": METHODS, "most": MOST_SHOWN, "sheets": sheets})
    try:
        template = TEMPLATE.read_text(encoding="utf-8")
    except OSError as error:
        raise Fault(f"the template of the page cannot be read: {error}") from error
    return template.replace("@POLICY@", SERVED if serving else ALONE, 1).replace("@DATA@", data, 1).encode()
