"""The documents' numbers in words: methods, questions, verdicts of replay, and the most slabs.

The tools and the fault card take their words from here; the header and the wrapper are held to it by tests.
"""

from typing import NamedTuple

# The most slabs of a sheet, of one that the panel plans, and of a training sheet, the highest 16-bit number, and what a
# refused replay has in place of a verdict.
MOST = 4000
MOST_PANEL = 600
MOST_TRAINED = 16
TOP = 65535
NO_VERDICT = 65535

METHODS = {1: "US", 2: "GN1", 3: "GN2"}

# What each method does, in short.
METHOD_WORDS = {
    1: "puts down the misplaced clear slabs off the ground, then makes constructive lifts",
    2: "makes constructive lifts, and at a stall puts down the lowest misplaced clear slab off the ground",
    3: "as GN1, but at a stall puts down the lowest slab on the loop",
}


class Question(NamedTuple):
    """A question: who asks it, what is asked, and what a refusal's place means; no place is named where it is 0."""

    asked_by: str
    words: str
    place: str


ALL = "all"
WITH_LENGTHS = "with lengths"
BY_PANEL = "panel"
SLAB = "the lowest slab with a bad entry"
SHARED = "the lowest slab that rests where a lower-numbered slab rests, the ground excepted"
FLOATING = "the lowest slab that does not"
OVERHANGS = "the lowest slab that overhangs"

# Document 01, "Questions put to a sheet, in order"; 7 to 9 are "the same three for the goal". 16 to 18 are those of
# document 02, Job 3, and are asked after 9; 19 is that of Job 5, and is asked directly after 2.
QUESTIONS = {
    1: Question("planning", "Is the method 1, 2 or 3?", ""),
    2: Question(ALL, f"Has the now list at most {MOST:,} entries?", ""),
    3: Question(ALL, "Has the goal list as many?", ""),
    4: Question(ALL, "Is every now entry at most n?", SLAB),
    5: Question(ALL, "Does each slab carry at most one slab now?", SHARED),
    6: Question(ALL, "Does every slab come down to the ground now?", FLOATING),
    7: Question(ALL, "Is every goal entry at most n?", SLAB),
    8: Question(ALL, "Does each slab carry at most one slab in the goal?", SHARED),
    9: Question(ALL, "Does every slab come down to the ground in the goal?", FLOATING),
    10: Question("planning, deadlock test, training", "Is the lent space large enough?", ""),
    11: Question("replay", "Has the lift list an even number of entries?", ""),
    12: Question(
        "program",
        "Are all bytes of the record there, with its own mark, and nothing after the last record?",
        "the records before it, or 2 × n + 1 for a tail, 3 × n + 1 with lengths",
    ),
    13: Question("planning", "Was there a slab to put down when no constructive lift existed?", ""),
    16: Question(WITH_LENGTHS, "Are there as many lengths as slabs?", ""),
    17: Question(WITH_LENGTHS, "Is each slab at most as long as the slab it rests on now?", OVERHANGS),
    18: Question(WITH_LENGTHS, "Is each slab at most as long as the slab it rests on in the goal?", OVERHANGS),
    19: Question(BY_PANEL, f"Has the now list at most {MOST_PANEL} entries?", ""),
}

# What training asks before 10; it is not put to sheets.
TRAINING = {
    14: Question("training", f"Are there at most {MOST_TRAINED} slabs?", ""),
    15: Question("training", "Is the number below the count of arrangements, or the seed not 0?", ""),
}


class Verdict(NamedTuple):
    """A verdict of replay: what it says, and what its place means."""

    words: str
    place: str


BAD_LIFT = "the lift, counted from 1"

# Document 01, "What is lent and written", and 6 of document 02, Job 3, which is tested after 4.
VERDICTS = {
    0: Verdict("arrives", ""),
    1: Verdict("the slab is not in 1 to n or the destination is above n", BAD_LIFT),
    2: Verdict("the slab is not clear", BAD_LIFT),
    3: Verdict("it already rests there", BAD_LIFT),
    4: Verdict("the destination is the slab itself or a slab that is not clear", BAD_LIFT),
    5: Verdict("all lifts are legal and the end differs from the goal", "the lowest slab whose support differs"),
    6: Verdict("it is too long for its destination", BAD_LIFT),
}
