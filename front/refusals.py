"""What the number of a refusal or the code of a bad record means, in the sentence that docs/ANSWERS.md has for it, and which refusals each call gives, in the order
of its tests.

The limits in a sentence are put in where it is said, since they stand in the sources.
"""

from __future__ import annotations

from limits import Limits

SENTENCES = {
    1: "The lists differ in length.",
    2: "There are more than {jobs} jobs.",
    3: "A number is above its limit.",
    5: "The work needs more records than the log has room for.",
    6: "The log has fewer records than are claimed.",
    7: "The length of the log is no whole number of records.",
    8: "The log is rejected, or it ends in no clash.",
    30: "A number is missing, a word stands where a number has to be, or text is left over.",
    31: "A number is above its limit, there are more than {resources} resources, or a job has more successors than there are jobs.",
    32: "A successor is out of range.",
    33: "The precedences have a cycle.",
    34: "The horizon is shorter than the longest chain.",
    35: "A heading is missing, stands twice or is out of order.",
    36: "The buffer is too short for the text.",
    37: "There is no such resource.",
    38: "A lent list is not as long as there are jobs, or the room for pairs is too short.",
}

# The writer gives 32 for something else than the readers.
WRITER = {32: "A pair is out of range or out of order."}

CODES = {
    20: "An earlier record already closed a window, or one was too short before any.",
    21: "Its job is not in the list, its side is above 1, or its time above {time:,}.",
    22: "Its job or a member lasts 0 or draws 0, or a member is not in the list or is the moved job itself.",
    23: "Its word 3, the number of members, is not the number of ones in the member set.",
    24: "The demands named, members' and moved job's together, do not exceed the capacity: nothing follows.",
    25: (
        "A stated fact is not true of the windows reached so far: a member could start later than t, or earlier than t − p + 1; or the moved job could start earlier "
        "than that (side 0), or later than t (side 1)."
    ),
    26: "The change tightens nothing: the bound is as tight already.",
    27: "A member can be left out: without it the demands named still exceed the capacity.",
}

GIVEN = {
    "narrow": (1, 2, 3, 7, 5),
    "check": (1, 2, 3, 7, 6),
    "conflict": (1, 2, 3, 7, 6, 8),
    "overload": (1, 2, 3),
    "head": (1, 2, 3),
    "patterson": (31, 30, 32, 37, 38, 33, 34),
    "psplib": (31, 35, 30, 32, 37, 38, 33, 34),
    "write": (1, 2, 3, 32, 33, 36),
}


def is_given(call: str, number: int) -> bool:
    return number in GIVEN[call]


def code(number: int, limits: Limits) -> str:
    """The line that says why a record is bad."""
    return f"code {number}: {CODES[number].format(time=limits.time)}"


def refusal(call: str, number: int, limits: Limits) -> str:
    """The line that says a refusal."""
    special = WRITER if call == "write" else {}
    sentence = special.get(number, SENTENCES[number]).format(jobs=limits.jobs, resources=limits.resources)
    return f"refused {number}: {sentence}"
