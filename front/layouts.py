"""A project text walked by hand: which layout it has, how many jobs, resources and pairs, or what is wrong with it and where.

The layouts are those of document 01, 'Library layouts'; docs/DECISIONS.md says how they are read ('Project texts', 'The other layout, and writing'). The walk
serves to lend lists that fit and to give hints. What a text says is decided by the program that is asked. Jobs are numbered as in the text, from 1.
"""

from __future__ import annotations

import re
from typing import NamedTuple

from limits import Limits
from tokens import Refused, Tokens, at_most, ended, exactly, from_one, line_number, tokens

PATTERSON, PSPLIB = "patterson", "psplib"

HEADINGS = (
    b"jobs (incl. supersource/sink ):",
    b"- renewable",
    b"PRECEDENCE RELATIONS:",
    b"REQUESTS/DURATIONS:",
    b"RESOURCEAVAILABILITIES:",
)

# What some editors put before a text: UTF-8 and both kinds of UTF-16.
BYTE_ORDER_MARKS = (b"\xef\xbb\xbf", b"\xff\xfe", b"\xfe\xff")

# A heading stands behind nothing but spaces on its line. None is the beginning of another.
HEADING = re.compile(b"^ *(" + b"|".join(map(re.escape, HEADINGS)) + b")", re.MULTILINE)


class Walked(NamedTuple):
    """What a text has; or the refusal that the reader will give, with hints, and then the counts are 0."""

    jobs: int
    resources: int
    pairs: int
    refusal: int = 0
    hints: tuple[str, ...] = ()


def layout_of(text: bytes) -> str:
    """A text with any of the five headings is meant to be a PSPLIB text."""
    return PSPLIB if HEADING.search(text) else PATTERSON


def capacities(row: Tokens, resources: int, limits: Limits) -> None:
    for k in range(resources):
        at_most(row, limits.demand, f"capacity {k + 1} of {resources}")


def demands(row: Tokens, job: int, resources: int, limits: Limits) -> None:
    at_most(row, limits.time, f"the duration of job {job}")
    for k in range(resources):
        at_most(row, limits.demand, f"demand {k + 1} of {resources} of job {job}")


def successors(row: Tokens, job: int, jobs: int) -> int:
    """How many there are."""
    count = at_most(row, jobs, f"the successor count of job {job}")
    for k in range(count):
        from_one(row, jobs, f"successor {k + 1} of {count} of job {job}")
    return count


def job_count(row: Tokens, text: bytes, limits: Limits) -> int:
    """Of a text without a heading. Where it does not even begin with a number it may have been meant for the other layout."""
    try:
        return at_most(row, limits.jobs, "the job count")
    except Refused as refused:
        if refused.number != 30 or not text.split():
            raise
        mark = ["the file begins with a byte order mark, which no number may have before it."] if text.startswith(BYTE_ORDER_MARKS) else []
        raise Refused(30, *refused.hints, *mark, "no heading of the PSPLIB layout was found, so that the text was read in the Patterson layout.") from None


def patterson(text: bytes, limits: Limits) -> Walked:
    row = tokens(text, 0, len(text))
    jobs = job_count(row, text, limits)
    resources = at_most(row, limits.resources, "the resource count")
    capacities(row, resources, limits)
    pairs = 0
    for job in range(1, jobs + 1):
        demands(row, job, resources, limits)
        pairs += successors(row, job, jobs)
    ended(row)
    return Walked(jobs, resources, pairs)


def name(heading: int) -> str:
    return f'"{HEADINGS[heading].decode()}"'


def squeezed(text: bytes) -> bytes:
    """Without blanks, and in small letters."""
    return b"".join(text.split()).lower()


def missing_hint(heading: int, text: bytes) -> str:
    """A line may have the heading written in another way."""
    like = squeezed(HEADINGS[heading])
    for number, line in enumerate(text.split(b"\n"), 1):
        if squeezed(line).startswith(like):
            return f"the heading {name(heading)} is missing; line {number} is like it, but it has to be written just so, behind nothing but spaces."
    return f"the heading {name(heading)} is missing."


def heading_hint(heading: int, found: list[re.Match[bytes]], text: bytes) -> str:
    """What is wrong with the places of one heading; nothing where there is just one."""
    if not found:
        return missing_hint(heading, text)
    if len(found) == 1:
        return ""
    first, second = (line_number(match.string, match.start()) for match in found[:2])
    return f"the heading {name(heading)} stands on line {first} and on line {second}."


def order_hint(places: list[int], text: bytes) -> str:
    """The first heading that another one stands before; nothing where they rise."""
    for heading, place in enumerate(places):
        early = min(range(heading, len(places)), key=places.__getitem__)
        if early != heading:
            late_line, early_line = line_number(text, place), line_number(text, places[early])
            return f"the heading {name(heading)} on line {late_line} has to stand before {name(early)} on line {early_line}."
    return ""


def heading_places(text: bytes) -> list[int]:
    """Where the lines of the five headings start. Any other row of headings is refused."""
    found: list[list[re.Match[bytes]]] = [[] for _ in HEADINGS]
    for match in HEADING.finditer(text):
        found[HEADINGS.index(match[1])].append(match)
    hints = [heading_hint(heading, matches, text) for heading, matches in enumerate(found)]
    if not any(hints):
        places = [matches[0].start() for matches in found]
        hints = [order_hint(places, text)]
    if any(hints):
        raise Refused(35, *filter(None, hints))
    return places


def count(text: bytes, place: int, most: int, what: str) -> int:
    """The number behind the colon of a heading's line, on the same line."""
    end = text.find(b"\n", place)
    end = len(text) if end < 0 else end
    colon = text.find(b":", place, end)
    line = f"line {line_number(text, place)}"
    if colon < 0:
        raise Refused(30, f"{line} has no colon, behind which {what} has to stand.")
    return at_most(tokens(text, colon + 1, end), most, what, f"{line} ends")


def rows(text: bytes, place: int, lines: int) -> Tokens:
    """All that stands behind so many lines, that of the heading among them."""
    for _ in range(lines):
        end = text.find(b"\n", place)
        place = len(text) if end < 0 else end + 1
    return tokens(text, place, len(text))


def start(row: Tokens, job: int, mode: str, heading: int) -> None:
    exactly(row, job, f"the job number of row {job} under {name(heading)}")
    exactly(row, 1, f"the {mode} of job {job}")


def psplib(text: bytes, limits: Limits) -> Walked:
    job_count, renewable, relations, durations, availabilities = heading_places(text)
    jobs = count(text, job_count, limits.jobs, "the job count")
    resources = count(text, renewable, limits.resources, "the resource count")
    pairs = 0
    # Behind a line of column names; the durations also behind a line of hyphens.
    row = rows(text, relations, 2)
    for job in range(1, jobs + 1):
        start(row, job, "mode count", 2)
        pairs += successors(row, job, jobs)
    row = rows(text, durations, 3)
    for job in range(1, jobs + 1):
        start(row, job, "mode", 3)
        demands(row, job, resources, limits)
    capacities(rows(text, availabilities, 2), resources, limits)
    return Walked(jobs, resources, pairs)


def walked(layout: str, text: bytes, limits: Limits) -> Walked:
    try:
        return (psplib if layout == PSPLIB else patterson)(text, limits)
    except Refused as refused:
        return Walked(0, 0, 0, refused.number, refused.hints)
