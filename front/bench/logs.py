"""The log file (docs/ANSWERS.md, 'The log file'): supply, reads with their names, records and the end, in a text that can be kept, mailed and checked without the
list.

    tarqumbet-log 1
    time HH:MM
    step 0.1 A
    supply 50
    read 480 560 50 18 "Bosch Motronic ML4.1, 1987"
    fix 0 490
    record 2 0 519 0 1
    end holds 1

Here it is written, and held beside a list; front/bench/logtext.py reads it. The windows in it are the submitted ones, so that it is no list to go on from; reads
whose start was fixed beside them are named.
"""

from __future__ import annotations

import re
from typing import NamedTuple

from ending import Stop
from limits import TOP

from .reads import LOG, Reads, key
from .sentences import quoted
from .verdict import Verdict


def version() -> str:
    """Of the log, from the file VERSION, where it stands once."""
    try:
        said = re.search(r"^log ([0-9]+)$", (TOP / "VERSION").read_text("utf-8"), re.MULTILINE)
    except (OSError, ValueError):
        said = None
    if not said:
        raise Stop("The version of the log cannot be read from VERSION.")
    return said[1]


def in_quotes(unit: str) -> str:
    return '"' + unit.replace('"', '""') + '"'


def row(word: str, *rest: object) -> str:
    return " ".join((word, *map(str, rest)))


def log_lines(reads: Reads, starts: dict[int, int], verdict: Verdict) -> list[str]:
    """Its end has the checker's words, since the checker is what a log is for: that nothing more can be narrowed is not said in it."""
    lines = [row(LOG, version()), row("time", reads.times.form), row("step", reads.draws.say(1)), row("supply", reads.supply)]
    lines += [row("read", *numbers, in_quotes(unit)) for *numbers, unit in zip(*reads.lists, reads.units)]
    lines += [row("fix", job, start) for job, start in sorted(starts.items())]
    lines += [row("record", job, side, time, *members) for job, side, time, members in verdict.records]
    if verdict.word == "clash":
        return [*lines, row("end", "clash", len(verdict.records), verdict.numbers[1])]
    return [*lines, row("end", "holds", len(verdict.records))]


class Differs(NamedTuple):
    """A line of a log, by its first word and its place among those with that word, and what is otherwise in it than in the list."""

    word: str
    place: int
    what: str


def difference(log: Reads, reads: Reads) -> Differs | None:
    """The first thing in which a log's reads are not those of the list; none where there is no such thing. Names that look the same are the same."""
    heads = (
        ("time", log.times.form, reads.times.form),
        ("step", log.draws.say(1), reads.draws.say(1)),
        ("supply", log.draws.say(log.supply), reads.draws.say(reads.supply)),
    )
    for what, logged, listed in heads:
        if logged != listed:
            return Differs(what, 0, f"the log's {what} is {logged}, the list's {listed}")
    for job, (logged, listed) in enumerate(zip(log.units, reads.units)):
        if key(logged) != key(listed):
            return Differs("read", job, f"read {job + 1} of the log is {quoted(logged)}, of the list {quoted(listed)}")
    if len(log.units) != len(reads.units):
        return Differs("read", len(reads.units), f"the log has {len(log.units)} reads, the list {len(reads.units)}")
    say = reads.times.say
    forms = (("starts at {} or later", say), ("ends by {}", say), ("lasts {}", reads.times.lasts), ("draws {}", reads.draws.say))
    for job, unit in enumerate(reads.units):
        for (form, spoken), logged, listed in zip(forms, log.lists, reads.lists):
            if logged[job] != listed[job]:
                return Differs("read", job, f"in the log {quoted(unit)} {form.format(spoken(logged[job]))}, in the list it {form.format(spoken(listed[job]))}")
    return None


def other_starts(logged: dict[int, int], asked: dict[int, int], reads: Reads) -> Differs | None:
    """The first read whose start is fixed in the log and not by the command, or otherwise."""
    for job, unit in enumerate(reads.units):
        if logged.get(job) != asked.get(job):
            said = ["has no fixed start" if start is None else f"starts at {reads.times.say(start)}" for start in (logged.get(job), asked.get(job))]
            place = [*logged].index(job) if job in logged else len(logged)
            return Differs("fix", place, f"in the log {quoted(unit)} {said[0]}, and here it {said[1]}")
    return None
