"""A log file taken apart (docs/ANSWERS.md, 'The log file'). Every line that is not as it has to be is told with its place."""

from __future__ import annotations

import re
from collections.abc import Callable
from typing import NamedTuple

from limits import Limits

from .logs import version
from .places import Fault, Text, stop, text_of
from .quantities import CLOCK, TICKS, Draws, Times, natural, step_of
from .reads import LOG, Names, Reads
from .records import WORD, Record, set_words

READ, FIX, RECORD, END = "read", "fix", "record", "end"

# The first words of lines, in the order in which lines stand; of some there may be any number.
ORDER = (LOG, "time", "step", "supply", READ, FIX, RECORD, END)
MANY = (READ, FIX, RECORD)


class Log(NamedTuple):
    """What a log file says, and its lines by their first words."""

    reads: Reads
    starts: dict[int, int]
    records: list[Record]
    end: str
    lines: dict[str, list[int]]

    def line(self, word: str, place: int = 0) -> int:
        """The line of that word and place; where there are not so many, the end's."""
        return [*self.lines[word], *self.lines[END]][min(place, len(self.lines[word]))]


class Walk:
    """The lines of a log, one by one."""

    def __init__(self, text: Text, limits: Limits) -> None:
        self.text, self.limits = text, limits
        self.faults: list[Fault] = []
        self.found: dict[str, list] = {word: [] for word in ORDER}
        self.lines: dict[str, list[int]] = {word: [] for word in ORDER}
        self.names = Names()
        self.line = 0

    def wrong(self, what: str) -> None:
        """A line of a log is short: it is told by its first column."""
        self.faults.append(Fault(self.line, 1, what))

    def number(self, word: str) -> int:
        value = natural(word) if re.fullmatch("[0-9]+", word) else None
        if value is None or value > self.limits.number:
            self.wrong(f"'{word}' is no number from 0 to {self.limits.number}")
        return value or 0

    def numbers(self, rest: str) -> list[int]:
        return [self.number(word) for word in rest.split(" ")]

    def opening(self, rest: str) -> None:
        if rest != version():
            self.wrong(f"the log has version '{rest}'; this command reads version {version()}")

    def time(self, rest: str) -> Times:
        if rest not in (CLOCK, TICKS):
            self.wrong(f"the time '{rest}' is neither {CLOCK} nor {TICKS}")
        return Times(rest == CLOCK)

    def step(self, rest: str) -> Draws:
        step = step_of(rest)
        if step is None or step.say(1) != rest:
            self.wrong(f"'{rest}' is no step")
        return step or Draws()

    def supply(self, rest: str) -> int:
        return self.number(rest)

    def read(self, rest: str) -> tuple[int, ...]:
        said = re.fullmatch(r'([0-9]+ [0-9]+ [0-9]+ [0-9]+) "((?:[^"]|"")*)"', rest)
        if not said:
            self.wrong("a read has its earliest start, latest end, length, draw and, in quotes, its unit's name")
            return 0, 0, 0, 0, ""
        unit = said[2].replace('""', '"')
        if what := self.names.fault(unit, self.line):
            self.wrong(what)
        return *self.numbers(said[1]), unit

    def fix(self, rest: str) -> tuple[int, int]:
        """A read and its start, which lies in its window; no read where the line has none."""
        before = len(self.faults)
        numbers = self.numbers(rest)
        if len(self.faults) > before:
            return -1, 0
        if len(numbers) != 2 or numbers[0] >= len(self.found[READ]):
            self.wrong("a fixed start has a read of the log and its start")
            return -1, 0
        job, start = numbers
        earliest, latest, length = self.found[READ][job][:3]
        if not earliest <= start <= latest - length:
            self.wrong(f"the start {start} of read {job} is not in its window")
        if any(job == other for other, _ in self.found[FIX]):
            self.wrong(f"read {job} has a fixed start already")
        return job, start

    def record(self, rest: str) -> Record:
        if rest.count(" ") < 2:
            self.wrong("a record has the moved read, the side, the time and the members")
            return Record(0, 0, 0, ())
        before = len(self.faults)
        job, side, time, *members = self.numbers(rest)
        if len(self.faults) > before:
            return Record(0, 0, 0, ())
        if any(member >= following for member, following in zip(members, members[1:])):
            self.wrong("the members do not rise")
        if members and max(members) >= WORD * set_words(self.limits):
            self.wrong(f"no member set holds read {max(members)}")
        return Record(job, side, time, tuple(members))

    def end(self, rest: str) -> str:
        if not re.fullmatch(r"holds [0-9]+|clash [0-9]+ [0-9]+", rest):
            self.wrong("the end is 'holds' with the number of records, or 'clash' with that number and the read that clashes")
        return rest

    def take(self, line: str) -> None:
        word, _, rest = line.partition(" ")
        if word not in ORDER:
            self.wrong(f"no line of a log begins with '{word}'" if word else "the line begins with no word")
            return
        behind = next((later for later in ORDER[ORDER.index(word) + (word in MANY) :] if self.lines[later]), None)
        if behind:
            self.wrong(f"a line '{word}' stands behind a line '{behind}'")
        parts: dict[str, Callable[[str], object]] = dict(
            zip(ORDER, (self.opening, self.time, self.step, self.supply, self.read, self.fix, self.record, self.end))
        )
        self.lines[word].append(self.line)
        self.found[word].append(parts[word](rest))

    def taken(self) -> None:
        """Every line, and what is missing among them."""
        *lines, rest = self.text.letters.split("\n")
        for self.line, line in enumerate(lines + [rest] if rest else lines, 1):
            self.take(line[:-1] if line.endswith("\r") else line)
        if rest:
            self.wrong("the last line is not ended")
        for word in ORDER:
            if word not in MANY and not self.lines[word]:
                self.wrong(f"the log has no line '{word}'")
        for word, most in ((READ, self.limits.line_jobs), (RECORD, self.limits.records)):
            if len(self.lines[word]) > most:
                self.line = self.lines[word][most]
                self.wrong(f"the program takes up to {most} lines '{word}'")


def log_of_file(file: str, limits: Limits) -> Log:
    text = text_of(file)
    if not text.letters.startswith(f"{LOG} "):
        stop(file, [Fault(1, 1, f"this is no log: its first line has to be '{LOG} {version()}'")])
    walk = Walk(text, limits)
    walk.taken()
    if walk.faults:
        stop(file, walk.faults)
    found = walk.found
    *lists, units = map(list, zip(*found[READ])) if found[READ] else ([], [], [], [], [])
    reads = Reads(units, *lists, found["supply"][0], found["time"][0], found["step"][0])
    return Log(reads, dict(found[FIX]), found[RECORD], found[END][0], walk.lines)
