"""One run of the command: what was submitted, what was asked of the program, and what came of it."""

from __future__ import annotations

from collections.abc import Sequence
from typing import NamedTuple

from .reads import Reads
from .records import Run, runs
from .scene import HEAD_CLASH, HEAD_NARROWED, HEAD_PLANNED, NARROWED, PLANNED, Row, Scene, Window, Words, load, overdrawn
from .sentences import Teller, plural
from .statuses import CLASH, REFUSED, SETTLED
from .verdict import Verdict, submitted

NARROW, PLAN, CHECK, CHECK_ALONE = "narrow", "plan", "check", "check alone"


class Case(NamedTuple):
    """The name of the list or of the log; the reads as they were submitted, and with the starts that are fixed; what came of them; and why a plan or a log is bad
    beside that, or before anything is asked, where there is no answer."""

    name: str
    kind: str
    reads: Reads
    asked: Reads
    starts: dict[int, int]
    verdict: Verdict
    bad: Sequence[str] = ()

    @property
    def is_clash(self) -> bool:
        return self.verdict.word == "clash"

    @property
    def status(self) -> int:
        if self.verdict.word == "refused":
            return REFUSED
        return CLASH if self.bad or self.verdict.word in ("clash", "rejected") else SETTLED

    @property
    def windows(self) -> list[Window] | None:
        """Of the reads now: of a plan where they are planned; none in a clash, where no window is left to be used."""
        return None if self.is_clash and self.kind != PLAN else list(self.verdict.windows)

    @property
    def runs(self) -> list[Run]:
        return list(runs(self.verdict.records))

    def sentence(self, run: Run) -> str:
        """Of a run of records; the last of a clash says why no start is left, and that of a plan, in which all starts are fixed, who overdraws the supply."""
        teller, last = Teller(self.asked), run.records[-1]
        if not self.is_clash or run.first + len(run.records) < len(self.verdict.records):
            return teller.run(run)
        return teller.overdrawn(last) if self.kind == PLAN else f"{teller.run(run)} {teller.closing(last, self.verdict.before[last.job])}"

    def sentences(self) -> list[str]:
        """One for each run; a window that is too short has one too, and reads that overlap in a plan."""
        teller = Teller(self.asked)
        if self.is_clash and self.verdict.numbers[0] == 0:
            return [teller.too_short(self.verdict.numbers[1])]
        return teller.overlaps(self.verdict.overlaps) if self.reads.head else [self.sentence(run) for run in self.runs]

    @property
    def words(self) -> Words:
        """Of the scene."""
        if self.reads.head:
            return HEAD_PLANNED if self.kind == PLAN else HEAD_CLASH if self.is_clash else HEAD_NARROWED
        return PLANNED if self.kind == PLAN else NARROWED

    def scene(self) -> Scene:
        reads, verdict = self.reads, self.verdict
        rows = zip(reads.units, submitted(reads), verdict.before, reads.lengths, reads.demands)
        marked = set(verdict.marked)
        word = f"plan {'bad' if self.is_clash else 'good'}" if self.kind == PLAN else verdict.word
        starts = f"{plural(len(self.starts), 'start')} fixed, " if self.starts and self.kind != PLAN else ""
        limit = "one at a time" if reads.head else f"supply {reads.draws.say(reads.supply)}"
        title = f"{self.name}: {word}, {starts}{plural(len(reads.units), 'read')}, {limit}"
        return Scene(title, reads.times, reads.draws, reads.supply, tuple(Row(*row, job in marked) for job, row in enumerate(rows)), self.words)

    def overdrawn(self) -> list[Window]:
        """Of a plan, from when until when more is drawn than the supply gives."""
        return overdrawn(load(self.scene().rows), self.reads.supply)
