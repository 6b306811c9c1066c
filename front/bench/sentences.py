"""Records and answers as sentences, in the words of the list: its units' names, its times and its draws.

A tick is a stretch of time: a unit is read in the minute of 08:49, and its read starts or ends at an instant, 08:50. A sentence says what its records say and no
more. Several records of one read, side and member set are one sentence: the same is said of each of their times.
"""

from __future__ import annotations

from collections.abc import Sequence

from .reads import Reads
from .records import Record, Run
from .scene import Overlap, Window

# So many times, and so many pairs of reads that overlap, are named one by one.
FEW = 3
PAIRS = 20


def listed(words: Sequence[str]) -> str:
    return words[0] if len(words) == 1 else f"{', '.join(words[:-1])} and {words[-1]}"


def plural(number: int, what: str) -> str:
    return f"{number} {what}" if number == 1 else f"{number} {what}s"


def quoted(unit: str) -> str:
    """Names may hold commas, so that nobody could tell where one ends; they may hold these quotes too."""
    return f'"{unit}"' if "“" in unit or "”" in unit else f"“{unit}”"


class Teller:
    def __init__(self, reads: Reads) -> None:
        self.reads, self.times, self.draws = reads, reads.times, reads.draws

    def units(self, jobs: Sequence[int]) -> str:
        return listed([quoted(self.reads.units[job]) for job in jobs])

    def total(self, jobs: Sequence[int]) -> str:
        return self.draws.say(sum(self.reads.demands[job] for job in jobs))

    def window(self, window: Window) -> str:
        return f"{self.times.say(window[0])} to {self.times.say(window[1])}"

    def moments(self, records: Sequence[Record]) -> str:
        """When the records speak of, as the start of a sentence."""
        times = sorted(record.time for record in records)
        one, many, each = ("In the minute of", "In the minutes of", "In each minute from") if self.times.clock else ("At time", "At times", "At each time from")
        say = self.times.say
        if len(times) == 1:
            return f"{one} {say(times[0])}"
        if len(times) <= FEW:
            return f"{many} {listed([say(time) for time in times])}"
        number = f"({len(times)} records)"
        if times[-1] - times[0] == len(times) - 1:
            return f"{each} {say(times[0])} to {say(times[-1])} {number}"
        return f"{many} {say(times[0])}, {say(times[1])} and so on to {say(times[-1])} {number}"

    def crowd(self, records: Sequence[Record]) -> str:
        """Why the moved read is not read at these times."""
        job, members = records[0].job, records[0].members
        when, supply = self.moments(records), self.draws.say(self.reads.supply)
        if not members:
            return f"{when} {self.units([job])} is not read, since it draws {self.total([job])} and the supply gives {supply}"
        do = ("is", "draws") if len(members) == 1 else ("are", "draw")
        running = f"{when} {self.units(members)} {do[0]} being read in any case and {do[1]} {self.total(members)} of {supply}."
        return f"{running} {self.units([job])} draws {self.total([job])}, so it is not read then"

    def moved(self, records: Sequence[Record]) -> str:
        """What follows for the moved read."""
        last = records[-1]
        if last.side == 0:
            before = "before" if len(records) == 1 else "before the first of these times, or fit between them"
            return f"nor can it be through {before}, so it starts at {self.times.say(last.time + 1)} or later."
        later = "later" if len(records) == 1 else "after the last of these times, or fit between them"
        return f"nor can it start {later}, so it ends by {self.times.say(last.time)}."

    def run(self, run: Run) -> str:
        return f"{self.crowd(run.records)}; {self.moved(run.records)}"

    def claim(self, record: Record) -> list[str]:
        """What a record says that the checker does not take, where it speaks of reads of the list."""
        known = record.side < 2 and all(job < len(self.reads.units) for job in (record.job, *record.members))
        return [f"The record says: {self.run(Run(0, [record]))}"] if known else []

    def closing(self, record: Record, window: Window) -> str:
        """Behind the sentence of the record that closes a window, which was this one before."""
        lasts = self.times.lasts(self.reads.lengths[record.job])
        other = f"has to end by {self.times.say(window[1])}" if record.side == 0 else f"cannot start before {self.times.say(window[0])}"
        return f"It lasts {lasts} and {other}, so no start is left for it."

    def too_short(self, job: int) -> str:
        """A clash without a record."""
        reads = self.reads
        window = self.window((reads.earliest[job], reads.latest[job]))
        said = f"{self.units([job])} lasts {self.times.lasts(reads.lengths[job])}, and its window from {window} is shorter, so no start is left for it."
        if self.times.clock and reads.latest[job] < reads.earliest[job]:
            said += " (Behind midnight the hours go on: 25:00 is one o'clock on the next day.)"
        return said

    def together(self, marked: Sequence[int], starts: str) -> str:
        """The units of a clash. Where starts are fixed, which are named, the clash may be theirs."""
        windows = "together in their submitted windows" if len(marked) > 1 else "in its submitted window"
        said = f"{self.units(marked)} cannot be read {windows}{'' if self.reads.head else ' on this supply'}"
        said += f" with {starts}" if starts else ""
        said += ", whatever becomes of the others" if len(marked) < len(self.reads.units) else ""
        return f"{said}." if len(marked) == 1 else f"{said}: {self.way_out(starts)}."

    def way_out(self, starts: str) -> str:
        another = "another start, another window" if starts else "another window"
        return f"one of them has to get {another}, or {'all of them a later horizon' if self.reads.horizon is not None else 'another day'}"

    def unmarked(self, starts: str) -> str:
        """A clash of the read head, which names one read alone."""
        return f"Which of the reads cannot be read one after another is not said here: {self.way_out(starts)}."

    def overlaps(self, found: Sequence[Overlap]) -> list[str]:
        """Two reads each that are read at once."""
        said = [f"{self.units(jobs)} are both being read from {self.window(window)}." for window, *jobs in found[:PAIRS]]
        more = len(found) - len(said)
        return said + ([f"{plural(more, 'more pair')} of reads {'overlaps' if more == 1 else 'overlap'}."] if more else [])

    def overdrawn(self, record: Record) -> str:
        """A plan's clash: all starts are fixed, so the moved read is read at that time too."""
        jobs = sorted((record.job, *record.members))
        when, do = self.moments([record]), "draws" if len(jobs) == 1 else "draw"
        together = "" if len(jobs) == 1 else " together"
        return f"{when} {self.units(jobs)} {do} {self.total(jobs)}{together}, and the supply gives {self.draws.say(self.reads.supply)}."

    def rests_on(self, run: Run, windows: Sequence[Window], planned: bool) -> list[str]:
        """The windows that a sentence rests on, as they are before its first record: its members', which stay as they are in all of them, and the moved read's, of
        which one bound counts, and in a plan both."""
        record, say = run.records[0], self.times.say
        lines = []
        for job in (*record.members, record.job):
            (start, end), length = windows[job], self.reads.lengths[job]
            both = planned or job != record.job
            facts = [f"starts by {say(end - length)}"] if both or record.side == 1 else []
            facts += [f"is not through before {say(start + length)}"] if both or record.side == 0 else []
            window = f"has the window {self.window((start, end))} at this point and lasts {self.times.lasts(length)}"
            lines.append(f"{self.units([job])} {window}: it {' and '.join(facts)}.")
        return lines
