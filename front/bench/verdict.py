"""What narrowing, or a log by another hand, comes to on a list of reads: asked of the program, and told only where the checker says the same.

Every log goes to the checker from the submitted windows. Where its word, its numbers or its windows are not those that they have to be, the program contradicts
itself; that is said, with its name, and nothing else.
"""

from __future__ import annotations

from collections.abc import Iterable, Iterator, Sequence
from typing import NamedTuple

import calls
from asking import Program, name
from ending import Stop
from limits import Limits
from refusals import CODES

from .counts import after, is_narrowable, most_moves, refusal_of, without_start
from .reads import Reads
from .records import Record, jobs_of, log_of, needed, records_of, set_words
from .scene import Overlap, Window
from .statuses import DISAGREE

# What the program contradicts where it is not itself.
OWN_COUNT = "the command's own count"


class Verdict(NamedTuple):
    """The answer's word and its numbers; the windows that it leaves; the records that are told, in a clash those alone that it needs; the reads that cannot be
    read together; the windows before the closing record of a clash, in other answers those that it leaves; whether the command has counted it too; and in a bad
    plan for the read head from when until when two reads overlap, and which."""

    word: str
    numbers: Sequence[int]
    windows: Sequence[Window]
    records: Sequence[Record] = ()
    marked: Sequence[int] = ()
    before: Sequence[Window] = ()
    counted: bool = True
    overlaps: Sequence[Overlap] = ()


def words_of(word: str, numbers: Sequence[int]) -> str:
    """An answer without its lists, as the program says it."""
    return " ".join((word, *map(str, numbers)))


def spoken(answer: calls.Answer) -> str:
    return words_of(answer.word, answer.numbers)


def contradicts(how: str, what: str = "itself") -> Stop:
    return Stop(f"The program {name()} contradicts {what}: {how}. So nothing is told.", DISAGREE)


def windows_of(answer: calls.Answer) -> list[Window]:
    return list(zip(*answer.lists[:2]))


def submitted(reads: Reads) -> list[Window]:
    return list(zip(reads.earliest, reads.latest))


class Desk:
    """The calls on a list of reads. A log is lent as it is."""

    call = "narrow"

    def __init__(self, program: Program, reads: Reads, limits: Limits) -> None:
        self.program, self.reads, self.limits = program, reads, limits

    def judged(self, call: str, count: int, log: Sequence[int], lengths: Sequence[int]) -> calls.Answer:
        said = self.program.answer(calls.judging(call, self.reads.supply, self.reads.lists, count, log))
        return calls.understood(call, said, lengths)

    def check(self, count: int, log: Sequence[int]) -> calls.Answer:
        return self.judged("check", count, log, [len(self.reads.units)] * 2)

    def narrow(self) -> calls.Answer:
        """With room for as many records as there may be, or for as many as a line holds."""
        reads, words = self.reads, min(most_moves(self.reads), self.limits.records) * self.limits.record
        said = self.program.answer(calls.narrowing(reads.supply, reads.lists, words))
        return calls.understood("narrow", said, [len(reads.units)] * 2 + [words])

    def refused(self, call: str, answer: calls.Answer) -> Verdict:
        """Refusals of the list itself are the checker's too; beside them there is that of a log that is too short."""
        [number] = answer.numbers
        if number != 5 and number != refusal_of(self.reads, self.limits):
            raise contradicts(f"{call} says '{spoken(answer)}' of a list that gives no ground for it")
        if call == "narrow" and number != 5 and spoken(checked := self.check(0, [])) != spoken(answer):
            raise contradicts(f"narrow says '{spoken(answer)}', check '{spoken(checked)}'")
        if number == 5 and most_moves(self.reads) <= self.limits.records:
            raise contradicts(f"{call} says 'refused 5' where the log has room for every record that there can be")
        return Verdict("refused", answer.numbers, submitted(self.reads))

    def has_to_answer(self, said: str) -> None:
        if refused := refusal_of(self.reads, self.limits):
            raise contradicts(f"{said} of a list that has to be refused with {refused}")

    def agrees(self, told: str, checked: calls.Answer, word: str, numbers: Sequence[int], windows: Sequence[Window]) -> None:
        wanted = words_of(word, numbers)
        if spoken(checked) != wanted:
            raise contradicts(f"{told}, but check says '{spoken(checked)}' where it has to say '{wanted}'")
        if windows_of(checked) != list(windows):
            raise contradicts(f"{told}, but check leaves other windows")

    def narrowed(self) -> Verdict:
        answer = self.narrow()
        if answer.word == "refused":
            return self.refused("narrow", answer)
        count, told = answer.numbers[0], f"narrow says '{spoken(answer)}'"
        if count * self.limits.record > len(answer.lists[2]):
            raise contradicts(f"{told}, and the log has no room for that")
        log = answer.lists[2][: count * self.limits.record]
        windows = windows_of(answer)
        self.agrees(told, self.check(count, log), "holds" if answer.word == "settled" else "clash", answer.numbers, windows)
        if answer.word == "settled" and is_narrowable(self.reads, windows):
            raise contradicts(f"{told}, and more can be narrowed")
        return self.told(Verdict(answer.word, answer.numbers, windows, self.records(log, count), (), windows), log)

    def planned(self) -> Verdict:
        """Of a plan: every start is fixed."""
        return self.narrowed()

    def records(self, log: Sequence[int], count: int) -> list[Record]:
        """Of a log that the checker has taken, so that each names reads of the list."""
        records = records_of(log, count, self.limits)
        reads = range(len(self.reads.units))
        if not all(record.side < 2 and all(job in reads for job in (record.job, *record.members)) for record in records):
            raise contradicts("check takes a record that names what is not there")
        return records

    def told(self, verdict: Verdict, log: Sequence[int]) -> Verdict:
        """A clash is told by its marked reads and the records that it needs, which have to be a log by themselves; it leaves the windows as they were. Its read has
        no start left, and where there is no clash every read has one."""
        said, reached = f"it says '{words_of(verdict.word, verdict.numbers)}'", after(submitted(self.reads), verdict.records)
        self.has_to_answer(said)
        if list(verdict.windows) != (submitted(self.reads) if verdict.word == "clash" else reached):
            raise contradicts(f"{said} and leaves windows that the records do not")
        closed = without_start(self.reads, reached)
        if verdict.word != "clash":
            if closed:
                raise contradicts(f"{said} and leaves a read no start")
            return verdict
        count, job = verdict.numbers
        if not 0 <= job < len(self.reads.units) or (verdict.records and verdict.records[-1].job != job):
            raise contradicts("a clash is of another read than its last record")
        if job not in closed:
            raise contradicts(f"{said} and leaves the read a start")
        records, marked = needed(verdict.records) if verdict.records else ([], {job})
        answer = self.judged("conflict", count, log, [set_words(self.limits)])
        if answer.word != "marked" or set(jobs_of(answer.lists[0])) != marked or answer.numbers != [len(marked)]:
            raise contradicts(f"conflict says '{spoken(answer)}' where the log marks {len(marked)} reads")
        shorter = log_of(records, self.limits)
        windows = submitted(self.reads)
        self.agrees("the log needs fewer records", self.check(len(records), shorter), "clash", [len(records), job], windows)
        [before] = self.reached(records, [len(records) - 1]) if records else [windows]
        return verdict._replace(records=records, marked=sorted(marked), before=before)

    def reached(self, records: Sequence[Record], counts: Iterable[int]) -> Iterator[list[Window]]:
        """The windows that the checker reaches by the first so many records, for each such number; by none of them a window is closed."""
        counts = list(counts)
        reads, log, size = self.reads, log_of(records, self.limits), self.limits.record
        lines = (calls.judging("check", reads.supply, reads.lists, count, log[: count * size]) for count in counts)
        for said, count in zip(self.program.each(lines), counts):
            answer = calls.understood("check", said, [len(reads.units)] * 2)
            if spoken(answer) != f"holds {count}" or windows_of(answer) != after(submitted(reads), records[:count]):
                raise contradicts(f"check takes the log, but of its first {count} records says '{spoken(answer)}', or leaves windows that they do not")
            yield windows_of(answer)

    def checked(self, records: Sequence[Record]) -> Verdict:
        """A log by another hand."""
        log = log_of(records, self.limits)
        answer = self.check(len(records), log)
        windows = windows_of(answer)
        if answer.word == "refused":
            return self.refused("check", answer)
        if answer.word == "rejected" and answer.numbers[0] < len(records) and answer.numbers[1] in CODES and windows == submitted(self.reads):
            return Verdict(answer.word, answer.numbers, windows)
        if answer.word == "rejected" or answer.numbers[0] != len(records):
            raise contradicts(f"check says '{spoken(answer)}' of {len(records)} records")
        return self.told(Verdict(answer.word, answer.numbers, windows, self.records(log, len(records)), (), windows), log)
