"""Records of a log: one moved read each, with the reads that are being read in any case (docs/ANSWERS.md, 'A log')."""

from __future__ import annotations

from collections.abc import Iterator, Sequence
from typing import NamedTuple

from limits import Limits

# The bits of a word of a member set.
WORD = 32


class Record(NamedTuple):
    job: int
    side: int
    time: int
    members: tuple[int, ...]


class Run(NamedTuple):
    """Records that follow each other, of one read, one side and one member set: the first is record number `first` of the log."""

    first: int
    records: list[Record]


def jobs_of(words: Sequence[int]) -> tuple[int, ...]:
    """The jobs of a member set, rising."""
    return tuple(WORD * place + bit for place, word in enumerate(words) for bit in range(WORD) if word >> bit & 1)


def set_words(limits: Limits) -> int:
    return limits.record - limits.head


def record_of(words: Sequence[int], limits: Limits) -> Record:
    job, side, time = words[:3]
    return Record(job, side, time, jobs_of(words[limits.head :]))


def records_of(log: Sequence[int], count: int, limits: Limits) -> list[Record]:
    size = limits.record
    return [record_of(log[size * place : size * (place + 1)], limits) for place in range(count)]


def words_of(record: Record, limits: Limits) -> list[int]:
    """The words of a record. Its members fit into a member set."""
    members = [0] * set_words(limits)
    for job in record.members:
        members[job // WORD] |= 1 << job % WORD
    return [record.job, record.side, record.time, len(record.members), *members]


def log_of(records: Sequence[Record], limits: Limits) -> list[int]:
    return [word for record in records for word in words_of(record, limits)]


def runs(records: Sequence[Record]) -> Iterator[Run]:
    run: Run | None = None
    for place, record in enumerate(records):
        if run and run.records[-1]._replace(time=record.time) == record:
            run.records.append(record)
            continue
        if run:
            yield run
        run = Run(place, [record])
    if run:
        yield run


def needed(records: Sequence[Record]) -> tuple[list[Record], set[int]]:
    """Of a clash log, from its closing record back, the records whose moved read is marked, and the marked reads in the end (document 02, Item 14)."""
    marked = {records[-1].job}
    kept = []
    for record in reversed(records):
        if record.job in marked:
            marked.update(record.members)
            kept.append(record)
    return kept[::-1], marked
