"""Plain counts of the command's own, held against what the program says: none of them is told, but where one differs nothing is told at all.

The rules are those of docs/ANSWERS.md, 'A job list'.
"""

from __future__ import annotations

from collections.abc import Sequence

from limits import Limits

from .reads import Reads
from .records import Record
from .scene import Row, Window, load, sure, too_short


def refusal_of(reads: Reads, limits: Limits) -> int | None:
    """The refusal of a list that narrowing, the checker and the read head's call give; its lists have one length."""
    if len(reads.units) > limits.jobs:
        return 2
    times, draws = [*reads.earliest, *reads.latest, *reads.lengths], [*reads.demands, reads.supply]
    return 3 if max(times, default=0) > limits.time or max(draws) > limits.demand else None


def most_moves(reads: Reads) -> int:
    """So many bounds can be moved at most, each by a tick or more (docs/ANSWERS.md, refusal 5)."""
    return 1 + sum(max(0, end - start - length) for start, end, length in zip(reads.earliest, reads.latest, reads.lengths))


def after(windows: Sequence[Window], records: Sequence[Record]) -> list[Window]:
    """The windows after the changes of some records."""
    now = [list(window) for window in windows]
    for record in records:
        now[record.job][record.side] = record.time + 1 if record.side == 0 else record.time
    return [(start, end) for start, end in now]


def rows_of(reads: Reads, windows: Sequence[Window]) -> list[Row]:
    return [Row("", window, window, length, draw, False) for window, length, draw in zip(windows, reads.lengths, reads.demands)]


def without_start(reads: Reads, windows: Sequence[Window]) -> list[int]:
    """The reads whose window leaves them no start."""
    return [job for job, row in enumerate(rows_of(reads, windows)) if too_short(row)]


def is_narrowable(reads: Reads, windows: Sequence[Window]) -> bool:
    """Whether a time is crowded for a read at which one of the two rules moves a bound of its window."""
    rows = rows_of(reads, windows)
    stretches = load(rows)
    for row in rows:
        (start, end), length, draw = row.now, row.length, row.draw
        if not length or not draw:
            continue
        if draw > reads.supply:
            return True
        own = sure(row) or (0, 0)
        for begin, until, drawn in stretches:
            for first, last in ((start, start + length), (end - length, end)):
                low, high = max(begin, first), min(until, last)
                others = drawn - draw if own[0] <= low and high <= own[1] else drawn
                if low < high and others + draw > reads.supply:
                    return True
    return False
