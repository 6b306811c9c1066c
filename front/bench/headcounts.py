"""Plain counts for one read at a time, as front/bench/counts.py has them for draws. There is no log of it that a checker could take, so the whole answer is counted
here too, where that does not take too long; what can be said of any answer is looked at always.

The rule is document 02's, Item 2: where a read cannot be through by the time at which another one has to start, the other one comes first; and a read starts no
earlier than any set of those that come first can be through, counted from the least of their earliest starts. Latest ends go by the same rule with time turned
around. The order of work is document 01's.
"""

from __future__ import annotations

from collections.abc import Sequence

from .counts import most_moves, without_start
from .reads import Reads
from .scene import Window

# So often the rule is looked at, for one side of one read: for the longest lists, some hundred rounds.
LOOKS = 50_000

Answer = tuple[str, list[int], list[Window]]


def least_start(job: int, windows: Sequence[Window], lengths: Sequence[int]) -> int:
    start = windows[job][0]
    through = start + lengths[job]
    first = [(begin, length) for other, ((begin, end), length) in enumerate(zip(windows, lengths)) if length and other != job and end - length < through]
    total = 0
    for begin, length in sorted(first, reverse=True):
        total += length
        start = max(start, begin + total)
    return start


def bound(job: int, side: int, windows: Sequence[Window], lengths: Sequence[int]) -> int:
    """The earliest start or the latest end that the rule leaves a read. One that lasts 0 is not moved."""
    if not lengths[job]:
        return windows[job][side]
    return -least_start(job, [(-end, -start) for start, end in windows], lengths) if side else least_start(job, windows, lengths)


def narrowest(windows: Sequence[Window], lengths: Sequence[int]) -> list[int]:
    """The reads, those with the least leeway first."""
    return sorted(range(len(windows)), key=lambda job: windows[job][1] - windows[job][0] - lengths[job])


def counted(reads: Reads, asked: Sequence[Window], by_leeway: bool = False) -> Answer | None:
    """The whole answer from these windows, in none of which a read has no room; nothing where it takes too long. By leeway the reads of each round are taken in
    another order, mostly with fewer looks. Where windows are narrower the rule leaves no more, so the word and the windows are the same in any order; the moves
    are not, nor is the read that a clash names."""
    now, lengths, count, looks, still = list(asked), reads.lengths, 0, LOOKS, False
    while not still:
        still = True
        for job in narrowest(now, lengths) if by_leeway else range(len(now)):
            for side in (0, 1):
                while (new := bound(job, side, now, lengths)) != now[job][side]:
                    start, end = now[job]
                    now[job] = (start, new) if side else (new, end)
                    count, looks, still = count + 1, looks - 1, False
                    if now[job][0] + lengths[job] > now[job][1]:
                        return "clash", [count, job], list(asked)
            looks -= 2
            if looks <= 0:
                return None
    return "settled", [count], now


def settled_fault(reads: Reads, asked: Sequence[Window], windows: Sequence[Window], count: int) -> str | None:
    """Why so many moves cannot have left these windows, with nothing more to move. Each goes a tick at least."""
    ticks = [gone for (start, end), (first, last) in zip(windows, asked) for gone in (start - first, last - end)]
    if min(ticks, default=0) < 0:
        return "leaves a window that goes beyond the submitted one"
    if without_start(reads, windows):
        return "leaves a read no start"
    if any(now != then for now, then, length in zip(windows, asked, reads.lengths) if not length):
        return "moves a read that lasts 0"
    if any(bound(job, side, windows, reads.lengths) != windows[job][side] for job in range(len(windows)) for side in (0, 1)):
        return "more can be narrowed"
    if not sum(map(bool, ticks)) <= count <= sum(ticks):
        return "leaves windows that so many moves do not"
    return None


def clash_fault(reads: Reads, asked: Sequence[Window], windows: Sequence[Window], count: int, job: int) -> str | None:
    """Why so many moves cannot have closed the window of that read."""
    if list(windows) != list(asked):
        return "leaves other windows than those that it was given"
    if short := without_start(reads, asked):
        return None if (count, job) == (0, short[0]) else "another window is too short before any move"
    if job >= len(reads.units) or not reads.lengths[job]:
        return "names a read that no move can close"
    if not 1 <= count <= most_moves(reads):
        return "names a number of moves that cannot be"
    return None
