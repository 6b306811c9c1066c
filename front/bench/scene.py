"""What a picture shows: a row for each read, and the sure load of all of them over time against the supply."""

from __future__ import annotations

from collections.abc import Iterable
from itertools import combinations
from typing import NamedTuple

from .quantities import Draws, Times

# An earliest start and a latest end.
Window = tuple[int, int]

# From a time up to another, and what is drawn there in any case.
Stretch = tuple[int, int, int]

# From when until when two reads overlap, and their places.
Overlap = tuple[Window, int, int]


class Row(NamedTuple):
    """A read. On a clash the window now is the one before the record that closes a window, since behind it there is none."""

    unit: str
    submitted: Window
    now: Window
    length: int
    draw: int
    marked: bool


class Words(NamedTuple):
    """What is said of a row's window now, of its sure part, of marked units, of the supply where it is exceeded, of what is drawn in the sure parts, of the supply
    itself, and of a row's draw, nothing where it is not shown."""

    now: str
    sure: str
    marked: str
    over: str
    drawn: str
    supply: str = "supply"
    draws: str = "draws"


NARROWED = Words("narrowed window", "being read in any case", "cannot be read together", "supply overdrawn in any case", "drawn in any case")
PLANNED = Words("planned instant", "being read", "overdraw the supply together", "supply overdrawn", "drawn")

# For the read head, whose load is the number of reads at once. In a clash it leaves the submitted windows.
ALLOWED = "allowed"
HEAD_NARROWED = NARROWED._replace(
    marked="cannot be read in its window", over="more than one at once in any case", drawn="reads at once in any case", supply=ALLOWED, draws=""
)
HEAD_CLASH = HEAD_NARROWED._replace(now="window, not narrowed")
HEAD_PLANNED = Words("planned instant", "being read", "overlap", "more than one at once", "reads at once", ALLOWED, "")


class Scene(NamedTuple):
    """Marked are the units of a clash that cannot be read together, or those of a plan that overdraw the supply."""

    title: str
    times: Times
    draws: Draws
    supply: int
    rows: tuple[Row, ...]
    words: Words = NARROWED


def too_short(row: Row) -> bool:
    earliest, latest = row.now
    return earliest + row.length > latest


def sure(row: Row) -> Window | None:
    """From when until when the unit is being read in any case; none where there is no such time, or no room for the read."""
    earliest, latest = row.now
    start, end = latest - row.length, earliest + row.length
    return (start, end) if start < end <= latest else None


def load(rows: Iterable[Row]) -> list[Stretch]:
    """The sure load where there is any. Neighbours differ, or there is a gap between them."""
    changes: dict[int, int] = {}
    for row in rows:
        stretch = sure(row)
        if stretch and row.draw:
            start, end = stretch
            changes[start] = changes.get(start, 0) + row.draw
            changes[end] = changes.get(end, 0) - row.draw
    stretches: list[Stretch] = []
    start = drawn = 0
    for time in sorted(changes):
        if changes[time]:
            if drawn:
                stretches.append((start, time, drawn))
            start, drawn = time, drawn + changes[time]
    return stretches


def overdrawn(stretches: Iterable[Stretch], supply: int) -> list[Window]:
    """Where the load exceeds the supply; neighbours are joined."""
    joined: list[Window] = []
    for start, end, drawn in stretches:
        if drawn > supply:
            before = joined.pop() if joined and joined[-1][1] == start else (start, start)
            joined.append((before[0], end))
    return joined


def overlaps(rows: Iterable[Row]) -> list[Overlap]:
    """From when until when two reads are both being read in any case, and their places; the earliest first."""
    parts = [(place, stretch) for place, row in enumerate(rows) if (stretch := sure(row))]
    both = (((max(one[0], two[0]), min(one[1], two[1])), first, second) for (first, one), (second, two) in combinations(parts, 2))
    return sorted(overlap for overlap in both if overlap[0][0] < overlap[0][1])


def span(rows: Iterable[Row]) -> Window:
    """From the first bound up to the last, and one tick where that is none."""
    bounds = [bound for row in rows for bound in (*row.submitted, *row.now)] or [0]
    return min(bounds), max(max(bounds), min(bounds) + 1)
