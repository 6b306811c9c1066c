"""The table of reads: unit, submitted window, window now, length, draw and leeway, in columns that a terminal keeps straight."""

from __future__ import annotations

from collections.abc import Iterator, Sequence

from .letters import columns_of
from .reads import Reads
from .scene import Window

DRAWS = "draws"
NARROWED = ("unit", "submitted", "now", "lasts", DRAWS, "leeway")
PLANNED = ("unit", "submitted", "planned", "lasts", DRAWS)


def padded(text: str, wide: int, left: bool) -> str:
    blanks = " " * (wide - columns_of(text))
    return text + blanks if left else blanks + text


def rows(reads: Reads, windows: Sequence[Window] | None, marked: Sequence[int]) -> Iterator[tuple[str, ...]]:
    say, lasts = reads.times.say, reads.times.lasts
    for job, unit in enumerate(reads.units):
        start, end, length = reads.earliest[job], reads.latest[job], reads.lengths[job]
        now = leeway = "-"
        if windows is not None:
            first, last = windows[job]
            now = "=" if (first, last) == (start, end) else f"{say(first)}-{say(last)}"
            leeway = lasts(last - first - length)
        sign = "* " if job in marked else "  " if marked else ""
        yield sign + unit, f"{say(start)}-{say(end)}", now, lasts(length), reads.draws.say(reads.demands[job]), leeway


def table(reads: Reads, windows: Sequence[Window] | None, marked: Sequence[int], titles: tuple[str, ...] = NARROWED) -> list[str]:
    """Where there are no windows, as in a clash, none is shown, and for the read head no draw. Marked units have a sign before them."""
    shown = [place for place, name in enumerate(titles) if not (reads.head and name == DRAWS)]
    cells = [[row[place] for place in shown] for row in (titles, *rows(reads, windows, marked))]
    wides = [max(map(columns_of, column)) for column in zip(*cells)]
    return ["  ".join(padded(cell, wide, place == 0) for place, (cell, wide) in enumerate(zip(row, wides))).rstrip() for row in cells]
