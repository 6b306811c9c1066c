"""Where things stand in a picture: the room of its columns, rows and charts, and the places of names."""

from __future__ import annotations

from collections.abc import Iterable
from typing import NamedTuple

from .drawing import width
from .scene import Scene, Window, span

WIDTH, MARGIN = 1200, 16
TITLE_SIZE, SIZE, SMALL = 16, 12, 11

# Between the ends of the time scale and the frame around it, so that what stands at its ends is seen whole.
INSET = 16

# Between columns, and between the words of a scale.
GAP, LABEL_GAP = 12, 20

# The least width of a bar that has a frame.
FRAMED = 4

# A row is as high as all rows together leave it. Names stand where their letters have room.
ROW, ALL_ROWS, THIN_ROW = 22, 3072, 3
NAME_ROW = 11.5

LOAD, ABOVE_LOAD, BELOW_LOAD = 140, 52, 36


class Ground(NamedTuple):
    """The frame stands from left to right; the rows from top to bottom. The load stands below, up to its own top for the peak."""

    times: Window
    left: float
    right: float
    lasts: float
    draws: float
    top: float
    row: float
    bottom: float
    peak: int

    @property
    def thin(self) -> bool:
        return self.row < NAME_ROW

    @property
    def name_size(self) -> float:
        return min(SIZE, max(self.row - 1.5, 10))

    @property
    def load_top(self) -> float:
        return self.bottom + ABOVE_LOAD

    @property
    def base(self) -> float:
        return self.load_top + LOAD

    @property
    def height(self) -> float:
        return self.base + BELOW_LOAD

    @property
    def tick(self) -> float:
        first, last = self.times
        return (self.right - self.left - 2 * INSET) / (last - first)

    def x(self, time: int) -> float:
        """As it is written, so that there is no gap between neighbours."""
        return round(self.left + INSET + (time - self.times[0]) * self.tick, 1)

    def bar(self, start: int, end: int, least: float) -> tuple[float, float]:
        """Where a bar begins and how wide it is; what is shorter is drawn as wide as the least width, around its middle."""
        begin = self.x(start)
        wide = self.x(end) - begin
        return (begin, wide) if wide >= least else (begin + (wide - least) / 2, least)

    def middle(self, index: int) -> float:
        return self.top + (index + 0.5) * self.row

    def level(self, drawn: int) -> float:
        return self.base - drawn * (LOAD - 8) / self.peak


def column(widths: Iterable[float], least: float, most: float) -> float:
    return min(most, max([least, *widths]))


def ground_of(scene: Scene, peak: int, top: float) -> Ground:
    """The names take no more than a quarter of the width."""
    rows, say = scene.rows, scene.draws.say
    row = max(THIN_ROW, min(ROW, ALL_ROWS / max(1, len(rows))))
    named = [shown for shown in rows if shown.marked or row >= NAME_ROW]
    left = column([width(say(peak), SMALL), *(width(shown.unit, SIZE, shown.marked) for shown in named)], 70, 280)
    lasts = column((width(scene.times.lasts(shown.length), SIZE) for shown in named), 40, 110)
    draws = column([width(say(scene.supply), SIZE, True) - lasts, *(width(say(shown.draw), SIZE) for shown in named)], 44, 120)
    draws_end = WIDTH - MARGIN
    lasts_end = draws_end - draws - GAP
    bottom = top + max(ROW, len(rows) * row)
    return Ground(span(rows), MARGIN + left + GAP, lasts_end - lasts - GAP, lasts_end, draws_end, top, row, bottom, max(1, peak))


def name_places(scene: Scene, ground: Ground) -> dict[int, float]:
    """The middle of each name that is shown, by the index of its row. In thin rows these are marked ones, as many as there is room for, moved apart."""
    if not ground.thin:
        return {index: ground.middle(index) for index in range(len(scene.rows))}
    high = ground.name_size + 2
    marked = [index for index, row in enumerate(scene.rows) if row.marked]
    shown = marked[:: max(1, -(-len(marked) // int((ground.bottom - ground.top) / high)))]
    places: list[float] = []
    for index in shown:
        places.append(max([ground.middle(index), *(place + high for place in places[-1:])]))
    for after, place in enumerate(reversed(places)):
        places[-1 - after] = min(place, ground.bottom - (after + 0.5) * high)
    return dict(zip(shown, places))
