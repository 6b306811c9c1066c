"""The lines of a list that say in what its numbers are: `# supply: 5.0 A`, `# time: HH:MM` or `# time: ticks`, `# step: 0.1 A`.

They may stand anywhere, each once. Without a line for the time there are ticks; without one for the step, whole numbers of the supply's unit. Any other line that
begins with # is a remark, unless it looks like a read: a read that is left out unseen would be the worst of errors.
"""

from __future__ import annotations

import re
from collections.abc import Sequence
from itertools import takewhile
from typing import NamedTuple

from limits import Limits

from .cells import Cell, Sheet
from .columns import COLUMNS
from .places import Fault
from .quantities import CLOCK, TICKS, Draws, Times, step_of

SAID = re.compile(r"[ \t]*(supply|time|step)[ \t]*:[ \t]*", re.IGNORECASE)

# A note is like a read where it has as many cells as a list has columns, or some of them and among these two numbers.
SOME_CELLS, NUMBERS = 3, 2


class Units(NamedTuple):
    """Where the time or the step is not known, what stands in the rows cannot be judged. Lines that are not used are named."""

    supply: int
    times: Times
    draws: Draws
    faults: list[Fault]
    known: bool
    unused: Sequence[str] = ()


def is_like_a_read(parts: list[str]) -> bool:
    filled = [part.strip() for part in parts if part.strip()]
    return len(filled) >= len(COLUMNS) or (len(filled) >= SOME_CELLS and sum(part[0].isdigit() for part in filled[1:]) >= NUMBERS)


class Notes:
    """The notes of a sheet, taken one by one."""

    def __init__(self, sheet: Sheet, limits: Limits) -> None:
        self.sheet, self.limits = sheet, limits
        self.faults: list[Fault] = []
        self.said: dict[str, Cell] = {}

    def wrong(self, cell: Cell, what: str) -> None:
        self.faults.append(self.sheet.text.fault(cell.at, what))

    def take(self, note: Cell) -> None:
        mark = "," if self.sheet.comma else ";"
        text = note.text.rstrip(mark + " \t")
        said = SAID.match(text)
        if not said:
            if is_like_a_read(text.split(mark)):
                self.wrong(note, "this looks like a read, but behind # it is a remark: take the line out, or put the unit's name in quotes")
            return
        value = text[said.end() :].lstrip(mark + " \t")
        name, cell = said[1].lower(), Cell(note.at + len(text) - len(value), value)
        if name in self.said:
            self.wrong(cell, f"a second line '# {name}:'")
        self.said.setdefault(name, cell)

    def times(self) -> Times | None:
        cell = self.said.get("time")
        form = cell.text.lower() if cell else TICKS
        if form not in (CLOCK.lower(), TICKS):
            self.wrong(cell, f"the time '{cell.text}' is neither {CLOCK} nor {TICKS}")
            return None
        return Times(form != TICKS)

    def draws(self) -> Draws | None:
        cell, supply = self.said.get("step"), self.said.get("supply")
        if cell is None:
            letters = takewhile(str.isalpha, reversed(supply.text)) if supply else ()
            return Draws(unit="".join(letters)[::-1])
        step = step_of(cell.text if self.sheet.comma else cell.text.replace(",", "."))
        if step is None:
            self.wrong(cell, f"the step '{cell.text}' is no step such as 1, 0.1 A or 0.25 A")
        return step

    def supply(self, draws: Draws) -> int:
        cell = self.said.get("supply")
        if cell is None:
            self.faults.append(Fault(1, 1, "there is no line '# supply: ..'"))
            return 0
        value = draws.draw(cell.text, not self.sheet.comma)
        if value is None:
            self.wrong(cell, f"the supply '{cell.text}' is not {draws.form}")
        elif value > self.limits.number:
            self.wrong(cell, f"the supply '{cell.text}' is above every limit")
        return value or 0


def units_of(sheet: Sheet, limits: Limits, head: bool) -> Units:
    """For the read head neither supply nor step is needed or looked at."""
    notes = Notes(sheet, limits)
    for note in sheet.notes:
        notes.take(note)
    times = notes.times()
    if head:
        return Units(0, times or Times(), Draws(), notes.faults, times is not None, [name for name in ("supply", "step") if name in notes.said])
    draws = notes.draws()
    supply = 0 if draws is None else notes.supply(draws)
    return Units(supply, times or Times(), draws or Draws(), notes.faults, None not in (times, draws))
