"""A list of reads: what an operator submits, from a sheet of cells.

The windows of a list are those of its file, and nothing in this package writes another window into one.
"""

from __future__ import annotations

import re
import unicodedata
from collections.abc import Sequence
from typing import NamedTuple

from ending import Stop
from limits import Limits

from .cells import Cell, Sheet, whole_sheet
from .columns import COLUMN, COLUMNS, WITHOUT_DRAW
from .headers import Header, header_of
from .notes import Units, units_of
from .places import Fault, stop, text_of
from .quantities import Draws, Times

# The first word of a log file, and the most letters of a unit's name.
LOG = "tarqumbet-log"
LONGEST = 200


class Reads(NamedTuple):
    """Units, and of each its earliest start, latest end, length and draw, in ticks and steps; of a project pairs of a read and one that follows it, and its
    horizon; the columns of a list that are not used; whether they are for the read head, one at a time; and what is then not looked at, in words."""

    units: Sequence[str]
    earliest: Sequence[int]
    latest: Sequence[int]
    lengths: Sequence[int]
    demands: Sequence[int]
    supply: int
    times: Times
    draws: Draws
    pairs: Sequence[tuple[int, int]] = ()
    horizon: int | None = None
    unused: Sequence[str] = ()
    head: bool = False
    unseen: Sequence[str] = ()

    @property
    def lists(self) -> tuple[Sequence[int], ...]:
        """As the program takes them."""
        windows = self.earliest, self.latest, self.lengths
        return windows if self.head else (*windows, self.demands)

    def for_head(self, unseen: Sequence[str]) -> Reads:
        """The same reads, one at a time: each that lasts draws one of one, so that what is drawn is the number of reads at once."""
        return self._replace(demands=[min(1, length) for length in self.lengths], supply=1, draws=Draws(), head=True, unseen=unseen)

    def fixed(self, starts: dict[int, int]) -> Reads:
        """The same reads, some of them with their start for a window."""
        earliest = [starts.get(read, old) for read, old in enumerate(self.earliest)]
        latest = [starts[read] + self.lengths[read] if read in starts else old for read, old in enumerate(self.latest)]
        return self._replace(earliest=earliest, latest=latest)


def key(unit: str) -> str:
    """Names that look the same are the same."""
    return unicodedata.normalize("NFC", unit)


class Names:
    """The names of units, each with its line. They are written into tables, pictures and logs as they are, so each letter has to be one that shows."""

    def __init__(self) -> None:
        self.lines: dict[str, int] = {}

    def fault(self, unit: str, line: int) -> str | None:
        """What is wrong with the next name."""
        hidden = next((letter for letter in unit if not letter.isprintable()), None)
        if not unit or unit != unit.strip():
            return "a unit's name begins or ends with a blank" if unit.strip() else "a unit without a name"
        if hidden:
            return f"a unit's name has the letter U+{ord(hidden):04X}, which does not show"
        if len(unit) > LONGEST:
            return f"a unit's name has more than {LONGEST} letters"
        before = self.lines.setdefault(key(unit), line)
        return None if before == line else f"the unit '{unit}' is there already, in line {before}"


def row_fault(cells: list[Cell], header: list[Cell]) -> tuple[Cell, str] | None:
    """What is wrong with the cells of a row, before they are read. A cell that stands under no name is one too many: it may be what a decimal comma has parted."""
    if len(cells) < len(header):
        return cells[0], f"this row has {len(cells)} cells, the header {len(header)}"
    names = [*header, *[Cell(0, "")] * (len(cells) - len(header))]
    extra = next((cell for cell, name in zip(cells, names) if cell.text and not name.text), None)
    return None if extra is None else (extra, f"the cell '{extra.text}' stands under no name of the header")


class ReadRows:
    """The rows behind a header, read one by one."""

    def __init__(self, sheet: Sheet, header: Header, units: Units, limits: Limits) -> None:
        self.sheet, self.header, self.units, self.limits = sheet, header, units, limits
        self.faults: list[Fault] = []
        self.names = Names()
        self.found: dict[str, list] = {column: [] for column in COLUMNS}

    def wrong(self, cell: Cell, what: str) -> None:
        self.faults.append(self.sheet.text.fault(cell.at, what))

    def number(self, column: str, cell: Cell) -> int:
        """A time, a length or a draw; what is none is told."""
        times, draws = self.units.times, self.units.draws
        if not self.units.known:
            return 0
        if column == "draw":
            value, form = draws.draw(cell.text, not self.sheet.comma), draws.form
        elif column == "length":
            unit = self.header.units[column]
            value, form = times.length(cell.text, unit), times.length_form(unit)
        else:
            value, form = times.time(cell.text), times.time_form
        if value is None:
            self.wrong(cell, f"{COLUMNS[column]} '{cell.text}' is not {form}")
        elif value > self.limits.number:
            self.wrong(cell, f"{COLUMNS[column]} '{cell.text}' is above every limit")
        return value or 0

    def unit(self, cell: Cell) -> str:
        if what := self.names.fault(cell.text, self.sheet.text.place(cell.at)[0]):
            self.wrong(cell, what)
        return cell.text

    def row(self, cells: list[Cell]) -> None:
        if fault := row_fault(cells, self.sheet.rows[0]):
            self.wrong(*fault)
            return
        for column, cell, beside in zip(self.header.columns, cells, [*cells[1:], None]):
            if column is not None:
                self.found[column].append(self.unit(cell) if column == "unit" else self.number(column, cell))
            if column == "draw" and beside and self.may_be_parted(cell, beside):
                parted = f"'{cell.text}' and '{beside.text}' beside it may be {cell.text},{beside.text} with a decimal comma"
                self.wrong(cell, f"{parted}; write the draw with a dot, or put another column behind it")

    def may_be_parted(self, draw: Cell, beside: Cell) -> bool:
        """Whether a cell that is not used has what may be the decimals of the draw before it, however many the step has."""
        if not self.sheet.comma or not re.fullmatch("[0-9]+", draw.text) or not re.fullmatch("[0-9]+", beside.text):
            return False
        place = self.header.columns.index("draw") + 1
        return self.header.columns[place : place + 1] == [None]


def reads_of(file: str, limits: Limits, head: bool) -> Reads:
    """The list in a file. All that is wrong with it is told at once."""
    text = text_of(file)
    if text.letters.startswith(f"{LOG} "):
        raise Stop(f"{file} is a log and no list; ./bench --check {file} checks it.")
    sheet = whole_sheet(file, text)
    units = units_of(sheet, limits, head)
    header = header_of(sheet, units, WITHOUT_DRAW if head else COLUMN)
    rows = ReadRows(sheet, header, units, limits)
    for cells in sheet.rows[1:] if header.columns else []:
        rows.row(cells)
    faults = [*sheet.faults, *units.faults, *header.faults, *rows.faults]
    if faults:
        stop(file, faults)
    found = rows.found
    if len(found["unit"]) > limits.line_jobs:
        stop(file, [Fault(1, 1, f"there are {len(found['unit'])} reads; the program takes lists of up to {limits.line_jobs}")])
    reads = Reads(*(found[column] for column in COLUMNS), units.supply, units.times, units.draws, unused=header.unused)
    return reads.for_head([f"the line “# {name}”" for name in units.unused]) if head else reads
