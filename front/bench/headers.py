"""The header of a list: which column is which, by the names that people give them, in any order.

A name may have its unit behind it, as `draw (A)`; that has to be the one in which the column is read. Columns of other names are not used, and that is said.
"""

from __future__ import annotations

from typing import NamedTuple

from .cells import Cell, Sheet
from .columns import COLUMN
from .notes import Units
from .places import Fault
from .quantities import CLOCK, MINUTES, TICKS

# Units stand in round brackets or in square ones.
ROUND = str.maketrans("[]", "()")


class Header(NamedTuple):
    """The column at each place, none where it is not used, and the unit behind its name; the names of those that are not used."""

    columns: list[str | None]
    units: dict[str, str | None]
    unused: list[str]
    faults: list[Fault]


def taken_apart(cell: Cell, columns: dict[str, str]) -> tuple[str | None, str | None]:
    """The column of that name and the unit behind it. Small and capital letters count the same, but not in units of draws, where mA is not MA."""
    name, bracket, behind = cell.text.translate(ROUND).partition("(")
    if bracket and not behind.endswith(")"):
        return None, None
    column, unit = columns.get(" ".join(name.lower().split())), behind[:-1].strip() if bracket else None
    named = {known.lower(): known for known in (CLOCK, MINUTES, TICKS)} if unit and column != "draw" else {}
    return column, named.get((unit or "").lower(), unit)


def units_known(column: str, units: Units) -> tuple[str, ...]:
    """In what a column is read; nothing where that is not told, as what a tick is."""
    if column == "draw":
        return (units.draws.unit,)
    if not units.times.clock:
        return ()
    return (CLOCK, MINUTES) if column == "length" else (CLOCK,)


def unit_faults(sheet: Sheet, found: dict[str, tuple[Cell, str | None]], units: Units) -> list[Fault]:
    """Units behind names that are not those of the list; where ticks have no name, different ones."""
    faults, tick = [], None
    for column, (cell, unit) in found.items():
        known = units_known(column, units)
        if unit is None or column == "unit":
            continue
        if column != "draw" and not known and unit != TICKS:
            tick = tick or unit
            known = (tick,)
        if known and unit not in known:
            faults.append(sheet.text.fault(cell.at, f"the column '{cell.text}' is read in {known[0] or 'steps without a unit'}"))
    return faults


def header_of(sheet: Sheet, units: Units, columns: dict[str, str] = COLUMN) -> Header:
    """The first row. Where one before it could not be taken apart, that may have been the header, and nothing is said of another."""
    wanted = list(dict.fromkeys(columns.values()))
    before = sheet.text.place(sheet.rows[0][0].at) if sheet.rows else (0, 0)
    if any((fault.line, fault.column) < before or not sheet.rows for fault in sheet.faults):
        return Header([], {}, [], [])
    if not sheet.rows:
        return Header([], {}, [], [Fault(1, 1, f"there is no header with {', '.join(wanted)}")])
    places: list[str | None] = []
    unused, faults, found = [], [], {}
    for cell in sheet.rows[0]:
        column, unit = taken_apart(cell, columns)
        if column in found:
            faults.append(sheet.text.fault(cell.at, f"the column '{cell.text}' is {column}, which '{found[column][0].text}' is already"))
        places.append(column)
        if column is None:
            unused += [cell.text] if cell.text else []
        else:
            found.setdefault(column, (cell, unit))
    missing = [column for column in wanted if column not in found]
    if missing:
        tabs = "; tabs part no cells here, but commas or semicolons" if any("\t" in cell.text for cell in sheet.rows[0]) else ""
        faults.append(sheet.text.fault(sheet.rows[0][0].at, f"the header has no column {', '.join(missing)}{tabs}"))
    return Header(places, {column: unit for column, (_, unit) in found.items()}, unused, faults + unit_faults(sheet, found, units))
