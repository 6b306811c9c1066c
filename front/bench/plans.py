"""Starts that are given for reads: `--fix UNIT=TIME`, and a plan, which has a start for every read (a header with unit and start, then a row for each read)."""

from __future__ import annotations

from typing import NamedTuple

from ending import Stop

from .cells import Cell, Sheet, whole_sheet
from .columns import PLANNED
from .headers import header_of
from .notes import SAID, Units
from .places import Fault, stop, text_of
from .quantities import Times
from .reads import Reads, key, row_fault
from .sentences import Teller, quoted


class Plan(NamedTuple):
    """The start of each read, and what makes the plan bad before its draws are looked at."""

    starts: dict[int, int]
    bad: list[str]


def jobs_by_name(reads: Reads) -> dict[str, int]:
    return {key(unit): job for job, unit in enumerate(reads.units)}


def outside(reads: Reads, job: int, start: int) -> str | None:
    """What is said of a start that is not in the read's submitted window."""
    if reads.earliest[job] <= start and start + reads.lengths[job] <= reads.latest[job]:
        return None
    teller = Teller(reads)
    window = teller.window((reads.earliest[job], reads.latest[job])) + (f" by the horizon {reads.horizon}" if reads.horizon is not None else "")
    return f"{quoted(reads.units[job])} would be read from {teller.window((start, start + reads.lengths[job]))}, outside its submitted window {window}"


def fixed(words: list[str], reads: Reads) -> dict[int, int]:
    """The starts that `--fix` gives."""
    jobs, starts, wrong = jobs_by_name(reads), {}, []
    for word in words:
        unit, sign, time = word.rpartition("=")
        job, start = jobs.get(key(unit.strip())), reads.times.time(time.strip())
        if not sign:
            wrong.append(f"--fix {word}: it has to be UNIT=TIME")
        elif job is None:
            wrong.append(f"--fix {word}: the list has no unit {quoted(unit.strip())}")
        elif start is None:
            wrong.append(f"--fix {word}: '{time.strip()}' is not {reads.times.time_form}")
        elif job in starts:
            wrong.append(f"--fix {word}: {quoted(unit.strip())} is fixed twice")
        elif said := outside(reads, job, start):
            wrong.append(f"--fix {word}: {said}")
        else:
            starts[job] = start
    wrong += [f"--fix: {said}" for said in broken_pairs(reads, starts)]
    if wrong:
        raise Stop("\n".join(wrong))
    return starts


class PlanRows:
    """The rows of a plan, read one by one."""

    def __init__(self, sheet: Sheet, columns: list[str | None], reads: Reads) -> None:
        self.sheet, self.columns, self.reads = sheet, columns, reads
        self.jobs = jobs_by_name(reads)
        self.starts: dict[int, int] = {}
        self.faults: list[Fault] = []

    def wrong(self, cell: Cell, what: str) -> None:
        self.faults.append(self.sheet.text.fault(cell.at, what))

    def row(self, cells: list[Cell]) -> None:
        if fault := row_fault(cells, self.sheet.rows[0]):
            self.wrong(*fault)
            return
        found = dict(zip(self.columns, cells))
        if "unit" not in found or "start" not in found:
            return
        unit, time = found["unit"], found["start"]
        job, start = self.jobs.get(key(unit.text)), self.reads.times.time(time.text)
        if job is None:
            self.wrong(unit, f"the list has no unit {quoted(unit.text)}")
        elif job in self.starts:
            self.wrong(unit, f"{quoted(unit.text)} has a start already")
        if start is None:
            self.wrong(time, f"the start '{time.text}' is not {self.reads.times.time_form}")
        if job is not None:
            self.starts[job] = start or 0


def broken_pairs(reads: Reads, starts: dict[int, int]) -> list[str]:
    """Of a project: reads that start before one ends that comes first, where both have their start."""
    bad = []
    for first, then in reads.pairs:
        if first in starts and then in starts and starts[first] + reads.lengths[first] > starts[then]:
            early, end = reads.times.say(starts[then]), reads.times.say(starts[first] + reads.lengths[first])
            bad.append(f"{quoted(reads.units[then])} starts at {early}, before {quoted(reads.units[first])}, which comes first, ends at {end}")
    return bad


def time_faults(sheet: Sheet, times: Times) -> list[Fault]:
    """A plan may say in what its times are; they have to be the list's."""
    said = [(note, found) for note in sheet.notes if (found := SAID.match(note.text)) and found[1].lower() == "time"]
    other = [note for note, found in said if note.text[found.end() :].strip(" \t,;").lower() != times.form.lower()]
    return [sheet.text.fault(note.at, f"the list's times are {times.form}") for note in other]


def plan_of(file: str, reads: Reads) -> Plan:
    sheet = whole_sheet(file, text_of(file))
    header = header_of(sheet, Units(0, reads.times, reads.draws, [], True), PLANNED)
    rows = PlanRows(sheet, header.columns, reads)
    for cells in sheet.rows[1:] if header.columns else []:
        rows.row(cells)
    faults = [*sheet.faults, *header.faults, *rows.faults, *time_faults(sheet, reads.times)]
    if faults:
        stop(file, faults)
    starts = rows.starts
    missing = [job for job in range(len(reads.units)) if job not in starts]
    if missing:
        return Plan(starts, [f"it has no start for {Teller(reads).units(missing)}"])
    bad = [said for job, start in starts.items() if (said := outside(reads, job, start))]
    return Plan(starts, bad or broken_pairs(reads, starts))
