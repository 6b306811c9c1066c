"""A text of comma-separated values (RFC 4180) taken apart into rows of cells, each with its place.

Lines end with a line feed, with a carriage return before it or without. Cells are parted by commas, or by semicolons where the first row has one outside quotes, or
as a first line `sep=;` says. A cell in quotes may hold separators, line ends and doubled quotes; blanks around a cell do not count. A line that begins with # is a
note, and so is a row of one cell that does, in quotes or not. Rows whose cells are all empty are left out.
"""

from __future__ import annotations

import re
from typing import NamedTuple

from .places import Fault, Text, stop

QUOTED = re.compile(r'[ \t]*"([^"]*(?:""[^"]*)*)"(?!")[ \t]*')
OPENED = re.compile(r'[ \t]*"')
NOTE = re.compile(r"[ \t]*#([^\n]*)")
SEPARATOR = re.compile(r"sep=[,;]\r?\n")
ALONE = re.compile(r"\r(?!\n)")
QUOTED_NOTE = re.compile(r'\s*"\s*#[^"]*(?:""[^"]*)*"\s*')
LINE = re.compile(r"[^\n]*")
END = re.compile(r"\r?\n")

# What is wrong with what stands behind a cell.
INSIDE, BEHIND = "a quote inside a cell without quotes", "this stands behind a closing quote"


class Cell(NamedTuple):
    at: int
    text: str


class Sheet(NamedTuple):
    """Notes are without their sign; `comma` says that commas part the cells."""

    text: Text
    notes: list[Cell]
    rows: list[list[Cell]]
    faults: list[Fault]
    comma: bool


def separator(letters: str) -> str:
    """By the first line that is neither a note nor empty, as `sep=;` is; a note in quotes tells it where separators stand behind it."""
    for line in letters.split("\n"):
        if line.strip() and not line.lstrip().startswith("#") and not QUOTED_NOTE.fullmatch(line):
            return ";" if ";" in re.sub(r'"[^"]*"?', "", line) else ","
    return ","


class Walk:
    """The walk through a text, a row at a time."""

    def __init__(self, text: Text) -> None:
        self.text = text
        self.letters = text.letters
        self.separator = separator(self.letters)
        self.plain = re.compile(rf'[^{self.separator}\r\n"]*')
        said = SEPARATOR.match(self.letters)
        self.at = said.end() if said else 0
        self.faults: list[Fault] = []

    def wrong(self, at: int, what: str) -> None:
        """The rest of the line is passed over."""
        self.faults.append(self.text.fault(at, what))
        self.at = LINE.match(self.letters, max(at, self.at)).end()

    def cell(self) -> Cell | None:
        """The next cell; none where it is faulty."""
        start = self.at
        if OPENED.match(self.letters, start):
            opening = self.letters.index('"', start)
            quoted = QUOTED.match(self.letters, start)
            if not quoted:
                self.wrong(opening, "this quote is never closed")
                self.at = len(self.letters)
                return None
            self.at = quoted.end()
            return Cell(opening, quoted[1].replace('""', '"').strip())
        found = self.plain.match(self.letters, start)[0]
        self.at = start + len(found)
        return Cell(start + len(found) - len(found.lstrip()), found.strip())

    def row(self) -> list[Cell]:
        """The cells up to the end of the row; nothing where one is faulty."""
        cells = []
        while (cell := self.cell()) is not None:
            cells.append(cell)
            if self.letters.startswith(self.separator, self.at):
                self.at += 1
                continue
            if self.at < len(self.letters) and not END.match(self.letters, self.at):
                self.wrong(self.at, INSIDE if self.letters[self.at] == '"' else BEHIND)
                break
            return cells
        return []

    def sheet(self) -> Sheet:
        notes, rows = [], []
        while self.at < len(self.letters):
            if note := NOTE.match(self.letters, self.at):
                notes.append(Cell(note.start(1), note[1].rstrip("\r")))
                self.at = note.end()
            else:
                row = self.row()
                first, *rest = row or [Cell(self.at, "")]
                if first.text.startswith("#") and not any(cell.text for cell in rest):
                    notes.append(Cell(first.at + 1, first.text[1:]))
                elif first.text or any(cell.text for cell in rest):
                    rows.append(row)
            end = END.match(self.letters, self.at)
            self.at = end.end() if end else self.at
        # Empty cells at the end of the header, which some rows of a spreadsheet have and others have not, name nothing.
        while rows and not rows[0][-1].text:
            rows[0].pop()
        return Sheet(self.text, notes, rows, self.faults, self.separator == ",")


def whole_sheet(file: str, text: Text) -> Sheet:
    """Where a carriage return stands alone, lines may be parted in another way than here, and nothing else is looked at."""
    if alone := ALONE.search(text.letters):
        stop(file, [text.fault(alone.start(), "a carriage return without a line feed; lines have to end with a line feed")])
    return Walk(text).sheet()
