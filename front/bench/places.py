"""What is wrong with a file, told as FILE:LINE:COLUMN: what. All that is wrong is told, in the order of the file."""

from __future__ import annotations

from bisect import bisect_right
from typing import NamedTuple, NoReturn

from ending import Stop, shown
from files import bytes_of

MARK = b"\xef\xbb\xbf"

# A list of reads, a plan or a log has fewer bytes; what has more is something else.
MOST_BYTES = 16 * 1024 * 1024

# The most letters of a sentence about a file.
LONGEST = 400


class Fault(NamedTuple):
    """Lines and columns count from 1, columns in letters."""

    line: int
    column: int
    what: str


def plain(text: str) -> str:
    """What somebody has written, on one line and not too long: the middle of a long text is left out."""
    text = shown(text).replace("\n", "\\n")
    return text if len(text) <= LONGEST else f"{text[: LONGEST // 2]} .. {text[-LONGEST // 2 :]}"


def stop(file: str, faults: list[Fault]) -> NoReturn:
    raise Stop("\n".join(f"{file}:{line}:{column}: {plain(what)}" for line, column, what in sorted(faults)))


class Text:
    """The letters of a file, with the place of each."""

    def __init__(self, letters: str) -> None:
        self.letters = letters
        self.starts = [0]
        while (end := letters.find("\n", self.starts[-1])) >= 0:
            self.starts.append(end + 1)

    def place(self, at: int) -> tuple[int, int]:
        line = bisect_right(self.starts, at)
        return line, at - self.starts[line - 1] + 1

    def fault(self, at: int, what: str) -> Fault:
        return Fault(*self.place(at), what)


def text_of(file: str) -> Text:
    """UTF-8, with a mark at its start or without."""
    found = bytes_of(file, MOST_BYTES, file)
    found = found[len(MARK) :] if found.startswith(MARK) else found
    try:
        return Text(found.decode("utf-8"))
    except UnicodeDecodeError as wrong:
        before = Text(found[: wrong.start].decode("utf-8"))
        stop(file, [before.fault(len(before.letters), f"the byte {found[wrong.start]:#04x} is no UTF-8; the file has to be saved as UTF-8")])
