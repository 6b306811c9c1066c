"""How a command ends: its lines on standard output with the status that it gives, or where it stops the reason on standard error, with status 2 or another.

Nothing is written before all is known, so that a command that could not ask its questions leaves standard output empty.
"""

from __future__ import annotations

import os
import signal
import sys
import traceback
from collections.abc import Callable

GOOD, REFUSED, STOPPED = 0, 1, 2


class Stop(Exception):
    """What is said where a command stops, mostly one sentence, and the status that it ends with."""

    def __init__(self, text: str, status: int = STOPPED) -> None:
        super().__init__(text)
        self.status = status


def write(place: int, text: str) -> None:
    """The whole text into an open file, bytes of a file name that are no UTF-8 as their numbers. Python's own streams are left out: they complain once more
    when the program ends.
    """
    rest = memoryview(text.encode("utf-8", "backslashreplace"))
    while rest:
        rest = rest[os.write(place, rest) :]


def tell(text: str) -> None:
    """On standard error, where that can be written."""
    try:
        write(2, text)
    except OSError:
        pass


def shown(text: str) -> str:
    """Letters that do not show, such as those that steer a terminal, as their numbers."""
    return "".join(letter if letter.isprintable() or letter == "\n" else letter.encode("unicode_escape").decode("ascii") for letter in text)


def complain(sentence: str) -> None:
    tell(shown(sentence) + "\n")


def put(lines: list[str]) -> bool:
    """Whether the lines could be written. A reader that has gone away, such as head, needs no sentence."""
    try:
        write(1, shown("".join(line + "\n" for line in lines)))
        return True
    except BrokenPipeError:
        return False
    except OSError:
        complain("The output cannot be written.")
        return False


def run(command: Callable[[list[str]], tuple[list[str], int]]) -> None:
    """Ends the program with what the command makes of its arguments."""
    if signal.getsignal(signal.SIGINT) is signal.default_int_handler:
        signal.signal(signal.SIGINT, signal.SIG_DFL)
    try:
        lines, status = command(sys.argv[1:])
    except Stop as stop:
        complain(str(stop))
        sys.exit(stop.status)
    except Exception as wrong:
        place = traceback.extract_tb(wrong.__traceback__)[-1]
        what = ", ".join(filter(None, (type(wrong).__name__, " ".join(str(wrong).split()))))
        complain(f"The command itself has a fault, at line {place.lineno} of {os.path.basename(place.filename)}: {what}.")
        sys.exit(STOPPED)
    sys.exit(status if put(lines) else STOPPED)
