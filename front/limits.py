"""The limits of the calls and of the program that is asked, taken from the Rattle sources by their names: they stand there once."""

from __future__ import annotations

import re
from pathlib import Path
from typing import NamedTuple

from ending import Stop

TOP = Path(__file__).resolve().parent.parent
NUMBER = re.compile(r"[0-9][0-9_]{0,20}")


class Limits(NamedTuple):
    # Of job lists and project texts.
    jobs: int
    resources: int
    time: int
    demand: int
    # Of a record: all its words, and those before the member set.
    record: int
    head: int
    # Of a line: the longest lists of jobs, of pairs and of log words, the longest text, the greatest number.
    line_jobs: int
    pairs: int
    log: int
    text: int
    number: int

    @property
    def records(self) -> int:
        """The most records of a log that stands in a line."""
        return self.log // self.record


def term(file: str, word: str) -> int:
    """A number, a constant of the same file, or one of another crate."""
    if "::" in word:
        crate, name = word.split("::", 1)
        return constant(f"{crate}/src/lib.rt", name)
    if word[:1].isalpha():
        return constant(file, word)
    if not NUMBER.fullmatch(word):
        raise Stop(f"A constant of crates/{file} is no sum of numbers.")
    return int(word.replace("_", ""))


def constant(file: str, name: str) -> int:
    """The constant of that name in crates/FILE: a sum of terms."""
    try:
        source = (TOP / "crates" / file).read_text("utf-8")
    except (OSError, ValueError):
        raise Stop(f"The limits cannot be read from crates/{file}.") from None
    said = re.search(rf"^(?:pub )?const {name}: [a-z0-9]+ = (.*);$", source, re.MULTILINE)
    if not said:
        raise Stop(f"There is no constant {name} in crates/{file}.")
    return sum(term(file, word.strip()) for word in said[1].split("+"))


def limits() -> Limits:
    return Limits(
        jobs=constant("screen/src/lib.rt", "MOST_JOBS"),
        resources=constant("screen/src/lib.rt", "MOST_RESOURCES"),
        time=constant("screen/src/lib.rt", "MOST_TIME"),
        demand=constant("screen/src/lib.rt", "MOST_DEMAND"),
        record=constant("logs/src/lib.rt", "RECORD"),
        head=constant("logs/src/lib.rt", "HEAD"),
        line_jobs=constant("requests/src/names.rt", "JOBS"),
        pairs=constant("requests/src/names.rt", "PAIRS"),
        log=constant("requests/src/names.rt", "LOG"),
        text=constant("requests/src/names.rt", "TEXT"),
        number=constant("intake/src/words.rt", "SHORT"),
    )
