"""Times and draws as a list has them: whole ticks and whole steps for the program, and the same in the list's own words for people.

Nothing is rounded. A word that is no whole number of ticks or steps is no time, no length and no draw; what is said of a number of ticks or steps is read back as
that number.
"""

from __future__ import annotations

import re
from typing import NamedTuple

CLOCK, MINUTES, TICKS = "HH:MM", "min", "ticks"
HOUR = 60

# A number of more digits is above every limit, and counts as this one.
DIGITS = 12
ABOVE_ALL = 10**DIGITS


class Times(NamedTuple):
    """Ticks are minutes of a clock, on which the hours go on behind 24:00, or they are whatever the list means by them."""

    clock: bool = False

    @property
    def form(self) -> str:
        return CLOCK if self.clock else TICKS

    def time(self, word: str) -> int | None:
        """The ticks of a time, none where the word is no time. A number of ticks begins with no other zero: 0800 is somebody's eight o'clock."""
        if not self.clock:
            return None if word.startswith("0") and word != "0" else whole(word)
        said = re.fullmatch(r"([0-9]+):([0-5][0-9])", word)
        return natural(said[1]) * HOUR + int(said[2]) if said else None

    def length(self, word: str, unit: str | None = None) -> int | None:
        """With a clock a length is written like a time or as a number of minutes; where its column says in what it is, like that alone."""
        if not self.clock:
            return self.time(word)
        if ":" in word:
            return None if unit == MINUTES else self.time(word)
        return None if unit == CLOCK else whole(word[: -len(MINUTES)].rstrip() if word.endswith(MINUTES) else word)

    def say(self, time: int) -> str:
        return f"{time // HOUR:02d}:{time % HOUR:02d}" if self.clock else str(time)

    def lasts(self, length: int) -> str:
        return f"{length} {MINUTES}" if self.clock else str(length)

    @property
    def time_form(self) -> str:
        return "a time HH:MM" if self.clock else "a whole number of ticks"

    def length_form(self, unit: str | None = None) -> str:
        forms = {CLOCK: "a length HH:MM", MINUTES: "a whole number of minutes"}
        return forms.get(unit, " or ".join(forms.values())) if self.clock else self.time_form


class Draws(NamedTuple):
    """A step is so many units of the last of so many decimals: 0.25 A is 25 of the second."""

    step: int = 1
    places: int = 0
    unit: str = ""

    def draw(self, word: str, comma: bool = False) -> int | None:
        """The steps of a draw, with its unit or without; none where the word is no draw or the step cannot hold it.

        No more decimals are taken than the step has: 1.000 may be a thousand where somebody else has written it. A decimal comma is taken where commas do not
        part cells.
        """
        number = word[: -len(self.unit)].rstrip() if self.unit and word.endswith(self.unit) else word
        said = re.fullmatch(r"([0-9]+)(?:[.,]([0-9]+))?" if comma else r"([0-9]+)(?:\.([0-9]+))?", number)
        decimals = (said[2] or "") if said else ""
        if not said or len(decimals) > self.places:
            return None
        if natural(said[1]) == ABOVE_ALL:
            return ABOVE_ALL
        scaled = natural(said[1]) * 10**self.places + int(decimals.ljust(self.places, "0") or "0")
        return None if scaled % self.step else scaled // self.step

    def say(self, steps: int) -> str:
        digits = str(steps * self.step).rjust(self.places + 1, "0")
        number = f"{digits[: -self.places]}.{digits[-self.places :]}" if self.places else digits
        return f"{number} {self.unit}" if self.unit else number

    @property
    def form(self) -> str:
        return f"a whole number of steps of {self.say(1)}" + ("" if self.unit else ", without a unit")


def natural(digits: str) -> int:
    significant = digits.lstrip("0")
    return int(significant or "0") if len(significant) <= DIGITS else ABOVE_ALL


def whole(word: str) -> int | None:
    return natural(word) if re.fullmatch("[0-9]+", word) else None


def step_of(word: str) -> Draws | None:
    """The step that is written so, as `0.1 A`; none where that is no step."""
    said = re.fullmatch(r"([0-9]{1,6})(?:\.([0-9]{1,6}))?(?:\s*([^\W\d_]{1,8}))?", word)
    if not said:
        return None
    decimals = said[2] or ""
    step = int(said[1] + decimals)
    return Draws(step, len(decimals), said[3] or "") if step else None
