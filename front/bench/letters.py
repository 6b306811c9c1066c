"""The picture of a list for a terminal: a row for each unit and one letter for so many ticks, below them what is drawn in any case against the supply.

A letter stands for all of its ticks, and says that something is so in part of them at least. Signs are ASCII; names are as they are, but for characters that
no terminal shows in a place of their own.
"""

from __future__ import annotations

from collections.abc import Callable, Iterator
from itertools import count
from typing import NamedTuple

from .drawing import is_wide, joins, shortened
from .grid import DAY, marks, time_step
from .quantities import HOUR, Times
from .scene import Row, Scene, Stretch, Window, load, span, sure, too_short

LEAST_COLUMNS = 40
CUT = ".."

# Rows of the chart of the load, up to the supply.
LEVELS = 5
MORE = "more"

# Ticks of a letter: these and their tenfolds, or with a clock what divides an hour or a day, and whole days. Each divides a step of the time scale.
ONES = (1, 2, 4, 5, 8)
CLOCK_ONES = (1, 2, 3, 4, 5, 6, 10, 12, 15, 20, 30, *(hours * HOUR for hours in (1, 2, 3, 4, 6, 8, 12)))


class Page(NamedTuple):
    """The names have so many columns, the letters so many; the first letter begins at a time, and each covers so many ticks."""

    names: int
    letters: int
    first: int
    ticks: int

    def drawn(self, sign: Callable[[int, int], str]) -> str:
        """A letter for each stretch of ticks, from its start up to its end."""
        starts = range(self.first, self.first + self.letters * self.ticks, self.ticks)
        return "".join(sign(start, start + self.ticks) for start in starts)


def places(character: str) -> int:
    return 0 if joins(character) else 2 if is_wide(character) else 1


def columns_of(words: str) -> int:
    return sum(map(places, words))


def fitted(words: str, columns: int, right: bool = False) -> str:
    """The words in just so many columns, cut where they are longer."""
    shown = shortened("".join(character if character.isprintable() else "?" for character in words), columns, places, CUT)
    blank = " " * (columns - columns_of(shown))
    return blank + shown if right else shown + blank


def tick_counts(times: Times) -> Iterator[int]:
    if times.clock:
        yield from CLOCK_ONES
    unit = DAY if times.clock else 1
    for power in count():
        yield from (one * 10**power * unit for one in ONES)


def paged(scene: Scene, columns: int) -> Page:
    """As few ticks for a letter as there is room for. Letters begin at multiples of their ticks."""
    said = [MORE, *(row.unit for row in scene.rows), *map(scene.draws.say, levels(scene.supply))]
    names = min(columns // 3, max(map(columns_of, said)))
    room = columns - names - len("*  ||")
    first, last = span(scene.rows)
    begins = ((ticks, first // ticks * ticks) for ticks in tick_counts(scene.times))
    pages = (Page(names, -(-(last - begin) // ticks), begin, ticks) for ticks, begin in begins)
    return next(page for page in pages if page.letters <= room)


def meets(window: Window | None, start: int, end: int) -> bool:
    return window is not None and window[0] < end and start < window[1]


def sign_of(row: Row, page: Page) -> Callable[[int, int], str]:
    """What a row shows from a time up to another. An instant stands in the letter that begins with it, and at the end of all in the last."""
    low, high = min(row.now), max(row.now)
    instant = min(low, page.first + page.letters * page.ticks - 1) if low == high else None
    narrowed = "x" if too_short(row) else "="
    stretch = sure(row)

    def sign(start: int, end: int) -> str:
        if meets(stretch, start, end):
            return "#"
        if instant is not None and start <= instant < end:
            return "x" if too_short(row) else "+"
        if meets((low, high), start, end):
            return narrowed
        return "." if meets(row.submitted, start, end) else " "

    return sign


def levels(supply: int) -> list[int]:
    """Whole steps, the supply the last of them."""
    return sorted({-(-supply * part // LEVELS) for part in range(1, LEVELS + 1)} - {0})


def peaks(stretches: list[Stretch], page: Page) -> list[int]:
    """For each letter the greatest load in any of its ticks."""
    greatest = [0] * page.letters
    for start, end, drawn in stretches:
        for letter in range((start - page.first) // page.ticks, -(-(end - page.first) // page.ticks)):
            greatest[letter] = max(greatest[letter], drawn)
    return greatest


def load_rows(scene: Scene, page: Page) -> list[tuple[str, str]]:
    """Each with its name, the greatest draw first."""
    greatest = peaks(load(scene.rows), page)
    rows = []
    below = 0
    for level in levels(scene.supply):
        rows.append((scene.draws.say(level), "".join("#" if drawn >= level else ":" if drawn > below else " " for drawn in greatest)))
        below = level
    if max(greatest) > scene.supply:
        rows.append((MORE, "".join("!" if drawn > scene.supply else " " for drawn in greatest)))
    return rows[::-1]


def scale_rows(scene: Scene, page: Page, columns: int) -> tuple[str, str]:
    """Marks at letters that begin with the time that stands below."""
    last = page.first + page.letters * page.ticks
    step = time_step(scene.times, page.ticks * (len(scene.times.say(last)) + 1))
    while step % page.ticks:
        step = time_step(scene.times, step + 1)
    line, words = list("-" * page.letters), ""
    for time in (page.first, *marks(page.first + 1, last - 1, step)):
        letter, said = (time - page.first) // page.ticks, scene.times.say(time)
        if letter >= len(words) + bool(words) and page.names + 3 + letter + len(said) <= columns:
            line[letter] = "+"
            words = words.ljust(letter) + said
    return "".join(line), words


def legend(scene: Scene, page: Page, signs: set[str]) -> list[str]:
    """What a letter is, and the signs that are there."""
    ticks = scene.times.lasts(page.ticks) + ("" if scene.times.clock else " tick" if page.ticks == 1 else " ticks")
    known = (
        (".", "submitted"),
        ("=", scene.words.now),
        ("#", scene.words.sure),
        (":", "less than so much"),
        ("!", scene.words.over),
        ("+", "window of one instant"),
        ("x", "window too short"),
        ("*", scene.words.marked),
    )
    partly = [] if page.ticks == 1 else ["a sign: in part of it at least"]
    return [f"one letter: {ticks}", *partly, *(f"{sign} {words}" for sign, words in known if sign in signs)]


def flowed(items: list[str], columns: int) -> list[str]:
    """Whole items in as few lines as they need."""
    lines = items[:1]
    for item in items[1:]:
        longer = f"{lines[-1]}   {item}"
        lines[-1:] = [longer] if len(longer) <= columns else [lines[-1], item]
    return lines


def letters(scene: Scene, columns: int) -> list[str]:
    """The lines, none of them wider than so many columns, which are at least 40."""
    columns = max(columns, LEAST_COLUMNS)
    heading = fitted(f"{scene.words.drawn}, {scene.words.supply} {scene.draws.say(scene.supply)}", columns - 2).rstrip()
    if not scene.rows:
        return ["  no reads", f"  {heading}"]
    page = paged(scene, columns)
    reads = [("*" if row.marked else " ", row.unit, page.drawn(sign_of(row, page))) for row in scene.rows]
    loads = load_rows(scene, page)
    line, words = scale_rows(scene, page, columns)
    signs = {sign for mark, _, drawn in reads for sign in mark + drawn} | {sign for _, drawn in loads for sign in drawn}
    blank = " " * (page.names + 3)
    return [
        *(f"{mark} {fitted(name, page.names)} |{drawn}|" for mark, name, drawn in reads),
        f"  {heading}",
        *(f"  {fitted(name, page.names, True)} |{drawn}|" for name, drawn in loads),
        f"{blank}{line}",
        f"{blank}{words}",
        *flowed(legend(scene, page, signs), columns),
    ]
