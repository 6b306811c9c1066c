"""Lists of reads drawn for the tests of ./bench, each with its numbers and written in a drawn form; starts that are fixed; and logs that the command writes
of them.
"""

from __future__ import annotations

import random
from collections.abc import Sequence
from typing import NamedTuple

from benching import bench, check, replay, run

NAMES = ("Bosch Motronic ML4.1, 1987", 'VDO "tempo"', "Zündgerät", "a;b", "#12", "x=y", "Steuergera\u0308t", "\u6f22\u5b57", " blank ", "“quoted”", "it's, \"both\"; so", "-1", "08:00", "W" * 60)
STEPS = ((1, 0, ""), (1, 1, "A"), (25, 2, "A"), (5, 0, "mA"))
COLUMNS = ("unit", "earliest", "latest", "length", "draw")
OTHERS = {"unit": "Read", "earliest": "not before", "latest": "LCT", "length": "lasts", "draw": "demand"}


class List(NamedTuple):
    """The numbers in ticks and steps, and how they are written."""

    names: list[str]
    lists: tuple[list[int], ...]
    supply: int
    clock: bool
    step: tuple[int, int, str]
    text: str

    @property
    def room(self) -> int:
        starts, ends, lengths, _ = self.lists
        return 1 + sum(max(0, end - start - length) for start, end, length in zip(starts, ends, lengths))


def time_word(time: int, clock: bool) -> str:
    return f"{time // 60:02d}:{time % 60:02d}" if clock else str(time)


def length_word(chance: random.Random, length: int, clock: bool) -> str:
    return chance.choice((str(length), f"{length} min", f"{length}min", time_word(length, True))) if clock else str(length)


def draw_word(chance: random.Random, steps: int, step: tuple[int, int, str], comma: bool) -> str:
    size, places, unit = step
    digits = str(steps * size).rjust(places + 1, "0")
    word = f"{digits[: len(digits) - places]}.{digits[len(digits) - places :]}" if places else digits
    if places and chance.random() < 0.5:
        word = word.rstrip("0").rstrip(".")
    return (word.replace(".", ",") if comma else word) + chance.choice(("", f" {unit}", unit))


def cell(chance: random.Random, word: str, separator: str) -> str:
    if any(sign in word for sign in (separator, '"')) or word.startswith("#") or word != word.strip() or chance.random() < 0.2:
        return '"' + word.replace('"', '""') + '"'
    return chance.choice(("", " ")) + word


def written(chance: random.Random, names: Sequence[str], lists: Sequence[Sequence[int]], supply: int, clock: bool, step: tuple[int, int, str]) -> str:
    separator = chance.choice(",;")
    comma = separator == ";" and chance.random() < 0.7
    order = list(COLUMNS) + ["shelf"] * chance.randint(0, 2)
    chance.shuffle(order)
    rows = [[chance.choice((column, column.upper(), OTHERS.get(column, column))) for column in order]]
    for name, start, end, length, draw in zip(names, *lists):
        words = {"unit": name, "earliest": time_word(start, clock), "latest": time_word(end, clock), "length": length_word(chance, length, clock), "draw": draw_word(chance, draw, step, comma)}
        rows.append([words.get(column, "row 7") for column in order])
    lines = [separator.join(cell(chance, word, separator) for word in row) + separator * (chance.choice((0, 0, 3)) if place else 0) for place, row in enumerate(rows)]
    notes = [f"# supply: {draw_word(chance, supply, step, comma)}", f"# step: {step_word(step)}"] + ["# time: HH:MM"] * clock + ["# time: ticks"] * (not clock and chance.random() < 0.5)
    for note in notes:
        lines.insert(chance.randint(0, len(lines)), note + separator * chance.choice((0, 4)))
    return "\ufeff" * chance.randint(0, 1) + chance.choice(("\n", "\r\n")).join((*lines, ""))


def step_word(step: tuple[int, int, str]) -> str:
    size, places, unit = step
    return f"{size / 10**places:.{places}f} {unit}".strip()


def drawn(chance: random.Random, count: int) -> List:
    """The supply is about as great as what is drawn at some tick in any case, so that windows are narrowed, and clash, often."""
    last, base = chance.choice((6, 12, 25, 60)), chance.choice((0, 0, 470, 1425))
    lists: tuple[list[int], ...] = ([], [], [], [])
    for _ in range(count):
        length = chance.choice((0, 1, 2, 3, 4, 6, chance.randint(0, last)))
        start = base + chance.randint(0, max(0, last - length))
        end = start + (length if chance.random() < 0.998 else 0) + chance.choice((0, 1, 1, 2, 3, 5, last))
        for numbers, number in zip(lists, (start, end, length, chance.choice((0, 1, 1, 2, 3, 5)))):
            numbers.append(number)
    sure = [sum(draw for start, end, length, draw in zip(*lists) if end - length <= tick < start + length) for tick in range(base, base + 2 * last)]
    supply = max(0, max((*sure, *lists[3]), default=3) + chance.choice((-1, 0, 0, 0, 1, 1, 2, 3)))
    names = [f"{chance.choice(NAMES).strip()} {number}" if count > 3 or chance.random() < 0.5 else NAMES[number].strip() for number in range(count)]
    clock, step = chance.random() < 0.5, chance.choice(STEPS)
    return List(names, lists, supply, clock, step, written(chance, names, lists, supply, clock, step))


def logged(list_: List, words: Sequence[str], starts: dict[int, int]) -> tuple:
    """A log that was written with these words is taken with the list and without it; what it is of."""
    first = bench(list_.text, "--json", "--log", "own.log", *words)
    with open("own.log", encoding="utf-8", newline="") as file:
        text = file.read()
    of, end, windows = replay(text)
    check((text, "the reads"), ([read[:4] for read in of[1]], of[2], end.split()[0]), (list(zip(*list_.lists)), starts, "clash" if first.status else "holds"))
    for list_words in ([], ["list.csv", *words]):
        found = run(*list_words, "--check", "own.log", "--json")
        wanted = [read["now"] for read in first.object["reads"]]
        check((text, list_words), (found.status, found.object.get("log"), [read["now"] for read in found.object.get("reads", [])]), (first.status, "good", wanted))
        check((text, list_words, "sentences"), (found.object.get("sentences"), windows), (first.object["sentences"], wanted))
    return of, text


def fixed(chance: random.Random, list_: List, count: int) -> tuple[list[str], dict[int, int]]:
    """Starts for some reads that have room, and the words that fix them."""
    room = [job for job, (start, end, length) in enumerate(zip(*list_.lists[:3])) if end - length >= start]
    jobs = sorted(chance.sample(room, min(count, len(room))))
    starts = {job: chance.randint(list_.lists[0][job], list_.lists[1][job] - list_.lists[2][job]) for job in jobs}
    return [f"--fix={list_.names[job]}={time_word(start, list_.clock)}" for job, start in starts.items()], starts
