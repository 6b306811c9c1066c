"""The calls as lines that the program takes, and its answers taken apart (their form stands in docs/ANSWERS.md, 'The lines of `probe`')."""

from __future__ import annotations

from collections.abc import Iterator, Sequence
from typing import NamedTuple

from asking import no_answer
from refusals import is_given

# The numbers behind the word of an answer, by call.
HEADS = {
    "narrow": {"settled": 1, "clash": 2, "refused": 1},
    "check": {"holds": 1, "clash": 2, "rejected": 2, "refused": 1},
    "conflict": {"marked": 1, "refused": 1},
    "head": {"settled": 1, "clash": 2, "refused": 1},
    "patterson": {"read": 2, "refused": 1},
    "psplib": {"read": 2, "refused": 1},
    "record": {"record": 0},
}

# No number of an answer has more digits.
DIGITS = 10

# Records are asked from a part of the log that holds them, so that the lines do not grow with the square of their number.
PART = 32


class Answer(NamedTuple):
    word: str
    numbers: list[int]
    lists: list[list[int]]


def row(numbers: Sequence[int]) -> str:
    """A list: its length and its numbers."""
    return " ".join(map(str, (len(numbers), *numbers)))


def zeros(length: int) -> str:
    return row((0,) * length)


def reading(layout: str, resource: int, horizon: int, jobs: int, room: int, text: bytes) -> str:
    """A text is read into lists of zeros, with room for so many pairs."""
    lists = [zeros(jobs)] * 4 + [zeros(room)] * 2
    return " ".join((layout, str(resource), str(horizon), *lists, row(text)))


def narrowing(capacity: int, lists: Sequence[Sequence[int]], words: int) -> str:
    """Earliest starts, latest ends, lengths and draws, with an empty log of so many words."""
    return " ".join(("narrow", str(capacity), *map(row, lists), zeros(words)))


def heading(lists: Sequence[Sequence[int]]) -> str:
    """Earliest starts, latest ends and lengths, for one read at a time."""
    return " ".join(("head", *map(row, lists)))


def judging(call: str, capacity: int, lists: Sequence[Sequence[int]], count: int, log: Sequence[int]) -> str:
    """The claimed records of a log, for the checker (`check`) or for the jobs that cannot be done together (`conflict`)."""
    return " ".join((call, str(capacity), str(count), *map(row, lists), row(log)))


def showing(log: Sequence[int], count: int, words: int) -> Iterator[str]:
    """A line for each of the first so many records of a log, each of so many words."""
    for first in range(0, count, PART):
        part = row(log[first * words : (first + PART) * words])
        for k in range(min(PART, count - first)):
            yield f"record {k} {part}"


def numbers_of(words: list[str]) -> list[int]:
    if not all(word.isdigit() and len(word) <= DIGITS for word in words):
        raise no_answer()
    return [int(word) for word in words]


def understood(call: str, said: str, lengths: Sequence[int]) -> Answer:
    """The answer to a call, with lists of these lengths behind it. A refusal is one that the call gives."""
    word, *rest = said.split(" ")
    if word not in HEADS[call]:
        raise no_answer()
    words = numbers_of(rest)
    at = HEADS[call][word]
    numbers, lists = words[:at], []
    for length in lengths:
        if words[at : at + 1] != [length]:
            raise no_answer()
        lists.append(words[at + 1 : at + 1 + length])
        at += 1 + length
    if at != len(words) or (word == "refused" and not is_given(call, numbers[0])):
        raise no_answer()
    return Answer(word, numbers, lists)
