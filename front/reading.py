"""Project texts, read by the program that is asked: for one resource, up to a horizon that is named or the least that is taken. What is refused is told in words;
hints to its cause are our own and marked as such.
"""

from __future__ import annotations

import re
from typing import NamedTuple

import calls
from asking import Program, no_answer
from ending import Stop
from files import bytes_of
from layouts import Walked, layout_of, walked
from limits import Limits
from refusals import refusal

AUTO = "auto"


class Task(NamedTuple):
    """What is to be read; no horizon stands for the least one."""

    resource: int
    horizon: int | None
    text: bytes
    layout: str
    walk: Walked
    limits: Limits


class Reading(NamedTuple):
    """What the program says, as it says it and taken apart, with the horizon that it was asked for."""

    said: str
    answer: calls.Answer
    horizon: int


def number(name: str, word: str, most: int, more: str = "") -> int:
    """An argument in decimal digits, whatever zeros come first."""
    digits = word.lstrip("0") or "0"
    if not re.fullmatch("[0-9]+", word) or len(digits) > len(str(most)) or int(digits) > most:
        raise Stop(f"{name} has to be a number from 0 to {most}{more}.")
    return int(digits)


def task_of(file: str, resource_word: str, horizon_word: str, known: Limits, names: tuple[str, str, str], may_search: bool = True) -> Task:
    """Each of the three words is told by its name."""
    file_name, resource_name, horizon_name = names
    resource = number(resource_name, resource_word, known.number, "; 0 is the file's first")
    horizon = None
    if not (may_search and horizon_word == AUTO):
        horizon = number(horizon_name, horizon_word, known.number, ", or auto" if may_search else "")
    text = bytes_of(file, known.text, file_name)
    layout = layout_of(text)
    return Task(resource, horizon, text, layout, walked(layout, text, known), known)


def room(task: Task) -> int:
    return min(task.walk.pairs, task.limits.pairs)


def reading_line(task: Task, horizon: int) -> str:
    return calls.reading(task.layout, task.resource, horizon, task.walk.jobs, room(task), task.text)


def asked(program: Program, task: Task, horizon: int) -> Reading:
    said = program.answer(reading_line(task, horizon))
    answer = calls.understood(task.layout, said, [task.walk.jobs] * 4 + [room(task)] * 2)
    if answer.word == "refused" and answer.numbers[0] == 38 and task.walk.pairs > room(task):
        raise Stop(f"The file has {task.walk.pairs} pairs of jobs and successors; the program that is asked takes {room(task)}.")
    return Reading(said, answer, horizon)


def least_horizon(answer: calls.Answer) -> int:
    """The longest chain, its last job included: the greatest of the earliest starts, each with its job's length."""
    starts, _, lengths, _, _, _ = answer.lists
    return max((start + length for start, length in zip(starts, lengths)), default=0)


def read(program: Program, task: Task) -> Reading:
    if task.horizon is not None:
        return asked(program, task, task.horizon)
    found = asked(program, task, task.limits.time)
    if found.answer.word != "read":
        return found
    least = asked(program, task, least_horizon(found.answer))
    word, numbers, lists = least.answer
    # Only the latest ends, the second list, are others than before.
    same = [place for place, (now, before) in enumerate(zip(lists, found.answer.lists)) if place == 1 or now == before]
    if (word, numbers, len(same)) != ("read", found.answer.numbers, len(lists)):
        raise no_answer()
    return least


def horizon_hints(program: Program, task: Task, horizon: int) -> list[str]:
    """Behind refusal 34: the least horizon, from a reading with the greatest."""
    most = task.limits.time
    if horizon < most:
        answer = asked(program, task, most).answer
        if answer.word == "read":
            return [f"the least horizon that is taken is {least_horizon(answer)}."]
        if answer.numbers[0] != 34:
            return []
    return [f"the longest chain is longer than the greatest horizon that is taken, {most}."]


def resource_hints(walk: Walked) -> list[str]:
    if walk.resources < 2:
        return ["the text has one resource, 0." if walk.resources else "the text has no resources."]
    return [f"the text has {walk.resources} resources, counted from 0: the last is {walk.resources - 1}."]


def hints(program: Program, task: Task, horizon: int, refused: int) -> list[str]:
    """Nothing where our own walk of the text does not come to the same number."""
    if horizon > task.limits.time:
        return [f"the horizon {horizon} is above {task.limits.time}."] if refused == 31 else []
    if task.walk.refusal:
        return list(task.walk.hints) if refused == task.walk.refusal else []
    if refused == 37 and task.resource >= task.walk.resources:
        return resource_hints(task.walk)
    return horizon_hints(program, task, horizon) if refused == 34 else []


def refused_lines(program: Program, task: Task, reading: Reading) -> list[str]:
    [refused] = reading.answer.numbers
    return [refusal(task.layout, refused, task.limits), *(f"hint: {hint}" for hint in hints(program, task, reading.horizon, refused))]
