"""./project FILE RESOURCE HORIZON|auto [RECORDS]: a project list is read by the program that is asked, and what it gives is narrowed, with a log of so many
records (64 where none is named). Printed are the reader's answer as the program writes it, narrowing's answer without its log, and the records that it made,
without the zero words behind the last other one. With `auto` the horizon is the least that the reader takes, and stands in a line before them.

A refusal is printed in words, with status 1; hints to its cause are our own and marked as such. Where nothing could be asked there is one sentence on standard
error, behind what the program that is asked may say there, and status 2.

./project --line FILE RESOURCE HORIZON: prints the line that asks the program to read the file, and asks nothing.
"""

from __future__ import annotations

import calls
from asking import Program, no_answer, started
from ending import GOOD, REFUSED, Stop
from limits import Limits, limits
from reading import Task, number, read, reading_line, refused_lines, task_of
from refusals import refusal

USAGE = "usage: ./project FILE RESOURCE HORIZON|auto [RECORDS], or ./project --line FILE RESOURCE HORIZON."
NAMES = ("FILE", "RESOURCE", "HORIZON")
USUAL_RECORDS = "64"


def record_hints(answer: calls.Answer, limits: Limits) -> list[str]:
    """As many records as the sum of l - e - p over the jobs and one more are always enough (docs/ANSWERS.md, refusal 5); no window that is read is too short."""
    most = limits.records
    starts, ends, lengths = answer.lists[:3]
    enough = sum(ends) - sum(starts) - sum(lengths) + 1
    if enough <= most:
        return [f"hint: with RECORDS {enough} there is always room enough."]
    return [f"hint: up to {enough} records may be needed; {most} is the greatest number of RECORDS that is taken."]


def record_lines(program: Program, count: int, log: list[int], limits: Limits) -> list[str]:
    """The records by the program's own call for them, without the zero words behind the last other one; the first four always stand there."""
    lines = []
    for said in program.each(calls.showing(log, count, limits.record)):
        [words] = calls.understood("record", said, [limits.record]).lists
        while len(words) > limits.head and words[-1] == 0:
            words.pop()
        lines.append(" ".join(("record", *map(str, words))))
    return lines


def narrowed(program: Program, answer: calls.Answer, records: int, limits: Limits) -> tuple[list[str], int]:
    lists, words = answer.lists[:4], records * limits.record
    said = program.answer(calls.narrowing(answer.numbers[0], lists, words))
    word, numbers, (starts, ends, log) = calls.understood("narrow", said, [len(lists[0])] * 2 + [words])
    if word == "refused":
        return [refusal("narrow", numbers[0], limits), *(record_hints(answer, limits) if numbers[0] == 5 else [])], REFUSED
    if numbers[0] > records:
        raise no_answer()
    first = " ".join((word, *map(str, numbers), calls.row(starts), calls.row(ends)))
    return [first, *record_lines(program, numbers[0], log, limits)], GOOD


def answered(program: Program, task: Task, records: int) -> tuple[list[str], int]:
    """The lines of the whole answer, and the status."""
    reading = read(program, task)
    if reading.answer.word == "refused":
        return refused_lines(program, task, reading), REFUSED
    lines, status = narrowed(program, reading.answer, records, task.limits)
    before = [f"horizon {reading.horizon}"] if task.horizon is None else []
    return [*before, reading.said, *lines], status


def command(arguments: list[str]) -> tuple[list[str], int]:
    known = limits()
    if arguments[:1] == ["--line"]:
        if len(arguments) != 4:
            raise Stop(USAGE)
        task = task_of(*arguments[1:], known, NAMES, False)
        return [reading_line(task, task.horizon)], GOOD
    if len(arguments) not in (3, 4):
        raise Stop(USAGE)
    task = task_of(*arguments[:3], known, NAMES)
    records = number("RECORDS", (*arguments, USUAL_RECORDS)[3], known.records)
    with started() as program:
        return answered(program, task, records)
