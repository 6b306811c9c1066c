"""A project of a partner as a list of reads: one resource of it, read by the proved readers. Jobs are named as in the partner's file, which counts from 1."""

from __future__ import annotations

from typing import NamedTuple

from asking import Program, no_answer
from limits import Limits
from reading import AUTO, Task, read, refused_lines, task_of

from .options import Options
from .quantities import Draws, Times
from .reads import Reads
from .verdict import contradicts


def project_of(options: Options, known: Limits) -> Task:
    return task_of(options.file, options.values["resource"], options.values.get("horizon", AUTO), known, (options.file, "--resource", "--horizon"))


class Refused(NamedTuple):
    """The reader's refusal, and the lines that say it."""

    number: int
    lines: list[str]


def reads_of_project(program: Program, task: Task, head: bool) -> Reads | Refused:
    reading = read(program, task)
    if reading.answer.word == "refused":
        return Refused(reading.answer.numbers[0], refused_lines(program, task, reading))
    supply, count = reading.answer.numbers
    earliest, latest, lengths, demands, jobs, successors = reading.answer.lists
    units = [f"job {place}" for place in range(1, len(earliest) + 1)]
    pairs = list(zip(jobs, successors))[:count]
    if len(pairs) < count or any(job >= len(units) for pair in pairs for job in pair):
        raise no_answer()
    for first, then in pairs:
        if earliest[first] + lengths[first] > earliest[then] or latest[first] + lengths[then] > latest[then]:
            raise contradicts(f"the windows of {units[first]} and {units[then]} do not respect that one comes before the other")
    reads = Reads(units, earliest, latest, lengths, demands, supply, Times(), Draws(), pairs, reading.horizon)
    return reads.for_head([f"the demands on resource {task.resource} and its capacity"]) if head else reads
