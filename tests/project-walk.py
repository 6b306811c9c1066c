"""tests/project-walk.py PROGRAM STEP: whether the hand-made walk of a text comes to the number that the program gives, for calls with damaged texts.

PROGRAM is the second program, which makes the calls; PROBE is the command that answers them, the second program where it is not set. Every STEP-th call is
tried, beginning with the first. Says which call differs first and ends with status 1; else it says nothing, or with a STEP of 1 how many were compared.
"""

from __future__ import annotations

import os
import subprocess
import sys
from collections import Counter
from pathlib import Path

TOP = Path(__file__).resolve().parent.parent
sys.path.insert(0, str(TOP / "front"))

from layouts import Walked, walked  # noqa: E402
from limits import Limits, limits  # noqa: E402

MADE = ("text-calls", str(TOP / "instances"), "1", "300")
OF_THE_TEXT = (30, 31, 32, 35)


def output_of(command: list[str], given: bytes = b"") -> list[bytes]:
    said = subprocess.run(command, input=given, stdout=subprocess.PIPE, check=True).stdout
    return said.split(b"\n")[:-1]


def taken_apart(line: bytes) -> tuple[str, int, int, list[list[int]]]:
    """The layout, the resource, the horizon and the seven lists, the text the last of them, of a line that can be read."""
    layout, *words = line.decode("ascii").split(" ")
    numbers = list(map(int, words))
    lists, at = [], 2
    while at < len(numbers):
        lists.append(numbers[at + 1 : at + 1 + numbers[at]])
        at += 1 + numbers[at]
    return layout, numbers[0], numbers[1], lists


def expected(resource: int, horizon: int, lists: list[list[int]], walk: Walked, known: Limits) -> int:
    """The refusal by the walk, and 0 where only a cycle or a chain can refuse the text."""
    if horizon > known.time:
        return 31
    if walk.refusal:
        return walk.refusal
    if resource >= walk.resources:
        return 37
    fit = all(len(jobs) == walk.jobs for jobs in lists[:4]) and min(map(len, lists[4:6])) >= walk.pairs
    return 0 if fit else 38


def said_by(answer: bytes) -> int:
    """The refusal that the program gives, 0 where it is one of a cycle or a chain, or none."""
    word, number = answer.split(b" ")[:2]
    refused = int(number) if word == b"refused" else 0
    return 0 if refused in (33, 34) else refused


def difference(line: bytes, answer: bytes, known: Limits) -> str:
    layout, resource, horizon, lists = taken_apart(line)
    walk = walked(layout, bytes(lists[6]), known)
    if (walk.refusal in OF_THE_TEXT) != bool(walk.hints):
        return f"refusal {walk.refusal} with the hints {walk.hints}"
    wanted, said = expected(resource, horizon, lists, walk, known), said_by(answer)
    if wanted != said:
        return f"{wanted} by the walk, {said} by the program"
    if answer.startswith(b"read ") and int(answer.split(b" ")[2]) != walk.pairs:
        return "another number of pairs"
    return ""


def main() -> int:
    program, step = sys.argv[1], int(sys.argv[2])
    made = output_of([program, *MADE])
    calls = [line for line in made if line.startswith((b"patterson ", b"psplib "))][::step]
    asked = os.environ.get("PROBE", "").split() or [program, "answer"]
    answers = output_of(asked, b"".join(line + b"\n" for line in calls))
    known, count = limits(), Counter()
    if len(answers) != len(calls):
        print(f"{len(answers)} answers to {len(calls)} calls")
        return 1
    for line, answer in zip(calls, answers):
        if answer == b"unreadable":
            continue
        wrong = difference(line, answer, known)
        if wrong:
            print(f"{wrong}: {line[:4000].decode('ascii')}")
            return 1
        count[" ".join(answer.decode("ascii").split(" ")[: 2 if answer.startswith(b"refused") else 1])] += 1
    if step == 1:
        print(sum(count.values()), "calls, the walk comes to the same number:", dict(sorted(count.items())))
    return 0 if count else 1


if __name__ == "__main__":
    sys.exit(main())
