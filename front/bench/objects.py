"""What the command tells programs (`--json`): one object on one line, with all times in ticks and all draws in steps (docs/BENCH.md, 'For programs')."""

from __future__ import annotations

import json
from collections.abc import Sequence

from .case import CHECK, CHECK_ALONE, PLAN, Case
from .columns import COLUMNS
from .statuses import SETTLED


def answer_of(case: Case) -> dict[str, object]:
    """The program's answer, with its numbers; `count` is of all records that it made or took. None stands there where nothing was asked."""
    word, numbers = case.verdict.word, case.verdict.numbers
    names = {"settled": ("count",), "holds": ("count",), "clash": ("count", "job"), "refused": ("refusal",), "rejected": ("record", "code")}
    told: dict[str, object] = {"answer": word, **dict(zip(names[word], numbers))} if word else {}
    judged = {PLAN: "plan", CHECK: "log", CHECK_ALONE: "log"}.get(case.kind)
    if judged and word != "refused":
        told[judged] = "good" if case.status == SETTLED or (judged == "log" and not case.bad) else "bad"
    if judged == "log":
        told["against"] = "log" if case.kind == CHECK_ALONE else "list"
    return told


def object_of(case: Case, sentences: Sequence[str]) -> dict[str, object]:
    """For the read head there are neither draws nor records, and a clash that has moves does not say which reads cannot be read together."""
    reads, verdict = case.reads, case.verdict
    rows = zip(reads.units, *reads.lists)
    knows = bool(verdict.marked) or not (reads.head and case.is_clash)
    return {
        **answer_of(case),
        **({"head": True} if reads.head else {"supply": reads.supply}),
        **({} if verdict.counted else {"counted": False}),
        **({"horizon": reads.horizon} if reads.horizon is not None else {}),
        **({"fixed": {reads.units[job]: start for job, start in sorted(case.starts.items())}} if case.starts else {}),
        "reads": [{**dict(zip(COLUMNS, row)), "now": list(now)} for row, now in zip(rows, verdict.windows)],
        **({} if reads.head else {"records": [record._asdict() for record in verdict.records]}),
        "sentences": list(sentences),
        **({"together": [reads.units[job] for job in verdict.marked]} if knows else {}),
    }


def lines_of(told: dict[str, object]) -> list[str]:
    return [json.dumps(told, ensure_ascii=False)]


def json_lines(case: Case, sentences: Sequence[str]) -> list[str]:
    return lines_of(object_of(case, sentences))


def refused_project(refusal: int, sentences: Sequence[str]) -> list[str]:
    """Where a reader has refused a project there are no reads."""
    return lines_of({"answer": "refused", "refusal": refusal, "sentences": list(sentences)})
