"""./bench: a list of reads in; narrowed windows, reasons in sentences and a picture out. USAGE in front/bench/options.py says what can be asked.

The windows that go in are always those of the file, with the starts that are fixed; what is written out is no list, so that no run can take another's windows for
the submitted ones. Input is read before the program is started, but for what belongs to a project, and nothing is written before it has ended well.
"""

from __future__ import annotations

import os
from typing import NamedTuple

from asking import Unasked, name, started
from ending import Stop
from limits import Limits, limits
from refusals import code

from .case import CHECK, CHECK_ALONE, NARROW, PLAN, Case
from .head import Head
from .letters import letters
from .logs import difference, log_lines, other_starts
from .logtext import END, RECORD, Log, log_of_file
from .model import model_lines
from .objects import json_lines, refused_project
from .options import USAGE, Options, options_of
from .picture import svg
from .plans import Plan, fixed, plan_of
from .projects import Refused, project_of, reads_of_project
from .reads import Reads, reads_of
from .sentences import Teller
from .statuses import DISAGREE, REFUSED, SETTLED
from .told import against, refused, told
from .verdict import OWN_COUNT, Desk, Verdict, contradicts, submitted, words_of

# The columns of a picture in letters where no terminal says how many it has.
COLUMNS = 100

# The options whose files are written.
WRITTEN = ("log", "picture", "mzn")


class Prepared(NamedTuple):
    """What is to be asked: the reads as submitted, the starts that are fixed, a plan or a log."""

    kind: str
    reads: Reads
    starts: dict[int, int]
    plan: Plan | None
    log: Log | None


def prepared(options: Options, reads: Reads | None, known: Limits) -> Prepared:
    log = log_of_file(options.values["check"], known) if "check" in options.values else None
    if reads is None:
        return Prepared(CHECK_ALONE, log.reads, log.starts, None, log)
    starts = fixed(options.fixes, reads)
    plan = plan_of(options.values["plan"], reads) if "plan" in options.values else None
    return Prepared(CHECK if log else PLAN if plan else NARROW, reads, plan.starts if plan else starts, plan, log)


def not_asked(bad: list[str], reads: Reads) -> tuple[Verdict, list[str]]:
    windows = submitted(reads)
    return Verdict("", (), windows, before=windows), bad


def log_judged(file: str, ready: Prepared, desk: Desk) -> tuple[Verdict, list[str]]:
    """What the checker says of a log, and what makes it bad."""
    log, reads = ready.log, ready.reads
    if other := difference(log.reads, reads) or other_starts(log.starts, ready.starts, reads):
        return not_asked([f"{file}:{log.line(other.word, other.place)}: the log is not of this list: {other.what}."], reads)
    verdict = desk.checked(log.records)
    said = words_of(verdict.word, verdict.numbers)
    where = against(ready.kind)
    if verdict.word == "refused":
        return verdict, refused("check", verdict.numbers[0], desk.reads, desk.limits, lambda word, place: f"{file}:{log.line(word, place)}: ")
    if verdict.word == "rejected":
        place, number = verdict.numbers
        claim = Teller(desk.reads).claim(log.records[place])
        return verdict, [f"{file}:{log.line(RECORD, place)}: the log is rejected, checked {where}: at its record {place} {code(number, desk.limits)}", *claim]
    if said != log.end:
        return verdict, [f"{file}:{log.line(END)}: the log is bad, checked {where}: its end says '{log.end}', and the checker '{said}'."]
    return verdict, []


def judged(options: Options, ready: Prepared, desk: Desk) -> Case:
    if ready.log:
        verdict, bad = log_judged(options.values["check"], ready, desk)
    elif ready.plan and ready.plan.bad:
        verdict, bad = not_asked([f"The plan is bad: {why}." for why in ready.plan.bad], ready.reads)
    else:
        verdict, bad = desk.planned() if ready.plan else desk.narrowed(), []
    source = os.path.basename(options.file or options.values["check"])
    case = Case(source, ready.kind, ready.reads, desk.reads, ready.starts, verdict, bad)
    if case.kind == PLAN and not bad and case.verdict.word != "refused" and case.is_clash != bool(case.overdrawn()):
        raise contradicts(f"of the plan it says '{verdict.word}', and the count the other", OWN_COUNT)
    return case


def unwritten(options: Options) -> list[str]:
    """Where there is nothing to show, of the files that were asked for."""
    return [f"{options.values[name]} is not written." for name in WRITTEN if name in options.values]


def spoken(options: Options, case: Case, desk: Desk) -> list[str]:
    short = list(case.bad) or (refused(desk.call, case.verdict.numbers[0], case.asked, desk.limits) if case.verdict.word == "refused" else [])
    short += unwritten(options) if short else []
    if "json" in options.named:
        return json_lines(case, short or case.sentences())
    if short:
        return short
    lines = told(case, desk, "why" in options.named)
    if "text-picture" in options.named:
        lines += ["", *letters(case.scene(), os.get_terminal_size(1).columns if os.isatty(1) else COLUMNS)]
    return lines


def files_of(options: Options, case: Case) -> dict[str, list[str]]:
    """What is to be written, where there is something to show."""
    if case.bad or case.verdict.word == "refused":
        return {}
    makers = {
        "log": lambda: log_lines(case.reads, case.starts, case.verdict),
        "picture": lambda: [svg(case.scene()).rstrip("\n")],
        "mzn": lambda: model_lines(case.asked),
    }
    return {options.values[name]: make() for name, make in makers.items() if name in options.values}


def guard(options: Options) -> None:
    """No file that is read is written over, and none is written twice."""
    inputs = [file for file in (options.file, options.values.get("plan"), options.values.get("check")) if file is not None]
    outputs = [options.values[name] for name in WRITTEN if name in options.values]
    for place, file in enumerate(outputs):
        for other in inputs + outputs[:place]:
            if os.path.realpath(file) == os.path.realpath(other) or (os.path.exists(file) and os.path.exists(other) and os.path.samefile(file, other)):
                raise Stop(f"{file} would be written over.")


def write(file: str, lines: list[str]) -> None:
    try:
        with open(file, "w", encoding="utf-8", newline="\n") as opened:
            opened.writelines(line + "\n" for line in lines)
    except (OSError, ValueError):
        raise Stop(f"{file} cannot be written.") from None


def answered(options: Options, known: Limits) -> tuple[list[str], dict[str, list[str]], int]:
    """The lines, the files, and the status."""
    project = project_of(options, known) if options.is_project else None
    ready = None if project else prepared(options, reads_of(options.file, known, options.is_head) if options.file is not None else None, known)
    with started() as program:
        if project:
            found = reads_of_project(program, project, options.is_head)
            if isinstance(found, Refused):
                lines = found.lines + unwritten(options)
                return refused_project(found.number, lines) if "json" in options.named else lines, {}, REFUSED
            ready = prepared(options, found, known)
        desk = (Head if options.is_head else Desk)(program, ready.reads.fixed(ready.starts), known)
        case = judged(options, ready, desk)
        return spoken(options, case, desk), files_of(options, case), case.status


def command(words: list[str]) -> tuple[list[str], int]:
    options = options_of(words)
    if "help" in options.named:
        return USAGE.split("\n"), SETTLED
    guard(options)
    try:
        lines, files, status = answered(options, limits())
    except Unasked as fault:
        raise Stop(f"{fault} It is {name()}.", DISAGREE) from None
    for file, text in files.items():
        write(file, text)
    return lines, status
