"""What the command tells people: a line that sums up, the table, the reasons as numbered sentences, and in a clash the units that cannot be read together."""

from __future__ import annotations

from collections.abc import Callable, Iterator, Sequence

from limits import Limits
from refusals import refusal

from .case import CHECK, CHECK_ALONE, NARROW, PLAN, Case
from .columns import COLUMNS
from .places import plain
from .reads import Reads
from .sentences import Teller, listed, plural, quoted
from .table import NARROWED, PLANNED, table
from .verdict import Desk, submitted

# What can be done about a refusal (docs/ANSWERS.md, 'Refusals'). Where times are coarser, fewer records are needed; rounded in this way, a plan of the coarser list
# is one of the finer.
COARSER = "A clash of the coarser list does not say that the finer one has no schedule."
ROUNDED = (
    "Round so that no window gets wider, no read shorter, no draw less and the supply no greater: earliest starts up, latest ends down, lengths and draws up. "
    + COARSER
)
ADVICE = {
    2: "Where reads fall into parts whose windows do not overlap, make a list of each part.",
    3: f"Take a coarser step of time or of draws. {ROUNDED}",
    5: f"Take a coarser step of time, such as minutes in place of seconds: fewer records are needed then. {ROUNDED}",
}
HEAD_ADVICE = {
    **ADVICE,
    3: f"Take a coarser step of time. Round so that no window gets wider and no read shorter: earliest starts up, latest ends down, lengths up. {COARSER}",
}
RESTS = "{} on the call's proved contract: there is no log for the read head yet, so no reasons are told."
UNCOUNTED = " The command's own count was given up, since it takes too long."
HORIZON = "The horizon is {}."
CHAINS = "The project's precedences count here by their longest chains alone; starts have to respect each of them besides."


def with_starts(case: Case, jobs: Sequence[int] | None = None) -> str:
    """The starts that are fixed, or those of some reads."""
    some = sorted(job for job in case.starts if jobs is None or job in jobs)
    return listed([f"{quoted(case.reads.units[job])} at {case.reads.times.say(case.starts[job])}" for job in some]) if some else ""


def settled(case: Case) -> str:
    if not case.reads.units:
        return "Settled: there are no reads."
    moved = sum(now != then for now, then in zip(case.verdict.windows, submitted(case.asked)))
    head, records = case.reads.head, len(case.verdict.records)
    by = plural(case.verdict.numbers[0], "move") if head else f"{plural(records, 'record')} that the checker took"
    told = f"{moved} of {plural(len(case.reads.units), 'window')} narrowed, by {by}" if moved else "no window is narrowed"
    settled = "Settled for one read at a time" if head else "Settled"
    if case.starts:
        return f"{settled} with {with_starts(case)}: {told}. This says what is left, not that there is a schedule."
    told += " from the submitted windows" if moved else ""
    schedule = "schedule with one read at a time" if head else "schedule"
    return f"{settled}: {told}. Every {schedule} lies in the windows now; that there is one is not said."


def closed(case: Case) -> str:
    """What the read head says of a clash."""
    count, job = case.verdict.numbers
    unit = quoted(case.reads.units[job])
    if not count:
        return f"The window of {unit} is too short"
    return f"{'The first move' if count == 1 else f'The last of {count} moves'} leaves {unit} no start"


def taken(case: Case) -> str:
    """What the checker says of a clash."""
    made, needed = case.verdict.numbers[0], len(case.verdict.records)
    if not made:
        return "The checker says the same"
    all_taken = f"The checker took {'the record' if made == 1 else f'all {made} records'}{'' if case.starts else ' from the submitted windows'}"
    if needed == made:
        return all_taken
    return f"{all_taken}, and {'the one that the clash needs by itself' if needed == 1 else f'the {needed} that the clash needs by themselves'}"


def clash(case: Case) -> str:
    reads = case.reads
    limit = "with one read at a time" if reads.head else f"on {reads.draws.say(reads.supply)}"
    limit += f" by the horizon {reads.horizon}" if reads.horizon is not None else ""
    because = closed(case) if reads.head else taken(case)
    if case.starts:
        return f"Clash: no schedule {limit} starts {with_starts(case)}. {because}."
    return f"Clash: {'this read has' if len(reads.units) == 1 else f'these {len(reads.units)} reads have'} no schedule {limit}. {because}."


def against(kind: str) -> str:
    return "against the windows that the log itself states" if kind == CHECK_ALONE else "against the submitted windows of the list"


def checked(case: Case) -> str:
    """Of a log that the checker takes."""
    starts = with_starts(case)
    holds = f"The log holds, checked {against(case.kind)}{f' with {starts}' if starts else ''}"
    number = plural(case.verdict.numbers[0], "record")
    if case.is_clash:
        return f"{holds}: {number} and a clash, so {f'no schedule starts {starts}' if starts else 'there is no schedule'}."
    every = f"Every schedule that starts {starts}" if starts else "Every schedule"
    return f"{holds}: {number}. {every} lies in the windows now; that there is one, or that nothing more can be narrowed, is not said."


def planned(case: Case) -> str:
    reads = case.reads
    if case.is_clash:
        return f"The plan is bad: {'reads overlap' if reads.head else 'the supply is overdrawn'}."
    kept = "no two that last overlap" if reads.head else f"at no time is more drawn than {reads.draws.say(reads.supply)}"
    good = f"The plan is good: every read lies in its submitted window, and {kept}."
    other = "" if reads.head else "other "
    return f"{good} Every precedence is kept; the project's {other}resources were not looked at." if reads.horizon is not None else good


def summary(case: Case) -> str:
    if case.kind == PLAN:
        return planned(case)
    if case.kind in (CHECK, CHECK_ALONE):
        return checked(case)
    return clash(case) if case.is_clash else settled(case)


def reasons(case: Case, desk: Desk, why: bool) -> Iterator[str]:
    """The sentences, numbered, and where that is asked for under each the windows that it rests on."""
    runs, said = case.runs, case.sentences()
    if not why or not runs:
        yield from (f"{place}. {sentence}" for place, sentence in enumerate(said, 1))
        return
    for place, windows in enumerate(desk.reached(case.verdict.records, [run.first for run in runs])):
        yield f"{place + 1}. {said[place]}"
        yield from (f"     {line}" for line in Teller(case.asked).rests_on(runs[place], windows, case.kind == PLAN))


def unused(reads: Reads) -> str:
    """The columns that are not used, and what else is not looked at: behind several columns, which have an "and" of their own, a comma."""
    names = [quoted(plain(name)) for name in reads.unused]
    if len(names) > 1:
        return f"the columns {listed(names)}{f', and {listed(reads.unseen)}' if reads.unseen else ''}"
    return listed([*(f"the column {name}" for name in names), *reads.unseen])


def grounds(case: Case) -> list[str]:
    """Behind the line that sums up: what else counts, what windows without reasons rest on, and what was not looked at."""
    reads, lines = case.reads, []
    if reads.head and reads.units and case.kind == NARROW and not case.verdict.marked:
        rests = RESTS.format("The clash rests" if case.is_clash else "These windows rest")
        lines.append(rests if case.verdict.counted else rests + UNCOUNTED)
    if reads.horizon is not None:
        lines.append(HORIZON.format(reads.horizon) + ("" if case.kind == PLAN else f" {CHAINS}"))
    return [*lines, f"Not used: {unused(reads)}."] if reads.unused or reads.unseen else lines


def ending(case: Case) -> str:
    """The last line of a clash."""
    teller, marked = Teller(case.reads), case.verdict.marked
    if case.kind != PLAN:
        return teller.together(marked, with_starts(case, marked)) if marked else teller.unmarked(with_starts(case))
    if case.reads.head:
        return "Which reads overlap, and when, is the command's own count."
    stretches = listed([f"from {teller.window(stretch)}" for stretch in case.overdrawn()])
    return f"The supply is overdrawn {stretches}, by the command's own count."


def told(case: Case, desk: Desk, why: bool) -> list[str]:
    """The whole text."""
    lines = [summary(case), *grounds(case)]
    titles = PLANNED if case.kind == PLAN else NARROWED
    lines += ["", *table(case.reads, case.windows, case.verdict.marked, titles)] if case.reads.units else []
    said = list(reasons(case, desk, why))
    lines += ["", *said] if said else []
    return [*lines, "", ending(case)] if case.is_clash else lines


def nowhere(word: str, place: int) -> str:
    """A list names its reads, and needs no lines."""
    return ""


def above(reads: Reads, limits: Limits, where: Callable[[str, int], str]) -> list[str]:
    """The numbers that are above their limits, each behind the place of its line in a log."""
    times, draws = reads.times, reads.draws
    says = {"earliest": times.say, "latest": times.say, "length": times.lasts, "draw": draws.say}
    found = []
    if reads.supply > limits.demand:
        found.append(f"{where('supply', 0)}The supply {draws.say(reads.supply)} is above {draws.say(limits.demand)}.")
    for (column, say), numbers in zip(says.items(), reads.lists):
        most = limits.demand if column == "draw" else limits.time
        what = COLUMNS[column]
        over = [(job, number) for job, number in enumerate(numbers) if number > most]
        found += [f"{where('read', job)}{quoted(reads.units[job])}: {what} {say(number)} is above {say(most)}." for job, number in over]
    return found


def refused(call: str, number: int, reads: Reads, limits: Limits, where: Callable[[str, int], str] = nowhere) -> list[str]:
    places = above(reads, limits, where) if number == 3 else []
    advice = HEAD_ADVICE if reads.head else ADVICE
    return [refusal(call, number, limits), *places, *([advice[number]] if number in advice else [])]
