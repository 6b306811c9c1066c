"""tests/bench-drawn.py [SEED]: lists of reads drawn from a seed and written in a drawn form, given to ./bench, whose answers are compared with what a
program says to the numbers directly; plans, compared with a plain count; logs, read back and compared with a plain replay. PROBE is the program that is
asked, and SECOND, where it is set, the path of the second program, which says what is right. Says what went wrong and ends with status 1, or says
nothing.
"""

from __future__ import annotations

import random
import re
import sys
from itertools import groupby

from benching import LIMITS, Direct, bench, check, finished, put, records
from drawing import List, cell, drawn, fixed, logged, time_word

SEED, LISTS = 7, 60


def asked(list_: List, direct: Direct) -> str:
    """The answer, which has to be the program's own; its word."""
    heard = bench(list_.text, "--json")
    check((list_.text, "error"), heard.error, "")
    found = heard.object
    answer = direct.narrow(list_.supply, list_.lists, min(list_.room, LIMITS.records))
    log = answer.lists[2]
    numbers = [found.get(name) for name in (("count", "job") if answer.word == "clash" else ("count",))]
    check((list_.text, "answer"), (found.get("answer"), numbers, found.get("supply")), (answer.word, answer.numbers, list_.supply))
    if found.get("answer") != answer.word:
        return answer.word
    rows = [(read["unit"], read["earliest"], read["latest"], read["length"], read["draw"]) for read in found["reads"]]
    check((list_.text, "reads"), rows, list(zip(list_.names, *list_.lists)))
    check((list_.text, "windows"), [read["now"] for read in found["reads"]], list(map(list, zip(*answer.lists[:2]))))
    made = records(log, answer.numbers[0])
    if answer.word == "clash":
        rest = iter(made)
        check((list_.text, "a part of the records"), all(record in rest for record in found["records"]), True)
        marked = direct.conflict(list_.supply, list_.lists, answer.numbers[0], log)
        check((list_.text, "marked"), found["together"], [list_.names[job] for job in marked])
    else:
        check((list_.text, "records"), (found["records"], found["together"]), (made, []))
    covered(list_, found)
    return answer.word


def quoted(name: str) -> str:
    """As names stand in sentences."""
    return f'"{name}"' if set(name) & set("“”") else f"“{name}”"


def covered(list_: List, found: dict) -> None:
    """A sentence for each run of records of one read, side and member set, with what each of them says."""
    runs = [list(run) for _, run in groupby(found["records"], key=lambda record: (record["job"], record["side"], record["members"]))]
    if found["answer"] == "clash" and not runs:
        return
    check((list_.text, "sentences"), len(found["sentences"]), len(runs))
    for said, run_ in zip(found["sentences"], runs):
        times, (job, side) = [record["time"] for record in run_], (run_[0]["job"], run_[0]["side"])
        first = min(found_ for sign in (" “", ' "') if (found_ := said.find(sign)) >= 0)
        when, rest = said[:first], said[first + 1 :]
        units = [quoted(list_.names[member]) for member in run_[0]["members"]]
        wanted = " and ".join(filter(None, (", ".join(units[:-1]), *units[-1:]))) or f"{quoted(list_.names[job])} is not read, since "
        check((said, "members"), rest.startswith(wanted), True)
        named = times if len(times) < 4 else [min(times), max(times)]
        check((said, "times"), all(time_word(time, list_.clock) in re.findall(r"[0-9:]+", when) for time in named) and (len(times) < 4 or f"({len(times)} records)" in when), True)
        check((said, "what follows"), (f"so it starts at {time_word(max(times) + 1, list_.clock)} or later." if side == 0 else f"so it ends by {time_word(min(times), list_.clock)}.") in rest, True)


def headed(list_: List, direct: Direct) -> str:
    """The same list for one read at a time; the answer's word."""
    answer, found = direct.head(list_.lists[:3]), bench(list_.text, "--head", "--json")
    numbers = [found.object.get(name) for name in (("count", "job") if answer.word == "clash" else ("count",))]
    windows = [read["now"] for read in found.object.get("reads", [])]
    check((list_.text, "one at a time"), (found.error, found.object.get("answer"), numbers, windows), ("", answer.word, answer.numbers, list(map(list, zip(*answer.lists)))))
    return answer.word


def planned(chance: random.Random, list_: List) -> None:
    """A plan is good exactly where each read lies in its window and at no tick more is drawn than the supply, or for the read head no tick has two reads."""
    starts, ends, lengths, draws = list_.lists
    chosen = [chance.randint(start, max(start, end - length)) + (chance.random() < 0.01) for start, end, length in zip(starts, ends, lengths)]
    inside = all(start <= at and at + length <= end for at, start, end, length in zip(chosen, starts, ends, lengths))
    runs = [set(range(at, at + length)) for at, length in zip(chosen, lengths)]
    under = all(sum(draw for time, draw in zip(runs, draws) if tick in time) <= list_.supply for tick in set().union(*runs))
    plan = "\n".join(("unit,start", *(f"{cell(chance, name, ',')},{time_word(at, list_.clock)}" for name, at in zip(list_.names, chosen)), ""))
    apart = sum(map(len, runs)) == len(set().union(*runs))
    for words, good in (([], inside and under), (["--head"], inside and apart)):
        found = bench(list_.text, "--plan", put("plan.csv", plan), "--json", *words)
        check((list_.text, plan, words), (found.object.get("plan"), found.status), ("good" if good else "bad", 0 if good else 1))


def main() -> int:
    chance, direct = random.Random(int(sys.argv[1]) if len(sys.argv) > 1 else SEED), Direct()
    words, heads = [], []
    for number in range(LISTS):
        list_ = drawn(chance, {LISTS - 2: 1, LISTS - 1: LIMITS.jobs}.get(number, chance.randint(0, 40)))
        words.append(asked(list_, direct))
        heads.append(headed(list_, direct))
        planned(chance, list_)
        logged(list_, *(fixed(chance, list_, 1 + number % 3) if number % 2 else ([], {})))
    check("both words come often", min(words.count("settled"), words.count("clash")) * 8 > LISTS, True)
    check("both words come one at a time", min(heads.count("settled"), heads.count("clash")) > 3, True)
    direct.close()
    return finished()


if __name__ == "__main__":
    sys.exit(main())
