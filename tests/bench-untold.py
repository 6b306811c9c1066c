"""Programs that lie to ./bench in every call alike, so that only the list itself or a plain count of the command's own gives them away
(front/bench/counts.py), and readers of projects that contradict themselves: nothing is told (tests/lying.py). PROBE is the program that answers well.
Says what went wrong and ends with status 1, or says nothing.
"""

from __future__ import annotations

import sys

from benching import bench, check, finished, listing, probe, put, run
from lying import CLASH, SETTLED, WRITTEN, lied, stand_in

FILES = WRITTEN[2:]
ONE = listing("a 0 4 4 3", "b 2 12 3 3")
SHORT = listing("a 0 4 5 1")

# Settled before anything is narrowed, and one record too early: the windows are then those that the checker gives for the records before it.
AS_SUBMITTED = "said[lists[0] : lists[2]] = call[2 : 4 + 2 * int(call[2])]"
SUBMITTED = f"if name == 'narrow': {AS_SUBMITTED}; head('settled', 0)"
EARLY = """if name == 'narrow':
            count, lent = int(said[1]) - 1, said[lists[2] :]
            log = lent[1 : 1 + RECORD * count]
            said = ['settled', str(count), *ask(' '.join(('check', call[1], str(count), *call[2 : 6 + 4 * int(call[2])], str(len(log)), *log)) + '\\n')[2:], *lent]"""

# A clash without a record, of read 0; and of the last record of ONE, which leaves its read a start.
NO_RECORD = f"""if name == 'narrow': {AS_SUBMITTED}; head('clash', 0, 0)
        elif name == 'check': head('clash', 0, 0)
        elif name == 'conflict': marks(1, 1)"""
OPEN = f"""if name == 'narrow': {AS_SUBMITTED}; head('clash', 1, 1)
        elif name == 'check' and count: head('clash', 1, 1)
        elif name == 'conflict': marks(2, 3)"""
# A record that closes the window of read 0 in a plan, where nothing is overdrawn.
CLOSED = """if name == 'narrow': said[lists[2] + 1 : lists[2] + 1 + RECORD] = [*'00312', *'0' * (SET - 1)]; head('clash', 1, 0)
        elif name == 'check' and count: head('clash', 1, 0)
        elif name == 'conflict': marks(2, 3)"""
KEPT = "['holds' if word == 'settled' else word, *said[1 : lists[2]]]"

# The lie, the words behind the command, and why nothing is told.
LIES = {
    "settled, nothing narrowed": (SUBMITTED, ["settled.csv", *WRITTEN], "more can be narrowed"),
    "settled, nothing narrowed, of one record": (SUBMITTED, ["one.csv"], "more can be narrowed"),
    "settled, one record too early": (EARLY, ["settled.csv", "--json"], "more can be narrowed"),
    "settled, one record too early, with a start that is fixed": (EARLY, ["settled.csv", "--fix", "d=50"], "more can be narrowed"),
    "a plan that overdraws is good": (SUBMITTED, ["settled.csv", "--plan", "over.csv", *FILES], "more can be narrowed"),
    "a good plan overdraws": (NO_RECORD, ["settled.csv", "--plan", "good.csv", *FILES], "leaves the read a start"),
    "a good plan overdraws, by a record": (CLOSED, ["settled.csv", "--plan", "good.csv", *FILES], "the count the other"),
    "a clash without a record": (NO_RECORD, ["settled.csv", *WRITTEN], "leaves the read a start"),
    "a clash that leaves a start": (OPEN, ["one.csv", *WRITTEN], "leaves the read a start"),
    "no clash of a window that is too short": ("if name == 'narrow': head('settled', 0)\n        elif name == 'check': head('holds', 0)", ["short.csv", *WRITTEN], "leaves a read no start"),
    "a log without the clash of a window that is too short": ("if name == 'check': head('holds', 0)", ["--check", "short.log"], "leaves a read no start"),
    "a log with a clash that leaves a start": (OPEN, ["--check", "one.log"], "leaves the read a start"),
    **{f"refused {number}": (f"if name in ('narrow', 'check'): head('refused', {number})", ["settled.csv", *WRITTEN], "gives no ground") for number in (2, 3)},
    **{f"refused {number}, of a log": (f"if name == 'check': head('refused', {number})", ["--check", "one.log"], "gives no ground") for number in (2, 3)},
    "no refusal": ("if name == 'narrow': head('settled', 0)\n        elif name == 'check': head('holds', 0)", ["late.csv", *WRITTEN], "has to be refused with 3"),
    "another refusal": ("if name in ('narrow', 'check'): said[1] = '2'", ["great.csv"], "gives no ground"),
    "refused 5": ("if name == 'narrow': head('refused', 5)", ["settled.csv", *WRITTEN], "room for every record"),
    "more records than there is room for": ("if name == 'narrow': bump(1, 60)", ["one.csv"], "no room"),
    "windows of the first records": ("if name == 'check' and count == 1: bump(lists[1] + 4)", ["settled.csv", "--why", *WRITTEN], "of its first 1 records"),
    "windows before the clash": ("if name == 'check' and word == 'holds': bump(lists[0] + 1)", ["clash.csv"], "records says 'holds"),
    "windows of a log": ("if name == 'check' and count: bump(lists[1] + 1)", ["--check", "one.log"], "windows that the records do not"),
    "windows of a log beside its list": ("if name == 'check' and count: bump(lists[1] + 1)", ["one.csv", "--check", "one.log", "--json", *FILES], "windows that the records do not"),
    "windows of both calls": (f"if name == 'narrow': bump(lists[1] + 4, -1); kept = {KEPT}\n        elif name == 'check' and count: said = kept", ["settled.csv"], "windows that the records do not"),
}

# The reader of projects, asked for a horizon, and asked for the least: then at first for the greatest.
OF_A_PROJECT = {
    "no answer": "if name == 'patterson': said = ['settled', '0']",
    "a refusal of another call": "if name == 'patterson': head('refused', 5)",
    "more pairs than there is room for": "if name == 'patterson': bump(2)",
    "a pair of a job that is not there": "if name == 'patterson': bump(lists[4] + 1, 90)",
    "a successor that is not there": "if name == 'patterson': bump(lists[5] + 1, 90)",
    "an earliest start that breaks a pair": "if name == 'patterson' and word == 'read': bump(lists[0] + 2, -1)",
    "a latest end that breaks a pair": "if name == 'patterson' and word == 'read': bump(lists[1] + 1)",
    "a list less": "if name == 'patterson': del said[lists[5]:]",
}
OF_THE_LEAST = {
    "refused with its own horizon": "if name == 'patterson' and turn > 1: head('refused', 34)",
    "a capacity that is another one at the second time": "if name == 'patterson' and turn > 1: bump(1)",
    "a length that is another one at the second time": "if name == 'patterson' and turn > 1: bump(lists[2] + 1, -1)",
}


def made() -> None:
    for name, text in {"settled": SETTLED, "clash": CLASH, "one": ONE, "short": SHORT, "great": listing("a 0 4 3 10001"), "late": listing("a 0 1000001 3 1")}.items():
        put(f"{name}.csv", text)
    bench(ONE, "--log", "one.log")
    bench(SHORT, "--log", "short.log")
    put("good.csv", "unit,start\na,0\nb,8\nc,4\nd,0\n")
    put("over.csv", "unit,start\na,0\nb,1\nc,4\nd,0\n")
    put("two.rcp", "2 1\n5\n3 1 1 2\n4 2 0\n")
    put("plan.csv", "unit,start\njob 1,0\njob 2,3\n")


def lies() -> None:
    for name, (lie, words, reason) in LIES.items():
        lied(name, stand_in(lie), *words, reason=reason)
    for name, lie in OF_A_PROJECT.items():
        for words in (WRITTEN, ["--plan", "plan.csv", *FILES]):
            lied(("of a project", name, *words), stand_in(lie), "two.rcp", "--resource", "0", "--horizon", "9", *words)
    for name, lie in OF_THE_LEAST.items():
        lied(("of the least horizon", name), stand_in(lie), "two.rcp", "--resource", "0", *WRITTEN)


def honest() -> None:
    """A stand-in that tells the truth is believed, so that it is the lies that are found."""
    with probe(stand_in("pass")):
        for words, status in ((["one.csv", "--why"], 0), (["settled.csv", "--plan", "good.csv"], 0), (["settled.csv", "--plan", "over.csv"], 1), (["short.csv"], 1), (["--check", "one.log"], 0),
                              (["--check", "short.log"], 1), (["great.csv"], 3), (["settled.csv", "--fix", "d=50"], 0), (["two.rcp", "--resource=0", "--plan=plan.csv"], 0)):
            check(("honest", words), run(*words).status, status)


def main() -> int:
    made()
    lies()
    honest()
    return finished()


if __name__ == "__main__":
    sys.exit(main())
