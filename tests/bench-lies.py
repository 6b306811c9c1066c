"""Programs that lie to ./bench about lists, logs and the read head, in one call or in several, or that do not answer: nothing is told (tests/lying.py). PROBE is the
program that answers well. Says what went wrong and ends with status 1, or says nothing.
"""

from __future__ import annotations

import sys

from benching import ASKED, LIMITS, bench, check, finished, listing, probe, put, run, script
from lying import CLASH, SETTLED, WRITTEN, lied, stand_in

# Lies about a list that settles and about one that clashes, each with several records.
LIES = {
    "a window": "if name == 'narrow': bump(lists[0] + 2)",
    "another window": "if name == 'narrow': bump(lists[1] + 4, -1)",
    "the read of a record": "if name == 'narrow': bump(lists[2] + 1)",
    "the side of a record": "if name == 'narrow': bump(lists[2] + 2)",
    "the time of a record": "if name == 'narrow': bump(lists[2] + 3)",
    "the number of members": "if name == 'narrow': bump(lists[2] + 4)",
    "the members": "if name == 'narrow': bump(lists[2] + 5, 8)",
    "a record more": "if name == 'narrow': bump(1)",
    "a record less": "if name == 'narrow': bump(1, -1)",
    "many records": "if name == 'narrow': bump(1, 1000000000)",
    "narrow: the other word": "if name == 'narrow': head(*(('settled', said[1]) if word == 'clash' else ('clash', said[1], 1)))",
    "narrow: no records": "if name == 'narrow': head(*(('clash', 0, said[2]) if word == 'clash' else ('settled', 0)))",
    "check: the other word": "if name == 'check': head(*(('holds', said[1]) if word == 'clash' else ('clash', said[1], 1)))",
    "check: rejected": "if name == 'check': head('rejected', 0, 25)",
    "check: refused": "if name == 'check': head('refused', 3)",
    "check: other windows": "if name == 'check': bump(lists[0] + 1)",
    "check: other ends": "if name == 'check': bump(lists[1] + 1, -1)",
    "check: another number": "if name == 'check': bump(1)",
    "check: nothing": "if name == 'check': said = []",
    "check: the word of narrow": "if name == 'check': said[0] = 'settled'",
    "a word more": "if name == 'narrow': said += ['0']",
    "a word less": "if name == 'narrow': said.pop()",
    "a list less": "if name == 'narrow': del said[lists[2]:]",
    "no number": "if name == 'narrow': said[-1] = '-1'",
    "a great number": "if name == 'narrow': said[1] = '9' * 11",
    **{f"narrow: refused {number}": f"if name == 'narrow': head('refused', {number})" for number in (0, 1, 2, 3, 4, 5, 6, 7, 8, 30)},
    # Lies of both calls, which the list itself, or the records, give away.
    **{f"both: refused {number}": f"if name in ('narrow', 'check'): head('refused', {number})" for number in (1, 2, 3, 7)},
    "both: many records": "if name == 'narrow': bump(1, 1000); kept = ['holds' if word == 'settled' else word, *said[1 : lists[2]]]\n        elif name == 'check' and count: said = kept",
    **{f"both: {what}": f"if name == 'narrow': kept = ['holds' if word == 'settled' else word, *said[1 : lists[2]]]; bump(lists[2] + {place}, {by})\n        elif name == 'check' and count: said = kept"
       for what, place, by in (("a read that is not there", 1, 90), ("a third side", 2, 2), ("a last time that is not the window's", "RECORD * (int(said[1]) - 1) + 3", 1), ("a member that is not there", "RECORD", 1))},
}

OF_A_CLASH = {
    "the read": "if name == 'narrow': bump(2)",
    "both: the read": "if name in ('narrow', 'check') and word == 'clash': bump(2)",
    "both: a read that is not there": "if name in ('narrow', 'check') and word == 'clash': said[2] = '99'",
    "both: windows": "if name in ('narrow', 'check') and word == 'clash': bump(lists[0] + 1)",
    "both: windows by all records": "if turn < 3: bump(lists[0] + 1)",
    "conflict: another set": "if name == 'conflict': bump(lists[0] + 1)",
    "conflict: a read that is not there": "if name == 'conflict': bump(lists[0] + 8)",
    "conflict: another count": "if name == 'conflict': bump(1)",
    "conflict: one read less": "if name == 'conflict': bump(1, -1); bump(lists[0] + 1, -4)",
    "conflict: refused": "if name == 'conflict': said[:2] = ['refused', '8']",
    "conflict: a refusal of another call": "if name == 'conflict': said[:2] = ['refused', '5']",
    "check: the needed records are rejected": "if name == 'check' and turn > 3: head('rejected', 0, 25)",
    "check: the needed records do not clash": "if name == 'check' and turn > 3 and word == 'clash': head('holds', said[1])",
    "check: windows by the needed records": "if name == 'check' and turn > 3 and word == 'clash': bump(lists[0] + 1)",
    "check: windows before the last record": "if name == 'check' and word == 'holds': bump(lists[1] + 4, -1)",
    "check: the first records are rejected": "if name == 'check' and word == 'holds': head('rejected', 0, 25)",
}

# Behind --why the windows before each sentence are asked for.
OF_WHY = {
    "windows before any record": "if name == 'check' and count == 0: bump(lists[0] + 2)",
    "windows of the moved read": "if name == 'check' and count == 1: bump(lists[0] + 2)",
    "windows of a member": "if name == 'check' and count == 1: bump(lists[1] + 3)",
    "windows of another read": "if name == 'check' and count == 1: bump(lists[1] + 4)",
    "the first records clash": "if name == 'check' and count == 1: head('clash', 1, 1)",
    "another number": "if name == 'check' and count == 1: bump(1)",
}

# Of a log by another hand only the checker speaks.
OF_A_LOG = {
    "another number": "if name == 'check': bump(1)",
    "many records": "if name == 'check': bump(1, 1000)",
    "rejected behind the end": "if name == 'check': head('rejected', 2, 25)",
    "rejected far behind the end": "if name == 'check': head('rejected', 4000000000, 25)",
    **{f"rejected with code {code}": f"if name == 'check': head('rejected', 1, {code})" for code in (0, 19, 28, 4000000000)},
    **{f"refused {number}": f"if name == 'check': head('refused', {number})" for number in (0, 1, 2, 3, 5, 6, 7, 8)},
    "a clash of another read": "if name == 'check': head('clash', said[1], 2)",
    "a clash of a read that is not there": "if name == 'check': head('clash', said[1], 99)",
    "a clash that no record comes to": "if name == 'check': head('clash', said[1], 1)",
    "a clash with other windows": "if name == 'check': said[:2] = ['clash', said[1], '1']",
    "rejected with other windows": "if name == 'check': said[:2] = ['rejected', '1', '25']",
    "refused with other windows": "if name == 'check': said[:2] = ['refused', '3']",
    "a window that no record moved": "if name == 'check': bump(lists[0] + 1)",
    "a window that is not the record's": "if name == 'check': bump(lists[0] + 2)",
}

# Of one read at a time there is no log; the list gives these away. The first two lists have three moves each; in the third a window is too short.
SUBMITTED = "*call[1 : 2 * (lists[1] - lists[0]) + 1]"
HEAD_SETTLED, HEAD_CLASH, HEAD_SHORT = listing("a 1 11 3 1", "b 1 11 3 1", "c 1 6 4 1", "z 1 10 0 1"), listing("a 0 7 3 1", "b 2 7 3 1", "c 4 6 1 1", "z 3 3 0 1"), listing("a 0 9 2 1", "b 4 6 3 1", "c 1 0 0 1")
OF_THE_HEAD = {
    "a start": "bump(lists[0] + 1)",
    "an end": "bump(lists[1] + 2, -1)",
    "a start before the submitted one": "said[lists[0] + 2] = '0'",
    "a start behind every end": "bump(lists[0] + 2, int(said[lists[1] + 2]))",
    "an end behind the submitted one": "bump(lists[1] + 1, 1)",
    "the start of a read of length 0": "bump(lists[0] + 3 + (call[1] == '4'))",
    "a move more": "bump(1)",
    "many moves": "bump(1, 1000000000)",
    "no moves": "said[1] = '0' if int(said[1]) else '1'",
    "the other word": "head(*(('settled', said[1]) if word == 'clash' else ('clash', said[1], 0)))",
    "nothing narrowed": f"said = ['settled', '0', {SUBMITTED}]",
    "the word of the checker": "said[0] = 'holds'",
    "a word more": "said += ['0']",
    "a word less": "said.pop()",
    "a list less": "del said[lists[1]:]",
    "lists of other lengths": "said[lists[0]] = str(int(said[lists[0]]) + 1); said.insert(lists[0] + 1, '0')",
    "nothing": "said = []",
    "no number": "said[-1] = '-1'",
    **{f"refused {number}": f"head('refused', {number})" for number in range(9)},
    **{f"a clash of read {job} by {count} moves": f"said = ['clash', '{count}', '{job}', {SUBMITTED}]" for job, count in ((0, 0), (0, 3), (2, 1), (3, 3), (99, 3))},
}
OF_A_HEAD_CLASH = {
    "another read": "bump(2)", "a read of length 0": "said[2] = '3'", "a read that is not there": "said[2] = '99'", "a start": "bump(lists[0] + 1)", "a move less": "bump(1, -1)",
}

# Programs that do not answer at all, or not to the end.
MUTE = {
    "none": "/none", "nothing": "exec true", "not well": "exec false", "killed": "kill -9 $$", "the lines": "exec cat", "without end": "exec yes", "an empty line": "echo; exec cat",
    "the first line alone": "read -r x; echo record 0", "half a line": "read -r x; echo record 0; read -r x; printf 'settled 0'", "two lines": "'%s' | sed -u p",
    "a line too much": "'%s'; echo none", "an end that is not well": "'%s'; exit 3", "unreadable": "read -r x; echo record 0; read -r x; echo unreadable; exec cat",
    "bytes": "'%s' | sed -u 's/settled/\\xff/'",
}


def lies() -> None:
    put("settled.csv", SETTLED)
    put("clash.csv", CLASH)
    put("two.rcp", "2 1\n5\n3 1 1 2\n4 2 0\n")
    bench(SETTLED, "--log", "settled.log")
    bench(CLASH, "--log", "clash.log")
    for name, lie in LIES.items():
        for file in ("settled.csv", "clash.csv"):
            lied((name, file), stand_in(lie), file, *WRITTEN)
    for name, lie in OF_A_CLASH.items():
        lied(("of a clash", name), stand_in(lie), "clash.csv", *WRITTEN)
    nobody = "if word == 'clash': said[2] = '99'\n        elif name == 'conflict': said[lists[0] + 1], said[lists[0] + 4] = '0', '8'"
    lied("a window that is too short, of a read that is not there", stand_in(nobody), put("short.csv", listing("a 0 4 5 1")), *WRITTEN)
    for name, lie in OF_WHY.items():
        lied(("of the reasons", name), stand_in(lie), "settled.csv", "--why", *WRITTEN)
    for name, lie in OF_A_LOG.items():
        lied(("of a log", name), stand_in(lie), "--check", "settled.log")
        lied(("of a log beside its list", name), stand_in(lie), "settled.csv", "--check", "settled.log", "--json", *WRITTEN[2:])
    for name, lie in OF_A_CLASH.items():
        if not name.startswith(("the read", "both")):
            lied(("of a log that clashes", name), stand_in(lie.replace("turn > 3", "turn > 2")), "--check", "clash.log")


def of_the_head() -> None:
    """Of lists, plans, and a list that has to be refused."""
    files = {put("head.csv", HEAD_SETTLED): OF_THE_HEAD, put("headclash.csv", HEAD_CLASH): {**OF_THE_HEAD, **OF_A_HEAD_CLASH}, put("headshort.csv", HEAD_SHORT): {**OF_THE_HEAD, **OF_A_HEAD_CLASH}}
    for file, lies_ in files.items():
        for name, lie in lies_.items():
            lied(("of the read head", name, file), stand_in(f"if name == 'head': {lie}"), file, "--head", *WRITTEN[2:])
    put("apart.csv", "unit,start\na,5\nb,8\nc,1\nz,2\n")
    put("across.csv", "unit,start\na,5\nb,7\nc,1\nz,2\n")
    for name, lie, plan in (("a clash", "head('clash', 1, 0)", "apart.csv"), ("settled", "head('settled', 0)", "across.csv"), ("refused", "head('refused', 3)", "across.csv")):
        lied(("of a plan for the read head", name), stand_in(f"if name == 'head': {lie}"), "head.csv", "--head", "--plan", plan, *WRITTEN[2:])
    great = put("great.csv", listing(f"a 0 {LIMITS.time + 1} 3 1"))
    for name, lie in (("settled", "head('settled', 0)"), ("a clash", "head('clash', 1, 0)"), ("another refusal", "head('refused', 2)"), ("other windows", "bump(lists[0] + 1)")):
        lied(("of a list to be refused", name), stand_in(f"if name == 'head': {lie}"), great, "--head", *WRITTEN[2:])


def mute() -> None:
    for name, lines in MUTE.items():
        program = lines if lines.startswith("/") else script("mute", lines.replace("%s", ASKED))
        for words in (["settled.csv", *WRITTEN], ["settled.csv", "--check", "settled.log"], ["two.rcp", "--resource", "0"], ["head.csv", "--head"]):
            if name != "bytes" or words[1:] == [*WRITTEN]:
                lied((name, words[0]), program, *words)


def honest() -> None:
    """A stand-in that tells the truth is believed, so that it is the lies that are found."""
    with probe(stand_in("pass")):
        for words, status in ((["settled.csv", "--why"], 0), (["clash.csv", "--why"], 1), (["--check", "settled.log"], 0), (["--check", "clash.log"], 1), (["two.rcp", "--resource=0"], 0),
                              (["head.csv", "--head"], 0), (["headclash.csv", "--head"], 1), (["headshort.csv", "--head"], 1), (["head.csv", "--head", "--plan", "apart.csv"], 0), (["great.csv", "--head"], 3)):
            check(("honest", words), run(*words).status, status)


def main() -> int:
    lies()
    of_the_head()
    mute()
    honest()
    return finished()


if __name__ == "__main__":
    sys.exit(main())
