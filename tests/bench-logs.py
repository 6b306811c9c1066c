"""What ./bench says of logs, by its own hand and by others, alone and beside a list (docs/BENCH.md, 'Logs'; docs/ANSWERS.md, 'The log file'). PROBE is the
program that is asked. Says what went wrong and ends with status 1, or says nothing.
"""

from __future__ import annotations

import re
import sys
from pathlib import Path

from benching import TOP, Said, bench, check, finished, listing, put, run

ANSWERS = (TOP / "docs/ANSWERS.md").read_text("utf-8")
CODES = dict(re.findall(r"^\| (2\d) \| ([^|]*\.) \| ", ANSWERS.split("## Codes")[1], re.MULTILINE))
ALONE = "against the windows that the log itself states"
BESIDE = "against the submitted windows of the list"
LIES = "Every schedule lies in the windows now; that there is one, or that nothing more can be narrowed, is not said."
ENDS = "and a clash, so there is no schedule."
A3 = "“a” is being read in any case and draws 3 of 5. “b” draws 3, so it is not read then;"

# Two reads on a supply of 5 that cannot be read together, and two of which nothing is said.
ROWS = ["a 0 10 10 3", "b 0 10 2 3", "c 0 20 2 5", "d 0 9 0 5"]


def log(*records: str, end: str = "", rows: list[str] = ROWS, head: str = "time ticks\nstep 1\nsupply 5") -> str:
    """The text of a log; it ends with `holds` where nothing else is said."""
    reads = ["read {1} {2} {3} {4} \"{0}\"".format(*row.split()) for row in rows]
    return "\n".join(("tarqumbet-log 1", head, *reads, *(f"record {record}" for record in records), f"end {end or f'holds {len(records)}'}", ""))


def taken(what: str, text: str, status: int, *sentences: str, first: str) -> None:
    """The log is taken alone and beside its list, with these sentences."""
    for where, words in ((ALONE, []), (BESIDE, [put("list.csv", listing(*ROWS))])):
        found = run(*words, "--check", put("log", text))
        check((what, where), (found.lines[:1], [line for line in found.lines if line[:1].isdigit()], found.status, found.error), (
            [first.format(where)], [f"{place}. {said}" for place, said in enumerate(sentences, 1)], status, ""))
        told = run(*words, "--check", "log", "--json")
        wanted = ("good", "list" if words else "log", list(sentences), status)
        check((what, where, "for programs"), (told.object.get("log"), told.object.get("against"), told.object.get("sentences"), told.status), wanted)


def good() -> None:
    taken("no records", log(), 0, first=f"The log holds, checked {{}}: 0 records. {LIES}")
    taken("a record", log("1 0 1 0"), 0, f"At time 1 {A3} nor can it be through before, so it starts at 2 or later.", first=f"The log holds, checked {{}}: 1 record. {LIES}")
    taken("one side, then the other, then back", log("1 0 0 0", "1 0 2 0", "1 1 8 0", "1 0 4 0"), 0,
          f"At times 0 and 2 {A3} nor can it be through before the first of these times, or fit between them, so it starts at 3 or later.",
          f"At time 8 {A3} nor can it start later, so it ends by 8.",
          f"At time 4 {A3} nor can it be through before, so it starts at 5 or later.", first=f"The log holds, checked {{}}: 4 records. {LIES}")
    taken("a clash on side 1", log("1 1 8 0", "1 1 6 0", "1 1 4 0", "1 1 3 0", "1 1 1 0", end="clash 5 1"), 1,
          f"At times 1, 3 and so on to 8 (5 records) {A3} nor can it start after the last of these times, or fit between them, so it ends by 1. "
          "It lasts 2 and cannot start before 0, so no start is left for it.", first=f"The log holds, checked {{}}: 5 records {ENDS}")
    taken("a clash of both sides", log("1 0 1 0", "1 0 3 0", "1 1 8 0", "1 1 6 0", "1 1 5 0", end="clash 5 1"), 1,
          f"At times 1 and 3 {A3} nor can it be through before the first of these times, or fit between them, so it starts at 4 or later.",
          f"At times 5, 6 and 8 {A3} nor can it start after the last of these times, or fit between them, so it ends by 5. It lasts 2 and cannot start before 4, so no start is left for it.",
          first=f"The log holds, checked {{}}: 5 records {ENDS}")
    apart = ("2 0 1 0", "1 1 8 0", "2 0 2 0", "1 1 6 0", "1 1 4 0", "2 0 3 0", "1 1 2 0", "1 1 1 0")
    taken("what is not needed, told as one", log(*apart, end="clash 8 1"), 1,
          f"At times 1, 2 and so on to 8 (5 records) {A3} nor can it start after the last of these times, or fit between them, so it ends by 1. "
          "It lasts 2 and cannot start before 0, so no start is left for it.", first=f"The log holds, checked {{}}: 8 records {ENDS}")
    told = run("--check", put("log", log(*apart, end="clash 8 1")), "--json").object
    check("the records that are needed", (told["count"], [record["time"] for record in told["records"]], told["together"]), (8, [8, 6, 4, 2, 1], ["a", "b"]))


def alone() -> None:
    """The whole text, and the object, of a log by itself."""
    text = log("1 0 1 0", rows=['a 0 10 10 30', 'b 0 90 2 30'], head="time HH:MM\nstep 0.1 A\nsupply 50").replace('"b"', '"b ""2"", é"').replace("\n", "\r\n")
    check("text", run("--check", put("log", text)), Said([
        f"The log holds, checked {ALONE}: 1 record. {LIES}", "", "unit        submitted          now   lasts  draws  leeway", "a         00:00-00:10            =  10 min  3.0 A   0 min",
        'b "2", é  00:00-01:30  00:02-01:30   2 min  3.0 A  86 min', "",
        "1. In the minute of 00:01 “a” is being read in any case and draws 3.0 A of 5.0 A. “b \"2\", é” draws 3.0 A, so it is not read then; nor can it be through before, so it starts at 00:02 or later."], 0, ""))
    check("object", run("--check", "log", "--json").object, {
        "answer": "holds", "count": 1, "log": "good", "against": "log", "supply": 50, "reads": [{"unit": "a", "earliest": 0, "latest": 10, "length": 10, "draw": 30, "now": [0, 10]},
                                                                            {"unit": 'b "2", é', "earliest": 0, "latest": 90, "length": 2, "draw": 30, "now": [2, 90]}],
        "records": [{"job": 1, "side": 0, "time": 1, "members": [0]}],
        "sentences": ["In the minute of 00:01 “a” is being read in any case and draws 3.0 A of 5.0 A. “b \"2\", é” draws 3.0 A, so it is not read then; nor can it be through before, so it starts at 00:02 or later."],
        "together": []})
    short = run("--check", put("log", log(end="clash 0 0", rows=["a 0 4 9 1"])))
    check("a window that is too short", (short.lines[0], short.lines[-3], short.status), (f"The log holds, checked {ALONE}: 0 records {ENDS}", "1. “a” lasts 9, and its window from 0 to 4 is shorter, so no start is left for it.", 1))
    refused = run("--check", put("log", log(head="time ticks\nstep 1\nsupply 10001")))
    check("a log that is refused", (refused.lines[0], refused.lines[1], refused.status), ("refused 3: A number is above its limit.", "log:4: The supply 10001 is above 10000.", 3))
    check("for programs", [run("--check", "log", "--json").object.get(key) for key in ("answer", "refusal", "log", "against", "sentences")], ["refused", 3, None, "log", refused.lines])


# Records of a log, the place of the bad one and its code, and what that one says, where it speaks of reads of the list.
REJECTED = [
    (["4 0 1 0"], 0, 21, ""), (["1 2 1 0"], 0, 21, ""), (["1 0 1 0 255"], 0, 22, ""), (["1 0 1 4"], 0, 22, ""),
    (["1 0 1000001 0"], 0, 21, f"At time 1000001 {A3} nor can it be through before, so it starts at 1000002 or later."),
    (["3 0 1 0"], 0, 22, "At time 1 “a” is being read in any case and draws 3 of 5. “d” draws 5, so it is not read then; nor can it be through before, so it starts at 2 or later."),
    (["1 0 1 0 3"], 0, 22, "At time 1 “a” and “d” are being read in any case and draw 8 of 5. “b” draws 3, so it is not read then; nor can it be through before, so it starts at 2 or later."),
    (["1 0 1 1"], 0, 22, f"At time 1 {A3.replace('“a”', '“b”')} nor can it be through before, so it starts at 2 or later."),
    (["1 0 1"], 0, 24, "At time 1 “b” is not read, since it draws 3 and the supply gives 5; nor can it be through before, so it starts at 2 or later."),
    (["1 0 2 0"], 0, 25, f"At time 2 {A3} nor can it be through before, so it starts at 3 or later."), (["1 1 7 0"], 0, 25, f"At time 7 {A3} nor can it start later, so it ends by 7."),
    (["1 0 1 0", "1 0 4 0"], 1, 25, f"At time 4 {A3} nor can it be through before, so it starts at 5 or later."),
    (["1 0 1 0", "1 0 1 0"], 1, 26, f"At time 1 {A3} nor can it be through before, so it starts at 2 or later."),
    (["1 0 1 0", "1 0 3 0", "1 1 9 0", "1 1 8 0", "1 1 6 0", "1 1 5 0", "1 0 5 0"], 6, 20, f"At time 5 {A3} nor can it be through before, so it starts at 6 or later."),
]


def rejected(place: int, line: int, code: int, where: str, claim: str) -> list[str]:
    said = f"log:{line}: the log is rejected, checked {where}: at its record {place} code {code}: {CODES[str(code)]}"
    return [said, f"The record says: {claim}"] if claim else [said]


def bad() -> None:
    check("the codes of docs/ANSWERS.md", sorted(CODES), [str(number) for number in range(20, 28)])
    for records, place, code, claim in REJECTED:
        found = run("--check", put("log", log(*records)))
        wanted = rejected(place, place + 9, code, ALONE, claim)
        check(records, found, Said(wanted, 1, ""))
        told = run("--check", "log", "--json").object
        check((records, "for programs"), [told.get(key) for key in ("answer", "record", "code", "log", "against", "sentences", "records", "together")], ["rejected", place, code, "bad", "log", wanted, [], []])
        check((records, "windows"), [read["now"] for read in told["reads"]], [[0, 10], [0, 10], [0, 20], [0, 9]])
    beside_list = bench(listing(*ROWS), "--check", "log")
    check("beside its list", beside_list, Said(rejected(6, 15, 20, BESIDE, REJECTED[-1][3]), 1, ""))
    spare = log("1 0 1 0 2", rows=["a 0 10 10 3", "b 0 10 2 3", "c 0 10 10 1"])
    claim = "At time 1 “a” and “c” are being read in any case and draw 4 of 5. “b” draws 3, so it is not read then; nor can it be through before, so it starts at 2 or later."
    check("a spare member", run("--check", put("log", spare)).lines, rejected(0, 8, 27, ALONE, claim))
    ends = {"holds 1": "holds 0", "holds 00": "holds 0", "clash 0 1": "holds 0", "clash 1 2": "clash 1 1", "holds 1 ": "clash 1 1"}
    for end, said in ends.items():
        records = ["1 1 1 0"] if said.startswith("clash") else []
        rows = ["a 0 10 10 3", "b 0 2 2 3", *ROWS[2:]]
        found = run("--check", put("log", log(*records, end=end.strip(), rows=rows)))
        check(("the end", end), found, Said([f"log:{9 + len(records)}: the log is bad, checked {ALONE}: its end says '{end.strip()}', and the checker '{said}'."], 1, ""))
        check(("the end", end, "for programs"), run("--check", "log", "--json").object.get("log"), "bad")


def beside() -> None:
    """A log that is not of the list: the first difference is said, and nothing is asked."""
    clock = listing("a 00:00 00:10 10 3", "b 00:00 00:10 2 3", notes="# time: HH:MM")
    here = "the log is not of this list: "
    good = log("1 0 1 0", rows=ROWS[:2])
    for text, line, difference in (
        (clock, 2, "the log's time is ticks, the list's HH:MM"),
        (listing(*ROWS[:2], supply="5 A"), 3, "the log's step is 1, the list's 1 A"),
        (listing(*ROWS[:2], supply="6"), 4, "the log's supply is 5, the list's 6"),
        (listing(*ROWS[1::-1]), 5, "read 1 of the log is “a”, of the list “b”"),
        (listing(*ROWS), 8, "the log has 2 reads, the list 4"),
        (listing(ROWS[0]), 6, "the log has 2 reads, the list 1"),
        (listing("a 1 10 10 3", ROWS[1]), 5, "in the log “a” starts at 0 or later, in the list it starts at 1 or later"),
        (listing("a 0 11 10 3", ROWS[1]), 5, "in the log “a” ends by 10, in the list it ends by 11"),
        (listing("a 0 10 9 3", ROWS[1]), 5, "in the log “a” lasts 10, in the list it lasts 9"),
        (listing(ROWS[0], "b 0 10 2 4"), 6, "in the log “b” draws 3, in the list it draws 4"),
    ):
        found = bench(text, "--check", put("log", good))
        check(difference, found, Said([f"log:{line}: {here}{difference}."], 1, ""))
        told = bench(text, "--check", "log", "--json").object
        check((difference, "for programs"), [told.get(key) for key in ("answer", "log", "sentences", "records")], [None, "bad", [f"log:{line}: {here}{difference}."], []])
    accents = listing("e\u0301 0 10 10 3", ROWS[1]), log("1 0 1 0", rows=["\u00e9 0 10 10 3", ROWS[1]])
    check("for programs, against", told.get("against"), "list")
    check("an accent that is coded otherwise", bench(accents[0], "--check", put("log", accents[1])).status, 0)


def written() -> None:
    """What --log writes."""
    text = listing('"a,_1" 0 10 10 1.5A', "b 0 90 2 1.5A", supply="2.5A", notes="# step: 0.5 A").replace("_", '""')
    bench(text, "--log", "own.log")
    check("a log", Path("own.log").read_text("utf-8"), 'tarqumbet-log 1\ntime ticks\nstep 0.5 A\nsupply 5\nread 0 10 10 3 "a,""1"\nread 0 90 2 3 "b"\n'
          + "".join(f"record 1 0 {time} 0\n" for time in (1, 3, 5, 7, 9)) + "end holds 5\n")


def fixed() -> None:
    """A log with starts that are fixed, which are said, alone and beside its list with the same starts and with others."""
    text, starts = listing("x 0 4 4 3", "y 0 20 2 3", "a 30 34 4 3", "b 30 60 4 3"), ("--fix", "b=30")
    bench(text, *starts, "--log", "own.log")
    check("a log with starts that are fixed", Path("own.log").read_text("utf-8").splitlines()[7:], ['read 30 60 4 3 "b"', "fix 3 30", "record 2 0 33 3", "end clash 1 2"])
    told = bench(text, *starts)
    for words, where in ((["--check", "own.log"], ALONE), ([put("list.csv", text), *starts, "--check", "own.log"], BESIDE)):
        found, for_programs = run(*words), run(*words, "--json").object
        check((words, "a clash"), (found.lines[0], found.status), (f"The log holds, checked {where} with “b” at 30: 1 record and a clash, so no schedule starts “b” at 30.", 1))
        check((words, "the rest"), found.lines[1:], told.lines[1:])
        check((words, "for programs"), (for_programs["fixed"], [read["now"] for read in for_programs["reads"]]), ({"b": 30}, [[0, 4], [0, 20], [30, 34], [30, 34]]))
    other = "the log is not of this list: in the log "
    for words, line, said in (([], 9, "“b” starts at 30, and here it has no fixed start"), (["--fix", "b=31"], 9, "“b” starts at 30, and here it starts at 31"),
                        ([*starts, "--fix", "x=0"], 11, "“x” has no fixed start, and here it starts at 0")):
        check(words, bench(text, *words, "--check", "own.log"), Said([f"own.log:{line}: {other}{said}."], 1, ""))
    bench(text, "--log", "plain.log")
    check("a log without them", bench(text, *starts, "--check", "plain.log").lines, ["plain.log:12: the log is not of this list: in the log “b” has no fixed start, and here it starts at 30."])
    bench(text, "--fix", "b=40", "--fix", "y=9", "--log", "own.log", "--picture", "own.svg")
    check("two", [line for line in Path("own.log").read_text("utf-8").splitlines() if line.startswith(("fix", "end"))], ["fix 1 9", "fix 3 40", "end holds 0"])
    found = run("--check", "own.log", "--picture", "log.svg")
    starts_said = "“y” at 9 and “b” at 40"
    check("two, checked", (found.lines[0], found.status), (
        f"The log holds, checked {ALONE} with {starts_said}: 0 records. Every schedule that starts {starts_said} lies in the windows now; that there is one, or that nothing more can be narrowed, is not said.", 0))
    titles = [re.search("<title>(.*)</title>", Path(file).read_text("utf-8"))[1] for file in ("own.svg", "log.svg")]
    check("pictures", titles, ["list.csv: settled, 2 starts fixed, 4 reads, supply 5", "own.log: holds, 2 starts fixed, 4 reads, supply 5"])
    by_hand = log("1 0 3 0", rows=["a 0 20 4 3", "b 0 20 4 3"])
    check("by another hand", run("--check", put("log", by_hand)).lines[0].split(": ")[0], "log:7")
    with_fix = by_hand.replace("record", "fix 0 0\nrecord")
    check("with its start", run("--check", put("log", with_fix)).status, 0)


def main() -> int:
    good()
    alone()
    bad()
    beside()
    written()
    fixed()
    return finished()


if __name__ == "__main__":
    sys.exit(main())
