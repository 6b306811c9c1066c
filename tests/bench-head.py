"""What ./bench --head tells of lists of reads and of projects, one read at a time, in exact words: windows, clashes, fixed starts, plans, refusals, pictures,
models, for people and for programs (docs/BENCH.md, 'One read at a time'). PROBE is the program that is asked. Says what went wrong and ends with status 1,
or says nothing.
"""

from __future__ import annotations

import sys
from pathlib import Path
from xml.etree import ElementTree

from benching import LIMITS, TOP, Said, bench, check, finished, listing, put, run

RESTS = "on the call's proved contract: there is no log for the read head yet, so no reasons are told."
WINDOWS, CLASH = f"These windows rest {RESTS}", f"The clash rests {RESTS}"
LIES = "Every schedule with one read at a time lies in the windows now; that there is one is not said."
UNSAID = "Which of the reads cannot be read one after another is not said here: one of them has to get"
OWN = "Which reads overlap, and when, is the command's own count."
GOOD = "The plan is good: every read lies in its submitted window, and no two that last overlap."
COARSER = "A clash of the coarser list does not say that the finer one has no schedule."
CHAINS = "The project's precedences count here by their longest chains alone; starts have to respect each of them besides."

# Rows of unit, earliest start, latest end and length. The first settles with a latest end that a set of two bounds; the second needs three moves for its clash.
SETTLED = ("a 0 10 3", "b 0 10 3", "c 0 5 4")
CLASHING = ("a 0 7 3", "b 2 7 3", "c 4 6 1", "z 3 3 0")


def heads(*rows: str, notes: str = "") -> str:
    """The text of a list without draws and supply."""
    return "\n".join((*notes.splitlines(), "unit,earliest,latest,length", *(",".join(row.split()) for row in rows), ""))


def head(text: str, *words: str) -> Said:
    return bench(text, "--head", *words)


def planned(text: str, *starts: str, words: tuple[str, ...] = ()) -> Said:
    return head(text, "--plan", put("plan.csv", "\n".join(("unit,start", *starts, ""))), *words)


def settled() -> None:
    check("settled", head(heads(*SETTLED)), Said([
        f"Settled for one read at a time: 3 of 3 windows narrowed, by 3 moves from the submitted windows. {LIES}", WINDOWS, "",
        "unit  submitted   now  lasts  leeway",
        "a          0-10  4-10      3       3",
        "b          0-10  4-10      3       3",
        "c           0-5   0-4      4       0"], 0, ""))
    check("one move", head(heads("a 0 9 2", "b 0 2 2")).lines[:2], [f"Settled for one read at a time: 1 of 2 windows narrowed, by 1 move from the submitted windows. {LIES}", WINDOWS])
    # No schedule is there, and no rule finds that.
    check("nothing narrowed", head(heads("a 1 4 2", "b 0 5 2", "c 0 5 2")).lines[:2], [f"Settled for one read at a time: no window is narrowed. {LIES}", WINDOWS])
    check("reads of length 0", [read["now"] for read in head(heads("a 0 4 4", "z 2 2 0", "y 0 9 0"), "--json").object["reads"]], [[0, 4], [2, 2], [0, 9]])
    check("no reads", head(heads()), Said(["Settled: there are no reads."], 0, ""))
    example = str(TOP / "examples/head.csv")
    check("the example", (run(example, "--head").lines[0], run(example).lines[0]), (
        f"Settled for one read at a time: 3 of 6 windows narrowed, by 6 moves from the submitted windows. {LIES}",
        "Settled: no window is narrowed. Every schedule lies in the windows now; that there is one is not said."))


def clashes() -> None:
    check("a clash", head(heads(*CLASHING)), Said([
        "Clash: these 4 reads have no schedule with one read at a time. The last of 3 moves leaves “b” no start.", CLASH, "",
        "unit  submitted  now  lasts  leeway",
        "a           0-7    -      3       -",
        "b           2-7    -      3       -",
        "c           4-6    -      1       -",
        "z           3-3    -      0       -", "", f"{UNSAID} another window, or another day."], 1, ""))
    check("one move", head(heads("a 0 4 3", "b 0 4 3")).lines[0], "Clash: these 2 reads have no schedule with one read at a time. The first move leaves “a” no start.")
    short = head(heads("a 0 9 2", "b 4 6 3", "c 1 0 0"))
    check("too short", short, Said([
        "Clash: these 3 reads have no schedule with one read at a time. The window of “b” is too short.", "",
        "unit  submitted  now  lasts  leeway",
        "  a         0-9    -      2       -",
        "* b         4-6    -      3       -",
        "  c         1-0    -      0       -", "",
        "1. “b” lasts 3, and its window from 4 to 6 is shorter, so no start is left for it.", "",
        "“b” cannot be read in its submitted window, whatever becomes of the others."], 1, ""))
    check("too short, alone", head(heads("b 4 6 3")).lines[0], "Clash: this read has no schedule with one read at a time. The window of “b” is too short.")


def fixed() -> None:
    """On the clock, with starts that are fixed."""
    text = heads("a 08:00 09:40 00:45", "b 08:00 09:50 50", "c 08:20 11:00 20", notes="# time: HH:MM")
    check("settled", head(text, "--fix", "b=08:50"), Said([
        "Settled for one read at a time with “b” at 08:50: 2 of 3 windows narrowed, by 3 moves. This says what is left, not that there is a schedule.", WINDOWS, "",
        "unit    submitted          now   lasts  leeway",
        "a     08:00-09:40  08:00-08:50  45 min   5 min",
        "b     08:00-09:50  08:50-09:40  50 min   0 min",
        "c     08:20-11:00  09:40-11:00  20 min  60 min"], 0, ""))
    clash = head(text, "--fix", "b=08:30")
    check("a clash", (clash.lines[:2], clash.lines[-1], clash.status), (
        ["Clash: no schedule with one read at a time starts “b” at 08:30. The first move leaves “a” no start.", CLASH], f"{UNSAID} another start, another window, or another day.", 1))
    outside = head(text, "--fix", "b=09:30")
    check("outside", (outside.status, outside.error), (2, "--fix b=09:30: “b” would be read from 09:30 to 10:20, outside its submitted window 08:00 to 09:50"))


def lists() -> None:
    """A list for draws is taken as it is, whatever its draws are, and what is not looked at is said once. Without --head draws and supply have to be there."""
    wanted = head(heads(*SETTLED)).lines
    rows = [f"{row} {draw}" for row, draw in zip(SETTLED, ("3", "much", "10001"))]
    for text, unused in ((listing(*rows), "the column “draw” and the line “# supply”"),
                         (listing(*rows, supply="none", notes="# step: 0"), "the column “draw”, the line “# supply” and the line “# step”"),
                         (listing(*SETTLED, header="unit,earliest,latest,length"), "the line “# supply”"),
                         (heads(*rows).replace("length", "length,Current (mA)"), "the column “Current (mA)”"),
                         (heads(*(f"{row} 1 7" for row in SETTLED)).replace("length", "length,draw,shelf"), "the columns “draw” and “shelf”"),
                         (listing(*(f"{row} 1 7" for row in SETTLED), header="unit,earliest,latest,length,draw,shelf"), "the columns “draw” and “shelf”, and the line “# supply”")):
        check(text, head(text), Said([*wanted[:2], f"Not used: {unused}.", *wanted[2:]], 0, ""))
    bare = bench(heads(*SETTLED))
    check("draws are needed", (bare.status, bare.error), (2, "list.csv:1:1: the header has no column draw\nlist.csv:1:1: there is no line '# supply: ..'"))
    for text, error in ((heads(*SETTLED).replace("length", "span"), "list.csv:1:1: the header has no column length"), ("# only\n", "list.csv:1:1: there is no header with unit, earliest, latest, length"),
                        (heads("a 0 9 2,5"), "list.csv:2:9: the cell '5' stands under no name of the header"), (heads("a 0 9 x"), "list.csv:2:7: the length 'x' is not a whole number of ticks"),
                        (heads("a 0 9 1", notes="# time: days"), "list.csv:1:9: the time 'days' is neither HH:MM nor ticks")):
        check(text, head(text), Said([], 2, error))


def plans() -> None:
    """Reads may touch, and one of length 0 may lie in another."""
    text = heads("a 0 9 3", "b 0 9 2", "z 0 9 0")
    check("good", planned(text, "a,0", "b,3", "z,1"), Said([
        GOOD, "", "unit  submitted  planned  lasts", "a           0-9      0-3      3", "b           0-9      3-5      2", "z           0-9      1-1      0"], 0, ""))
    check("bad", planned(text, "a,0", "b,2", "z,1"), Said([
        "The plan is bad: reads overlap.", "",
        "unit  submitted  planned  lasts", "* a         0-9      0-3      3", "* b         0-9      2-4      2", "  z         0-9      1-1      0", "",
        "1. “a” and “b” are both being read from 2 to 3.", "", OWN], 1, ""))
    told = planned(text, "a,0", "b,2", "z,1", words=("--json",)).object
    check("for programs", {key: told.get(key) for key in ("answer", "plan", "head", "fixed", "sentences", "together", "records")}, {
        "answer": "clash", "plan": "bad", "head": True, "fixed": {"a": 0, "b": 2, "z": 1}, "sentences": ["“a” and “b” are both being read from 2 to 3."], "together": ["a", "b"], "records": None})
    check("outside", planned(text, "a,0", "b,8", "z,1"), Said(["The plan is bad: “b” would be read from 8 to 10, outside its submitted window 0 to 9."], 1, ""))
    check("outside, for programs", planned(text, "a,0", "b,8", "z,1", words=("--json",)).object["together"], [])
    check("no start", planned(text, "a,0", "z,1"), Said(["The plan is bad: it has no start for “b”."], 1, ""))
    # The earliest stretch first; of many pairs some are named.
    rows, starts = [f"u{place} 0 99 9" for place in range(8)], [f"u{place},{9 - place}" for place in range(8)]
    many = planned(heads(*rows), *starts, words=("--json",)).object
    check("many", (many["sentences"][0], len(many["sentences"]), many["sentences"][-1], len(many["together"])), (
        "“u6” and “u7” are both being read from 3 to 11.", 21, "8 more pairs of reads overlap.", 8))
    seven = planned(heads(*rows[:7]), *starts[:7], words=("--json",)).object["sentences"]
    check("one more", (len(seven), seven[-1]), (21, "1 more pair of reads overlaps."))


def refusals() -> None:
    time = LIMITS.time
    many, great = heads(*(f"u{place} 0 9 1" for place in range(LIMITS.jobs + 1))), heads("a 0 9 1", f"b 0 {time + 1} 1")
    lines = {2: [f"refused 2: There are more than {LIMITS.jobs} jobs.", "Where reads fall into parts whose windows do not overlap, make a list of each part."],
             3: ["refused 3: A number is above its limit.", f"“b”: the latest end {time + 1} is above {time}.",
                 f"Take a coarser step of time. Round so that no window gets wider and no read shorter: earliest starts up, latest ends down, lengths up. {COARSER}"]}
    for number, text in ((2, many), (3, great)):
        check(number, head(text), Said(lines[number], 3, ""))
        told = head(text, "--json", "--mzn", "o.mzn").object
        check((number, "for programs"), [told.get(key) for key in ("answer", "refusal", "head", "sentences", "together")], ["refused", number, True, [*lines[number], "o.mzn is not written."], []])
    check("as many as there may be", head(heads(*(f"u{place} 0 9 0" for place in range(LIMITS.jobs)))).status, 0)
    check("no file", Path("o.mzn").exists(), False)


def objects() -> None:
    reads = [{"unit": "a", "earliest": 0, "latest": 10, "length": 3, "now": [4, 10]}, {"unit": "b", "earliest": 0, "latest": 10, "length": 3, "now": [4, 10]},
             {"unit": "c", "earliest": 0, "latest": 5, "length": 4, "now": [0, 4]}]
    check("settled", head(heads(*SETTLED), "--json").object, {"answer": "settled", "count": 3, "head": True, "reads": reads, "sentences": [], "together": []})
    clash = head(heads(*CLASHING), "--json").object
    check("a clash", ({key: clash[key] for key in clash if key != "reads"}, [read["now"] for read in clash["reads"]]), (
        {"answer": "clash", "count": 3, "job": 1, "head": True, "sentences": []}, [[0, 7], [2, 7], [4, 6], [3, 3]]))
    short = head(heads("a 0 9 2", "b 4 6 3"), "--json").object
    check("too short", (short["count"], short["job"], short["together"], len(short["sentences"])), (0, 1, ["b"], 1))
    check("not of the read head", "head" in bench(listing("a 0 9 1 1"), "--json").object, False)


def pictures() -> None:
    """The load is the number of reads at once; no draw is shown."""
    drawn = head(heads(*SETTLED), "--text-picture", "--picture", "o.svg").lines
    check("in letters", drawn[drawn.index("") + 6 :], [
        "  a    |....======|", "  b    |....======|", "  c    |####.     |", "  reads at once in any case, allowed 1", "     1 |####      |", "       +----+----", "       0    5",
        "one letter: 1 tick   . submitted   = narrowed window   # being read in any case"])
    for words, title, signs in (((), "list.csv: settled, 3 reads, one at a time", ["narrowed window", "being read in any case", "allowed"]),
                                (("--fix", "a=7"), "list.csv: settled, 1 start fixed, 3 reads, one at a time", ["allowed"]),
                                (("--fix", "a=0"), "list.csv: clash, 1 start fixed, 3 reads, one at a time", ["window, not narrowed"]),
                                (("--plan", put("plan.csv", "unit,start\na,4\nb,6\nc,0\n")), "list.csv: plan bad, 3 reads, one at a time", ["overlap", "more than one at once", "reads at once", "allowed"])):
        status = head(heads(*SETTLED), "--picture", "o.svg", *words).status
        said = [element.text for element in ElementTree.parse("o.svg").iter() if element.tag.endswith("text")]
        check((words, "picture"), (said[0], [sign for sign in signs if sign not in said], "draws" in said, "supply" in said, status), (title, [], False, False, int("settled" not in title)))
    head(heads("a 0 9 3", "z 1 2 0"), "--mzn", "o.mzn")
    model = Path("o.mzn").read_text("utf-8").splitlines()
    check("what a model says", model[0].endswith("lengths, draws of 1, and of 0 for reads of length 0, from a supply of 1, so that one is read at a time."), True)
    check("a model", [line for line in ("int: supply = 1;", "array[1..n] of int: r = [1, 0];", "constraint cumulative(s, p, r, supply);") if line not in model], [])


def projects() -> None:
    two, three, unused = put("two.rcp", "2 1\n5\n3 1 1 2\n4 2 0\n"), put("three.rcp", "3 1\n5\n3 3 0\n3 3 0\n1 1 0\n"), "Not used: the demands on resource 0 and its capacity."
    check("settled", run(two, "--resource", "0", "--head").lines[:4], [f"Settled for one read at a time: no window is narrowed. {LIES}", WINDOWS, f"The horizon is 7. {CHAINS}", unused])
    clash = run(three, "--resource", "0", "--head")
    check("a clash", (clash.lines[0], clash.lines[-1], clash.status), (
        "Clash: these 3 reads have no schedule with one read at a time by the horizon 3. The first move leaves “job 1” no start.", f"{UNSAID} another window, or all of them a later horizon.", 1))
    check("a later horizon", run(three, "--resource", "0", "--horizon", "7", "--head").status, 0)
    plan = put("plan.csv", "job,at\njob 1,0\njob 2,3\n")
    found = run(two, "--resource", "0", "--head", "--plan", plan)
    check("a plan", (found.lines[:3], found.status), ([f"{GOOD} Every precedence is kept; the project's resources were not looked at.", "The horizon is 7.", unused], 0))
    both = [run(str(TOP / f"instances/j301_1.{kind}"), "--resource", "0", "--head", "--horizon", "200") for kind in ("rcp", "sm")]
    check("both layouts", (both[0].lines, both[0].status), (both[1].lines, 0))
    check("for programs", [run(two, "--resource", "0", "--head", "--json").object.get(key) for key in ("head", "horizon", "supply")], [True, 7, None])
    check("a project needs its resource", run(two, "--head").error, "A project needs --resource K, counted from 0. ./bench --help lists what there is.")


def main() -> int:
    settled()
    clashes()
    fixed()
    lists()
    plans()
    refusals()
    objects()
    pictures()
    projects()
    return finished()


if __name__ == "__main__":
    sys.exit(main())
