"""What ./bench tells of lists that the calls refuse, and of projects of partners, taken or refused: words, advice, horizons, and the object for programs
(docs/BENCH.md). PROBE is the program that is asked. Says what went wrong and ends with status 1, or says nothing.
"""

from __future__ import annotations

import sys
from pathlib import Path

from benching import LIMITS, TOP, Said, bench, check, finished, listing, put, run

ROUND = (
    "Round so that no window gets wider, no read shorter, no draw less and the supply no greater: earliest starts up, latest ends down, lengths and draws up. "
    "A clash of the coarser list does not say that the finer one has no schedule."
)
PARTS = "Where reads fall into parts whose windows do not overlap, make a list of each part."
CHAINS = "The project's precedences count here by their longest chains alone; starts have to respect each of them besides."

# A list that is refused, and what is said of it.
REFUSED = [
    (listing(*(f"u{number} 0 9 1 1" for number in range(LIMITS.jobs + 1))), 2, [f"refused 2: There are more than {LIMITS.jobs} jobs.", PARTS]),
    (listing("a 0 9 1 10001", "b 0 1000001 1 1", supply="10001"), 3, [
        "refused 3: A number is above its limit.", "The supply 10001 is above 10000.", "“b”: the latest end 1000001 is above 1000000.", "“a”: the draw 10001 is above 10000.",
        f"Take a coarser step of time or of draws. {ROUND}"]),
    (listing("a 0 30000 30000 3", "b 0 60000 1 3"), 5, [
        "refused 5: The work needs more records than the log has room for.",
        f"Take a coarser step of time, such as minutes in place of seconds: fewer records are needed then. {ROUND}"]),
]


UNWRITTEN = ("refused.log is not written.", "refused.mzn is not written.")


def refusals() -> None:
    for text, number, lines in REFUSED:
        check((number, "text"), bench(text), Said(lines, 3, ""))
        told = bench(text, "--json", "--log", "refused.log", "--mzn", "refused.mzn").object
        check((number, "for programs"), [told.get(key) for key in ("answer", "refusal", "records", "sentences", "together", "plan", "log", "count")], ["refused", number, [], [*lines, *UNWRITTEN], [], None, None, None])
        check((number, "windows"), all(read["now"] == [read["earliest"], read["latest"]] for read in told["reads"]), True)
    check("no files of what is refused", (Path("refused.log").exists(), Path("refused.mzn").exists()), (False, False))
    plan = put("plan.csv", "unit,start\na,0\nb,0\n")
    planned = bench(REFUSED[1][0], "--plan", plan, "--json").object
    check("a plan that is refused", [planned.get(key) for key in ("answer", "refusal", "plan", "fixed")], ["refused", 3, None, {"a": 0, "b": 0}])
    check("a start that is fixed leaves room", bench(REFUSED[2][0], "--fix", "b=30000").status, 0)


def layouts() -> None:
    """Both layouts; windows by the longest chains; jobs as the file counts them."""
    files = [str(TOP / f"instances/j301_1.{kind}") for kind in ("rcp", "sm")]
    one, other = (run(file, "--resource", "0") for file in files)
    check("both layouts", (one.lines, one.status), (other.lines, 0))
    check("a project", one.lines[1], f"The horizon is 38. {CHAINS}")
    check("jobs", [line.split()[:2] for line in one.lines[4:36]], [["job", str(number)] for number in range(1, 33)])
    check("horizons", [run(files[0], "--resource=0", f"--horizon={time}").lines for time in ("38", "auto", "0038")], [one.lines] * 3)
    short = run(files[1], "--resource", "0", "--horizon", "37")
    check("a short horizon", short, Said(["refused 34: The horizon is shorter than the longest chain.", "hint: the least horizon that is taken is 38."], 3, ""))
    check("a later horizon", (run(files[0], "--resource=0", "--horizon=39").lines[1], run(files[0], "--resource=0", "--horizon=39", "--json").object["horizon"]), (f"The horizon is 39. {CHAINS}", 39))
    for words, number in (([files[0], "--resource", "4"], 37), ([files[0], "--resource", "0", "--horizon", "1"], 34), ([put("x.rcp", "1 x"), "--resource", "0"], 30)):
        said, told = run(*words), run(*words, "--json")
        check((words, "said"), (said.lines[0].startswith(f"refused {number}: "), said.lines[1].startswith("hint: "), said.status), (True, True, 3))
        check((words, "for programs"), (told.object, told.status), ({"answer": "refused", "refusal": number, "sentences": said.lines}, 3))


def projects() -> None:
    two = put("two.rcp", "2 1\n5\n3 1 1 2\n4 2 0\n")
    good = "The plan is good: every read lies in its submitted window, and at no time is more drawn than 5. Every precedence is kept; the project's other resources were not looked at."
    for starts, lines, status in (((0, 3), [good, "The horizon is 8."], 0),
                                  ((1, 3), ["The plan is bad: “job 2” starts at 3, before “job 1”, which comes first, ends at 4."], 1),
                                  ((0, 5), ["The plan is bad: “job 2” would be read from 5 to 9, outside its submitted window 3 to 8 by the horizon 8."], 1)):
        plan = put("plan.csv", f"job,at\njob 1,{starts[0]}\njob 2,{starts[1]}\n")
        found = run(two, "--resource", "0", "--horizon", "8", "--plan", plan)
        check(starts, (found.lines[:2], found.status), (lines, status))
        told = run(two, "--resource", "0", "--horizon", "8", "--plan", plan, "--json").object
        check((starts, "for programs"), [told.get(key) for key in ("horizon", "fixed")], [8, {"job 1": starts[0], "job 2": starts[1]}])
    broken = run(two, "--resource", "0", "--horizon", "9", "--fix", "job 1=1", "--fix", "job 2=3")
    check("starts that break a precedence", (broken.status, broken.error), (2, "--fix: “job 2” starts at 3, before “job 1”, which comes first, ends at 4"))
    fixed = run(two, "--resource", "0", "--horizon", "9", "--fix", "job 2=5", "--json").object
    check("a start that is fixed", (fixed["reads"][1]["now"], fixed["horizon"], fixed["fixed"]), ([5, 9], 9, {"job 2": 5}))
    check("no horizon of a list", "horizon" in bench(listing("a 0 9 1 1"), "--json").object, False)
    one = run(put("one.rcp", "1 1 1 1 2 0"), "--resource", "0")
    check("a clash of one", (one.lines[:2], one.lines[-1]), (["Clash: this read has no schedule on 1 by the horizon 1. The checker took the record from the submitted windows.", f"The horizon is 1. {CHAINS}"],
                                                            "“job 1” cannot be read in its submitted window on this supply."))
    three, later = put("three.rcp", "3 1\n5\n3 3 0\n3 3 0\n1 1 0\n"), "all of them a later horizon."
    clash, with_start = (run(three, "--resource", "0", *words) for words in ([], ["--fix", "job 1=0"]))
    check("a clash", (clash.lines[0], clash.lines[-1]), (
        "Clash: these 3 reads have no schedule on 5 by the horizon 3. The checker took the record from the submitted windows.",
        f"“job 1” and “job 2” cannot be read together in their submitted windows on this supply, whatever becomes of the others: one of them has to get another window, or {later}"))
    check("a clash with a start", (with_start.lines[0], with_start.lines[-1].split(": ")[1]), (
        "Clash: no schedule on 5 by the horizon 3 starts “job 1” at 0. The checker took the record.", f"one of them has to get another start, another window, or {later}"))
    check("a clash, for programs", run(three, "--resource", "0", "--json").object["horizon"], 3)
    words = [three, "--resource", "0", "--horizon", "9", "--fix", "job 1=0"]
    run(*words, "--log", "own.log")
    check("a log of a project", (run(*words, "--check", "own.log").lines[1], run(*words, "--check", "own.log", "--json").object["horizon"]), (f"The horizon is 9. {CHAINS}", 9))
    words[4] = "8"
    check("a log by another horizon", run(*words, "--check", "own.log"), Said(["own.log:5: the log is not of this list: in the log “job 1” ends by 9, in the list it ends by 8."], 1, ""))


def main() -> int:
    refusals()
    layouts()
    projects()
    return finished()


if __name__ == "__main__":
    sys.exit(main())
