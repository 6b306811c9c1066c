"""The words behind ./bench and the files that it writes: options that are not there, twice, without a word or not together, files that would be written over
or cannot be written, and what a model for other solvers holds (docs/BENCH.md). PROBE is the program that is asked. Says what went wrong and ends with
status 1, or says nothing.
"""

from __future__ import annotations

import os
import re
import shutil
import sys
from pathlib import Path

from benching import FOLDER, TOP, bench, check, finished, listing, put, run

LIST, PLAN, LOG, PROJECT = "list.csv", "plan.csv", "made.log", "p.rcp"
MORE = "./bench --help lists what there is."

# Options with a good word behind them, and those of them that do not go together.
GOOD = {
    "fix": ["--fix", "a=1"], "plan": ["--plan", PLAN], "check": ["--check", LOG], "log": ["--log", "o.log"], "picture": ["--picture", "o.svg"], "mzn": ["--mzn", "o.mzn"],
    "why": ["--why"], "text-picture": ["--text-picture"], "json": ["--json"], "head": ["--head"],
}
APART = [("plan", "fix"), ("plan", "check"), ("plan", "log"), ("check", "log"), ("json", "why"), ("json", "text-picture"), ("head", "log"), ("head", "check"), ("head", "why")]
NO_LOG = ": there is no log for the read head yet"
WHY = {("head", "log"): NO_LOG, ("head", "check"): NO_LOG, ("head", "why"): f"{NO_LOG}, so no reasons are told"}


def stopped(what: object, words: list[str], sentence: str | None = None) -> None:
    """Status 2, one line on standard error, nothing on standard output, and no file that was not there."""
    before = sorted(os.listdir("."))
    found = run(*words)
    check((what, words), (found.lines[:1], found.status, found.error.count("\n"), found.error != ""), ([], 2, 0, True))
    if sentence is not None:
        check((what, words), found.error, sentence)
    check((what, words, "files"), sorted(os.listdir(".")), before)


def made() -> None:
    """The files that the others are about."""
    text = listing("a 0 4 3 3", "b 0 20 4 3")
    put(LIST, text)
    put(PLAN, "unit,start\na,0\nb,9\n")
    put(PROJECT, "2 1\n5\n3 1 1 2\n4 2 0\n")
    shutil.copy(PROJECT, "p.SM")
    check("a log", bench(text, "--fix", "a=1", "--log", LOG).status, 0)


def pairs() -> None:
    """Each pair of options, in either order, goes together or does not."""
    names = list(GOOD)
    for place, one in enumerate(names):
        for other in names[place + 1 :]:
            for words in ([LIST, *GOOD[one], *GOOD[other]], [*GOOD[other], *GOOD[one], LIST]):
                apart = next((pair for pair in APART if set(pair) == {one, other}), None)
                if apart:
                    stopped("apart", words, f"--{apart[0]} and --{apart[1]} do not go together{WHY.get(apart, '')}. {MORE}")
                elif "check" in (one, other) and "fix" not in (one, other):
                    check(words, run(*words, "--fix", "a=1").status, 0)
                else:
                    check(words, run(*words).status, 0)
    for word in ("o.log", "o.svg", "o.mzn"):
        Path(word).unlink()


def words() -> None:
    stopped("nothing", [], f"A list of reads has to be named. {MORE}")
    stopped("two lists", [LIST, LIST], f"Only one list can be named. {MORE}")
    for word in ("--no", "--Why", "--why=1", "--json=", "--help=x", "--head=1", "-x", "-j", "--", "--logs", "--lo"):
        stopped("no option", [LIST, word], f"There is no option {word}. {MORE}")
    for name in ("fix", "plan", "check", "log", "picture", "mzn", "resource", "horizon"):
        stopped("no word", [LIST, f"--{name}"], f"--{name} wants a word behind it. {MORE}")
        if name != "fix":
            stopped("twice", [LIST, f"--{name}", "a", f"--{name}=b"], f"--{name} is there twice. {MORE}")
        stopped("an empty word", [LIST, f"--{name}="], None if name == "fix" else f"--{name} wants a word behind it. {MORE}")
        # A word that is forgotten does not make a file of the option behind it.
        stopped("an option for a word", [LIST, f"--{name}", "--json"])
    for name in GOOD:
        if name != "check":
            stopped("no list", GOOD[name], f"A list of reads has to be named. {MORE}")
    for name, more in (("fix", []), ("mzn", []), ("resource", ["--resource", "0"])):
        stopped("no list beside a log", ["--check", LOG, *(more or GOOD[name])], f"With --check alone, no list is there for the other words. {MORE}")
    for name in ("picture", "why", "text-picture", "json"):
        check(("a log by itself", name), run("--check", LOG, *GOOD[name]).status, 0)
    stopped("a log by itself for the read head", ["--check", LOG, "--head"], f"--head and --check do not go together{NO_LOG}. {MORE}")
    stopped("a horizon of a list", [LIST, "--horizon", "9"], f"--horizon is for a project, with --resource. {MORE}")
    for file in (PROJECT, "p.SM", "none.Rcp"):
        stopped("a project without a resource", [file], f"A project needs --resource K, counted from 0. {MORE}")
    for word in ("x", "-1", "4294967296", " 1", "+1", "auto", "0x1", "\u0663"):
        stopped("a resource", [PROJECT, f"--resource={word}"], "--resource has to be a number from 0 to 4294967295; 0 is the file's first.")
        if word != "auto":
            stopped("a horizon", [PROJECT, "--resource", "0", f"--horizon={word}"], "--horizon has to be a number from 0 to 4294967295, or auto.")
    for name in ("picture", "svg", ".svg.", "a.svg.png", "a.svg "):
        stopped("a picture", [LIST, f"--picture={name}"], f"The picture's file has to end in .svg. {MORE}")
    check("a project by its resource", run(shutil.copy(PROJECT, "p.txt"), "--resource", "0").status, 0)
    for words_ in (["--help"], ["-h"], [LIST, "--json", "--why", "--help"], ["-h", "--no"]):
        found = run(*words_)
        check(words_, (found.lines[0].startswith("usage: ./bench LIST.csv"), found.status), (True, 0))
    told = set(re.findall(r"--[a-z][a-z-]*", "\n".join(run("--help").lines)))
    check("the options of docs/BENCH.md", told, set(re.findall(r"--[a-z][a-z-]*", (TOP / "docs/BENCH.md").read_text("utf-8"))) - {"--help"})


def written_over() -> None:
    """No file that is read is written over, by whatever path, and none is written twice."""
    os.mkdir("folder")
    for file in (LIST, PLAN, LOG, PROJECT):
        kept = Path(file).read_bytes()
        os.symlink(file, f"soft-{file}.svg")
        os.symlink(f"soft-{file}.svg", f"soft-soft-{file}.svg")
        os.link(file, f"hard-{file}.svg")
        reading = {LIST: [file], PLAN: [LIST, "--plan", file], LOG: [LIST, "--fix", "a=1", "--check", file], PROJECT: [file, "--resource", "0"]}[file]
        for name in (file, f"./{file}", f"folder/../{file}", f"{FOLDER}/{file}", f"soft-{file}.svg", f"soft-soft-{file}.svg", f"hard-{file}.svg"):
            for option in ("log", "mzn", "picture"):
                if (file, option) not in ((LOG, "log"), (PLAN, "log")) and (option != "picture" or name.endswith(".svg")):
                    stopped("written over", [*reading, f"--{option}", name], f"{name} would be written over.")
                    check((name, "is as it was"), Path(file).read_bytes() == kept, True)
                    Path(file).write_bytes(kept)
    stopped("twice", [LIST, "--log", "x", "--mzn", "folder/../x"], "folder/../x would be written over.")
    stopped("twice", [LIST, "--picture", "x.svg", "--mzn", "./x.svg"], "./x.svg would be written over.")
    put("older", "something else\n" * 9999)
    run(LIST, "--log", "fresh")
    check("an older file", (run(LIST, "--log", "older").status, Path("older").read_bytes()), (0, Path("fresh").read_bytes()))


def unwritten() -> None:
    """A file that cannot be written; what was asked for is then not told."""
    for file in ("/dev/full", "none/x", ".", f"{LIST}/x", "x" * 300):
        for option in ("log", "mzn"):
            stopped("cannot be written", [LIST, f"--{option}", file], f"{file} cannot be written.")
    stopped("cannot be written", [LIST, "--picture", "none/x.svg"], "none/x.svg cannot be written.")
    # Where there is nothing to show no file is written, and that is said: an older one may be there, and looks like the new one.
    outside = put("outside.csv", "unit,start\na,9\nb,9\n")
    great, files = put("great.csv", listing("a 0 4 3 10001")), ["--picture", "not.svg", "--mzn", "not.mzn"]
    refused = [PROJECT, "--resource", "0", "--horizon", "1"]
    for words_, status in (([LIST, "--plan", outside], 1), ([LIST, "--check", LOG], 1), ([great], 3), (refused, 3)):
        found = run(*words_, *files)
        check((words_, "not written"), (found.lines[-2:], found.status), (["not.svg is not written.", "not.mzn is not written."], status))
    for words_ in ([great], refused):
        check((words_, "no log"), run(*words_, "--log", "not.log").lines[-1], "not.log is not written.")
        check((words_, "for programs"), (run(*words_, *files, "--json").status, run(*words_).text.count("is not written")), (3, 0))
    check("no such file", [file for file in os.listdir(".") if file.startswith("not.")], [])


def no_lists() -> None:
    """What is written is no list, so that windows are never submitted again by mistake."""
    run(LIST, "--log", "w.log", "--picture", "w.svg", "--mzn", "w.mzn")
    for file in ("w.log", "w.svg", "w.mzn"):
        check(file, (run(file).status, run(file).lines), (2, []))
    put("told.csv", run(LIST).text)
    put("object.csv", run(LIST, "--json").text)
    check("what is told is no list", (run("told.csv").status, run("object.csv").status), (2, 2))


def models() -> None:
    """The submitted reads, with the starts that are fixed and the precedences of a project."""
    bench(listing("a 0 4 4 3", "b 0 20 4 3"), "--fix", "b=9", "--mzn", "o.mzn")
    model = Path("o.mzn").read_text("utf-8")
    for line in ("int: n = 2;", "int: supply = 5;", "array[1..n] of int: e = [0, 9];", "array[1..n] of int: l = [4, 13];", "array[1..n] of int: p = [4, 4];", "array[1..n] of int: r = [3, 3];"):
        check((line, "stands in a model"), line in model.splitlines(), True)
    bench(listing("a 0 4 4 3", "b 0 20 4 3"), "--mzn", "o.mzn")
    check("submitted windows", "array[1..n] of int: e = [0, 0];" in Path("o.mzn").read_text("utf-8").splitlines(), True)
    run(PROJECT, "--resource", "0", "--mzn", "o.mzn")
    check("a precedence", re.findall(r"constraint s\[.*", Path("o.mzn").read_text("utf-8")), ["constraint s[1] + p[1] <= s[2];"])


def main() -> int:
    made()
    pairs()
    words()
    written_over()
    unwritten()
    no_lists()
    models()
    return finished()


if __name__ == "__main__":
    sys.exit(main())
