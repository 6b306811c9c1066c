"""What ./project says of project texts and of odd arguments, tried without starting it anew for each: its command is called, with PROBE as the program that is
asked. Says what went wrong and ends with status 1, or says nothing.
"""

from __future__ import annotations

import re
import sys
import tempfile
from pathlib import Path

TOP = Path(__file__).resolve().parent.parent
sys.path.insert(0, str(TOP / "front"))

from ending import Stop  # noqa: E402
from limits import limits  # noqa: E402
from project import command  # noqa: E402
from refusals import CODES, GIVEN, code, refusal  # noqa: E402

RCP = (TOP / "instances/j301_1.rcp").read_bytes()
SM = (TOP / "instances/j301_1.sm").read_bytes()
TWO = b"2 1\n5\n3 1 1 2\n4 2 0\n"

# docs/ANSWERS.md: the sentences of the refusals and of the codes, as pairs of the number and the sentence, and of each call the numbers in the order of its tests,
# among which numbers from 20 to 29 are codes of a record.
ANSWERS = (TOP / "docs/ANSWERS.md").read_text("utf-8")
TOLD = [(int(number), sentence) for number, sentence in re.findall(r"^\| (\d+) \| ([A-Z][^|]*\.) \| ", ANSWERS.split("## Refusals")[1].split("## Codes")[0], re.MULTILINE)]
MEANT = re.findall(r"^\| (\d+) \| ([A-Z][^|]*\.) \| ", ANSWERS.split("## Codes")[1].split("\n## ")[0], re.MULTILINE)
TESTS = {word: re.findall(r"\b(?!2\d\b)\d+\b", tests) for word, tests in re.findall(r"^\| `\w+` \| `(\w+)` \| [^|]* \| ([^|]*) \|$", ANSWERS, re.MULTILINE)}

# The line that says a refusal of a reader or of narrowing; the first sentence of a number is theirs.
SAYS = {number: f"refused {number}: {sentence}" for number, sentence in reversed(TOLD)}

NEARLY = " is missing; line %d is like it, but it has to be written just so, behind nothing but spaces."

# A text for resource 0 with horizon 10; the refusal; the hint where there is one.
TEXTS = [
    (b"", 30, "the text ends where the job count has to stand."),
    (b"\n \t\r\n", 30, "the text ends where the job count has to stand."),
    (b"\0 \xff 1", 30, r'line 1, column 1: "\x00" is no number (the job count).'),
    (b"\xef\xbb\xbf" + TWO, 30, r'line 1, column 1: "\xef\xbb\xbf2" is no number (the job count).'),
    (SM.replace(b"REQUESTS/D", b"\tREQUESTS/D"), 35, 'the heading "REQUESTS/DURATIONS:"' + NEARLY % 52),
    (SM.replace(b"PRECEDENCE RELATIONS:", b"Precedence  Relations:"), 35, 'the heading "PRECEDENCE RELATIONS:"' + NEARLY % 17),
    (SM.replace(b"/sink ):", b"/sink):"), 35, 'the heading "jobs (incl. supersource/sink ):"' + NEARLY % 6),
    (b"1000000000000 -1", 31, 'line 1, column 1: "1000000000000" is above 256 (the job count).'),
    (b"-1 1000000000000", 30, 'line 1, column 1: "-1" is no number (the job count).'),
    (b"1000000000 -1 -1 -1 -1\n", 31, 'line 1, column 1: "1000000000" is above 256 (the job count).'),
    (b"257 1\n5\n" + b"1 1 0\n" * 257, 31, 'line 1, column 1: "257" is above 256 (the job count).'),
    (b"9" * 400000, 31, 'line 1, column 1: "' + "9" * 40 + '.." is above 256 (the job count).'),
    (b"x" * 40 + b" 1", 30, 'line 1, column 1: "' + "x" * 40 + '" is no number (the job count).'),
    (b"5 -1 -1 -1 -1\n", 30, 'line 1, column 3: "-1" is no number (the resource count).'),
    (b"1e9 1e9 1e308 nan inf 0x10\n", 30, 'line 1, column 1: "1e9" is no number (the job count).'),
    (b"1\n99999999999999999999999999", 31, 'line 2, column 1: "99999999999999999999999999" is above 8 (the resource count).'),
    (b"1 9", 31, 'line 1, column 3: "9" is above 8 (the resource count).'),
    (b"1 2 5\r\n\r\n10001", 31, 'line 3, column 1: "10001" is above 10000 (capacity 2 of 2).'),
    (b"1 1 5 1000001", 31, 'line 1, column 7: "1000001" is above 1000000 (the duration of job 1).'),
    (b"1 2 5 5\n\t1 1 \t10001", 31, 'line 2, column 7: "10001" is above 10000 (demand 2 of 2 of job 1).'),
    (b"1 1\n5\n1 1 99999999999999999999999999", 31, 'line 3, column 5: "99999999999999999999999999" is above 1 (the successor count of job 1).'),
    (b"2 1\n5\n3 1 1 2\n4 12x 0\n", 30, 'line 4, column 3: "12x" is no number (demand 1 of 1 of job 2).'),
    (b"2 1\n5\n3 1 2 2 3\n4 2 0\n", 32, 'line 3, column 9: "3" is not from 1 to 2 (successor 2 of 2 of job 1).'),
    (b"2 1\n5\n3 1 1 0\n4 2 0\n", 32, 'line 3, column 7: "0" is not from 1 to 2 (successor 1 of 1 of job 1).'),
    (b"2 1\n5\n3 1 1 2\n4 2", 30, "the text ends where the successor count of job 2 has to stand."),
    (b"2 1\n5\n3 1 1", 30, "the text ends where successor 1 of 1 of job 1 has to stand."),
    (TWO + b"  0", 30, 'line 5, column 3: "0" is left over (the text has to end there).'),
    (TWO.replace(b"4 2 0", b"4 2 1 1"), 33, None),
    (TWO.replace(b"3 1 1", b"7 1 1"), 34, "the least horizon that is taken is 11."),
    (b"2 1 1 600000 1 1 2 400001 1 0", 34, "the longest chain is longer than the greatest horizon that is taken, 1000000."),
    (SM, 34, "the least horizon that is taken is 38."),
    (b"x\n  - renewable", 35, 'the heading "jobs (incl. supersource/sink ):" is missing.'),
    (b"\t- renewable", 30, 'line 1, column 2: "-" is no number (the job count).'),
    (SM.replace(b"REQUESTS/D", b"REQUEST/D"), 35, 'the heading "REQUESTS/DURATIONS:" is missing.'),
    (SM.replace(b"************************************************************************\nREQ", b"   - renewable : 4\nREQ"), 35,
     'the heading "- renewable" stands on line 9 and on line 51.'),
    (SM.replace(b"PRECEDENCE RELATIONS:", b"!").replace(b"RESOURCES\n", b"PRECEDENCE RELATIONS:\n"), 35,
     'the heading "- renewable" on line 9 has to stand before "PRECEDENCE RELATIONS:" on line 8.'),
    (SM[SM.index(b"RESOURCEA"):] + SM[: SM.index(b"RESOURCEA")], 35,
     'the heading "jobs (incl. supersource/sink ):" on line 10 has to stand before "RESOURCEAVAILABILITIES:" on line 1.'),
    (SM.replace(b":  32", b":\n 32"), 30, "line 6 ends where the job count has to stand."),
    (SM.replace(b":  32", b":  32x"), 30, 'line 6, column 34: "32x" is no number (the job count).'),
    (SM.replace(b":  32", b":  257"), 31, 'line 6, column 34: "257" is above 256 (the job count).'),
    (SM.replace(b":  4   R", b"   4   R"), 30, "line 9 has no colon, behind which the resource count has to stand."),
    (SM.replace(b":  4   R", b":  9   R"), 31, 'line 9, column 34: "9" is above 8 (the resource count).'),
    (SM.replace(b"jobnr.    #modes  #successors   successors\n", b""), 30,
     'line 19, column 4: "2" is not 1 (the job number of row 1 under "PRECEDENCE RELATIONS:").'),
    (SM.replace(b"   2        1          3", b"   2        2          3"), 30, 'line 20, column 13: "2" is not 1 (the mode count of job 2).'),
    (SM.replace(b"   2        1          3           6", b"   2        1          3          66"), 32,
     'line 20, column 35: "66" is not from 1 to 32 (successor 1 of 3 of job 2).'),
    (SM.replace(b"  2      1     8", b"  2      3     8"), 30, 'line 56, column 10: "3" is not 1 (the mode of job 2).'),
    (SM.replace(b"  2      1     8", b"  3      1     8"), 30, 'line 56, column 3: "3" is not 2 (the job number of row 2 under "REQUESTS/DURATIONS:").'),
    (SM[: SM.index(b"   12   13    4   12")] + b"1 2 3", 30, "the text ends where capacity 4 of 4 has to stand."),
    (SM[: SM.index(b"RESOURCEA")] + b"RESOURCEAVAILABILITIES:", 30, "the text ends where capacity 1 of 4 has to stand."),
]

# Words that are no number of any argument.
ODD = ["", " ", "x", "-1", "+1", "1.0", "0x1", "1e3", "1 2", "1\n2", "1\n", " 1", "1_0", "8#", "10#1", "most_log", "Auto", "auto ", "\u0663", "\xb2", "\udcb2"]
GREAT = ["4294967296", "18446744073709551616", "18446744073709551617", "9" * 4000]

failed: list[str] = []


def said(text: bytes, *arguments: str) -> tuple[list[str], int]:
    with tempfile.NamedTemporaryFile() as file:
        file.write(text)
        file.flush()
        return command([file.name, *arguments])


def check(what: object, found: object, wanted: object) -> None:
    if found != wanted:
        failed.append(f"{str(what)[:300]}: {str(found)[:600]}, and not {str(wanted)[:600]}")


def texts() -> None:
    for text, number, hint in TEXTS:
        lines = [SAYS[number], *([] if hint is None else [f"hint: {hint}"])]
        found = said(text, "0", "10")
        check(text[:60], (found[0][: len(lines)], found[1]), (lines, 1))
        check((text[:60], "more hints"), all(line.endswith(("is missing.", "Patterson layout.", "before it.")) for line in found[0][len(lines) :]), True)


def arguments() -> None:
    """The refusals and hints that depend on what is asked, and not on the text alone."""
    check("a great horizon", said(b"x", "0", "1000001"), ([SAYS[31], "hint: the horizon 1000001 is above 1000000."], 1))
    check("resource 4", said(RCP, "4", "38"), ([SAYS[37], "hint: the text has 4 resources, counted from 0: the last is 3."], 1))
    check("resource 1", said(TWO, "1", "auto"), ([SAYS[37], "hint: the text has one resource, 0."], 1))
    check("no resources", said(b"0 0", "0", "0"), ([SAYS[37], "hint: the text has no resources."], 1))
    check("no room", said(RCP, "0", "38", "0")[0][1:], [SAYS[5], "hint: with RECORDS 203 there is always room enough."])
    most = said(b"2 1 1 30000 1 0 2 1 0", "0", "auto", "10922")
    check("no more room", most[0][2:], [SAYS[5], "hint: up to 29999 records may be needed; 10922 is the greatest number of RECORDS that is taken."])
    check("a mark", said(b"\xef\xbb\xbf" + TWO, "0", "10")[0][2:], [
        "hint: the file begins with a byte order mark, which no number may have before it.",
        "hint: no heading of the PSPLIB layout was found, so that the text was read in the Patterson layout.",
    ])
    check("no mark", len(said(b"", "0", "10")[0]) + len(said(b"1 x", "0", "10")[0]), 4)
    check("no room: status", said(RCP, "0", "38", "0")[1], 1)
    nine = b"2 1 1 18 1 0 2 1 0"
    check("010 is ten", said(nine, "0", "auto", "010")[0][2], "clash 9 1 2 0 0 2 18 18")
    check("08 is eight", said(nine, "0", "auto", "08")[0][2:], [SAYS[5], "hint: with RECORDS 17 there is always room enough."])
    for odd in ODD + GREAT:
        for words in ([odd, "38"], ["0", odd], ["0", "38", odd]):
            check(words, stopped([str(TOP / "instances/j301_1.rcp"), *words]), "HAS TO")
        check(odd, stopped(["--line", str(TOP / "instances/j301_1.rcp"), "0", odd]), "HAS TO")
    for words in (["auto", "38"], ["0", "38", "auto"], ["0", "38", "10923"]):
        check(words, stopped([str(TOP / "instances/j301_1.rcp"), *words]), "HAS TO")
    check("auto in a line", stopped(["--line", str(TOP / "instances/j301_1.rcp"), "0", "auto"]), "HAS TO")


def stopped(words: list[str]) -> str:
    try:
        return str(command(words))
    except Stop as stop:
        return "HAS TO" if " has to be a number from 0 to " in str(stop) else str(stop)


def good() -> None:
    """Texts that are read: either layout, CR LF, zeros in front, the least horizon, records."""
    wanted = said(RCP, "0", "38")
    check("status", wanted[1], 0)
    for text in (SM, RCP.replace(b"\n", b"\r\n"), SM.replace(b"\n", b"\r\n"), re.sub(b"([0-9]+)", rb"00000000000000000000\1", RCP), RCP.replace(b"\n", b" ")):
        check(text[:60], said(text, "0", "38"), wanted)
        check(text[:60], said(text, "0", "auto"), (["horizon 38", *wanted[0]], 0))
    check("auto", said(TWO, "0", "auto"), (["horizon 7", "read 5 1 2 0 3 2 3 7 2 3 4 2 1 2 1 0 1 1", "settled 0 2 0 3 2 3 7"], 0))
    check("no jobs", said(b"0 1 5", "0", "auto"), (["horizon 0", "read 5 0 0 0 0 0 0 0", "settled 0 0 0"], 0))
    check("a record of zeros", said(b"1 1 1 1 2 0", "0", "1")[0][1:], ["clash 1 0 1 0 1 1", "record 0 0 0 0"])
    fixed = b"41 1 1 1 1 0" + b" 0 0 0" * 39 + b" 2 1 0"
    check("a word of zeros before another", said(fixed, "0", "auto")[0][-1], "record 0 0 1 1 0 256")
    many = said(b"2 1 1 20000 1 0 2 1 0", "0", "auto", "10922")
    check("10,000 records", many[0][3:], [f"record 1 0 {2 * k + 1} 1 1" for k in range(10000)])
    pairs = b"256 1 9" + b"".join(b" 1 1 256" + b" %d" % (job + 2) * 256 for job in range(255)) + b" 1 1 0"
    check("65,280 pairs", said(pairs, "0", "auto")[0][:2][-1][:20], "read 9 65280 256 0 1")


def documented() -> None:
    """The sentences of refusals and codes, and the order of each call's tests, are those of docs/ANSWERS.md."""
    known = limits()
    said = {(number, refusal(call, number, known)) for call, numbers in GIVEN.items() for number in numbers}
    check("the sentences of docs/ANSWERS.md", said, {(number, f"refused {number}: {sentence}") for number, sentence in TOLD})
    check("the codes of docs/ANSWERS.md", [code(number, known) for number in CODES], [f"code {number}: {sentence}" for number, sentence in MEANT])
    ordered = {word: list(dict.fromkeys(map(int, numbers))) for word, numbers in TESTS.items() if numbers}
    check("the tests of docs/ANSWERS.md", ordered, {call: list(numbers) for call, numbers in GIVEN.items()})


def main() -> int:
    documented()
    texts()
    arguments()
    good()
    for what in failed:
        print(what)
    return 1 if failed else 0


if __name__ == "__main__":
    sys.exit(main())
