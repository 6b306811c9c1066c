"""The forms of a list of reads and of a plan that ./bench takes: separators, line ends, quotes, columns, units, clocks and steps, notes, and numbers up to
the limits of the calls and above them (docs/BENCH.md, 'The list'). PROBE is the program that is asked. Says what went wrong and ends with status 1, or
says nothing.
"""

from __future__ import annotations

import re
import sys

from benching import HEADER, LIMITS, TOP, Said, bench, check, finished, listing, put, run

BENCH = (TOP / "docs/BENCH.md").read_text("utf-8")
ANSWERS = (TOP / "docs/ANSWERS.md").read_text("utf-8")

# The columns and what they are also called, from the table in docs/BENCH.md.
CALLED = {column: [column, *others.split(", ")] for column, others in re.findall(r"^\| `(\w+)` \| ([a-z][a-z, ]*) \|$", BENCH.split("## What is told")[0], re.MULTILINE)}

LIST = '''\
# supply: 5.0 A
# time: HH:MM
# step: 0.1 A
unit,earliest,latest,length,draw
"Bosch, ""ML4.1""",08:00,25:20,00:50,1.8 A
Zündgerät;alt,8:10,09:30,60,2
"#3",00:00,48:00,5 min,0
'''
ROWS = [('Bosch, "ML4.1"', 480, 1520, 50, 18), ("Zündgerät;alt", 490, 570, 60, 20), ("#3", 0, 2880, 5, 0)]
SEMICOLONS = LIST.replace("unit,earliest,latest,length,draw", "unit;earliest;latest;length;draw").replace(",08:00,25:20,00:50,1.8", ";08:00;25:20;00:50;1,8")
SEMICOLONS = SEMICOLONS.replace("Zündgerät;alt,8:10,09:30,60,2", '"Zündgerät;alt";8:10;09:30;60;2').replace(",00:00,48:00,5 min,0", ";00:00;48:00;5 min;0")
NOTES, (HEAD, *BODY) = LIST.splitlines()[:3], LIST.splitlines()[3:]

# Texts of the same list.
SAME = {
    "as it is": LIST,
    "no last line end": LIST.rstrip("\n"),
    "a mark": "\ufeff" + LIST,
    "CR LF": LIST.replace("\n", "\r\n"),
    "a mark and CR LF": "\ufeff" + LIST.replace("\n", "\r\n").rstrip(),
    "semicolons": SEMICOLONS,
    "semicolons, CR LF": SEMICOLONS.replace("\n", "\r\n"),
    "semicolons, a comma in the supply": SEMICOLONS.replace("supply: 5.0", "supply: 5,0"),
    "semicolons, a comma in the step": SEMICOLONS.replace("step: 0.1", "step: 0,1"),
    "semicolons, points": SEMICOLONS.replace("1,8", "1.8"),
    "semicolons, padded": "".join(line + ";;;\n" for line in SEMICOLONS.splitlines()),
    "padded": "".join(line + ",,,,\n" for line in LIST.splitlines()),
    "rows padded, the header not": LIST.replace("1.8 A\n", "1.8 A,,,\n").replace("5 min,0", "5 min,0,"),
    "the header padded, some rows not": LIST.replace(HEAD, HEAD + ",,").replace("5 min,0", "5 min,0,"),
    "empty lines": LIST.replace("\n", "\n\n,,\n \t\n"),
    "blanks around cells": LIST.replace(",08:00,25:20", " ,  08:00\t, 25:20 ").replace('"Bosch', '  "Bosch'),
    "blanks in quotes": LIST.replace('"#3"', '" #3 "'),
    "all in quotes": LIST.replace("00:00,48:00,5 min,0", '"00:00","48:00","5 min","0"').replace(HEAD, '"unit","earliest","latest","length","draw"'),
    "capitals": LIST.replace(HEAD, HEAD.upper()).replace("# supply", "#SUPPLY").replace("# time: HH:MM", "# Time :hh:mm").replace("step", "Step"),
    "notes at the end": "\n".join((HEAD, *BODY, *NOTES)),
    "notes among rows": "\n".join((HEAD, BODY[0], NOTES[2], BODY[1], "  " + NOTES[0] + "  ", BODY[2], NOTES[1])),
    "remarks": "# a remark, with commas, and quotes \"\n#\n" + LIST + "#supplying: 5\n# length, draw and unit, by hand\n",
    "units in the header": LIST.replace(HEAD, "unit (serial),earliest (HH:MM),latest [HH:MM],length (min),draw (A)").replace("00:50", "50"),
    "units in the header, no space": LIST.replace(HEAD, "unit,earliest(hh:mm),latest( HH:MM ),length[HH:MM],draw(A)").replace(",60,", ",1:00,").replace("5 min", "0:05"),
    "units in the header, capitals": LIST.replace(HEAD, "unit,earliest,latest,length (MIN),draw").replace("00:50", "50min"),
    "units in the cells": LIST.replace(",60,2", ",60min,2A").replace("5.0 A", "5A").replace("0.1 A", "0.1A"),
    "zeros in front": LIST.replace("8:10", "0000000000000000008:10").replace(",60,2", ",00000000000000060,00000000000000002.0"),
    "no fraction": LIST.replace("5.0 A", "5"),
    "its separator said": "sep=;\n" + SEMICOLONS,
    "its separator said, a mark, CR LF": "\ufeffsep=;\r\n" + SEMICOLONS.replace("\n", "\r\n"),
    "commas said": "sep=,\n" + LIST,
    "commas said, a semicolon in the header": "sep=,\n" + LIST.replace(HEAD, HEAD.replace("unit", "unit (a;b)")),
    "notes in quotes": LIST.replace("# supply: 5.0 A", '"# supply: 5.0 A"').replace("# step: 0.1 A", '"# step: 0.1 A",,,,').replace("# time", "#time"),
    "notes in quotes, semicolons": SEMICOLONS.replace("# supply: 5.0 A", '"# supply: 5,0 A"').replace("# time: HH:MM", '"#time: HH:MM";;;'),
    "a value in the next cell": LIST.replace("supply: 5.0 A", "supply:,5.0 A,,,").replace("time: ", "time:, ").replace("step: ", "step: ,,"),
    "a value in the next cell, semicolons": SEMICOLONS.replace("supply: 5.0 A", "supply:;5,0 A").replace("time: ", "time:;").replace("step: 0.1 A", "step:;0,1 A;;;"),
    "a remark in quotes": LIST + '"# a remark, in quotes",,,,\n"#"\n',
    "a remark with few cells": LIST + "# 3, 4\n#,,,,\n# 08:00, at the wall\n# a,b,c,9\n",
    "no length on the clock": LIST.replace("5 min", "00:05"),
}


def same() -> None:
    wanted = [dict(zip(("unit", "earliest", "latest", "length", "draw"), row)) for row in ROWS]
    for name, text in SAME.items():
        found = bench(text, "--json")
        rows = [{key: value for key, value in row.items() if key != "now"} for row in found.object.get("reads", [])]
        check(name, (rows, found.object.get("supply"), found.status, found.error), (wanted, 50, 0, ""))
        if "padded" in name:
            check((name, "not used"), [line for line in bench(text).lines if line.startswith("Not used")], [])


def columns() -> None:
    """Every name of every column, in any order, with others between them."""
    check("the table of columns", sorted(CALLED), ["draw", "earliest", "latest", "length", "unit"])
    cells = {"unit": "a", "earliest": "3", "latest": "14", "length": "1", "draw": "5"}
    wanted = {"unit": "a", "earliest": 3, "latest": 14, "length": 1, "draw": 5, "now": [3, 14]}
    for column, names in CALLED.items():
        for place, name in enumerate(names):
            order = [*cells][place % 5 :] + [*cells][: place % 5]
            named = [name.title() if one == column else one for one in order]
            text = "\n".join((",".join(("shelf", *named, "")), ",".join(("7", *(cells[one] for one in order), "")), "# supply: 9"))
            check(name, bench(text, "--json").object.get("reads"), [wanted])
            if name == column:
                check((name, "the shelf"), "Not used: the column \u201cshelf\u201d." in bench(text).lines, True)
    two = bench(listing("a 3 14 1 5 7b x 9", header=f"{HEADER},shelf,x\u201dy,{'z' * 500}"))
    check("columns that are not used", two.lines[1], f"Not used: the columns \u201cshelf\u201d, \"x\u201dy\" and \u201c{'z' * 200} .. {'z' * 200}\u201d.")
    check("blanks in a name", bench(listing("a 3 14 1 5", header="unit,  Earliest   Start,not\tbefore here,latest  end,duration,draws").replace("a,3,", "a,3,x,"), "--json").object["reads"], [wanted])


def steps() -> None:
    """Draws in steps; a draw has no more decimals than the step."""
    for step, supply, draw, wanted in (("1", "5", "2", (5, 2)), ("5", "50", "15", (10, 3)), ("0.25 A", "5.00 A", "1.75", (20, 7)), ("0.25 A", "5 A", "0.5 A", (20, 2)), ("0.10 A", "5 A", "1.80", (50, 18)),
                                       ("250 mA", "5000 mA", "750mA", (20, 3)), ("0.001 µA", "1.000", "0.002 µA", (1000, 2)), ("3", "9", "000000000000000006", (3, 2)), ("1 Ω", "9 Ω", "1Ω", (9, 1))):
        found = bench(listing(f"a 0 9 3 {draw.replace(' ', '~')}", supply=supply, notes=f"# step: {step}").replace("~", " "), "--json").object
        check((step, supply, draw), (found.get("supply"), found.get("reads", [{}])[0].get("draw")), wanted)
    found = bench(listing("a 0 9 3 2A", supply="5 A", notes="# time: ticks"))
    check("a step of the supply's unit", (found.status, found.lines[-1].split()), (0, ["a", "0-9", "=", "3", "2", "A", "6"]))
    # 2 of a supply of 5000 would be nothing, if these are amperes of milliamperes.
    check("a unit that the list does not have", bench(listing("a 0 9 3 2", supply="5000", header=HEADER + " (A)")).status, 2)
    check("ticks of any name", bench(listing("a 0 9 3 2", header="unit,from (s),to (s),dur (s),dem")).status, 0)
    check("ticks that are minutes", bench(listing("a 0 9 3 2", header="unit,from (min),to (min),length (min),dem"), "--json").object.get("reads", [{}])[0].get("length"), 3)
    check("ticks as such", bench(listing("a 0 9 3 2", header="unit,from (ticks),to (s),dur (s),dem")).status, 0)


def plans() -> None:
    """A plan may have its columns in any order and others beside them."""
    list_text = LIST.replace("#3", "Ü3")
    starts = (('"Bosch, ""ML4.1"""', "24:30"), ("Zündgerät;alt", "08:10"), ("U\u03083", "47:55"))
    for unit, start in zip(("unit", "Read", "NAME", "job", "unit"), ("start", "starts", "Start Time", "starts at", "At (HH:MM)")):
        for order in (0, 1):
            rows = [(unit, start), *starts]
            text = "# a plan\n" + "\n".join(",".join((*(row if order else row[::-1]), "")) for row in rows)
            found = bench(list_text, "--plan", put("plan.csv", "\ufeff" + text.replace("\n", "\r\n")), "--json")
            check((unit, start, order, found.error), (found.status, [read["now"] for read in found.object.get("reads", [])]), (0, [[1470, 1520], [490, 550], [2875, 2880]]))
    semicolons = put("plan.csv", 'start;unit\n24:30;"Bosch, ""ML4.1"""\n08:10;"Zündgerät;alt"\n47:55;Ü3;;\n')
    check("semicolons", bench(list_text, "--plan", semicolons).status, 0)
    check("no reads, no plan", bench(listing(), "--plan", put("plan.csv", "unit,start\n")).lines, ["The plan is good: every read lies in its submitted window, and at no time is more drawn than 5."])
    check("starts that are fixed", bench(list_text, "--fix=U\u03083=47:55", "--fix", "Zündgerät;alt = 8:30").status, 0)
    check("a sign in a name", bench(listing("a=b 0 9 3 2"), "--fix", "a=b=6", "--json").object["reads"][0]["now"], [6, 9])


def limits() -> None:
    """Numbers at their limits are asked about; numbers above them are refused by the calls, in words: which they are, and what is to be done."""
    refusals = dict(re.findall(r"^\| (\d+) \| ([A-Z][^|]*\.) \| ", ANSWERS.split("## Refusals")[1].split("## Codes")[0], re.MULTILINE))
    check("at the limits", bench(listing("a 999999 1000000 1 10000", "b 0 1000000 1000000 0", supply="10000")).status, 0)
    found = bench(listing("a 1000001 4294967295 1 1", "b 0 9 1000002 10001", supply="10001"))
    above = ["The supply 10001 is above 10000.", "“a”: the earliest start 1000001 is above 1000000.", "“a”: the latest end 4294967295 is above 1000000.",
             "“b”: the length 1000002 is above 1000000.", "“b”: the draw 10001 is above 10000."]
    check("above the limits", (found.lines[:6], found.status, found.error), ([f"refused 3: {refusals['3']}", *above], 3, ""))
    check("what is to be done where a number is too great", len(found.lines) > 6 and "coarser" in found.lines[-1], True)
    late = bench(listing("a 16666:41 16666:41 0 1000.1", supply="1000.0 A", notes="# time: HH:MM\n# step: 0.1 A"))
    check("above on the clock", late.lines[1:4], [f"“a”: the {what} 16666:41 is above 16666:40." for what in ("earliest start", "latest end")] + ["“a”: the draw 1000.1 A is above 1000.0 A."])
    rows = [f"u{number} 0 9 1 1" for number in range(LIMITS.line_jobs)]
    check("as many reads as there may be", bench(listing(*rows[: LIMITS.jobs])).status, 0)
    for count in (LIMITS.jobs + 1, LIMITS.line_jobs):
        found = bench(listing(*rows[:count]))
        check(count, (found.lines[0], found.status, found.error), (f"refused 2: {refusals['2']}", 3, ""))
        check((count, "what is to be done"), len(found.lines) > 1, True)
        check((count, "for programs"), {key: bench(listing(*rows[:count]), "--json").object.get(key) for key in ("answer", "refusal", "records", "together")},
              {"answer": "refused", "refusal": 2, "records": [], "together": []})
    check("no reads", bench(listing()), Said(["Settled: there are no reads."], 0, ""))
    check("no reads, for programs", bench(HEADER + "\r\n# supply: 0", "--json").object, {"answer": "settled", "count": 0, "supply": 0, "reads": [], "records": [], "sentences": [], "together": []})
    check("the example", run(str(TOP / "examples/reads.csv")).status, 0)


def main() -> int:
    same()
    columns()
    steps()
    plans()
    limits()
    return finished()


if __name__ == "__main__":
    sys.exit(main())
