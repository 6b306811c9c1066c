"""What ./bench says of lists of reads, plans and fixed starts that cannot be used, each with its place (docs/BENCH.md). PROBE is the program that is asked.
Says what went wrong and ends with status 1, or says nothing.
"""

from __future__ import annotations

import re
import sys

from benching import HEADER, Said, bench, check, finished, listing, put, run

CLOCK = "# time: HH:MM\n"
TENTHS = "# step: 0.1 A\n"
HEAD = f"# supply: 5\n{HEADER}\n"
AMPERES = f"# supply: 5.0 A\n{TENTHS}{HEADER}\n"
CLOCKED = f"# supply: 5\n{CLOCK}{HEADER}\n"
NO_HEADER = "1:1: there is no header with unit, earliest, latest, length, draw"
NO_SUPPLY = "1:1: there is no line '# supply: ..'"
MISSING = "the header has no column "
TABS = "; tabs part no cells here, but commas or semicolons"
UNDER_NONE = "the cell '{}' stands under no name of the header"
LIKE_A_READ = "this looks like a read, but behind # it is a remark: take the line out, or put the unit's name in quotes"
STEPS = "is not a whole number of steps of "
ONES = f"{STEPS}1, without a unit"
TICKS = "is not a whole number of ticks"
TIME = "is not a time HH:MM"
LENGTH = "is not a length HH:MM or a whole number of minutes"

# A list, and what is wrong with it, in the order of the file.
LISTS = [
    ("", NO_HEADER, NO_SUPPLY),
    ("\ufeff", NO_HEADER, NO_SUPPLY),
    ("\n,,,\n # remark\n", NO_HEADER, NO_SUPPLY),
    (HEADER, NO_SUPPLY),
    ("# supply 5\n" + HEADER, NO_SUPPLY),
    ("# supply: 5\n", NO_HEADER),
    ("# supply: 5\nunit,earliest\na,1,2\n", f"2:1: {MISSING}latest, length, draw", f"3:5: {UNDER_NONE.format('2')}"),
    (HEADER.replace("length", "lenght") + "\n# supply: 5", f"1:1: {MISSING}length"),
    (HEADER.replace("draw", "draw (A") + "\n# supply: 5", f"1:1: {MISSING}draw"),
    (HEADER + ",DUR,Name,until\n# supply: 5", "1:34: the column 'DUR' is length, which 'length' is already",
     "1:38: the column 'Name' is unit, which 'unit' is already", "1:43: the column 'until' is latest, which 'latest' is already"),
    ("# supply: 5.0 A\n# step: 0.1 A\n" + HEADER + " (mA)", "3:29: the column 'draw (mA)' is read in A"),
    ("# supply: 5 A\n" + HEADER + " [a]", "2:29: the column 'draw [a]' is read in A"),
    ("# supply: 5\n# time: HH:MM\nunit,from (h),to (min),dur (s),dem", "3:6: the column 'from (h)' is read in HH:MM", "3:15: the column 'to (min)' is read in HH:MM", "3:24: the column 'dur (s)' is read in HH:MM"),
    ("# supply: 5\nunit,from (s),to (min),dur (s),dem", "2:15: the column 'to (min)' is read in s"),
    # A header that cannot be taken apart is still the header.
    ('# supply: 5\nunit,earliest,latest,length,dr"aw\na,1,9,3,4\n', "2:31: a quote inside a cell without quotes"),
    # Lines that begin with #.
    ("# supply: 5\n# supply: 6\n#SUPPLY :7\n" + HEADER, "2:11: a second line '# supply:'", "3:10: a second line '# supply:'"),
    ("# supply: 5\n# time: HH:MM\n# time: HH:MM\n" + HEADER, "3:9: a second line '# time:'"),
    ("# supply: \n" + HEADER, "1:10: the supply '' " + ONES),
    ("# supply: 5 A, 6\n" + HEADER, "1:11: the supply '5 A, 6' " + ONES),
    ("# supply: 5.0 A\n" + HEADER, "1:11: the supply '5.0 A' " + STEPS + "1 A"),
    ("# supply: 5,0 A\n" + TENTHS + HEADER, "1:11: the supply '5,0 A' " + STEPS + "0.1 A"),
    ("# supply: 5.00 A\n" + TENTHS + HEADER, "1:11: the supply '5.00 A' " + STEPS + "0.1 A"),
    ("# supply: 5 mA\n" + TENTHS + HEADER, "1:11: the supply '5 mA' " + STEPS + "0.1 A"),
    ("# supply: -5\n" + HEADER, "1:11: the supply '-5' " + ONES),
    ("# supply: 7\n# step: 5\n" + HEADER, "1:11: the supply '7' " + STEPS + "5, without a unit"),
    ("# supply: 4294967296\n" + HEADER, "1:11: the supply '4294967296' is above every limit"),
    (f"# supply: {'9' * 5000}\n" + HEADER, f"1:11: the supply '{'9' * 188} .. {'9' * 178}' is above every limit"),
    ("# supply: 5\n# time: minutes\n" + HEADER + "\na,08:00,x,y,1", "2:9: the time 'minutes' is neither HH:MM nor ticks"),
    *((f"# supply: 5\n# step: {step}\n{HEADER}\na,0,9,1,x", f"2:9: the step '{step}' is no step such as 1, 0.1 A or 0.25 A")
      for step in ("0", "0.0 A", "x", "0.1 A h", "-1", "1e3", ".1", "0.0000001", "1234567")),
    (f"# step:\n# supply: 5\n{HEADER}", "1:8: the step '' is no step such as 1, 0.1 A or 0.25 A"),
    (HEAD + "#12,1,9,3,4\n", "3:2: " + LIKE_A_READ),
    (HEAD + "  # 12 , 1, 9, 3, 4, at the wall\n", "3:4: " + LIKE_A_READ),
    (HEAD + "#12,1,9,,4\n", "3:2: " + LIKE_A_READ),
    (HEAD.replace(",", ";") + "#12;1;9;3;4;;\n", "3:2: " + LIKE_A_READ),
    *((HEAD + f"{row}\n", "3:2: " + LIKE_A_READ) for row in ("#12,,9,3,", "#12,1,,,4", "#12,08:00,,3 min,", "# 12,a,b,c,d", '#12,"9",1,3')),
    # Header and rows.
    ("# supply: 5\n" + HEADER.replace(",", "\t") + "\na\t0\t9\t3\t2\n", f"2:1: {MISSING}unit, earliest, latest, length, draw{TABS}"),
    ("# supply: 5\n" + HEADER.replace("length,", "length\t"), f"2:1: {MISSING}length, draw{TABS}"),
    ("# supply: 5\n" + HEADER + " (A)", "2:29: the column 'draw (A)' is read in steps without a unit"),
    ("sep=;\r\n# supply: 5\r\n" + HEADER.replace(",", ";") + "\r\na;0;x;3;2\r\n", f"4:5: the latest end 'x' {TICKS}"),
    (f"sep=;\n# supply: 5\n{HEADER}\n", f"3:1: {MISSING}unit, earliest, latest, length, draw"),
    (AMPERES + "a,1,9,3,2,5\nb,1,9,3,2,\n", f"4:11: {UNDER_NONE.format('5')}"),
    (AMPERES.replace(",draw", ",,draw") + "a,1,9,3,,2\nb,1,9,3,2,5\n", f"5:9: {UNDER_NONE.format('2')}"),
    (AMPERES.replace("draw\n", "draw,shelf\n") + "a,1,9,3,2,5\nb,1,9,3,2.0,5\nc,1,9,3,2,x\nd,1,9,3,2 A,5\n",
     "4:9: '2' and '5' beside it may be 2,5 with a decimal comma; write the draw with a dot, or put another column behind it"),
    (AMPERES.replace("draw\n", "draw,shelf\n") + "a,1,9,3,x,5\nb,1,9,3,0,9\n", f"4:9: the draw 'x' {STEPS}0.1 A", "5:9: '0' and '9' beside it may be 0,9 with a decimal comma; write the draw with a dot, or put another column behind it"),
    (HEAD + "a,0800,09,010,2\nb,00,9,0,02\n", f"3:3: the earliest start '0800' {TICKS}", f"3:8: the latest end '09' {TICKS}", f"3:11: the length '010' {TICKS}", f"4:3: the earliest start '00' {TICKS}"),
    *((CLOCKED.replace("length", f"length {unit}") + "a,08:00,09:00,50,1\nb,08:00,09:00,0:50,1\nc,08:00,09:00,50 min,1\n", *faults) for unit, *faults in (
        ("(HH:MM)", "4:15: the length '50' is not a length HH:MM", "6:15: the length '50 min' is not a length HH:MM"),
        ("[hh:mm]", "4:15: the length '50' is not a length HH:MM", "6:15: the length '50 min' is not a length HH:MM"),
        ("(min)", "5:15: the length '0:50' is not a whole number of minutes"), ("(Min)", "5:15: the length '0:50' is not a whole number of minutes"))),
    (HEAD + f"{'x' * 200},1,9,3,4\n{'y' * 201},1,9,3,4\n", "4:1: a unit's name has more than 200 letters"),
    (HEAD + "a,1,9,3\nb,1,9,3,4,5\n,,,,6\nc,1,9,3,4,,x,\n", "3:1: this row has 4 cells, the header 5", f"4:11: {UNDER_NONE.format('5')}",
     "5:1: a unit without a name", "5:2: the earliest start '' " + TICKS, "5:3: the latest end '' " + TICKS, "5:4: the length '' " + TICKS, f"6:12: {UNDER_NONE.format('x')}"),
    (HEAD + "a,1,9,3,4\nb,1,9,3,4\n a ,1,9,3,4\n\"a\",1,9,3,4\n", "5:2: the unit 'a' is there already, in line 3", "6:1: the unit 'a' is there already, in line 3"),
    (HEAD + "\u00fc,1,9,3,4\nu\u0308,1,9,3,4\n", "4:1: the unit 'u\u0308' is there already, in line 3"),
    (HEAD + '"a\nb",1,9,3,4\na\u00adb,1,9,3,4\nb\u200b,1,9,3,x\nc\u202ed,1,9,3,4\na\tb,1,9,3,4\n', "3:1: a unit's name has the letter U+000A, which does not show",
     "5:1: a unit's name has the letter U+00AD, which does not show", "6:1: a unit's name has the letter U+200B, which does not show", "6:10: the draw 'x' " + ONES,
     "7:1: a unit's name has the letter U+202E, which does not show", "8:1: a unit's name has the letter U+0009, which does not show"),
    (HEAD + "a,-1,9.0,1e1,+4\nb,0x1,08:00,3 min,4.0\nc,\u0663,\u00b2,1 0,1_0\nd,1,2,3,4 A\n",
     f"3:3: the earliest start '-1' {TICKS}", f"3:6: the latest end '9.0' {TICKS}", f"3:10: the length '1e1' {TICKS}", f"3:14: the draw '+4' {ONES}",
     f"4:3: the earliest start '0x1' {TICKS}", f"4:7: the latest end '08:00' {TICKS}", f"4:13: the length '3 min' {TICKS}", f"4:19: the draw '4.0' {ONES}",
     f"5:3: the earliest start '\u0663' {TICKS}", f"5:5: the latest end '\u00b2' {TICKS}", f"5:7: the length '1 0' {TICKS}", f"5:11: the draw '1_0' {ONES}",
     f"6:9: the draw '4 A' {ONES}"),
    (CLOCKED + "a,8,24:60,1:5,1\nb,08:00:00,:30,min,1\nc,8.00,-1:00,1 h,1\n", f"4:3: the earliest start '8' {TIME}", f"4:5: the latest end '24:60' {TIME}", f"4:11: the length '1:5' {LENGTH}",
     f"5:3: the earliest start '08:00:00' {TIME}", f"5:12: the latest end ':30' {TIME}", f"5:16: the length 'min' {LENGTH}",
     f"6:3: the earliest start '8.00' {TIME}", f"6:8: the latest end '-1:00' {TIME}", f"6:14: the length '1 h' {LENGTH}"),
    (AMPERES + "a,1,9,3,1.85\nb,1,9,3,1.80\nc,1,9,3,1 mA\nd,1,9,3,.5\ne,1,9,3,5.\nf,1,9,3,A\ng,1,9,3,\"1,8\"\n",
     *(f"{line}:9: the draw '{cell}' {STEPS}0.1 A" for line, cell in enumerate(("1.85", "1.80", "1 mA", ".5", "5.", "A", "1,8"), 4))),
    (HEAD + "a,4294967296,99999999999999999999,4294967296,4294967296\n", "3:3: the earliest start '4294967296' is above every limit",
     "3:14: the latest end '99999999999999999999' is above every limit", "3:35: the length '4294967296' is above every limit", "3:46: the draw '4294967296' is above every limit"),
    (HEAD + 'a"b,1,9,3,4\n"a" b,1,9,3,4\nc,x,9,3,4\n', '3:2: a quote inside a cell without quotes', "4:5: this stands behind a closing quote", "5:3: the earliest start 'x' " + TICKS),
    (HEAD + 'a,x,9,3,4\n\u00fc, "b,1,9,3,4\nc,x,9,3,4\n', "3:3: the earliest start 'x' " + TICKS, "4:4: this quote is never closed"),
    # A carriage return alone may end a line for somebody else, and nothing else is looked at.
    (HEAD.replace("\n", "\r") + "a,x,9,3,4\r", "1:12: a carriage return without a line feed; lines have to end with a line feed"),
    (HEAD + "a,1,9,3,4\rb,x,9,3,4\n", "3:10: a carriage return without a line feed; lines have to end with a line feed"),
    ("\ufeff" + HEAD + "\u00fc\u00fc,x,9,3,4\n", "3:4: the earliest start 'x' " + TICKS),
    (HEAD.encode() + "\u00fc\u6f22".encode() + b"\xff,1,9,3,4\n", "3:3: the byte 0xff is no UTF-8; the file has to be saved as UTF-8"),
    ("unit".encode("utf-16"), "1:1: the byte 0xff is no UTF-8; the file has to be saved as UTF-8"),
    (HEAD + "".join(f"u{k},0,9,1,1\n" for k in range(1201)), "1:1: there are 1201 reads; the program takes lists of up to 1200"),
]

PLANNED = listing("a 480 570 60 2", "#b 480 1600 30 3")
HOURS = PLANNED.replace("\n", "\n" + CLOCK, 1).replace("480", "08:00").replace("570", "09:30").replace("1600", "26:40").replace("#b", '"#b"')

# A plan for that list on the clock, and what is wrong with it.
PLANS = [
    ("", "1:1: there is no header with unit, start"),
    ("unit,begin\na,08:00\n", "1:1: the header has no column start"),
    ("start\n08:00\n", "1:1: the header has no column unit"),
    ("unit,start,at\n", "1:12: the column 'at' is start, which 'start' is already"),
    ("unit,start (s)\n", "1:6: the column 'start (s)' is read in HH:MM"),
    ('unit,start\nc,08:00\na,8\na,08:00,,x\na\n"#b",08:00\n"#b",09:00\n,\n,09:00\n', "2:1: the list has no unit \u201cc\u201d", f"3:3: the start '8' {TIME}", f"4:10: {UNDER_NONE.format('x')}",
     "5:1: this row has 1 cells, the header 2", "7:1: \u201c#b\u201d has a start already", "9:1: the list has no unit \u201c\u201d"),
    ("unit,start\ra,08:00\n", "1:11: a carriage return without a line feed; lines have to end with a line feed"),
    ("# time: ticks\nunit,start\n", "1:2: the list's times are HH:MM"),
    ('unit;start\n"a;08:00\n', "2:1: this quote is never closed"),
    (b"unit,start\na\xe4", "2:2: the byte 0xe4 is no UTF-8; the file has to be saved as UTF-8"),
]

FIXES = [
    (["a"], "--fix a: it has to be UNIT=TIME"),
    (["a=8"], f"--fix a=8: '8' {TIME}"),
    (["=08:00"], "--fix =08:00: the list has no unit \u201c\u201d"),
    (["A=08:00"], "--fix A=08:00: the list has no unit \u201cA\u201d"),
    (["a=08:00", " a = 08:01"], "--fix  a = 08:01: \u201ca\u201d is fixed twice"),
    (["a=07:59", "#b=99999999999999:00"], "--fix a=07:59: \u201ca\u201d would be read from 07:59 to 08:59, outside its submitted window 08:00 to 09:30"),
    (["a=08:31"], "--fix a=08:31: \u201ca\u201d would be read from 08:31 to 09:31, outside its submitted window 08:00 to 09:30"),
    (["a=09:30"], "--fix a=09:30: \u201ca\u201d would be read from 09:30 to 10:30, outside its submitted window 08:00 to 09:30"),
]


def told(what: object, found: Said, file: str, faults: tuple[str, ...]) -> None:
    check(what, found, Said([], 2, "\n".join(f"{file}:{fault}" for fault in faults)))


def errors() -> None:
    for text, *faults in LISTS:
        told(text[:200], bench(text), "list.csv", tuple(faults))
    for text, *faults in PLANS:
        put("plan.csv", text)
        told(text, bench(HOURS, "--plan", "plan.csv"), "plan.csv", tuple(faults))
    for words, fault in FIXES:
        found = bench(HOURS, *(f"--fix={word}" for word in words))
        check(words, (found.lines, found.status, found.error.split("\n")[0]), ([], 2, fault))
    for text in ("tarqumbet-log 1\n", "\ufefftarqumbet-log 2\r\ntime ticks\r\n"):
        check((text, "a log for a list"), bench(text), Said([], 2, "list.csv is a log and no list; ./bench --check list.csv checks it."))
    check("all fixes", bench(HOURS, "--fix", "a", "--fix", "a=8").error.count("\n"), 1)


def shown() -> None:
    """What a file holds is told in letters that show, on one line for each error; and so are columns that are not used."""
    for cell in ("\x1b[2J", "x\ny", "\0", "\u202e1", "x\u2028y"):
        for column in range(1, 5):
            cells = ["a", "1", "9", "3", "4"]
            cells[column] = f'"{cell}"'
            found = bench(HEAD + ",".join(cells) + "\n")
            check(("a cell", cell, column), (found.status, found.error.startswith("list.csv:3:"), found.error.isprintable()), (2, True, True))
        found = bench(f'{HEADER},"{cell}"\n# supply: 5\n')
        check(("a column", cell), (found.status, "".join(found.lines).isprintable()), (0, True))
        if "\n" not in cell:
            found = bench(f"# supply: {cell}\n# time: {cell}\n{HEADER}")
            check(("a note", cell), (found.status, [line.isprintable() for line in found.error.split("\n")]), (2, [True] * 2))
            found = run("--check", put("log", f"{cell}\n"))
            check(("a log", cell), (found.status, all(line.isprintable() for line in found.error.split("\n"))), (2, True))


def unread() -> None:
    """Files that cannot be read at all: one sentence that names them."""
    put("long", bytes(16 * 1024 * 1024 + 1))
    for file, what in (("none", "is not there."), (".", "is no regular file."), ("long", "has more than 16777216 bytes."), ("none/none", "is not there."), ("list.csv/none", "cannot be read.")):
        for words in ([file], ["list.csv", "--plan", file], ["list.csv", "--check", file], ["--check", file], [file, "--resource", "0"]):
            put("list.csv", HEAD)
            found = run(*words)
            check(words, (found.lines, found.status, re.sub("[0-9]{6,}", "16777216", found.error)), ([], 2, f"{file} {what}"))


def main() -> int:
    errors()
    shown()
    unread()
    return finished()


if __name__ == "__main__":
    sys.exit(main())
