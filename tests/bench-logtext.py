"""What ./bench says of log files that cannot be read, each line with its place (docs/ANSWERS.md, 'The log file'). PROBE is the program that is asked. Says
what went wrong and ends with status 1, or says nothing.
"""

from __future__ import annotations

import sys

from benching import HEADER, LIMITS, Said, check, finished, put, run

LOG = """\
tarqumbet-log 1
time HH:MM
step 0.1 A
supply 50
read 480 560 50 18 "Bosch ""Motronic"" ML4.1"
read 490 570 60 16 "Marelli"
read 480 720 40 20 "Lucas"
record 2 0 519 0 1
record 2 0 529 0 1
end holds 2
"""
FIXED = LOG.replace("record", "fix 2 490\nfix 0 480\nrecord", 1).replace("record 2 0 519 0 1\nrecord 2 0 529 0 1\nend holds 2", "record 2 0 529 0 1\nend clash 1 2")
A_READ = "a read has its earliest start, latest end, length, draw and, in quotes, its unit's name"
A_RECORD = "a record has the moved read, the side, the time and the members"
AN_END = "the end is 'holds' with the number of records, or 'clash' with that number and the read that clashes"
NO_NUMBER = "is no number from 0 to 4294967295"
A_START = "a fixed start has a read of the log and its start"
NO_LOG = "1:1: this is no log: its first line has to be 'tarqumbet-log 1'"

# Something in that log, what stands in its place, and what is then wrong.
LOGS = [
    ("log 1", "log 2", "1:1: the log has version '2'; this command reads version 1"),
    ("log 1", "log 01", "1:1: the log has version '01'; this command reads version 1"),
    ("tarqumbet-log 1\n", "", NO_LOG),
    ("time HH:MM", "time hh:mm", "2:1: the time 'hh:mm' is neither HH:MM nor ticks"),
    ("time HH:MM\n", "time HH:MM\ntime HH:MM\n", "3:1: a line 'time' stands behind a line 'time'"),
    ("time HH:MM\nstep 0.1 A", "step 0.1 A\ntime HH:MM", "3:1: a line 'time' stands behind a line 'step'"),
    ("step 0.1 A", "step 0.1A", "3:1: '0.1A' is no step"),
    ("step 0.1 A", "step 0", "3:1: '0' is no step"),
    ("step 0.1 A", "step", "3:1: '' is no step"),
    ("supply 50", "supply 5.0", f"4:1: '5.0' {NO_NUMBER}"),
    ("supply 50", "supply 50 ", f"4:1: '50 ' {NO_NUMBER}"),
    ("supply 50", "supply 4294967296", f"4:1: '4294967296' {NO_NUMBER}"),
    ("supply 50\n", "", "9:1: the log has no line 'supply'"),
    ("supply", "Supply", "4:1: no line of a log begins with 'Supply'", "10:1: the log has no line 'supply'"),
    ('"Marelli"', "Marelli", f"6:1: {A_READ}"),
    ('"Marelli"', '"Marelli" ', f"6:1: {A_READ}"),
    ("490 570", "490  570", f"6:1: {A_READ}"),
    ("490 570", "-490 570", f"6:1: {A_READ}"),
    ("490 570", "570", f"6:1: {A_READ}"),
    ("490 570", "4294967296 99999999999999999999", f"6:1: '4294967296' {NO_NUMBER}", f"6:1: '99999999999999999999' {NO_NUMBER}"),
    ('"Marelli"', '""', "6:1: a unit without a name"),
    ('"Marelli"', '"Mar\tlli"', "6:1: a unit's name has the letter U+0009, which does not show"),
    ('"Marelli"', '"Lucas"', "7:1: the unit 'Lucas' is there already, in line 6"),
    ("record 2 0 519 0 1", "record 2 0", f"8:1: {A_RECORD}"),
    ("record 2 0 519 0 1", "record 2 x 519 0 1", f"8:1: 'x' {NO_NUMBER}"),
    ("record 2 0 519 0 1", "record 2 0 519  0 1", f"8:1: '' {NO_NUMBER}"),
    ("record 2 0 519 0 1", "record 2 0 519 1 0", "8:1: the members do not rise"),
    ("record 2 0 519 0 1", "record 2 0 519 1 1", "8:1: the members do not rise"),
    ("record 2 0 519 0 1", f"record 2 0 519 0 {LIMITS.jobs}", f"8:1: no member set holds read {LIMITS.jobs}"),
    ('read 480 720 40 20 "Lucas"\nrecord 2 0 519 0 1', 'record 2 0 519 0 1\nread 480 720 40 20 "Lucas"', "8:1: a line 'read' stands behind a line 'record'"),
    ("end holds 2\n", "", "9:1: the log has no line 'end'"),
    ("end holds 2\n", "end holds 2", "10:1: the last line is not ended"),
    ("end holds 2", "end holds", f"10:1: {AN_END}"),
    ("end holds 2", "end holds 2 ", f"10:1: {AN_END}"),
    ("end holds 2", "end clash 2", f"10:1: {AN_END}"),
    ("end holds 2", "end settled 2", f"10:1: {AN_END}"),
    ("end holds 2\n", "end holds 2\nend holds 2\n", "11:1: a line 'end' stands behind a line 'end'"),
    ("end holds 2\n", "end holds 2\n\n", "11:1: the line begins with no word"),
    ("end holds 2\n", "end holds 2\nrecord 2 0 529 0 1\n", "11:1: a line 'record' stands behind a line 'end'"),
    ("end holds 2\n", "# remark\nend holds 2\n", "10:1: no line of a log begins with '#'"),
    ("record 2 0 519", "record 2 0 x 1 1\nrecorded\nrecord 2", f"8:1: 'x' {NO_NUMBER}", "9:1: no line of a log begins with 'recorded'"),
]


# Something in the same log with starts that are fixed, what stands in its place, and what is then wrong.
FIXES = [
    ("fix 2 490", "fix 2 479", "8:1: the start 479 of read 2 is not in its window"),
    ("fix 2 490", "fix 2 681", "8:1: the start 681 of read 2 is not in its window"),
    ("fix 2 490", "fix 2 720", "8:1: the start 720 of read 2 is not in its window"),
    ("fix 2 490", "fix 0 480", "9:1: read 0 has a fixed start already"),
    ("fix 0 480", "fix 2 490", "9:1: read 2 has a fixed start already"),
    ("fix 0 480", "fix 2 479", "9:1: read 2 has a fixed start already", "9:1: the start 479 of read 2 is not in its window"),
    ("fix 2 490", "fix 3 490", f"8:1: {A_START}"),
    ("fix 2 490", f"fix {LIMITS.jobs} 490", f"8:1: {A_START}"),
    ("fix 2 490", "fix 2", f"8:1: {A_START}"),
    ("fix 2 490", "fix 2 490 490", f"8:1: {A_START}"),
    ("fix 2 490", "fix", f"8:1: '' {NO_NUMBER}"),
    ("fix 2 490", "fix 2 ", f"8:1: '' {NO_NUMBER}"),
    ("fix 2 490", "fix  2 490", f"8:1: '' {NO_NUMBER}"),
    ("fix 2 490", "fix x 490", f"8:1: 'x' {NO_NUMBER}"),
    ("fix 2 490", "fix 2 08:10", f"8:1: '08:10' {NO_NUMBER}"),
    ("fix 2 490", "fix 2 4294967296", f"8:1: '4294967296' {NO_NUMBER}"),
    ("fix 2 490", "Fix 2 490", "8:1: no line of a log begins with 'Fix'"),
    ("fix 0 480\nrecord 2 0 529 0 1\n", "record 2 0 529 0 1\nfix 0 480\n", "10:1: a line 'fix' stands behind a line 'record'"),
    ("fix 0 480\nrecord 2 0 529 0 1\nend clash 1 2\n", "record 2 0 529 0 1\nend clash 1 2\nfix 0 480\n", "11:1: a line 'fix' stands behind a line 'record'"),
    ('read 480 720 40 20 "Lucas"\nfix 2 490', 'fix 0 490\nread 480 720 40 20 "Lucas"', "8:1: a line 'read' stands behind a line 'fix'", "9:1: read 0 has a fixed start already"),
    ("supply 50\n", "fix 0 480\nsupply 50\n", f"4:1: {A_START}", "5:1: a line 'supply' stands behind a line 'fix'", "6:1: a line 'read' stands behind a line 'fix'",
     "7:1: a line 'read' stands behind a line 'fix'", "8:1: a line 'read' stands behind a line 'fix'"),
]


def told(what: object, found: Said, *faults: str) -> None:
    check(what, found, Said([], 2, "\n".join(f"log:{fault}" for fault in faults)))


def damaged(text: str, others: list[tuple[str, ...]]) -> None:
    for old, new, *faults in others:
        check((old, "stands in the log"), text.count(old) > 0, True)
        told((old, new), run("--check", put("log", text.replace(old, new, 1))), *faults)


def main() -> int:
    for text, status in ((LOG, 0), ("\ufeff" + LOG.replace("\n", "\r\n"), 0), (FIXED, 1), (FIXED.replace("fix 2 490\nfix 0 480", "fix 0 480\nfix 2 490"), 1)):
        check((text, "good"), run("--check", put("log", text)).status, status)
    damaged(LOG, LOGS)
    damaged(FIXED, FIXES)
    told("a byte", run("--check", put("log", LOG.encode().replace(b"Lucas", b"L\xfccas"))), "7:22: the byte 0xfc is no UTF-8; the file has to be saved as UTF-8")
    many = LOG.replace("record 2 0 519 0 1\n", "record 2 0 519 0 1\n" * LIMITS.records)
    told("records", run("--check", put("log", many)), f"{LIMITS.records + 8}:1: the program takes up to {LIMITS.records} lines 'record'")
    many = LOG.replace('read 490 570 60 16 "Marelli"\n', "".join(f'read 0 9 1 1 "{k}"\n' for k in range(LIMITS.line_jobs - 1)))
    told("reads", run("--check", put("log", many)), f"{LIMITS.line_jobs + 5}:1: the program takes up to {LIMITS.line_jobs} lines 'read'")
    for text in (f"# supply: 5\n{HEADER}\na,0,9,3,2\n", "", "\n" + LOG, " " + LOG, "tarqumbet-log\n", "tarqumbet-log1\n", "Tarqumbet-log 1\n"):
        told((text, "no log"), run("--check", put("log", text)), NO_LOG)
        told((text, "no log beside a list"), run(put("list.csv", f"# supply: 5\n{HEADER}\n"), "--check", "log"), NO_LOG)
    return finished()


if __name__ == "__main__":
    sys.exit(main())
