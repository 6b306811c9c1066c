"""Programs that lie to ./bench, for its tests: each is a stand-in around the program that answers well. What contradicts itself is never told: the command
ends with status 4 and one line that names the program, with nothing on standard output and no file written.
"""

from __future__ import annotations

import sys
from pathlib import Path

from benching import ASKED, LIMITS, check, listing, probe, run, script

# A stand-in answers line by line. Of each line it knows the call's name and the claimed count; of the answer its words `said`, which a lie changes, the first of
# them as it was, and the places at which the lists begin, with their length. What it keeps is there at the next line.
STAND_IN = """\
import subprocess
import sys

# The words of a record, and those of a member set.
RECORD, SET = %d, %d
HEADS = {"settled": 1, "holds": 1, "marked": 1, "refused": 1, "clash": 2, "rejected": 2, "read": 2}
asked = subprocess.Popen(["%s"], stdin=subprocess.PIPE, stdout=subprocess.PIPE, text=True, bufsize=1)
kept, turn = [], -1


def bump(place, by=1):
    said[place] = str(int(said[place]) + by)


def head(*words):
    # Where the checker says that, it leaves the submitted windows.
    if name == "check" and words[0] != "holds":
        said[lists[0] :] = call[3 : 5 + 2 * int(call[3])]
    said[: lists[0]] = map(str, words)


def marks(count, first):
    # So many reads, all of them in the first word.
    said[:] = map(str, ("marked", count, SET, first, *[0] * (SET - 1)))


def ask(line):
    asked.stdin.write(line)
    asked.stdin.flush()
    return asked.stdout.readline().split()


for line in sys.stdin:
    call, said = line.split(), ask(line)
    name, word, turn = call[0], said[0], turn + 1
    count = int(call[2]) if name in ("check", "conflict") else -1
    at, lists = HEADS.get(word, 0) + 1, []
    while at < len(said):
        lists.append(at)
        at += int(said[at]) + 1
    if turn:
        %s
    print(" ".join(said), flush=True)
"""

SETTLED = listing("a 0 4 4 3", "b 0 20 4 3", "c 4 8 4 3", "d 0 90 5 1")
CLASH = listing("x 0 4 4 3", "y 0 20 2 3", "a 16 20 4 3", "b 10 20 4 3", "c 10 14 4 3")
FILES = ("out.log", "out.svg", "out.mzn")
WRITTEN = ("--log", "out.log", "--picture", "out.svg", "--mzn", "out.mzn")


def lied(what: object, program: str, *words: str, reason: str = "") -> None:
    """The command with that program ends with status 4, and the sentence holds this reason."""
    for file in FILES:
        Path(file).unlink(missing_ok=True)
    with probe(program):
        found = run(*words)
    good = found.status == 4 and not found.lines and found.error.endswith(".") and "\n" not in found.error
    if not good:
        check(what, (found.lines[:1], found.status, found.error[-300:]), ([], 4, "a sentence"))
    elif program not in found.error or reason not in found.error:
        check(what, found.error, f"a sentence with {program} and with '{reason}'")
    check((what, "files"), [file for file in FILES if Path(file).exists()], [])


def stand_in(lie: str) -> str:
    return script("stand-in", STAND_IN % (LIMITS.record, LIMITS.record - LIMITS.head, ASKED, lie), f"{sys.executable} -ISB")
