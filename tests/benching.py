"""What the tests of ./bench share: its command called in process from a folder that is made for it, what it says, programs in place of the one that is
asked, and lines that are put to a program directly, and a plain replay of log files. PROBE is the command that answers in place of `./run probe`; nothing
is proved.
"""

from __future__ import annotations

import atexit
import json
import os
import subprocess
import sys
import tempfile
import traceback
import unicodedata
from collections.abc import Iterator, Sequence
from contextlib import contextmanager
from pathlib import Path
from typing import NamedTuple

TOP = Path(__file__).resolve().parent.parent
sys.path.insert(0, str(TOP / "front"))

from bench.command import command  # noqa: E402
from ending import Stop  # noqa: E402
from limits import limits  # noqa: E402

# So much of what went wrong is said.
MOST = 40
HEADER = "unit,earliest,latest,length,draw"

# The limits and the layout of a record stand in the sources.
LIMITS = limits()
RECORD = LIMITS.record

failed: list[str] = []


class Said(NamedTuple):
    """The lines on standard output, the status, and what stands on standard error; status -1 stands for a crash."""

    lines: list[str]
    status: int
    error: str

    @property
    def text(self) -> str:
        return "\n".join(self.lines)

    @property
    def object(self) -> dict:
        """Of --json; an empty one where there is none."""
        try:
            [line] = self.lines
            return json.loads(line)
        except ValueError:
            return {}


def check(what: object, found: object, wanted: object) -> None:
    if found != wanted:
        failed.append(f"{str(what)[:300]}: {str(found)[:700]}, and not {str(wanted)[:700]}")


def finished() -> int:
    """What went wrong is said; the status."""
    for what in failed[:MOST]:
        print(what)
    if len(failed) > MOST:
        print(f"and {len(failed) - MOST} more")
    return 1 if failed else 0


def script(name: str, lines: str, program: str = "/bin/sh") -> str:
    """A program of these lines; where it stands."""
    file = Path(name).absolute()
    file.write_text(f"#!{program}\n{lines}\n", "utf-8")
    file.chmod(0o755)
    return str(file)


def prepared() -> str:
    """The folder in which all is done, and in it the program that is asked, which can be started from anywhere."""
    if not os.environ.get("PROBE", "").split():
        print("PROBE is not set, and nothing is to be proved here.")
        sys.exit(1)
    folder = tempfile.TemporaryDirectory()
    atexit.register(folder.cleanup)
    atexit.register(os.chdir, "/")
    os.chdir(folder.name)
    os.environ["PROBE"] = script("asked", f"cd '{TOP}' && exec {os.environ['PROBE']}")
    return folder.name


FOLDER = prepared()
ASKED = os.environ["PROBE"]


def put(name: str, text: str | bytes) -> str:
    Path(name).write_bytes(text if isinstance(text, bytes) else text.encode("utf-8"))
    return name


def run(*words: str) -> Said:
    """What the command makes of these words."""
    try:
        lines, status = command(list(words))
    except Stop as stop:
        return Said([], stop.status, str(stop))
    except Exception:
        return Said([], -1, traceback.format_exc())
    return Said(lines, status, "")


def listing(*rows: str, supply: str = "5", notes: str = "", header: str = HEADER) -> str:
    """The text of a list. A row has its cells parted by blanks: unit, earliest start, latest end, length, draw."""
    return "\n".join((f"# supply: {supply}", *notes.splitlines(), header, *(",".join(row.split()) for row in rows), ""))


def bench(text: str | bytes, *words: str) -> Said:
    """The command with a list of this text."""
    return run(put("list.csv", text), *words)


@contextmanager
def probe(program: str) -> Iterator[None]:
    """This command is asked."""
    os.environ["PROBE"] = program
    try:
        yield
    finally:
        os.environ["PROBE"] = ASKED


def row(numbers: Sequence[int]) -> str:
    return " ".join(map(str, (len(numbers), *numbers)))


class Answer(NamedTuple):
    word: str
    numbers: list[int]
    lists: list[list[int]]


class Direct:
    """A program that is started once and asked directly. SECOND is the path of the second program; where it is not set, PROBE answers."""

    def __init__(self) -> None:
        words = [os.environ["SECOND"], "answer"] if os.environ.get("SECOND") else [ASKED]
        self.program = subprocess.Popen(words, stdin=subprocess.PIPE, stdout=subprocess.PIPE, text=True)

    def close(self) -> None:
        self.program.stdin.close()
        self.program.stdout.close()
        check("the status of the program that is asked directly", self.program.wait(), 0)

    def answer(self, line: str, heads: dict[str, int]) -> Answer:
        """The heads say how many numbers stand behind a word; lists follow."""
        self.program.stdin.write(line + "\n")
        self.program.stdin.flush()
        word, *rest = self.program.stdout.readline().split()
        numbers = list(map(int, rest))
        at, lists = heads[word], []
        while at < len(numbers):
            lists.append(numbers[at + 1 : at + 1 + numbers[at]])
            at += 1 + numbers[at]
        return Answer(word, numbers[: heads[word]], lists)

    def narrow(self, supply: int, lists: Sequence[Sequence[int]], records: int) -> Answer:
        line = " ".join(("narrow", str(supply), *map(row, lists), row([0] * RECORD * records)))
        return self.answer(line, {"settled": 1, "clash": 2, "refused": 1})

    def head(self, lists: Sequence[Sequence[int]]) -> Answer:
        return self.answer(" ".join(("head", *map(row, lists))), {"settled": 1, "clash": 2, "refused": 1})

    def check(self, supply: int, lists: Sequence[Sequence[int]], count: int, log: Sequence[int]) -> Answer:
        line = " ".join(("check", str(supply), str(count), *map(row, lists), row(log)))
        return self.answer(line, {"holds": 1, "clash": 2, "rejected": 2, "refused": 1})

    def conflict(self, supply: int, lists: Sequence[Sequence[int]], count: int, log: Sequence[int]) -> list[int]:
        """The marked reads."""
        line = " ".join(("conflict", str(supply), str(count), *map(row, lists), row(log)))
        return bits(self.answer(line, {"marked": 1, "refused": 1}).lists[0])


def bits(words: Sequence[int]) -> list[int]:
    return [32 * place + bit for place, word in enumerate(words) for bit in range(32) if word >> bit & 1]


def records(log: Sequence[int], count: int) -> list[dict]:
    """As --json gives them."""
    parts = [log[RECORD * place : RECORD * (place + 1)] for place in range(count)]
    return [{"job": part[0], "side": part[1], "time": part[2], "members": bits(part[4:])} for part in parts]


class Bad(Exception):
    """A log that is not as it has to be."""


def need(fact: bool) -> None:
    if not fact:
        raise Bad


def replay(text: str) -> tuple[tuple, str, list[list[int]]]:
    """A log file by docs/ANSWERS.md, taken apart and replayed: what it is of, its end, and the windows that it leaves, in a clash those that it starts from: the
    submitted ones, or those of starts that are fixed."""
    lines = text.replace("\r\n", "\n").split("\n")[:-1]
    need(lines[0] == "tarqumbet-log 1" and [line.split(" ")[0] for line in lines[1:4]] == ["time", "step", "supply"])
    reads = [(*map(int, line.split(" ")[1:5]), unicodedata.normalize("NFC", line.split(" ", 5)[5][1:-1].replace('""', '"'))) for line in lines if line.startswith("read ")]
    steps = [tuple(map(int, line.split(" ")[1:])) for line in lines if line.startswith("record ")]
    supply = int(lines[3].split(" ")[1])
    fixes = [tuple(map(int, line.split(" ")[1:])) for line in lines if line.startswith("fix ")]
    need(len(dict(fixes)) == len(fixes) and all(reads[job][0] <= start <= reads[job][1] - reads[job][2] for job, start in fixes))
    asked = [[dict(fixes).get(job, read[0]), dict(fixes)[job] + read[2] if job in dict(fixes) else read[1]] for job, read in enumerate(reads)]
    need(all(max(*window, read[2]) <= LIMITS.time and read[3] <= LIMITS.demand for window, read in zip(asked, reads)))
    need(supply <= LIMITS.demand and len(reads) <= LIMITS.jobs)
    windows, end = [list(window) for window in asked], f"holds {len(steps)}"
    short = [job for job, (start, end_) in enumerate(asked) if start + reads[job][2] > end_]
    if short:
        need(not steps)
        end = f"clash 0 {short[0]}"
    for place, (job, side, time, *members) in enumerate(steps):
        need(end.startswith("holds") and job < len(reads) and side < 2 and time <= 1000000 and all(member < len(reads) and member != job for member in members))
        need(all(reads[one][2] and reads[one][3] for one in (job, *members)))
        drawn_ = sum(reads[one][3] for one in (job, *members))
        need(drawn_ > supply and all(drawn_ - reads[member][3] <= supply for member in members))
        for one in (job, *members):
            need(one == job and side == 1 or windows[one][0] > time - reads[one][2])
            need(one == job and side == 0 or windows[one][1] - reads[one][2] <= time)
        need(time + 1 > windows[job][0] if side == 0 else time < windows[job][1])
        windows[job][side] = time + 1 if side == 0 else time
        if windows[job][0] + reads[job][2] > windows[job][1]:
            end = f"clash {place + 1} {job}"
    need(lines[-1] == f"end {end}")
    return (lines[1:4], reads, dict(fixes)), end, windows if end.startswith("holds") else asked
