"""How the commands ask a program, and how they end: answers, faults, the line that says how long it takes, texts and statuses. PROBE is the command that is
asked, and stand-ins take its place. Says what went wrong and ends with status 1, or says nothing.
"""

from __future__ import annotations

import os
import pty
import re
import sys
import tempfile
from collections.abc import Callable, Iterable, Iterator
from contextlib import contextmanager
from pathlib import Path

TOP = Path(__file__).resolve().parent.parent
sys.path.insert(0, str(TOP / "front"))

import clock  # noqa: E402
import ending  # noqa: E402
from asking import AHEAD, Unasked, started  # noqa: E402

# The greatest log of a line, in a call that leaves it as it is: more than a million bytes, and as many in the answer.
LOG = "131064" + " 4294967295" * 131064

# A stand-in, which is a script, and what it does wrong before it has answered a call; then those that do so behind their answers.
FAULTS = [
    ("exec true", "says nothing"),
    ("exec false", "did not end well"),
    ("kill -9 $$", "did not end well"),
    ("exec cat", "says something that is no answer"),
    ("echo; exec cat", "says something that is no answer"),
    ("exec yes", "says something that is no answer"),
    ("yes 'record 0'", "does not say one line for each that it gets"),
    ("yes | tr -d '\\n'", "says too much"),
    ("read -r x; echo record 0", "ends before it has answered"),
    ("read -r x; echo record 0; exit 3", "did not end well"),
    ("read -r x; echo record 0; read -r x; printf non", "ends before it has answered"),
    ("read -r x; echo record 0; yes | tr -d '\\n'", "says too much"),
    ("read -r x; echo record 0; read -r x; printf 'none\\nnone\\n'; exec cat", "does not say one line for each that it gets"),
    ("'%s' | sed -u 's/record/rec\\xff/'", "says something that is no answer"),
]
LATE = [
    ("'%s'; echo none", "does not say one line for each that it gets"),
    ("'%s'; printf n", "does not say one line for each that it gets"),
    ("'%s'; exec yes", "does not say one line for each that it gets"),
    ("'%s'; exit 1", "did not end well"),
]

failed: list[str] = []


def check(what: object, found: object, wanted: object) -> None:
    if found != wanted:
        failed.append(f"{str(what)[:300]}: {str(found)[:600]}, and not {str(wanted)[:600]}")


@contextmanager
def probe(lines: str) -> Iterator[None]:
    """A script of these lines is asked, in which %s stands for the program that answers well."""
    before = os.environ["PROBE"]
    with tempfile.TemporaryDirectory() as work:
        for name, script in (("well", "exec " + before), ("asked", lines.replace("%s", work + "/well"))):
            file = Path(work, name)
            file.write_text(f"#!/bin/sh\n{script}\n")
            file.chmod(0o755)
        os.environ["PROBE"] = str(file)
        yield
    os.environ["PROBE"] = before


@contextmanager
def standard_error(place: int) -> Iterator[None]:
    kept = os.dup(2)
    os.dup2(place, 2)
    try:
        yield
    finally:
        os.dup2(kept, 2)
        os.close(kept)


def answers() -> None:
    with started() as program:
        check("a batch", program.answers(["overload 0 0 0", "", "record 7 0"]), ["none", "unreadable", "record 0"])
        check("no batch", program.answers([]), [])
        check("a line", program.answer("narrow 5 0 0 0 0 0"), "settled 0 0 0 0")
        check("a long line", program.answer("narrow 5 0 0 0 0 " + LOG), "settled 0 0 0 " + LOG)
        given = 0

        def lines() -> Iterator[str]:
            nonlocal given
            for given in range(1, 41):
                yield f"narrow 5 0 0 0 0 {LOG}" if given % 2 else "x"

        for count, said in enumerate(program.each(lines()), 1):
            check(f"answer {count}", said, f"settled 0 0 0 {LOG}" if count % 2 else "unreadable")
            check(f"lines before answer {count}", given, min(count + AHEAD, 40))
        check("all are answered", (count, given), (40, 40))


def fault(lines: Iterable[str]) -> tuple[str, bool]:
    """What is told where these are asked, and whether all were answered before."""
    answered = False
    try:
        with started() as program:
            program.answers(lines)
            answered = True
    except Unasked as unasked:
        check("the status of a fault", unasked.status, ending.STOPPED)
        return str(unasked), answered
    return "", answered


def faults() -> None:
    for late, stand_ins in enumerate((FAULTS, LATE)):
        for script, wanted in stand_ins:
            with probe(script):
                check(script, fault(["overload 0 0 0"]), (f"The program that is asked {wanted}.", late == 1))
    with probe(""):
        os.environ["PROBE"] += ".none"
        check("no program", fault([]), ("The program that is asked cannot be started.", False))


def killed() -> None:
    """What goes wrong between questions ends the program, however long it would work, and leaves no process behind."""

    def broken() -> Iterator[str]:
        yield "x" * 1000000
        raise KeyError

    with probe("read -r x; echo record 0; exec sleep 1000"):
        try:
            failed.append(f"told in place of what went wrong: {fault(broken())}")
        except KeyError:
            pass
    try:
        failed.append(f"a process is left: {os.waitpid(-1, os.WNOHANG)}")
    except ChildProcessError:
        pass


def silent() -> None:
    """Standard error, which is no terminal, is left to those who catch a fault, and to the program, however long that takes."""
    clock.PATIENCE = 0
    with tempfile.TemporaryFile() as file:
        with standard_error(file.fileno()):
            faults()
            killed()
        file.seek(0)
        check("standard error", file.read(), b"")


def progress() -> None:
    """The program is slow before its first answer, when nothing may be said, and with one of the answers behind it."""
    slow = "read -r x; sleep 2.2; echo record 0; read -r x; echo none; read -r x; sleep 3.5; echo none; read -r x; echo none"
    master, terminal = pty.openpty()
    clock.PATIENCE = 2
    with probe(slow), standard_error(terminal):
        check("slow answers", fault(["overload 0 0 0"] * 3), ("", True))
        os.write(2, b"then")
    said = os.read(master, 4096).decode("ascii")
    check(repr(said), re.fullmatch(r"(\rThe program is at work, [0-9] s\.){2,}\r {28}\rthen", said) is not None, True)
    seconds = re.findall("[0-9]", said)
    check("the seconds", seconds, sorted({"2", *seconds}))
    os.close(master)
    os.close(terminal)


def texts() -> None:
    """What is written is UTF-8, and a command that stops ends with the status that it names."""
    with tempfile.TemporaryFile() as file:
        with standard_error(file.fileno()):
            for stop, status in ((ending.Stop("Wörter\nund \udcff."), 2), (ending.Stop("No.", 4), 4)):
                try:
                    ending.run(raiser(stop))
                except SystemExit as ended:
                    check("a status", ended.code, status)
        file.seek(0)
        check("what is told", file.read(), "Wörter\nund \\udcff.\nNo.\n".encode())


def raiser(stop: ending.Stop) -> Callable[[list[str]], tuple[list[str], int]]:
    def command(_: list[str]) -> tuple[list[str], int]:
        raise stop

    return command


def main() -> int:
    if not os.environ.get("PROBE", "").split():
        print("PROBE is not set, and nothing is to be proved here.")
        return 1
    answers()
    silent()
    progress()
    texts()
    for what in failed:
        print(what)
    return 1 if failed else 0


if __name__ == "__main__":
    sys.exit(main())
