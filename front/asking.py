"""The program that is asked: the command in PROBE where that is set, else `./run probe`. It gets lines and gives a line for each.

It is started once, and each line may rest on the answers before it. What it does wrong is told in one sentence. But a program that reads and neither answers
nor ends can only be waited for.
"""

from __future__ import annotations

import os
import select
import subprocess
from collections.abc import Iterable, Iterator
from contextlib import contextmanager

from clock import Clock
from ending import Stop
from limits import TOP

# More bytes than any answer has. A program that says as many and does not end its line is not heard to the end.
MOST_SAID = 16 * 1024 * 1024

# The bytes that are heard at once, and the most lines that it has been given and has not answered.
PART = 64 * 1024
AHEAD = 16

# A line that is answered at once, and its answer. Before that `./run` may have proofs made for minutes, and shows on standard error how far they are.
FIRST = ("record 0 0", "record 0")


class Unasked(Stop):
    """A fault of the program that is asked."""

    def __init__(self, fault: str) -> None:
        super().__init__(f"The program that is asked {fault}.")


def no_answer() -> Unasked:
    return Unasked("says something that is no answer")


def not_one_each() -> Unasked:
    return Unasked("does not say one line for each that it gets")


def words() -> list[str]:
    """The words of PROBE are parted by blanks, and none is quoted."""
    return os.environ.get("PROBE", "").split() or [str(TOP / "run"), "probe"]


def name() -> str:
    """The program as it is told to people."""
    return os.environ.get("PROBE", "").strip() or "./run probe"


class Program:
    """The started program. It is fed as much as it takes without waiting, and what it says is heard meanwhile, so that neither side waits for the other."""

    def __init__(self, asked: subprocess.Popen[bytes]) -> None:
        self.asked = asked
        self.unfed = bytearray()
        self.heard = bytearray()
        self.spoke = False
        os.set_blocking(asked.stdin.fileno(), False)

    def give(self, line: str) -> None:
        self.unfed += line.encode("ascii") + b"\n"
        self.feed()

    def feed(self) -> None:
        """As much as it takes now. One that has ended is judged by what it says."""
        try:
            taken = self.asked.stdin.write(self.unfed) or 0
        except OSError:
            taken = len(self.unfed)
        del self.unfed[:taken]

    def hear(self) -> None:
        said = self.asked.stdout.read(PART)
        if not said:
            raise self.ended()
        self.spoke = True
        self.heard += said

    def ended(self) -> Unasked:
        """The fault of a program that says nothing more while an answer is waited for."""
        self.asked.stdin.close()
        if self.asked.wait() != 0:
            return Unasked("did not end well")
        return Unasked("ends before it has answered" if self.spoke else "says nothing")

    def turn(self, seconds: float | None) -> None:
        """Feeds and hears what can be; where nothing can, it is waited for, so many seconds at most where that is a number."""
        fed = [self.asked.stdin] if self.unfed else []
        says, takes, _ = select.select([self.asked.stdout], fed, [], seconds)
        if takes:
            self.feed()
        if says:
            self.hear()

    def taken(self, clock: Clock | None = None) -> str:
        """The next answer."""
        known = 0
        while (end := self.heard.find(b"\n", known)) < 0:
            known = len(self.heard)
            if known > MOST_SAID:
                raise Unasked("says too much")
            self.turn(clock.tick() if clock else None)
        said = self.heard[:end].decode("ascii", "replace")
        del self.heard[: end + 1]
        return said

    def each(self, lines: Iterable[str]) -> Iterator[str]:
        """The answers, one by one; lines are taken as they are needed, a few ahead. Nothing else may be asked before the last answer is taken."""
        owed = 0
        with Clock("The program is at work") as clock:
            for line in lines:
                if owed == AHEAD:
                    yield self.taken(clock)
                    owed -= 1
                self.give(line)
                owed += 1
            for _ in range(owed):
                yield self.taken(clock)
        if self.heard:
            raise not_one_each()

    def answers(self, lines: Iterable[str]) -> list[str]:
        return list(self.each(lines))

    def answer(self, line: str) -> str:
        return self.answers([line])[0]

    def begin(self) -> None:
        """No clock runs here."""
        line, answer = FIRST
        self.give(line)
        if self.taken() != answer:
            raise no_answer()

    def finish(self) -> None:
        """It gets no more lines, and has to end well without another word."""
        self.asked.stdin.close()
        if self.heard or self.asked.stdout.read(1):
            raise not_one_each()
        if self.asked.wait() != 0:
            raise Unasked("did not end well")


@contextmanager
def started() -> Iterator[Program]:
    """For a `with` block, at whose end it has to end too. Where something goes wrong in the block it is killed."""
    try:
        asked = subprocess.Popen(words(), stdin=subprocess.PIPE, stdout=subprocess.PIPE, bufsize=0)
    except (OSError, ValueError):
        raise Unasked("cannot be started") from None
    with asked:
        try:
            program = Program(asked)
            program.begin()
            yield program
            program.finish()
        except BaseException:
            asked.kill()
            raise
