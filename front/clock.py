"""Where standard error is a terminal and something takes long, a line there says how long by now. It is renewed in place and wiped at the end."""

from __future__ import annotations

import math
import os
import time

from ending import tell

# The seconds after which it is said.
PATIENCE = 2


class Clock:
    """Runs from the start of its `with` block, in which `tick` has to be called once a second at least."""

    def __init__(self, what: str) -> None:
        self.what = what
        self.line = ""

    def __enter__(self) -> Clock:
        self.began = time.monotonic()
        return self

    def __exit__(self, *_: object) -> None:
        if self.line:
            tell("\r" + " " * len(self.line) + "\r")

    def tick(self) -> float | None:
        """The seconds until the next call; none has to come where standard error is no terminal."""
        if not os.isatty(2):
            return None
        passed = time.monotonic() - self.began
        if passed < PATIENCE:
            return PATIENCE - passed
        line = f"{self.what}, {math.floor(passed)} s."
        if line != self.line:
            tell("\r" + line)
            self.line = line
        return math.floor(passed) + 1 - passed
