"""Files that a command is told to read."""

from __future__ import annotations

import os
import stat

from ending import Stop


def bytes_of(file: str, most: int, name: str) -> bytes:
    """The whole file, which is told by that name. What no regular file is, such as a pipe, is not opened: it could keep us waiting."""
    try:
        if not stat.S_ISREG(os.stat(file).st_mode):
            raise Stop(f"{name} is no regular file.")
        with open(file, "rb") as opened:
            found = opened.read(most + 1)
    except FileNotFoundError:
        raise Stop(f"{name} is not there.") from None
    except (OSError, ValueError):
        raise Stop(f"{name} cannot be read.") from None
    if len(found) > most:
        raise Stop(f"{name} has more than {most} bytes.")
    return found
