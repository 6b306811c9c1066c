"""The tokens of a project text and where they stand, and the numbers that are made of them.

A token is a longest run of bytes other than space, tab, carriage return and line feed; a number is a token of digits alone. A token that is not what has to
come next is refused by the reader's number, with a hint that says where it stands. Nothing here is proved: a hint is shown where the proved reader gives the
same number, and never in its place.
"""

from __future__ import annotations

import re
from collections.abc import Iterator

TOKEN = re.compile(rb"[^ \t\r\n]+")

# The bytes of a token that a hint shows, and digits that make a number greater than every limit.
SHOWN = 40
DIGITS = 10

Tokens = Iterator[re.Match[bytes]]


class Refused(Exception):
    """The number of a refusal, and hints to its place."""

    def __init__(self, number: int, *hints: str) -> None:
        super().__init__(number)
        self.number = number
        self.hints = hints


def tokens(text: bytes, start: int, end: int) -> Tokens:
    return TOKEN.finditer(text, start, end)


def line_number(text: bytes, at: int) -> int:
    return text.count(b"\n", 0, at) + 1


def shown(token: bytes) -> str:
    """The token, cut where it is long; bytes that are no printable ASCII as their numbers."""
    letters = "".join(chr(byte) if 32 <= byte < 127 else f"\\x{byte:02x}" for byte in token[:SHOWN])
    return letters + ".." if len(token) > SHOWN else letters


def refused(number: int, token: re.Match[bytes], why: str) -> Refused:
    text, at = token.string, token.start()
    column = at - text.rfind(b"\n", 0, at)
    return Refused(number, f'line {line_number(text, at)}, column {column}: "{shown(token[0])}" {why}.')


def value(token: bytes) -> int:
    """Of digits; a number that is above every limit may count as another one that is."""
    digits = token.lstrip(b"0")
    return int(digits or b"0") if len(digits) <= DIGITS else 10**DIGITS


def number(row: Tokens, what: str, ends: str = "the text ends") -> tuple[re.Match[bytes], int]:
    """The next token and its value; `what` says what it is read as."""
    token = next(row, None)
    if token is None:
        raise Refused(30, f"{ends} where {what} has to stand.")
    if not token[0].isdigit():
        raise refused(30, token, f"is no number ({what})")
    return token, value(token[0])


def at_most(row: Tokens, most: int, what: str, ends: str = "the text ends") -> int:
    token, found = number(row, what, ends)
    if found > most:
        raise refused(31, token, f"is above {most} ({what})")
    return found


def exactly(row: Tokens, wanted: int, what: str) -> None:
    """Any other number counts as none."""
    token, found = number(row, what)
    if found != wanted:
        raise refused(30, token, f"is not {wanted} ({what})")


def from_one(row: Tokens, most: int, what: str) -> None:
    token, found = number(row, what)
    if not 1 <= found <= most:
        raise refused(32, token, f"is not from 1 to {most} ({what})")


def ended(row: Tokens) -> None:
    token = next(row, None)
    if token is not None:
        raise refused(30, token, "is left over (the text has to end there)")
