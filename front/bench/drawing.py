"""The elements of an SVG picture as text, and how much room words take in it.

No font is at hand here. Words are measured by the widest of the fonts that are asked for, so that they rather end early than overlap; what no XML text may
hold, such as a control character, is replaced.
"""

from __future__ import annotations

import re
import unicodedata
from collections.abc import Callable

FONTS = "DejaVu Sans, Verdana, Arial, sans-serif"
CUT = "\u2026"

# Parts of the font's size that a character is wide.
NARROW, USUAL, CAPITAL, STRANGE, WIDE, BOLD = 0.41, 0.64, 0.78, 0.85, 1.05, 1.12
NARROW_ONES = frozenset("fijlrtI .,:;!'()[]{}|/\\-`")
WIDE_ONES = frozenset("mwMWOQ@%&+=<>~^#" + CUT)

NOT_IN_XML = re.compile("[^\t\n\r\x20-\x7e\x85\xa0-\ud7ff\ue000-\ufdcf\ufdf0-\ufffd\U00010000-\U0010ffff]")


def escaped(words: str) -> str:
    plain = NOT_IN_XML.sub("\ufffd", words)
    for sign, name in (("&", "amp"), ("<", "lt"), (">", "gt"), ('"', "quot"), ("'", "apos"), ("\r", "#13")):
        plain = plain.replace(sign, f"&{name};")
    return plain


def number(value: float) -> str:
    said = f"{value:.1f}"
    return said[:-2] if said.endswith(".0") else said


def joins(character: str) -> bool:
    """Whether it stands over or under the character before it."""
    return unicodedata.category(character) in ("Mn", "Me") or unicodedata.combining(character) > 0


def is_wide(character: str) -> bool:
    return unicodedata.east_asian_width(character) in ("W", "F")


def part(character: str) -> float:
    if joins(character):
        return 0
    if character in NARROW_ONES:
        return NARROW
    if is_wide(character) or character in WIDE_ONES:
        return WIDE
    if not character.isascii():
        return STRANGE
    return CAPITAL if character.isupper() else USUAL


def width(words: str, size: float, bold: bool = False) -> float:
    return sum(map(part, words)) * size * (BOLD if bold else 1)


def shortened(words: str, room: float, wide: Callable[[str], float], sign: str) -> str:
    """The words, or as many of their first and last characters as leave room for a sign that some are left out: serial numbers differ in the last ones."""
    if sum(map(wide, words)) <= room:
        return words
    first, last, left = 0, len(words), room - sum(map(wide, sign))
    while first < last:
        character = words[first] if first <= len(words) - last else words[last - 1]
        left -= wide(character)
        if left < 0:
            break
        first, last = (first + 1, last) if first <= len(words) - last else (first, last - 1)
    return words[:first].rstrip() + sign + words[last:].lstrip()


def cut(words: str, room: float, size: float, bold: bool = False) -> str:
    return shortened(words, room / (size * (BOLD if bold else 1)), part, CUT)


def element(name: str, attributes: dict[str, object], inside: str = "") -> str:
    """Attributes in the order in which they are given; `_` stands for `-` in their names."""
    said = "".join(
        f' {key.replace("_", "-")}="{number(value) if isinstance(value, (int, float)) else escaped(str(value))}"' for key, value in attributes.items()
    )
    return f"<{name}{said}>{inside}</{name}>" if inside else f"<{name}{said}/>"


def titled(words: str) -> str:
    """What a browser shows of an element where the pointer rests."""
    return f"<title>{escaped(words)}</title>"


def rect(x: float, y: float, wide: float, high: float, inside: str = "", **look: object) -> str:
    return element("rect", {"x": x, "y": y, "width": wide, "height": high, **look}, inside)


def line(x1: float, y1: float, x2: float, y2: float, **look: object) -> str:
    return element("line", {"x1": x1, "y1": y1, "x2": x2, "y2": y2, **look})


def path(*steps: object, **look: object) -> str:
    """Letters and numbers as they stand in the path's own words."""
    words = " ".join(step if isinstance(step, str) else number(step) for step in steps)
    return element("path", {"d": words, "fill": "none", **look})


def text(x: float, y: float, words: str, **look: object) -> str:
    return element("text", {"x": x, "y": y, **look}, escaped(words))


def group(name: str, elements: list[str]) -> list[str]:
    return [f'<g class="{name}">', *elements, "</g>"] if elements else []
