"""What the signs of a picture mean; only those that are there."""

from __future__ import annotations

from .drawing import line, path, rect, text, width
from .ground import MARGIN, SIZE, WIDTH
from .looks import CLASH, IDLE, MARKED, NOW, OVER, SHORT, SUBMITTED, SURE
from .scene import Scene, sure, too_short

FIRST, LINE = 54, 20
SIGN, BETWEEN = 24, 14


def signs(scene: Scene, over: bool) -> list[tuple[str, str]]:
    """Each as it is drawn at 0 0 in a field of 24 by 12, and its words."""
    rows = scene.rows
    ends = [row for row in rows if not too_short(row)]
    stretches = [row for row in rows if sure(row)]

    def block(**look: object) -> str:
        return rect(0.5, 0.5, SIGN - 1, 11, **look)

    bracket = path("M", 6, 1, "H", 1, "V", 11, "H", 6, "M", 18, 1, "H", 23, "V", 11, "H", 18, **SHORT)
    crowded = rect(0, 0, SIGN, 12, fill=OVER) + line(0.5, 0, 0.5, 12, **CLASH) + line(SIGN - 0.5, 0, SIGN - 0.5, 12, **CLASH)
    return [
        (sign, words)
        for there, sign, words in (
            (rows, block(**SUBMITTED.framed), "submitted window"),
            (any(sure(row) != row.now for row in ends), block(**NOW.framed), scene.words.now),
            (any(row.draw for row in stretches), block(**SURE.framed), scene.words.sure),
            (any(not row.draw for row in stretches), block(**IDLE.framed), f"{scene.words.sure}, draws nothing"),
            (len(ends) < len(rows), bracket, "window too short"),
            (any(row.marked for row in rows), block(fill=MARKED, stroke="#b58a2b"), scene.words.marked),
            (over, crowded, scene.words.over),
        )
        if there
    ]


def legend(scene: Scene, over: bool) -> tuple[list[str], float]:
    """The elements, in as many lines as they need, and where the last line stands."""
    x, y = float(MARGIN), float(FIRST)
    elements = []
    for sign, words in signs(scene, over):
        room = SIGN + 7 + width(words, SIZE)
        if x + room > WIDTH - MARGIN:
            x, y = float(MARGIN), y + LINE
        elements.append(f'<g transform="translate({x:.1f} {y - 10:.1f})">{sign}</g>')
        elements.append(text(x + SIGN + 7, y, words))
        x += room + BETWEEN
    return elements, y if elements else float(FIRST - LINE)
