"""The colours of a picture and what goes with them."""

from __future__ import annotations

from typing import NamedTuple

INK, QUIET, GRID, STRIPE = "#1b1f24", "#4b5560", "#d9dde2", "#f6f7f9"
MARKED, OVER = "#ffe6ad", "#f7cfca"
DARK, RED = "#0b3a75", "#b3261e"


class Look(NamedTuple):
    """Of a bar with a frame, in a row too thin for one, and of a bar too short for one."""

    framed: dict[str, str]
    thin: dict[str, str]
    short: dict[str, str]


SUBMITTED = Look({"fill": "#eef0f3", "stroke": "#7d8894", "stroke_dasharray": "4 2"}, {"fill": "#d3d8de"}, {"fill": "#7d8894"})
NOW = Look({"fill": "#9fcbef", "stroke": "#2b6cb0"}, {"fill": "#9fcbef"}, {"fill": "#2b6cb0"})
SURE = Look({"fill": DARK}, {"fill": DARK}, {"fill": DARK})
IDLE = Look({"fill": "url(#idle)", "stroke": DARK}, {"fill": "url(#idle)"}, {"fill": DARK})
SHORT = {"stroke": RED, "stroke_width": 2}
CLASH = {"stroke": RED, "stroke_dasharray": "5 3"}
LOADED, TOO_MUCH = {"fill": "#6f9fd3"}, {"fill": RED}
SUPPLY = {"stroke": INK, "stroke_width": 2}


def defs() -> str:
    """The hatch of a sure part that draws nothing."""
    return (
        '<defs><pattern id="idle" width="6" height="6" patternUnits="userSpaceOnUse" patternTransform="rotate(45)">'
        f'<rect width="6" height="6" fill="#ffffff"/><rect width="2.5" height="6" fill="{DARK}"/></pattern></defs>'
    )
