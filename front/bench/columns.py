"""The columns of a list and of a plan, and the names that people give them."""

from __future__ import annotations

# The columns of a list, with what is said of a cell in them.
COLUMNS = {"unit": "the unit", "earliest": "the earliest start", "latest": "the latest end", "length": "the length", "draw": "the draw"}

NAMES = {
    "unit": ("unit", "read", "name", "job"),
    "earliest": ("earliest", "earliest start", "from", "not before", "release", "est"),
    "latest": ("latest", "latest end", "until", "to", "end by", "deadline", "lct"),
    "length": ("length", "duration", "lasts", "dur"),
    "draw": ("draw", "draws", "demand", "current", "dem"),
}
COLUMN = {name: column for column, names in NAMES.items() for name in names}

# Of a list for the read head, where a draw is a column like any other that is not used.
WITHOUT_DRAW = {name: column for name, column in COLUMN.items() if column != "draw"}

# The columns of a plan.
PLANNED = {**{name: "unit" for name in NAMES["unit"]}, **{name: "start" for name in ("start", "starts", "start time", "starts at", "at")}}
