"""The pictures of ./bench, as SVG and in letters, of made scenes and odd ones: whether they can be read, show each unit once and stay in their room, and
whether the sure load and the letters are what a plain count over the ticks says. Says what went wrong and ends with status 1, or says nothing.
"""

from __future__ import annotations

import random
import re
import sys
import unicodedata
from pathlib import Path
from xml.etree import ElementTree

TOP = Path(__file__).resolve().parent.parent
sys.path.insert(0, str(TOP / "front"))

from bench.grid import draw_step, step_from, time_step  # noqa: E402
from bench.letters import letters, paged  # noqa: E402
from bench.picture import svg  # noqa: E402
from bench.quantities import Draws, Times, step_of  # noqa: E402
from bench.scene import Row, Scene, load, overdrawn, sure, too_short  # noqa: E402

TICKS, CLOCK, STEPS, AMPERES = Times(), Times(True), Draws(), Draws(1, 1, "A")
NAMES = (
    "<&\"'>", "]]>", "&amp;", "|..|", " ", "Bosch Motronic ML4.1, 1987", "W" * 90,
    "\u6f22\u5b57\u306e\u540d\u524d", "e\u0301a\u0308o\u20e3", "\U0001f600" * 30, "\u202e\xad\x1b[1m",
)
ELEMENTS = {"svg", "title", "defs", "pattern", "rect", "line", "path", "text", "g"}
COLUMNS = (0, 41, 80, 200)

failed: list[str] = []


def check(what: object, found: object, wanted: object) -> None:
    if found != wanted:
        failed.append(f"{str(what)[:300]}: {str(found)[:600]}, and not {str(wanted)[:600]}")


def alone(title: str, *windows: int, names: tuple[str, ...] = ("unit",), supply: int = 0, times: Times = TICKS, **more: int) -> Scene:
    """A scene of like rows; the windows are the submitted one and the one now."""
    read = {"length": 0, "draw": 1, "marked": False, **more}
    return Scene(title, times, AMPERES, supply, tuple(Row(name, windows[:2], windows[2:], **read) for name in names))


def made(seed: int, count: int, last: int, clash: bool) -> Scene:
    """Some windows are too short, some reads last or draw nothing."""
    chance = random.Random(seed)
    rows = []
    for index in range(count):
        bounds = sorted(chance.randint(0, last) for _ in range(4))
        length = chance.choice((0, chance.randint(0, max(1, bounds[2] - bounds[1])), chance.randint(0, 1 + last // 4)))
        now = (bounds[2], bounds[1]) if chance.random() < 0.05 else (bounds[1], bounds[2])
        name, draw = f"{chance.choice(NAMES)} {index}", chance.choice((0, 1, 7, 30))
        rows.append(Row(name, (bounds[0], bounds[3]), now, length, draw, clash and chance.random() < 0.1))
    peak = max((drawn for _, _, drawn in load(rows)), default=0)
    return Scene(f"seed {seed}", Times(seed % 2 == 0), chance.choice((STEPS, AMPERES, Draws(25, 2, "kW"))), peak * 2 // 3 if clash else peak, tuple(rows))


ODD = [
    Scene("nothing", CLOCK, AMPERES, 50, ()),
    Scene("", TICKS, STEPS, 0, ()),
    alone("all at one instant", 1000000, 1000000, 1000000, 1000000, names=("a", "b", "c")),
    alone("ends before it starts", 9, 5, 9, 5, length=3, marked=True),
    alone("too short", 5, 9, 6, 9, length=5),
    alone("too short by all", 5, 5, 5, 5, length=1000000),
    alone("no supply", 0, 10, 1, 9, length=6, names=("a", "b")),
    alone("draws nothing", 0, 10, 1, 9, length=6, draw=0),
    alone("a long way", 0, 1000000, 0, 1000000, length=600000, draw=10000, supply=10000),
    alone("late on the clock", 24600, 24900, 24630, 24800, length=100, times=CLOCK),
    alone("a long clock", 0, 1000000, 999000, 1000000, length=999, times=CLOCK),
    alone("names " * 60 + "<&>", 3, 900, 30, 800, length=600, names=NAMES, marked=True),
    Scene("a long unit", TICKS, Draws(1, 3, "Milliampere" * 9), 10000, (Row("unit", (0, 9), (0, 9), 9, 10001, True),)),
    Scene("a thousand marked", TICKS, STEPS, 1, tuple(Row(f"unit {k}", (k, k + 9), (k, k + 9), 9, 1, True) for k in range(1000))),
]
SIZES = ((1, 9), (3, 30), (12, 270), (12, 1000000), (120, 1440), (256, 3000), (280, 99), (1000, 5000))
MADE = [made(seed, count, last, seed % 3 == 0) for seed, (count, last) in enumerate(SIZES * 2)]


def plain_width(words: str, size: float) -> float:
    """By another measure than the picture's own: digits and letters of the widest usual font, as it is printed."""
    return size * sum(0 if unicodedata.combining(one) else 0.3 if one in "ijl.,:' |" else 0.64 for one in words)


def elements(root: ElementTree.Element, dx: float = 0, dy: float = 0) -> list[tuple[ElementTree.Element, float, float]]:
    """All of them and by how much they are moved, without what stands in definitions."""
    found = []
    for child in root:
        moved = re.fullmatch(r"translate\(([0-9.]+) ([0-9.]+)\)", child.get("transform", "translate(0 0)"))
        if not child.tag.endswith("defs"):
            x, y = dx + float(moved[1]), dy + float(moved[2])
            found += [(child, x, y), *elements(child, x, y)]
    return found


def extent(text: ElementTree.Element) -> tuple[float, float]:
    x, wide = float(text.get("x")), plain_width(text.text, float(text.get("font-size", 12)))
    before = {"end": wide, "middle": wide / 2}.get(text.get("text-anchor", ""), 0)
    return x - before, x - before + wide


def inside(scene: Scene, root: ElementTree.Element) -> None:
    wide, high = float(root.get("width")), float(root.get("height"))
    for child, dx, dy in elements(root):
        at = {name: float(value) for name, value in child.items() if name in ("x", "y", "x1", "y1", "x2", "y2", "width", "height")}
        xs = [dx + at[name] for name in ("x", "x1", "x2") if name in at]
        ys = [dy + at[name] for name in ("y", "y1", "y2") if name in at]
        xs, ys = xs + [x + at.get("width", 0) for x in xs], ys + [y + at.get("height", 0) for y in ys]
        check((scene.title, "outside", child.tag, child.attrib), all(0 <= x <= wide + 0.1 for x in xs) and all(0 <= y <= high + 0.1 for y in ys), True)
        check((scene.title, "no size", child.attrib), min(at.get("width", 1), at.get("height", 1)) > 0, True)
        if child.tag == "text" and child.text and child.text.isascii():
            begin, end = extent(child)
            check((scene.title, "too long", child.text), begin >= 0 and end <= wide, True)


def labels(scene: Scene, root: ElementTree.Element) -> None:
    """No two words overlap in the lines of the times and in the scale of the draws; and there is a time at least."""
    times = root.findall("g[@class='times']/text")
    check((scene.title, "times"), bool(times), bool(scene.rows))
    for y in {text.get("y") for text in times}:
        places = sorted(extent(text) for text in times + root.findall("text") if text.get("y") == y)
        check((scene.title, places), all(before[1] + 3 < after[0] for before, after in zip(places, places[1:])), True)
    levels = [float(text.get("y")) for text in root.findall("g[@class='scale']/text")[1:]]
    peak = max([scene.supply, *(drawn for _, _, drawn in load(scene.rows))])
    check((scene.title, "levels"), all(low - high >= 12 for low, high in zip(levels, levels[1:])) and len(levels) > (peak > 1), True)


def units(scene: Scene, root: ElementTree.Element) -> None:
    """Each once, with all its numbers, and what is marked in bold."""
    reads = root.findall("g[@class='read']")
    check((scene.title, "units"), len(reads), len(scene.rows))
    bold = [read.find("text[@font-weight='bold']") for read in reads]
    for row, read in zip(scene.rows, reads):
        lines = (read[0].text if read[0].tag == "title" else "").split("\n")
        windows = [f"{word}: {' to '.join(map(scene.times.say, window))}" for word, window in (("submitted", row.submitted), ("now", row.now))]
        check((scene.title, "title"), lines[0], re.sub("[\x00-\x1f]", "\ufffd", row.unit))
        check((scene.title, lines), [lines[1], lines[2].replace(", too short", "")], windows)
        check((scene.title, lines), lines[3], f"lasts {scene.times.lasts(row.length)}, draws {scene.draws.say(row.draw)}")
        check((scene.title, "in brackets", row), read.find("path[@stroke-width='2']") is not None, too_short(row))
    check((scene.title, "marked"), all(row.marked for row, name in zip(scene.rows, bold) if name is not None), True)
    places = sorted(float(name.get("y")) for name in bold if name is not None)
    check((scene.title, "names apart"), all(high - low > 9 for low, high in zip(places, places[1:])), True)
    check((scene.title, "marked names"), len(places) >= min(200, sum(row.marked for row in scene.rows)), True)


def signs(scene: Scene, root: ElementTree.Element, text: str) -> None:
    """The legend names only what is there, the load is red where it exceeds the supply, and nothing comes from elsewhere."""
    named = {text.text for text in root.findall("g[@class='legend']/text")}
    rows, over = scene.rows, overdrawn(load(scene.rows), scene.supply)
    there = {
        "submitted window": bool(rows),
        "narrowed window": any(sure(row) != row.now for row in rows if not too_short(row)),
        "being read in any case": any(sure(row) and row.draw for row in rows),
        "being read in any case, draws nothing": any(sure(row) and not row.draw for row in rows),
        "window too short": any(map(too_short, rows)),
        "cannot be read together": any(row.marked for row in rows),
        "supply overdrawn in any case": bool(over),
    }
    check((scene.title, "legend"), named, {words for words in there if there[words]})
    red = [bar for bar in root.findall("g[@class='load']/rect") if bar.get("fill") == "#b3261e"]
    check((scene.title, "red"), len(red), sum(drawn > scene.supply for _, _, drawn in load(rows)))
    check((scene.title, "elements"), {child.tag for child in root.iter()} <= ELEMENTS, True)
    check((scene.title, "decimals"), re.search(r'="[^"]*[0-9]\.[0-9]{2}', text), None)
    check((scene.title, "again"), svg(scene) == text, True)


def pictures() -> None:
    for scene in ODD + MADE:
        text = svg(scene)
        try:
            root = ElementTree.fromstring(text.replace(' xmlns="http://www.w3.org/2000/svg"', "").encode("utf-8"))
        except ElementTree.ParseError as error:
            failed.append(f"{scene.title[:60]}: no XML, {error}")
            continue
        inside(scene, root)
        labels(scene, root)
        units(scene, root)
        signs(scene, root, text)


def surely(row: Row, time: int) -> bool:
    """Whether the unit is being read in that tick wherever the read starts."""
    starts = range(row.now[0], row.now[1] - row.length + 1)
    return bool(starts) and all(start <= time < start + row.length for start in (starts[0], starts[-1]))


def counted() -> None:
    """The load, the overdrawn stretches and the letters against a count of all ticks."""
    check("neighbours", load(Row("unit", (at, at + 5), (at, at + 5), 5, 3, False) for at in (10, 0, 5, 20)), [(0, 15, 3), (20, 25, 3)])
    for seed in range(200):
        scene = made(seed, 1 + seed % 8, 30 + seed % 50, seed % 2 == 0)
        stretches = load(scene.rows)
        ticks = [sum(row.draw for row in scene.rows if surely(row, time)) for time in range(100)]
        found = [sum(drawn for start, end, drawn in stretches if start <= time < end) for time in range(100)]
        check(("load", seed), found, ticks)
        pairs = list(zip(stretches, stretches[1:]))
        check(("rising", seed), all(before[1] < after[0] or before[1] == after[0] and before[2] != after[2] for before, after in pairs), True)
        check(("no load", seed), all(start < end and drawn for start, end, drawn in stretches), True)
        over = overdrawn(stretches, scene.supply)
        above = [time for time, drawn in enumerate(ticks) if drawn > scene.supply]
        check(("overdrawn", seed), [time for start, end in over for time in range(start, end)], above)
        check(("joined", seed), all(before[1] < after[0] for before, after in zip(over, over[1:])), True)
        for columns in (40, 60, 120):
            letters_counted(seed, scene, columns, ticks)


def letters_counted(seed: int, scene: Scene, columns: int, ticks: list[int]) -> None:
    page, lines = paged(scene, columns), letters(scene, columns)
    covered = [range(start, start + page.ticks) for start in range(page.first, page.first + page.letters * page.ticks, page.ticks)]
    for row, line in zip(scene.rows, lines):
        drawn = line[-1 - page.letters : -1]
        check(("sure", seed, line), [sign == "#" for sign in drawn], [any(surely(row, time) for time in times) for times in covered])
        within = {time for low, high in (sorted(row.now), row.submitted) for time in range(low, high + (low == high))}
        check(("blank", seed, line), all(set(times) & within for sign, times in zip(drawn, covered) if sign in "=.x#"), True)
        check(("marked", seed, line), line[0], "*" if row.marked else " ")
    over = [any(ticks[time] > scene.supply for time in times if time < len(ticks)) for times in covered]
    shown = [line[-1 - page.letters : -1] for line in lines if "!" in line[-1 - page.letters : -1] and line.endswith("|")]
    check(("over", seed), [[sign == "!" for sign in line] for line in shown], [over] if any(over) else [])


def taken(words: str) -> int:
    return sum(0 if unicodedata.category(one) in ("Mn", "Me") else 2 if unicodedata.east_asian_width(one) in "WF" else 1 for one in words)


def in_columns() -> None:
    for scene in ODD + MADE:
        for columns in COLUMNS:
            lines = letters(scene, columns)
            for line in lines:
                check((scene.title, columns, line), taken(line) <= max(40, columns) and line.isprintable(), True)
            check((scene.title, columns, "aligned"), len({taken(line) for line in lines[: len(scene.rows)]} if scene.rows else {0}), 1)


def steps() -> None:
    check("ticks", [step_from(least) for least in (0.1, 1, 1.5, 3, 5, 6, 11, 21, 51, 99999)], [1, 1, 2, 5, 5, 10, 20, 50, 100, 100000])
    check("clock", [time_step(CLOCK, least) for least in (0.1, 3, 6, 11, 16, 31, 61, 721, 1441, 99999)], [1, 5, 10, 15, 30, 60, 120, 1440, 2880, 144000])
    check("draws", [draw_step(step_of(step), 3) for step in ("1", "0.1 A", "0.25 A", "3 A", "64")], [5, 5, 4, 5, 5])


def main() -> int:
    steps()
    counted()
    pictures()
    in_columns()
    for what in failed[:40]:
        print(what)
    return 1 if failed else 0


if __name__ == "__main__":
    sys.exit(main())
