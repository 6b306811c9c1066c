"""The picture of a list as SVG 1.1: a row for each unit with its windows, below them what is drawn in any case against the supply.

The text depends on the scene alone. Each row is a group of the class `read`; its title, which a browser shows where the pointer rests, says all of the read
and begins with the unit's name on a line of its own. Colours differ in lightness as well; most have a second sign, such as a dash, a hatch or bold letters.
"""

from __future__ import annotations

from . import drawing
from .drawing import cut, group, line, path, rect, text, titled, width
from .grid import draw_step, marks, time_step
from .legend import legend
from .looks import CLASH, GRID, IDLE, INK, LOADED, MARKED, NOW, OVER, QUIET, RED, SHORT, STRIPE, SUBMITTED, SUPPLY, SURE, TOO_MUCH, Look, defs
from .ground import FRAMED, GAP, LABEL_GAP, LOAD, MARGIN, SIZE, SMALL, TITLE_SIZE, WIDTH, Ground, name_places, ground_of
from .scene import Row, Scene, Stretch, Window, load, overdrawn, sure, too_short


def svg(scene: Scene) -> str:
    stretches = load(scene.rows)
    over = overdrawn(stretches, scene.supply)
    key, below = legend(scene, bool(over))
    ground = ground_of(scene, max([scene.supply, *(drawn for _, _, drawn in stretches)]), below + 34)
    size = {"width": WIDTH, "height": ground.height, "viewBox": f"0 0 {WIDTH} {drawing.number(ground.height)}"}
    look = {"font_family": drawing.FONTS, "font_size": SIZE, "fill": INK}
    elements = [
        titled(scene.title),
        defs(),
        rect(0, 0, WIDTH, ground.height, fill="#ffffff"),
        text(MARGIN, 28, cut(scene.title, WIDTH - 2 * MARGIN, TITLE_SIZE, True), font_size=TITLE_SIZE, font_weight="bold"),
        *group("legend", key),
        *group("bands", bands(scene, ground, over)),
        *group("times", times(scene, ground)),
        *heads(scene, ground),
        *reads(scene, ground),
        *group("scale", scale(scene, ground)),
        *group("load", loads(scene, ground, stretches)),
        *group("edges", [line(x, ground.top, x, ground.base, **CLASH) for window in over for x in edges(ground, window)]),
        *supply(scene, ground),
    ]
    whole = drawing.element("svg", {"xmlns": "http://www.w3.org/2000/svg", "version": "1.1", **size, **look}, "\n".join(("", *elements, "")))
    return f'<?xml version="1.0" encoding="UTF-8"?>\n{whole}\n'


def edges(ground: Ground, window: Window) -> tuple[float, ...]:
    """Both ends of a window, or its middle where they are too near to be told apart."""
    x, wide = ground.bar(*window, 1)
    return (x, x + wide) if wide > 4 else (x + wide / 2,)


def field(ground: Ground, index: int, count: int, **look: object) -> str:
    """So many rows from the left of the picture to the right."""
    return rect(MARGIN / 2, ground.top + index * ground.row, WIDTH - MARGIN, count * ground.row, **look)


def bands(scene: Scene, ground: Ground, over: list[Window]) -> list[str]:
    """Behind all: every second row, or ten where they are thin, the marked rows, and the times at which too much is drawn in any case."""
    at_once = 10 if ground.thin else 1
    starts = range(at_once, len(scene.rows), 2 * at_once)
    stripes = [field(ground, start, min(at_once, len(scene.rows) - start), fill=STRIPE) for start in starts]
    tinted = [field(ground, index, 1, fill=MARKED) for index, row in enumerate(scene.rows) if row.marked]
    crowded = [rect(x, ground.top, wide, ground.base - ground.top, fill=OVER) for x, wide in (ground.bar(*window, 1) for window in over)]
    return stripes + tinted + crowded


def times(scene: Scene, ground: Ground) -> list[str]:
    """A line for each mark of the time scale, named above the rows and below the load."""
    frame = [line(x, ground.top, x, ground.base, stroke=GRID) for x in (ground.left, ground.right)]
    if not scene.rows:
        return frame
    first, last = ground.times
    step = time_step(scene.times, (width(scene.times.say(last), SMALL) + LABEL_GAP) / ground.tick)
    for time in marks(first, last, step):
        x, words = ground.x(time), scene.times.say(time)
        frame.append(line(x, ground.top, x, ground.base, stroke=GRID))
        frame += [text(x, y, words, text_anchor="middle", font_size=SMALL, fill=QUIET) for y in (ground.top - 8, ground.base + 18)]
    return frame


def heads(scene: Scene, ground: Ground) -> list[str]:
    y, look = ground.top - 8, {"font_size": SMALL, "fill": QUIET}
    if not scene.rows:
        return [text(ground.left + GAP, ground.middle(0) + 4, "no reads", fill=QUIET)]
    if ground.thin and not any(row.marked for row in scene.rows):
        return []
    return [
        text(MARGIN, y, "unit", **look),
        text(ground.lasts, y, "lasts", text_anchor="end", **look),
        *([text(ground.draws, y, scene.words.draws, text_anchor="end", **look)] if scene.words.draws else []),
    ]


def reads(scene: Scene, ground: Ground) -> list[str]:
    """Every row has a field that cannot be seen, so that its title shows wherever the pointer rests in it."""
    names = name_places(scene, ground)
    lines = []
    for index, row in enumerate(scene.rows):
        rest = field(ground, index, 1, fill="none", pointer_events="all")
        inside = [rest, *bars(row, ground, ground.middle(index)), *(words(scene, row, ground, index, names[index]) if index in names else [])]
        lines.append(f'<g class="read">{titled(said(scene, row))}{"".join(inside)}</g>')
    return lines


def said(scene: Scene, row: Row) -> str:
    """All of a read, in lines."""
    times, stretch = scene.times, sure(row)

    def from_to(window: Window) -> str:
        return f"{times.say(window[0])} to {times.say(window[1])}"

    return "\n".join((
        row.unit,
        f"submitted: {from_to(row.submitted)}",
        f"now: {from_to(row.now)}" + (", too short" if too_short(row) else ""),
        f"lasts {times.lasts(row.length)}" + (f", {scene.words.draws} {scene.draws.say(row.draw)}" if scene.words.draws else ""),
        *([f"{scene.words.sure}: {from_to(stretch)}"] if stretch else []),
        *([f"marked: {scene.words.marked}"] if row.marked else []),
    ))


def bars(row: Row, ground: Ground, middle: float) -> list[str]:
    """The submitted window is higher than the one now, so that both are seen where they are the same."""
    high = ground.row * 0.72
    now_high = high if ground.thin else high - 4
    drawn = []
    if row.submitted[0] <= row.submitted[1]:
        drawn.append(bar(ground, row.submitted, middle, high, SUBMITTED))
    if too_short(row):
        return drawn + brackets(ground.x(row.now[0]), ground.x(row.now[1]), middle, high)
    drawn.append(bar(ground, row.now, middle, now_high, NOW))
    stretch = sure(row)
    if stretch:
        drawn.append(bar(ground, stretch, middle, now_high, SURE if row.draw else IDLE))
    return drawn


def bar(ground: Ground, window: Window, middle: float, high: float, looks: Look) -> str:
    x, wide = ground.bar(*window, 2)
    look = looks.short if wide < FRAMED else looks.thin if ground.thin else looks.framed
    return rect(x, middle - high / 2, wide, high, **look)


def brackets(start: float, end: float, middle: float, high: float) -> list[str]:
    """Open towards each other where the window has any time, and away from each other where it ends before it starts."""
    top, bottom = middle - high / 2, middle + high / 2
    return [
        line(start, middle, end, middle, stroke=RED, stroke_dasharray="2 2"),
        path("M", start + 5, top, "H", start, "V", bottom, "H", start + 5, "M", end - 5, top, "H", end, "V", bottom, "H", end - 5, **SHORT),
    ]


def words(scene: Scene, row: Row, ground: Ground, index: int, place: float) -> list[str]:
    """The name at the left, the length and the draw at the right. A name that had to be moved is led to its row."""
    size, y, x = ground.name_size, place + ground.name_size * 0.36, ground.left - GAP + 2
    look = {"text_anchor": "end", "font_size": size}
    name = cut(row.unit, x - MARGIN, size, row.marked)
    middle = ground.middle(index)
    return [
        text(x, y, name, **look, **({"font_weight": "bold"} if row.marked else {})),
        *([path("M", x + 2, place, "L", ground.left, middle, stroke=QUIET)] if ground.thin else []),
        text(ground.lasts, y, cut(scene.times.lasts(row.length), ground.lasts - ground.right - GAP / 2, size), **look),
        *([text(ground.draws, y, cut(scene.draws.say(row.draw), ground.draws - ground.lasts - GAP / 2, size), **look)] if scene.words.draws else []),
    ]


def scale(scene: Scene, ground: Ground) -> list[str]:
    step = draw_step(scene.draws, ground.peak * 20 / LOAD)
    drawn = [text(ground.left, ground.load_top - 12, scene.words.drawn, fill=QUIET)]
    for level in range(0, ground.peak + 1, step):
        y, x = ground.level(level), ground.left - GAP + 2
        drawn.append(line(ground.left, y, ground.right, y, stroke=GRID))
        drawn.append(text(x, y + 4, cut(scene.draws.say(level), x - MARGIN, SMALL), text_anchor="end", font_size=SMALL, fill=QUIET))
    return drawn


def loads(scene: Scene, ground: Ground, stretches: list[Stretch]) -> list[str]:
    """What exceeds the supply is drawn last, so that it is seen however short it is."""
    drawn = []
    for start, end, steps in sorted(stretches, key=lambda stretch: stretch[2] > scene.supply):
        (x, wide), top = ground.bar(start, end, 1), ground.level(steps)
        about = titled(f"{scene.times.say(start)} to {scene.times.say(end)}: {scene.draws.say(steps)} {scene.words.drawn}")
        look = TOO_MUCH if steps > scene.supply else LOADED
        drawn.append(rect(x, top, wide, ground.base - top, about, shape_rendering="crispEdges", **look))
    return drawn


def supply(scene: Scene, ground: Ground) -> list[str]:
    y, x = ground.level(scene.supply), ground.right + GAP
    below = min(y, ground.base - 12)
    return [
        line(ground.left, ground.base, ground.right, ground.base, stroke=QUIET),
        line(ground.left, y, ground.right + GAP - 4, y, **SUPPLY),
        text(x, below - 1, scene.words.supply),
        text(x, below + 13, cut(scene.draws.say(scene.supply), ground.draws - x, SIZE, True), font_weight="bold"),
    ]
