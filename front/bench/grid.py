"""Steps that people like for the scales of a picture, and the places of their marks."""

from __future__ import annotations

from .quantities import HOUR, Draws, Times

DAY = 24 * HOUR

# Of a clock, up to half a day; from a day on the steps are whole days.
CLOCK_STEPS = (1, 2, 5, 10, 15, 30, HOUR, 2 * HOUR, 3 * HOUR, 4 * HOUR, 6 * HOUR, 12 * HOUR)


def step_from(least: float, multiple: int = 1) -> int:
    """The smallest of 1, 2, 5, 10, 20, 50, 100 and so on that is no less, and a multiple of the number given where one of about that size is."""
    power = 1
    while 5 * power < least:
        power *= 10
    steps = [one * ten for ten in (power, 10 * power) for one in (1, 2, 5) if one * ten >= least]
    return next((step for step in steps if step % multiple == 0), steps[0])


def time_step(times: Times, least: float) -> int:
    if not times.clock:
        return step_from(least)
    return next((step for step in CLOCK_STEPS if step >= least), 0) or DAY * step_from(least / DAY)


def draw_step(draws: Draws, least: float) -> int:
    """In steps of the list. A round number of amperes is better than a round number of steps."""
    round_draw = step_from(least * draws.step, draws.step)
    return step_from(least) if round_draw % draws.step else round_draw // draws.step


def marks(first: int, last: int, step: int) -> range:
    """The multiples of the step from the first to the last."""
    return range(-(-first // step) * step, last + 1, step)
