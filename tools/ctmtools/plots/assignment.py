"""Pictures of an assignment: the gap round by round, and who sets out on each way over time with what it takes."""

from __future__ import annotations

from collections.abc import Sequence
from typing import TYPE_CHECKING

import numpy
from matplotlib.figure import Figure

from ..arrays import Numbers
from ..problem import Problem
from ..report.reading import Report
from .figure import beside, drawing, figure, head, moments, note, save, style, time_axis

if TYPE_CHECKING:
    from ..assignment.assigning import Round
    from ..assignment.writing import Places
from ..assignment.ways_file import WayRow

MOST_WAYS = 6  # so many ways are drawn, those that most take
MOST_ROADS = 4  # so many roads of a way are named
LEAST = 1e-6  # a gap below it is drawn as it


@drawing
def draw_gap(rounds: Sequence[Round], title: str) -> Figure:
    """Draws the relative gap and the delay of each round."""
    drawn, axes = figure(2, size=(8, 5), sharex=True)
    numbers = [round_.number for round_ in rounds]
    axes[0].semilogy(numbers, [max(LEAST, round_.gap.relative) for round_ in rounds], marker="o", markersize=3, **style(0))
    beside(axes[0], "Relative gap")
    axes[1].plot(numbers, [round_.delay for round_ in rounds], marker="o", markersize=3, **style(1))
    axes[1].set_ylim(bottom=0)
    beside(axes[1], "Delay (vehicle-hours)")
    axes[1].xaxis.get_major_locator().set_params(integer=True)
    axes[1].set_xlabel("Round")
    head(axes[0], f"{title}: time of drivers beyond the best routes, as a part of these")
    return drawn


@drawing
def draw_ways(rows: Sequence[WayRow], report: Report, width: float) -> Figure:
    """Draws who sets out on the ways that most take, in vehicles/h, and the minutes that these need, over time."""
    if not rows:
        raise Problem("no vehicle departs, so there are no routes to draw")
    ways: dict[tuple[str, str, tuple[str, ...]], list[WayRow]] = {}
    for row in rows:
        ways.setdefault((row.source, row.into, row.roads), []).append(row)
    most = sorted(ways, key=lambda way: -sum(row.vehicles for row in ways[way]))[:MOST_WAYS]
    drawn, axes = figure(2, size=(8, 6), sharex=True)
    hours = width * (report.units.step or 0) / 3600
    common = set.intersection(*(set(roads) for _, _, roads in most)) if len(most) > 1 else set()
    last = 0.0
    for number, way in enumerate(most):
        steps = numpy.array([(row.seconds - (report.units.start or 0)) / (report.units.step or 1) for row in ways[way]])
        last = max(last, float(steps.max() + width))
        for one, values in zip(axes, ([row.vehicles / hours for row in ways[way]], [row.minutes for row in ways[way]])):
            times, heights = _stairs(steps, numpy.array(values), width)
            one.plot(moments(report, times), heights, label=_named(way, common), **style(number))
    for one, text in zip(axes, ("Departures (vehicles/h)", "Time to the exit (min)")):
        one.set_ylim(bottom=0)
        beside(one, text)
    time_axis(axes[1], report, 0, last)
    note(axes[1], "Time of departure" + ("" if len(ways) <= MOST_WAYS else f"; the {MOST_WAYS} busiest of {len(ways)} routes"))
    head(axes[0], f"{report.title}: routes")
    axes[0].legend(loc="best")
    return drawn


def _stairs(steps: Numbers, values: Numbers, width: float) -> tuple[Numbers, Numbers]:
    """The corners of a line of steps, broken where an interval is left out."""
    times, heights = [], []
    for place, (step, value) in enumerate(zip(steps, values)):
        if place and step > steps[place - 1] + width:
            times.append(steps[place - 1] + width)
            heights.append(numpy.nan)
        times += [step, step + width]
        heights += [value, value]
    return numpy.array(times), numpy.array(heights)


def _named(way: tuple[str, str, tuple[str, ...]], common: set[str]) -> str:
    source, into, roads = way
    own = [road for road in roads if road not in common] or list(roads)
    more = ", .." if len(own) > MOST_ROADS else ""
    return f"{source} to {into}: {', '.join(own[:MOST_ROADS])}{more}"


def drawn(rounds: Sequence[Round], rows: Sequence[WayRow], report: Report, width: float, places: Places) -> None:
    """Draws the gap of each round, and who sets out on the ways over time; an interval of choice is so many steps."""
    gap, ways = places.pictures
    save(draw_gap(rounds, report.title), gap)
    save(draw_ways(rows, report, width), ways)
