"""The time-space diagram of a chain of cells: density, speed or flow by shade."""

from __future__ import annotations

from collections.abc import Sequence
from typing import Any, TypedDict, Unpack

import numpy
from matplotlib.axes import Axes
from matplotlib.collections import LineCollection
from matplotlib.figure import Figure
from matplotlib.lines import Line2D
from matplotlib.patches import Patch
from matplotlib.patheffects import withStroke

from ..arrays import Numbers
from ..problem import Problem
from ..report.measures import hour_of, measured
from ..report.queues import SLOW, stands
from ..report.reading import Report
from ..report.routes import kilometres, route_of
from ..report.summary import spilled
from ..report.upstream import spilled_queues
from .figure import DENSITY, SPEED, beside, drawing, figure, head, legend_below, moment, moments, note, span_of, time_axis
from .roadside import LIMIT, RED, draw_junctions, draw_limits, draw_signals, draw_speed_limits

LOOKS: tuple[dict[str, Any], ...] = ({"linestyle": (0, (4, 2)), "color": "#0b6e8f"},
                                     {"linestyle": (0, (1.5, 1.5)), "color": "#0b6e8f"},
                                     {"linestyle": "-", "color": "#0b6e8f"})

# What is shaded, with its unit where lengths are known and where they aren't.
SHADED = {"density": ("vehicles/km, all lanes", "vehicles in a cell"), "speed": ("km/h", "cells in a step"),
          "flow": ("vehicles/h", "vehicles in a step")}
FEW_ROADS = 3  # so many are all named beside the axis, of more the first and the last


def draw_lines(axes: Axes, report: Report, texts: Sequence[str]) -> list[Line2D]:
    """Draws each line that a text spells as `LABEL: TIME KM, TIME KM, ..`, and gives what the legend says of them."""
    handles: list[Line2D] = []
    for i, text in enumerate(texts):
        label, points = _points(report, text)
        edge = [withStroke(linewidth=3.4, foreground="white")]
        look = {**LOOKS[i % len(LOOKS)], "linewidth": 1.8, "path_effects": edge}
        axes.plot(moments(report, [step for step, _ in points]), [place for _, place in points], **look)
        if label not in [handle.get_label() for handle in handles]:
            handles.append(Line2D([], [], label=label, **look))
    return handles


def _points(report: Report, text: str) -> tuple[str, list[tuple[float, float]]]:
    """The label of a line and its points, each a step and a kilometre (or a number of cells)."""
    label, sign, rest = text.partition(": ")
    points = []
    for pair in rest.split(","):
        parts = pair.split()
        if len(parts) != 2:
            raise Problem(f"--line {text}: expected LABEL: TIME KM, TIME KM, ..")
        try:
            points.append((moment(report, parts[0]), float(parts[1])))
        except ValueError:
            raise Problem(f"--line {text}: {parts[1]} is no number of kilometres") from None
    if not sign or len(points) < 2:
        raise Problem(f"--line {text}: expected LABEL: TIME KM, TIME KM, ..")
    return label, points


class Where(TypedDict, total=False):
    """The chain of cells that is drawn, a road's or one from a cell to another, and the part of the time."""

    road: str | None
    first: str | None
    last: str | None
    begin: str | None
    until: str | None


@drawing
def draw(report: Report, lines: Sequence[str] = (), of: str = "density", **where: Unpack[Where]) -> Figure:
    """Draws density, or speed or flow, over time and place along a route."""
    report.need_records()
    if of not in SHADED:
        raise Problem(f"--of {of}: expected {', '.join(SHADED)}")
    cells = route_of(report, where.get("first"), where.get("last"), where.get("road"))
    begins, ends = span_of(report, where.get("begin"), where.get("until"))
    bounds, known = kilometres(report, cells)
    values, most = _values(report, cells, numpy.diff(bounds), of)
    drawn, axes = figure(size=(8, 4.4))
    mesh = axes.pcolormesh(moments(report, report.times), bounds, values, cmap=SPEED if of == "speed" else DENSITY,
                           vmin=0, vmax=most, rasterized=True)
    outline(axes, report, cells, bounds)
    handles = [Line2D([], [], color="#111111", linewidth=0.9, label=f"slower than {SLOW:.0%} of free flow")]
    if draw_limits(axes, report, cells, bounds):
        handles.append(Patch(fill=False, edgecolor="#333333", hatch="////", label="capacity reduced"))
    if draw_speed_limits(axes, report, cells, bounds):
        handles.append(Patch(fill=False, edgecolor=LIMIT, linestyle=(0, (1, 1.5)), hatch="...", label="speed limit"))
    if draw_signals(axes, report, cells, bounds, begins, ends):
        handles.append(Line2D([], [], color=RED, linewidth=2.2, label="red light"))
    handles += draw_lines(axes, report, lines)
    time_axis(axes, report, begins, ends)
    finish(axes, report, cells, bounds, known, of)
    draw_junctions(axes, report, cells, bounds)
    for queue, spill in spilled_queues(report):
        if queue.spans.keys() & set(cells):
            note(axes, spilled(report, spill))
    bar = drawn.colorbar(mesh, ax=axes, pad=0.02)
    bar.set_label(f"{of.capitalize()} ({SHADED[of][0 if known else 1]})")
    bar.outline.set_visible(False)
    legend_below(drawn, handles)
    return drawn


def _values(report: Report, cells: Sequence[str], lengths: Numbers, of: str) -> tuple[Numbers, float]:
    """What is drawn, a row for each cell, and the most that there can be of it."""
    network, hour = report.need_network().cells, hour_of(report)
    most = {"density": (network.N[cells] / lengths).max(), "flow": network.Q[cells].max() * hour, "speed": lengths.max() * hour}
    return getattr(measured(report, cells=cells, lengths=lengths), of).T, float(most[of])


def outline(axes: Axes, report: Report, cells: Sequence[str], bounds: Sequence[float], **look: Any) -> None:
    """Outlines the cells that stand in a queue."""
    look = {"colors": "#111111", "linewidths": 0.9, **look}
    standing = stands(report)[:, report.places(cells)].T
    times = moments(report, report.times)
    level = numpy.diff(numpy.pad(standing, ((1, 1), (0, 0))).astype(int), axis=0)
    lines = [[(times[column], bounds[row]), (times[column + 1], bounds[row])] for row, column in zip(*level.nonzero())]
    upright = numpy.diff(numpy.pad(standing, ((0, 0), (1, 1))).astype(int), axis=1)
    lines += [[(times[column], bounds[row]), (times[column], bounds[row + 1])]
              for row, column in zip(*upright.nonzero())]
    axes.add_collection(LineCollection(lines, **look))


def finish(axes: Axes, report: Report, cells: Sequence[str], bounds: Sequence[float], known: bool, of: str) -> None:
    """Gives a diagram its axis of place and its title."""
    axes.grid(False)
    axes.set_ylim(bounds[0], bounds[-1])
    if known:
        beside(axes, f"{_roads(report, cells)} (km), direction of travel upward")
    else:
        beside(axes, f"Cells {cells[0]} to {cells[-1]}, direction of travel upward")
    head(axes, f"{report.title}: {of} over time and place")


def _roads(report: Report, cells: Sequence[str]) -> str:
    """The roads of a route."""
    names = list(dict.fromkeys(str(report.units.cells[cell]["road"]) for cell in cells))
    if len(names) == 1:
        return f"Road {names[0]}"
    return f"Roads {', '.join(names)}" if len(names) <= FEW_ROADS else f"Roads {names[0]} to {names[-1]}"
