"""The network drawn with its delays: each road cell as a line, darker and broader where more delay fell on a km."""

from __future__ import annotations

from collections.abc import Mapping
from typing import TYPE_CHECKING

import numpy
from matplotlib.axes import Axes
from matplotlib.collections import LineCollection
from matplotlib.figure import Figure
from matplotlib.patheffects import withStroke

from ..arrays import Numbers
from ..report.reading import Report
from ..report.routes import roads_of
from .figure import DENSITY, drawing, figure, head
from .labels import Label, Place, write
from .layout import Line, lay_out

if TYPE_CHECKING:
    import pandas

LEAST_WIDTH, MOST_WIDTH = 1.5, 9.0
HALO = [withStroke(linewidth=2.5, foreground="white")]  # so that a name can be read over a line
FINE = 4.0  # dots between the points by which a name is kept off the lines
ENDS = {True: [Place(-5, 0, "right"), Place(5, 0, "left"), Place(0, 6, upright="bottom"), Place(0, -6, upright="top")]}
ENDS[False] = [ENDS[True][1], ENDS[True][0], *ENDS[True][2:]]
ALONG = [Place(0, 7, upright="bottom"), Place(0, -7, upright="top"), Place(7, 0, "left"), Place(-7, 0, "right"),
         Place(6, -6, "left", "top"), Place(-6, 6, "right", "bottom"), Place(6, 6, "left", "bottom"),
         Place(-6, -6, "right", "top")]
MOST_CROSSED = 9  # points of lines that the name of a road may stand over


@drawing
def draw(report: Report) -> Figure:
    """Draws the map. The delay is in vehicle-hours for each km, or by cell."""
    units, kinds = report.units, report.need_network().kinds
    lines = lay_out(report)
    roads = [cell for cell in report.cells.index if kinds[cell] == "road"]
    delay = units.hours(report.cells.wait)
    dense = numpy.array([delay[cell] / ((units.length(cell) if units.known else None) or 1.0) for cell in roads])
    most = dense.max() if len(dense) and dense.max() > 0 else 1.0
    drawn, axes = figure(size=(8, _height(lines)))
    axes.add_collection(LineCollection([lines[cell] for cell in roads], colors="#888888", linewidths=LEAST_WIDTH + 1.2,
                                       capstyle="round"))
    widths = LEAST_WIDTH + (MOST_WIDTH - LEAST_WIDTH) * numpy.sqrt(dense / most)
    body = LineCollection([lines[cell] for cell in roads], cmap=DENSITY, capstyle="butt", linewidths=widths)
    body.set_array(dense)
    body.set_clim(0, most)
    axes.add_collection(body)
    _arrows(axes, report, lines)
    axes.autoscale_view()
    axes.margins(0.14, 0.2)
    axes.set_aspect("equal", adjustable="datalim")
    axes.axis("off")
    bar = drawn.colorbar(body, ax=axes, orientation="horizontal", shrink=0.6, aspect=40, pad=0.03)
    scale = f"Delay ({units.delay_unit} for each km)" if units.known else "Delay (vehicle-steps in a cell)"
    bar.set_label(f"{scale}\n ")  # with a line more, since names are placed in the layout as it stays
    bar.outline.set_visible(False)
    head(axes, f"{report.title}: {delay.sum():,.1f} {units.delay_unit} of delay" +
         ("" if units.points else ", schematic"))
    nameless = _names(axes, report, lines, delay, dict(zip(roads, widths)))
    bar.set_label(f"{scale}\n{f'{nameless} names are left out' if nameless else ' '}")
    return drawn


def _height(lines: Mapping[str, Line]) -> float:
    """The height of the figure in inches that suits the lines, at 8 inches of width."""
    points = numpy.array([point for line in lines.values() for point in line])
    width, height = numpy.ptp(points, axis=0)
    return min(7.0, max(2.6, 1.7 + 6.5 * float(height / (width or 1.0))))


def _arrows(axes: Axes, report: Report, lines: Mapping[str, Line]) -> None:
    """Draws gates and exits as arrows."""
    for cell, kind in report.need_network().kinds.items():
        if kind != "road":
            axes.annotate("", lines[cell][-1], lines[cell][0],
                          arrowprops={"arrowstyle": "-|>", "color": "#222222", "linewidth": 1.2})


def _names(axes: Axes, report: Report, lines: Mapping[str, Line], delay: pandas.Series, widths: Mapping[str, float]) -> int:
    """Names gates, with their delay, exits and roads, and gives how many names found no room.

    Those with the most delay come first. `widths` are those of the roads' lines, in points.
    """
    labels = []
    for cell, kind in report.need_network().kinds.items():
        if kind != "road":
            labels.append((delay[cell], _end_label(report, lines, cell, delay[cell])))
    for road, cells in roads_of(report).items():
        own = report.units.roads[road]
        labels.append((delay[cells].sum(), _road_label(f"road {road}", lines[own[len(own) // 2]])))
    labels.sort(key=lambda row: -float(row[0]))
    return len(write(axes, [label for _, label in labels], shunned=_points(axes, lines, widths)))


def _end_label(report: Report, lines: Mapping[str, Line], cell: str, delay: float) -> Label:
    gate = report.need_network().kinds[cell] == "gate"
    text = f"{cell}\n{delay:,.1f} {report.units.delay_unit.replace('vehicle-', 'veh.-')}" \
        if gate and delay >= 0.05 else cell
    return Label(text, lines[cell][0 if gate else -1], ENDS[gate], {"fontsize": 9, "path_effects": HALO})


def _road_label(text: str, line: Line) -> Label:
    middle = (line[0][0] + line[-1][0]) / 2, (line[0][1] + line[-1][1]) / 2
    return Label(text, middle, ALONG, {"fontsize": 9, "color": "#333333", "path_effects": HALO}, MOST_CROSSED)


def _points(axes: Axes, lines: Mapping[str, Line], widths: Mapping[str, float]) -> Numbers:
    """Points along all lines and along both their edges, in dots."""
    axes.figure.draw_without_rendering()
    found = []
    for cell, line in lines.items():
        ends = axes.transData.transform(line)
        half = widths.get(cell, LEAST_WIDTH) / 2 * axes.figure.dpi / 72
        for one, two in zip(ends, ends[1:]):
            way = float(numpy.hypot(*(two - one)))
            across = half * numpy.array([one[1] - two[1], two[0] - one[0]]) / (way or 1.0)
            count = max(2, int(way / FINE) + 1)
            found += [numpy.linspace(one + side * across, two + side * across, count) for side in (-1, 0, 1)]
    return numpy.concatenate(found) if found else numpy.empty((0, 2))
