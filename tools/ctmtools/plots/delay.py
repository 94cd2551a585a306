"""The delay of each cell, as bars in the order of the roads."""

from __future__ import annotations

from typing import TYPE_CHECKING

import numpy
from matplotlib.axes import Axes
from matplotlib.figure import Figure

from ..report.reading import Report
from ..report.routes import roads_of
from .figure import drawing, figure, head, note
from .labels import Label, Place, write

if TYPE_CHECKING:
    import pandas

FEW_BARS = 60  # of more of them those of roads without delay are left out
MOST_BARS = 150  # of more of them the half of these with the most delay are kept
LEAST_DELAY = 0.0005  # of all; a road with less counts as one without delay
ROOM = 1.5  # bars between roads
NAMES_APART = 11.0  # points between the names of two bars
UPRIGHT_NAMES = 12  # so many names stand side by side, more of them upright
ROW = 13.0  # points of a row of names of roads
GATE = "gate"


@drawing
def draw(report: Report) -> Figure:
    """Draws the delay by cell, in vehicle-hours where the step is known."""
    delay = report.units.hours(report.cells.wait)
    groups, left_out = _groups(report, delay)
    drawn, axes = figure(size=(8, 4.4))
    start, middles, bars = 0.0, [], []
    for name, cells in groups:
        places = start + numpy.arange(len(cells))
        axes.bar(places, delay[cells], width=0.85, color="#4a4a4a")
        bars += [(place, f"{GATE} {cell}" if name == GATE else cell, delay[cell]) for place, cell in zip(places, cells)]
        if name != GATE:
            middles.append((float(places.mean()), name))
        start = places[-1] + 1 + ROOM
    axes.grid(False, axis="x")
    axes.set_xlim(-1, max(start - ROOM, 1))
    axes.set_ylabel(f"Delay ({report.units.delay_unit})")
    head(axes, f"{report.title}: delay by cell, {delay.sum():,.1f} {report.units.delay_unit} in all")
    axes.set_xlabel("Cells in the direction of travel")
    if left_out:
        note(axes, left_out)
    _name_bars(axes, bars)
    if len(middles) > 1:
        _name_roads(axes, middles)
    return drawn


def _name_bars(axes: Axes, bars: list[tuple[float, str, float]]) -> None:
    """Names the bars below the axis, or as many of them as find room, the highest first."""
    axes.figure.draw_without_rendering()
    first, last = axes.get_xlim()
    apart = (last - first) * NAMES_APART / (axes.bbox.width * 72 / axes.figure.dpi)
    named: dict[float, str] = {}
    for place, name, _ in sorted(bars, key=lambda bar: -bar[2]):
        if all(abs(place - other) >= apart for other in named):
            named[place] = name
    axes.set_xticks(list(named), list(named.values()), fontsize=8, rotation=90 if len(named) > UPRIGHT_NAMES else 0)


def _name_roads(axes: Axes, middles: list[tuple[float, str]]) -> None:
    """Names the roads below the names of the cells, in two rows, and says how many found no room there."""
    axes.xaxis.labelpad = 2 * ROW + 4
    axes.figure.draw_without_rendering()
    boxes = [label.get_window_extent() for label in axes.get_xticklabels()]
    depth = (axes.bbox.y0 - min(box.y0 for box in boxes)) * 72 / axes.figure.dpi
    rows = [Place(0, -depth - 4, upright="top"), Place(0, -depth - 4 - ROW, upright="top")]
    labels = [Label(name, (middle, 0), rows, {"xycoords": ("data", "axes fraction"), "fontsize": 9})
              for middle, name in middles]
    nameless = write(axes, labels)
    if nameless:
        note(axes, f"{len(nameless)} names are left out")


def _groups(report: Report, delay: pandas.Series) -> tuple[list[tuple[str, list[str]]], str]:
    """The roads with their cells, and the gates that have a delay; and what is left out of them, in words."""
    units = report.units
    kinds = {} if report.network is None else report.network.kinds
    rest = [cell for cell in report.cells.index if cell not in units.cells]
    if units.roads:
        groups = [(f"road {road}", list(cells)) for road, cells in roads_of(report).items()]
    else:
        groups = [("cells", [cell for cell in rest if kinds.get(cell, "road") == "road"])]
    gates = [cell for cell in rest if kinds.get(cell) == "gate" and delay[cell] > 0]
    left_out = ""
    if _bars(groups) > FEW_BARS:
        least = max(LEAST_DELAY * delay.sum(), 1e-9)
        waited = [group for group in groups if delay[group[1]].sum() >= least] or groups[:1]
        if len(waited) < len(groups):
            left_out = f"{len(groups) - len(waited)} roads with less than {LEAST_DELAY:.2%} of the delay are left out"
        groups = waited
    groups = [*groups, (GATE, gates)]
    if _bars(groups) > MOST_BARS:
        most = set(delay.sort_values(ascending=False).index[:MOST_BARS // 2])
        left_out = (f"The {len(most)} cells with the most delay, {delay[list(most)].sum() / delay.sum():.0%} of it; "
                    f"{len(delay) - len(most)} others are left out")
        groups = [(name, [cell for cell in cells if cell in most]) for name, cells in groups]
    return [(name, cells) for name, cells in groups if cells], left_out


def _bars(groups: list[tuple[str, list[str]]]) -> int:
    return sum(len(cells) for _, cells in groups)
