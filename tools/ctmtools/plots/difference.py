"""The difference of two reports as a time-space diagram: density of the second less that of the first."""

from __future__ import annotations

from collections.abc import Sequence

import numpy
from matplotlib.axes import Axes
from matplotlib.figure import Figure
from matplotlib.lines import Line2D

from ..problem import Problem
from ..report.comparability import names_of
from ..report.measures import measured
from ..report.queues import queues_in, stands
from ..report.reading import Report
from ..report.routes import kilometres, route_of
from .figure import RISE, beside, drawing, figure, head, legend_below, moments, time_axis
from .roadside import draw_junctions
from .time_space import outline

MOST_OUTLINED = 12  # queues, each time that one comes; more of them are no longer distinguished
LOOKS = (((0, (2, 1.5)), "#555555"), ("-", "#111111"))


@drawing
def draw(first: Report, second: Report, road: str | None = None) -> Figure:
    """Draws the difference of densities, in vehicles per km, over the cells and steps that both have."""
    for report in (first, second):
        report.need_records()
    cells = [cell for cell in route_of(second, road=road) if cell in first.cells.index]
    if not cells:
        raise Problem(f"{first.name} and {second.name} have no cell of the route in common")
    if first.units.step != second.units.step:
        raise Problem(f"{first.name} and {second.name} have steps of different length, so no difference is drawn")
    times = sorted(set(first.times[:-1]) & set(second.times[:-1]))
    if not times:
        raise Problem(f"{first.name} and {second.name} have no recorded step in common")
    bounds, known = kilometres(second, cells)
    one, two = (measured(report, cells=cells, lengths=numpy.diff(bounds)).density[numpy.searchsorted(report.times, times)]
                for report in (first, second))
    spread = (two - one).T
    most = float(numpy.abs(spread).max()) or 1.0
    drawn, axes = figure(size=(8, 4.4))
    ends = [*times, min(first.times[-1], second.times[-1])]
    mesh = axes.pcolormesh(moments(second, ends), bounds, spread, cmap=RISE, vmin=-most, vmax=most, rasterized=True)
    if second.network is not None:
        draw_junctions(axes, second, cells, bounds)
    handles = _outlines(axes, first, second, cells, bounds)
    axes.grid(False)
    axes.set_ylim(bounds[0], bounds[-1])
    time_axis(axes, second, 0, ends[-1])
    beside(axes, "Place, direction of travel upward (km)" if known else "Cell, direction of travel upward")
    head(axes, "Density: “{1}” less “{0}”".format(*names_of([first, second])))
    bar = drawn.colorbar(mesh, ax=axes, pad=0.02)
    bar.set_label("Rise of density (vehicles/km)" if known else "Rise of density (vehicles in a cell)")
    bar.outline.set_visible(False)
    if handles:
        legend_below(drawn, handles)
    return drawn


def _outlines(axes: Axes, first: Report, second: Report, cells: Sequence[str],
              bounds: Sequence[float]) -> list[Line2D]:
    """Outlines the queues of both reports, where they are few, and gives what the legend says of them."""
    handles = []
    for report, name, (dashes, shade) in zip((first, second), names_of([first, second]), LOOKS):
        if report.network is None or sum(queue.spells for queue in queues_in(report)) > MOST_OUTLINED:
            continue
        if not stands(report)[:, report.places(cells)].any():
            continue
        outline(axes, report, cells, bounds, linewidths=1.0, linestyles=[dashes], colors=shade)
        handles.append(Line2D([], [], linewidth=1.0, linestyle=dashes, color=shade, label=f"queue, {name}"))
    return handles
