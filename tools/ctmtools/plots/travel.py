"""The travel time along a route, over the time of setting out."""

from __future__ import annotations

import numpy
from matplotlib.figure import Figure

from ..report.reading import Report
from ..report.travel import chain_of, trips
from .figure import beside, drawing, figure, head, legend_below, moments, named, note, span_of, style, time_axis


@drawing
def draw(report: Report, first: str | None = None, last: str | None = None, road: str | None = None,
         begin: str | None = None, until: str | None = None) -> Figure:
    """Draws the travel time of who departs at each recorded step, and that at free flow.

    `first` and `last` are the ends of the route, as `ROAD.KM`, a gate or an exit; else it is the road, or the longest
    route.
    """
    cells = chain_of(report, first, last, road)
    driven = trips(report, cells)
    scale = 1.0 if report.units.step is None else report.units.step / 60
    drawn, axes = figure()
    axes.plot(moments(report, driven.entered), driven.steps * scale, label="travel time", **style(0))
    if numpy.ptp(driven.free) > 0:
        axes.plot(moments(report, driven.entered), driven.free * scale, label="at free flow, by the speed limits in force", **style(2))
    else:
        axes.axhline(driven.mean_free * scale, label="at free flow", **style(2))
    time_axis(axes, report, *span_of(report, begin, until))
    note(axes, f"Time of departure at {_place(report, cells[0], 'from_km')}, to {_place(report, cells[-1], 'to_km')}")
    beside(axes, "Travel time (min)" if report.units.known else "Travel time (steps)")
    axes.set_ylim(bottom=0)
    head(axes, f"{report.title}: travel time")
    legend_below(drawn, named(axes))
    return drawn


def _place(report: Report, cell: str, end: str) -> str:
    row, made = report.units.cells.get(cell), report.units.made_place(cell)
    return made or (f"{row['road']} km {row[end]:g}" if row else cell)
