"""The network's fundamental diagram: the mean flow of all lanes over their mean density, from span to span."""

from __future__ import annotations

from matplotlib.figure import Figure

from ..problem import Problem
from ..report.by_road import network_states
from ..report.reading import Report
from ..texts.quantities import duration
from .figure import DENSITY, beside, clock_axis, drawing, figure, head, moments

SPAN = 300  # seconds
SPANS = 60  # so many where the seconds of a step aren't known


@drawing
def draw(report: Report, interval: str | None = None) -> Figure:
    """Draws a point for each span of `interval`, as "5 min", joined in the order of time."""
    known = report.units.known
    report.need_records()
    span = SPAN if known else max(report.steps / SPANS, float(report.times[1] - report.times[0]))
    states = network_states(report, float(duration(interval, "--interval")) if interval else span)
    if len(states) < 2:
        raise Problem(f"{report.name}: has a single span; name a shorter one with --interval")
    drawn, axes = figure(size=(7, 4.5))
    clocks = moments(report, states.step)
    axes.plot(states.density, states.flow, color="#999999", linewidth=0.8, zorder=1)
    points = axes.scatter(states.density, states.flow, c=clocks, cmap=DENSITY, s=16, edgecolors="#333333",
                          linewidths=0.4, zorder=2)
    bar = drawn.colorbar(points, ax=axes, pad=0.02)
    bar.set_label("Time of day (h:min)" if known else "Time (steps)")
    if known:
        clock_axis(bar.ax.yaxis, min(clocks), max(clocks))
    axes.set_xlim(left=0)
    axes.set_ylim(bottom=0)
    axes.set_xlabel("Mean density (vehicles/km in a lane)" if known else "Mean density (vehicles in a cell)")
    beside(axes, "Mean flow (vehicles/h in a lane)" if known else "Mean flow (vehicles in a step)")
    head(axes, f"{report.title}: fundamental diagram of the network")
    return drawn
