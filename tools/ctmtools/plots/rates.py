"""The rates of ramp meters over time, and above them the occupancies that they followed."""

from __future__ import annotations

from collections.abc import Sequence
from typing import TYPE_CHECKING

from matplotlib.figure import Figure

from ..moments.metering import Gauge
from ..report.reading import Report
from .figure import beside, drawing, figure, head, legend_below, moments, named, style, time_axis

if TYPE_CHECKING:
    import pandas


@drawing
def draw(report: Report, rates: pandas.DataFrame, gauges: Sequence[Gauge]) -> Figure:
    """Draws for each meter the occupancy of each interval with its set point, and the rate."""
    drawn, (above, below) = figure(2, size=(8, 6), sharex=True)
    for i, gauge in enumerate(gauges):
        own = rates[rates.ramp == gauge.meter.ramp]
        steps = [*own.step, gauge.end]
        seen = [*own.occupancy[1:], float("nan")]
        above.stairs(seen, moments(report, steps), baseline=None, label=f"{gauge.meter.ramp}: at {gauge.detector}", **style(i))
        above.plot(moments(report, [gauge.begin, gauge.end]), [gauge.wanted] * 2, color=style(i)["color"], linewidth=0.8,
                   label=f"{gauge.meter.ramp}: set point")
        below.stairs(own.rate, moments(report, steps), baseline=None, **style(i))
    time_axis(below, report)
    above.set_ylim(bottom=0)
    below.set_ylim(bottom=0)
    beside(above, "Occupancy (% of the jam density)")
    beside(below, "Rate (vehicles/h)")
    head(above, report.title)
    legend_below(drawn, named(above, below))
    return drawn
