"""The delays of draws: how they are distributed, the sum of that, and plans beside each other."""

from __future__ import annotations

import numpy
from matplotlib.axes import Axes
from matplotlib.figure import Figure
from matplotlib.ticker import FuncFormatter

from ..uncertainty.reliability import PERCENTS
from ..uncertainty.results import Draws, bars_of
from .figure import beside, drawing, figure, head, legend_below, named, style

GREY = "#777777"
PERCENT = FuncFormatter(lambda part, _: f"{100 * part:g}%")


@drawing
def draw(results: Draws) -> Figure:
    """Draws the distribution of each plan's delays above its sum, on which the percentiles are marked."""
    delays = results.delays_by_plan
    drawn, (above, below) = figure(2, size=(8, 5.6), sharex=True)
    edges, shares = bars_of(delays)
    for i, (plan, values) in enumerate(delays.items()):
        above.stairs(shares[plan], edges, label=results.titles[plan], fill=False, **style(i))
        below.step([edges[0], *numpy.sort(values), edges[-1]], [*numpy.arange(len(values) + 1) / len(values), 1], where="post",
                   **style(i))
        below.plot(numpy.percentile(values, PERCENTS), numpy.array(PERCENTS) / 100, "o", markersize=4, color=style(i)["color"])
    _percentiles(below)
    above.yaxis.set_major_formatter(PERCENT)
    above.set_ylim(bottom=0)
    beside(above, "Draws in a bar")
    beside(below, "Draws with at most this delay")
    below.set_xlabel("Delay (vehicle-hours)")
    head(above, f"{results.title}: delay in {results.count} draws")
    if len(delays) > 1:
        legend_below(drawn, named(above))
    return drawn


def _percentiles(axes: Axes) -> None:
    """Lines at the percentiles that are reported."""
    axes.set_ylim(0, 1.02)
    axes.set_yticks([0, *(percent / 100 for percent in PERCENTS)])
    axes.yaxis.set_major_formatter(PERCENT)
    for percent in PERCENTS:
        axes.axhline(percent / 100, color=GREY, linewidth=0.6)
