"""What a model has against what detectors saw, and a detector's flow and density with their triangle."""

from __future__ import annotations

from typing import TYPE_CHECKING

from matplotlib.figure import Figure

from ..calibration.diagram import Triangle
from ..calibration.observed import Observed
from .figure import SHADES, beside, drawing, figure, head, legend_below, named, style

if TYPE_CHECKING:
    import pandas

MARKS = "osD^vP"


@drawing
def against(model: pandas.DataFrame, observed: Observed, title: str) -> Figure:
    """Draws the modelled flow of each row over the observed one, a mark for each detector."""
    drawn, axes = figure(size=(6.5, 6))
    most = float(max(model.flow.max(), observed.rows.flow.max())) * 1.05
    axes.plot([0, most], [0, most], label="as observed", **style(2))
    for i, place in enumerate(observed.places):
        own = observed.rows.place == place
        axes.plot(observed.rows.flow[own], model.flow[own], MARKS[i % len(MARKS)], color=SHADES[i % len(SHADES)],
                  markersize=4, fillstyle="none", label=place)
    axes.set_xlim(0, most)
    axes.set_ylim(0, most)
    axes.set_xlabel("Observed flow (vehicles/h)")
    beside(axes, "Modelled flow (vehicles/h)")
    head(axes, title)
    legend_below(drawn, named(axes))
    return drawn


@drawing
def triangle(states: pandas.DataFrame, found: Triangle, title: str) -> Figure:
    """Draws flow over density of a lane, with the triangle that fits them."""
    drawn, axes = figure(size=(7, 4.5))
    axes.plot(states.density, states.flow, "o", color=SHADES[5], markersize=3, fillstyle="none", label="observed")
    axes.plot([0, found.capacity / found.speed, found.jam], [0, found.capacity, 0], label="triangle", **style(1))
    axes.set_xlabel("Density (vehicles/km in a lane)")
    beside(axes, "Flow (vehicles/h in a lane)")
    axes.set_xlim(left=0)
    axes.set_ylim(bottom=0)
    head(axes, title)
    legend_below(drawn, named(axes))
    return drawn
