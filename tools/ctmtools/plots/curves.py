"""Cumulative curves of chosen cells: all vehicles that have gone out of each, over time."""

from __future__ import annotations

from collections.abc import Sequence

import networkx
import numpy
from matplotlib.figure import Figure

from ..arrays import Numbers
from ..problem import Problem
from ..report.reading import Report
from ..report.routes import main_route
from .figure import beside, drawing, figure, head, legend_below, moments, named, span_of, style, time_axis


@drawing
def draw(report: Report, cells: Sequence[str] = (), background: float | None = None, shifted: bool = False,
         begin: str | None = None, until: str | None = None) -> Figure:
    """Draws the curves.

    `background` is a flow in vehicles/h that is taken off, so that small differences show. Where `shifted`, each curve
    is moved on by the free-flow time to the last of the cells, so that the area between two is the delay between them.
    """
    report.need_records()
    cells = list(cells) or _telling(report)
    missing = [cell for cell in cells if cell not in report.cells.index]
    if missing:
        raise Problem(f"{report.name}: there is no cell {missing[0]}")
    step = report.units.step
    if background is not None and step is None:
        raise Problem(f"{report.name}: the units aren't known, so a flow in vehicles/h can't be taken off")
    first, last = span_of(report, begin, until)
    drawn, axes = figure()
    lags = _lags(report, cells) if shifted else [0] * len(cells)
    kinds = report.need_network().kinds
    for i, (cell, lag) in enumerate(zip(cells, lags)):
        times = numpy.array(report.times) + lag
        passed = _passed(report, cell, kinds[cell])
        if background is not None and step is not None:
            passed = passed - background * times * step / 3600
        axes.plot(moments(report, times), passed, label=_label(report, cell, kinds[cell], lag), **style(i))
    time_axis(axes, report, first, last)
    beside(axes, "Vehicles in all" if background is None else f"Vehicles in all less {background:g} vehicles/h")
    if background is None:
        axes.set_ylim(bottom=0)
    head(axes, f"{report.title}: cumulative curves" + (", shifted by the free-flow time" if shifted else ""))
    legend_below(drawn, named(axes))
    return drawn


def _passed(report: Report, cell: str, kind: str) -> Numbers:
    """The vehicles that have come to a gate or to an exit, or have gone out of a road, at each recorded step."""
    inside: Numbers = report.vehicles[cell].to_numpy()
    left: Numbers = report.left[cell].to_numpy()
    return inside if kind == "exit" else inside + left if kind == "gate" else left


def _telling(report: Report) -> list[str]:
    """The cells that show most: the first of the main route, the one with the most delay, and the last."""
    route = main_route(report.need_network())
    middle = report.cells.wait[route[1:-1]]
    return list(dict.fromkeys([route[0], *([middle.idxmax()] if middle.max() > 0 else []), route[-1]]))


def _lags(report: Report, cells: Sequence[str]) -> list[int]:
    """The steps at free flow from each cell to the last of them, a step a cell."""
    graph = report.need_network().graph
    lags = []
    for cell in cells:
        try:
            lags.append(networkx.shortest_path_length(graph, cell, cells[-1]))
        except networkx.NetworkXNoPath:
            raise Problem(f"{report.name}: no route leads from {cell} to {cells[-1]}") from None
    kinds = report.need_network().kinds
    # What has come is counted a step sooner than what has gone: at an exit, the last cell, and at a gate.
    at_exit = kinds[cells[-1]] == "exit"
    return [max(0, lag - at_exit) + (kinds[cell] == "gate") for cell, lag in zip(cells, lags)]


def _label(report: Report, cell: str, kind: str, lag: int) -> str:
    row = report.units.cells.get(cell)
    place = report.units.made_place(cell) or (f"{cell}, road {row['road']} km {row['to_km']:g}" if row else cell)
    what = {"gate": f"come to gate {cell}", "exit": f"come to exit {cell}"}.get(kind, f"past {place}")
    if not lag:
        return what
    step = report.units.step
    return f"{what}, + {lag} steps" if step is None else f"{what}, + {lag * step:g} s"
