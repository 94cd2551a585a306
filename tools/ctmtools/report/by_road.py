"""A report by road and gate or by ramp, and by spans of time: vehicles that left, density, speed, delay, queue, level of service."""

from __future__ import annotations

from collections.abc import Sequence

import numpy
import pandas

from ..arrays import Flags, Numbers
from ..problem import Problem
from ..units import MILE_KM
from .measures import hour_of, measured_together
from .queues import stands
from .reading import Report
from .routes import ends_of, roads_and_gates
from .states import times
from .summary import where

# The Highway Capacity Manual's levels of service of a motorway: for each the most vehicles per mile in a lane.
LEVELS = (("A", 11), ("B", 18), ("C", 26), ("D", 35), ("E", 45))

DIGITS = 9  # behind the point, beyond which is what sums of numbers leave of nothing
COLUMNS = ("left", "flow", "density", "speed", "delay", "delay_each", "queue")


def level(density: float) -> str:
    """The level of service of a density in vehicles/km in a lane, A to F; empty where there is none."""
    if density != density:
        return ""
    return next((name for name, most in LEVELS if density * MILE_KM <= most), "F")


def bounds_of(report: Report, every: float | None) -> list[int]:
    """The recorded steps at which spans of so many seconds (or steps) begin, and the last one."""
    report.need_records()
    step = report.units.step
    if every is None:
        return [int(report.times[0]), int(report.times[-1])]
    width = every if step is None else every / step
    if width < report.times[1] - report.times[0]:
        raise Problem("--interval: is less than the time from record to record")
    wanted = numpy.arange(0, report.steps + width, width)
    found = [int(report.times[min(place, len(report.times) - 1)]) for place in numpy.searchsorted(report.times, wanted)]
    return sorted(set(found))


def ramps(report: Report) -> dict[str, list[str]]:
    """For each gate the cells from it to the first junction, where that is a merge: a ramp with what waits before it.

    A motorway that begins at a gate and that a ramp joins is one too, up to there.
    """
    network = report.need_network()
    found = {}
    for gate, kind in network.kinds.items():
        cells = [gate] if kind == "gate" else []
        while cells:
            ways = list(network.graph.out_edges(cells[-1], data="kind"))
            if len(ways) != 1 or ways[0][1] in cells:
                break
            if ways[0][2] == "merge":
                found[f"{gate} to {where(report, cells[-1])}" if len(cells) > 1 else f"gate {gate}"] = cells
                break
            cells.append(ways[0][1])
    return found

PARTS = {"road": roads_and_gates, "ramp": ramps}


def by_road(report: Report, every: float | None = None, value_of_time: float | None = None,
            by: str = "road") -> pandas.DataFrame:
    """A row for each span of time and each road or gate; by `ramp` for each ramp, with the gate before it.

    `left` are the vehicles that left it and `flow` is that in vehicles/h; `density` in vehicles/km in a lane, with `level`, its level
    of service, and `speed` in km/h are by Edie's definitions of all of it; `delay` is in vehicle-hours and `delay_each` in
    seconds for each vehicle that left; `queue` is the most km that stood in a queue at once. With a value of time, in
    money an hour, `cost` is what the delay costs. Where units aren't known there are no roads, and gates alone have rows.
    """
    bounds = bounds_of(report, every)
    units = report.units
    parts, queued = PARTS[by](report), stands(report)
    lengths = report.lengths if units.known else numpy.ones(len(report.names))
    found = [_rows(report, bounds, cells, lengths, queued) for cells in parts.values()]
    rows = [(bounds[span], name, *row[span]) for span in range(len(bounds) - 1) for name, row in zip(parts, found)]
    frame = pandas.DataFrame(rows, columns=["step", by, *COLUMNS]).round(DIGITS)
    frame.insert(0, "time", times(units, frame["step"].to_numpy()))
    frame.insert(6, "level", [level(density) for density in frame.density] if units.known else "")
    if value_of_time is not None:
        if not units.known:
            raise Problem(f"{report.name}: the units aren't known, so the delay has no cost")
        frame["cost"] = frame.delay * value_of_time
    frame.attrs["units"] = {"left": "vehicles", "flow": "vehicles/h" if units.known else "vehicles in a step",
                            "density": "vehicles/km in a lane", "speed": "km/h", "delay": units.delay_unit, "delay_each":
                            "s" if units.known else "steps", "queue": "km" if units.known else "cells"}
    return frame


def _rows(report: Report, bounds: Sequence[int], cells: Sequence[str], lengths: Numbers,
          queued: Flags) -> list[tuple[float, ...]]:
    """Vehicles that left some cells, flow, density, speed, delay, delay of each and queue, from each bound to the next.

    Of all cells `lengths` are those, and `queued` says which stand in a queue.
    """
    units, places = report.units, report.places(cells)
    own = lengths[places]
    lanes = numpy.array([(units.cells.get(cell) or {}).get("lanes", 1) for cell in cells])
    found = measured_together(report, bounds, cells, lanes, own)
    rows, steps = numpy.searchsorted(report.times, bounds), numpy.diff(bounds)
    left = numpy.add.reduceat(report.passed[:, report.places(ends_of(report, cells))].sum(axis=1), rows[:-1])
    delay = numpy.add.reduceat(report.waited[:, places].sum(axis=1), rows[:-1])
    reach = numpy.maximum.reduceat(queued[:, places] @ numpy.nan_to_num(own), rows[:-1])
    with numpy.errstate(invalid="ignore", divide="ignore"):
        each = numpy.where(left > 0, delay * (units.step if units.step is not None else 1.0) / left, numpy.nan)
    return list(zip(left, left / steps * hour_of(report), found.density, found.speed, units.hours(delay), each, reach))


def network_states(report: Report, every: float | None = None) -> pandas.DataFrame:
    """The mean flow and density in a lane of all roads over each span: the points of the network's fundamental diagram.

    Both are means over lane-kilometres: vehicle-kilometres an hour, and vehicles, by the lane-kilometres of the network;
    where the units aren't known, over cells, in vehicles a step and vehicles a cell.
    """
    units, kinds = report.units, report.need_network().kinds
    bounds, cells = bounds_of(report, every), [cell for cell in report.names if kinds[cell] == "road"]
    known = units.known and bool(units.cells)
    lengths = report.lengths[report.places(cells)] if known else numpy.ones(len(cells))
    lanes = numpy.array([units.cells.get(cell, {}).get("lanes", 1) if known else 1 for cell in cells])
    found = measured_together(report, bounds, cells, lanes, lengths)
    flow = found.flow if known else found.flow / hour_of(report)
    return pandas.DataFrame({"step": bounds[:-1], "density": found.density, "flow": flow})
