"""A report as tidy tables in the engineer's units: its cells over time, its cells at the end, and its queues."""

from __future__ import annotations

from collections.abc import Sequence
from typing import TYPE_CHECKING, Any

import numpy

from ..arrays import Numbers, Wholes
from ..problem import Problem
from ..texts.amounts import PARTS
from ..units import Units
from .measures import hour_of, measured
from .queues import queues_in
from .reading import Report
from .upstream import waiting_upstream

if TYPE_CHECKING:
    import pandas

KNOWN = {"time": "time of day", "vehicles": "vehicles", "flow": "vehicles/h", "density": "vehicles/km",
         "speed": "km/h"}
UNKNOWN = {"time": "step", "vehicles": "vehicles", "flow": "vehicles in a step", "density": "vehicles in a cell",
           "speed": "cells in a step"}
DIGITS = 9  # behind the point, beyond which is what differences leave of nothing


def states(report: Report) -> pandas.DataFrame:
    """A row for each recorded step and cell: time, cell, vehicles, flow, density, speed, step, road, km and lanes.

    `vehicles` are those in the cell at the step. Flow, density and speed, in vehicles/h, vehicles/km and km/h, are those from the
    step to the next recorded one by Edie's definitions, and lacking at the last. The time is a datetime of the study's
    date, else of 1 January 1900. Where the units aren't known, time is the
    step, flow is in vehicles a step, density in vehicles a cell and speed in cells a step, and no road, from_km, to_km
    and lanes are given. Gates and exits have no density and no speed. Where the network has speed limits, `speed_limit` is the
    one in force, in the unit of speed and lacking where none holds. `frame.attrs["units"]` names the units.
    """
    import pandas  # here and below, so that a run of which no frame is asked doesn't load it

    report.need_records()
    units, cells, found, shape = report.units, report.names, measured(report), report.records.vehicles.shape
    columns = {
        "time": _by_row(times(units, report.times), shape),
        "cell": _by_column(numpy.array(cells, dtype=object), shape),
        "vehicles": (report.records.vehicles / PARTS).ravel(),
        **{name: _padded(getattr(found, name)) for name in ("flow", "density", "speed")},
    }
    if report.network is not None and report.network.paces:
        parts = report.free_parts
        columns["speed_limit"] = _padded(numpy.where(parts < 1, parts, numpy.nan) * report.lengths * hour_of(report))
    columns["step"] = _by_row(report.times, shape)
    columns |= _places(units, cells, shape)
    frame, named = pandas.DataFrame(columns, copy=False), KNOWN if units.known else UNKNOWN
    frame.attrs["units"] = {**named, **({"speed_limit": named["speed"]} if "speed_limit" in frame else {})}
    return frame


def totals(report: Report, value_of_time: float | None = None) -> pandas.DataFrame:
    """A row for each cell at the last step: the vehicles in it, those that have entered and left it, the delay, and the place.

    Delay is in vehicle-hours where the step is known, else in vehicle-steps; road, from_km, to_km and lanes are given
    where the units are known; the rest is in vehicles. With a value of time, in money an hour, `cost` is what the delay
    costs.
    """
    frame = report.cells.rename(columns={"n": "vehicles", "come": "entered", "gone": "left", "wait": "delay"}).reset_index()
    frame["delay"] = report.units.hours(frame["delay"])
    frame = frame.assign(**_places(report.units, report.names, (len(frame),)))
    if value_of_time is not None:
        if not report.units.known:
            raise Problem(f"{report.name}: the units aren't known, so the delay has no cost")
        frame["cost"] = frame["delay"] * value_of_time
    frame.attrs["units"] = {**dict.fromkeys(("vehicles", "entered", "left"), "vehicles"), "delay": report.units.delay_unit}
    return frame


def queues_of(report: Report) -> pandas.DataFrame:
    """A row for each queue, the most costly first: where and when it began, how far it reached, when it cleared.

    `cell`, `road` and `km` say where it `began`; `reach` is the way from there back to the upstream end of the cell
    `farthest`, which first queued at `reached`; `most_waiting` are the vehicles that waited in it at `most_at`, for the first time;
    `cleared` is lacking where it still stands at the end; `spells` says how often it came, as at a signal in each
    cycle; `longest_reach` is that of all parts that joined it, `waiting_upstream` the vehicles that waited in a gate behind it,
    where it reached the upstream end of the model. Reach is in km, delay in vehicle-hours and times are
    datetimes, or in cells, vehicle-steps and steps where the units aren't known (`frame.attrs["units"]`).
    """
    import pandas

    report.need_records()
    units, queues = report.units, queues_in(report)
    origins = [units.cells.get(queue.origin, {}) for queue in queues]
    frame = pandas.DataFrame({
        "cell": [queue.origin for queue in queues],
        **({"road": numpy.array([row.get("road") for row in origins], dtype=object),
            "km": numpy.array([row.get("to_km", numpy.nan) for row in origins])} if units.cells else {}),
        "began": times(units, [queue.start for queue in queues]),
        "reach": [queue.reach for queue in queues],
        "farthest": [queue.farthest for queue in queues],
        "reached": times(units, [queue.reached for queue in queues]),
        "most_waiting": [queue.most for queue in queues],
        "most_at": times(units, [queue.most_at for queue in queues]),
        "cleared": times(units, [numpy.nan if queue.end is None else queue.end for queue in queues]),
        "delay": [units.hours(queue.delay) for queue in queues],
        "spells": [queue.spells for queue in queues],
        "longest_reach": [queue.longest_reach for queue in queues],
        "waiting_upstream": [waiting_upstream(report, [queue]) for queue in queues],
    }, copy=False)
    reach = "km" if units.known else "cells"
    frame.attrs["units"] = {"reach": reach, "longest_reach": reach, "most_waiting": "vehicles",
                            "delay": units.delay_unit}
    return frame


def times(units: Units, steps: Sequence[float] | Numbers | Wholes) -> Any:
    """An array of steps as datetimes where the units are known, else as they are; what is lacking stays so."""
    values = numpy.asarray(steps, dtype=float)
    known = ~numpy.isnan(values)
    if units.step is None:
        import pandas

        return pandas.array(values, dtype="Int64") if not known.all() else values.astype(int)
    found = numpy.full(len(values), "NaT", dtype="datetime64[ns]")
    milliseconds = numpy.rint(((units.start or 0) + values[known] * units.step) * 1000)
    found[known] = numpy.datetime64(units.first_day, "ns") + milliseconds.astype("timedelta64[ms]")
    return found


def _places(units: Units, cells: Sequence[str], shape: tuple[int, ...]) -> dict[str, Any]:
    """Road, kilometres and lanes of cells, an array of each, in each row of a table; none where no units are known."""
    import pandas

    if not units.cells:
        return {}
    rows = [units.cells.get(cell, {}) for cell in cells]
    kilometres = {name: numpy.array([row.get(name, numpy.nan) for row in rows], dtype=float) for name in ("from_km", "to_km")}
    lanes = numpy.array([row.get("lanes", 1) for row in rows], dtype=numpy.int64)
    lacking = numpy.array(["lanes" not in row for row in rows], dtype=bool)
    return {"road": _by_column(numpy.array([row.get("road") for row in rows], dtype=object), shape),
            **{name: _by_column(values, shape) for name, values in kilometres.items()},
            "lanes": pandas.arrays.IntegerArray(_by_column(lanes, shape), _by_column(lacking, shape))}


def _by_column(values: Any, shape: tuple[int, ...]) -> Any:
    """What each column of a table has, for each of its values row behind row."""
    return numpy.broadcast_to(values, shape).ravel()


def _by_row(values: Any, shape: tuple[int, ...]) -> Any:
    """What each row of a table has, for each of its values row behind row."""
    return numpy.broadcast_to(values[:, None], shape).ravel()


def _padded(values: Numbers) -> Numbers:
    """The values row behind row, rounded, with a row of none for the last recorded step."""
    found: Numbers = numpy.empty((len(values) + 1, values.shape[1]))
    found[-1] = numpy.nan
    values.round(DIGITS, out=found[:-1])
    return found.ravel()
