"""The tables of a page: its roads, junctions and gates, its reports side by side, and the cells that differ most."""

from __future__ import annotations

from collections.abc import Sequence
from typing import TYPE_CHECKING, Any

import numpy

from ..approaches.by_approach import by_approach, queue_courses
from ..report.comparability import mismatches, other_lanes_and_speeds
from ..report.comparing import compare, side_by_side
from ..report.queues import standing
from ..report.reading import Report
from ..report.routes import roads_and_gates as folded
from ..report.travel import road_times
from ..yielding.messages import AT_GREENS, HEADS, green_rows
from .networks import RoadNames, is_measured, junctions_of, roads_of, whole_roads

if TYPE_CHECKING:
    import pandas

SERVICE = {"demand": "demand, vehicles/h", "capacity": "capacity, vehicles/h", "ratio": "demand by capacity", "delay_even": "even delay, s",
           "delay_random": "at random, s", "delay_each": "control delay, s", "level": "level of service", "queue": "mean queue, m",
           "longest_queue": "longest queue, m", "lanes": "lanes", "over_pocket": "beyond the pocket, vehicles"}
MOST_COURSES = 6  # of approaches so many have their queue drawn over time
MOST_CELLS = 10  # of those that differ so many are listed
LEAST_CHANGE = 0.005  # of delay or of vehicles that left, from which on a cell is one that differs, as `compare` has it

Figures = list[float | None]


def table_of(reports: Sequence[Report]) -> dict[str, Any]:
    """A row for each road, junction and gate of any of the reports, with the figures of each report that has it.

    The delays of the rows of a report add up to `total`, which is the program's.
    """
    rows = [_rows(report) for report in reports]
    names = list(dict.fromkeys(name for own in rows for name in own))
    units = reports[0].units
    way, time = ("km", "s") if all(map(is_measured, reports)) else ("cells", "s" if units.known else "steps")
    measures = [{"name": "length", "unit": way}, {"name": "delay", "unit": units.delay_unit},
                {"name": "vehicles that left", "unit": ""}, {"name": "delay of each", "unit": time},
                {"name": "most in queues at once", "unit": way},
                {"name": "mean travel time", "unit": "min" if units.known else "steps"}]
    return {"measures": measures, "rows": [{"name": name, "of": [own.get(name) for own in rows]} for name in names],
            "total": [_total(report) for report in reports]}


def parts_of(report: Report) -> dict[str, list[str]]:
    """The cells of each road, junction and gate, and of what belongs to none of them, each cell once.

    Those that a junction made belong to the road before its stop line, or to the way out, where the units name it.
    """
    kinds = report.need_network().kinds
    gates = {f"gate {cell}": [cell] for cell, kind in kinds.items() if kind == "gate"}
    made, within = folded(report), report.units.within
    gates = {name: made.get(name, cells) for name, cells in gates.items()}
    junctions = {name: [cell for cell in cells if cell not in within] for name, cells in junctions_of(report).items()}
    parts = {**whole_roads(report), **{name: cells for name, cells in junctions.items() if cells}, **gates}
    told = {cell for cells in parts.values() for cell in cells}
    rest = [cell for cell, kind in kinds.items() if cell not in told and (kind != "exit" or report.cells.wait[cell] > 0)]
    return {**parts, **({"other cells": rest} if rest else {})}


def _rows(report: Report) -> dict[str, Figures]:
    network, queued, travel, roads = report.need_network(), _queued(report), _travel(report), roads_of(report)
    within, found = junctions_of(report), {}
    for name, cells in parts_of(report).items():
        own = set(cells)
        ends = [cell for cell in cells if not own.intersection(network.graph.successors(cell))] or cells[-1:]
        gate = all(network.kinds[cell] != "road" for cell in cells)
        gone = float(report.cells.gone[ends].sum())
        length = None if gate or name in within else _length(report, roads.get(name, cells))
        found[name] = _figures(report, float(report.cells.wait[cells].sum()), gone, length,
                               None if gate else queued[cells], travel.get(name))
    return found


def _total(report: Report) -> Figures:
    """The figures of the whole network: its delay by who entered, and the vehicles that left."""
    roads = [cell for cells in roads_of(report).values() for cell in cells]
    units, total = report.units, report.sums
    figures = _figures(report, float(total.delay), float(total.left), _length(report, roads), _queued(report), None)
    each = total.delay * (units.step or 1) / total.entered if total.entered else None
    return [*figures[:3], _rounded(each), *figures[4:]]


def _figures(report: Report, wait: float, gone: float, length: float | None, queued: pandas.DataFrame | None,
             travel: float | None) -> Figures:
    """Length, delay, vehicles, delay of each, most in queues, travel time; what there isn't is None."""
    units = report.units
    each = wait * (units.step if units.step is not None else 1.0) / gone if gone > 0 else None
    reach = None if queued is None else float(queued.sum(axis=1).max())
    return [_rounded(value) for value in (length, float(units.hours(wait)), gone, each, reach, travel)]


def _rounded(value: float | None) -> float | None:
    return None if value is None else round(float(value), 6)


def _length(report: Report, cells: Sequence[str]) -> float:
    return sum((report.units.length(cell) or 0.0) if is_measured(report) else 1.0 for cell in cells)


def _queued(report: Report) -> pandas.DataFrame:
    """What of each road cell stands in a queue, in km or cells, from each recorded step on."""
    kinds = report.need_network().kinds
    lengths = [_length(report, [cell]) if kinds[cell] == "road" else 0.0 for cell in report.cells.index]
    return standing(report) * numpy.array(lengths)


def _travel(report: Report) -> dict[str, float]:
    """The mean travel time of each road on which somebody arrived, in minutes, or in steps; of several that are one their sum."""
    unit = 1 if report.units.step is None else report.units.step / 60
    times = {time.road: time.mean * unit for time in road_times(report)}
    chains = RoadNames(report).chains
    return {road: sum(times[one] for one in chain) for road, chain in chains.items() if all(one in times for one in chain)}


def reports_of(reports: Sequence[Report], names: Sequence[str]) -> dict[str, Any]:
    """A row for each report, as `compare` has them: entered, left, inside, delay, and its rise over the first one's."""
    frame = side_by_side(dict(zip(names, reports)))
    unit = frame.attrs["units"]["delay"]
    columns = ["report", "entered", "left", "inside at the end", f"delay, {unit}", f"more than {names[0]}", "in %"]
    rows = [[str(name), row.entered, row.left, row.inside, row.delay, *((row.rise, 100 * row.part) if i else (None, None))]
            for i, (name, row) in enumerate(frame.iterrows())]
    return {"columns": columns, "rows": [[name, *(None if value != value else value for value in values)]
                                         for name, *values in rows]}


def differing(reports: Sequence[Report], names: Sequence[str]) -> dict[str, Any] | None:
    """The cells of two reports whose delay differs most, as `compare` has them; None of any other number of reports."""
    if len(reports) != 2:
        return None
    frame = compare(*reports)
    changed = frame[(frame.delay_rise.abs() >= LEAST_CHANGE) | (frame.left_rise.abs() >= LEAST_CHANGE)]
    unit = frame.attrs["units"]["delay"]
    heads = [f"{what}, {of}" for what in (f"delay, {unit}", "vehicles that left") for of in (*names, "rise")]
    called = RoadNames(reports[0])
    rows = [[called.place_of(str(cell)), *(None if value != value else round(float(value), 6) for value in row)]
            for cell, row in changed[:MOST_CELLS].iterrows()]
    return {"columns": ["cell", *heads], "rows": rows, "count": len(changed)}


def unlike_lines(reports: Sequence[Report], names: Sequence[str]) -> list[str]:
    """What `compare` prints of networks and times in which another report differs from the first."""
    lines = []
    for report, name in zip(reports[1:], names[1:]):
        told = [*(f"Mind: {line}." for line in mismatches(reports[0], report)),
                *(f"{line}." for line in other_lanes_and_speeds(reports[0], report))]
        if told:
            lines += [f"A is “{names[0]}”, B is “{name}”:", *told]
    return lines


def greens_of(reports: Sequence[Report], names: Sequence[str]) -> list[dict[str, Any]]:
    """What each report loses at fixed greens by coming at random, as `run` prints it: a head, and a row for each lane group."""
    lost = [(report, *green_rows(report)) for report in reports]
    told = [(name, hours, _called_groups(report, rows)) for name, (report, hours, rows) in zip(names, lost)]
    of = {name: f"{name}: " if len(names) > 1 else "" for name in names}
    return [{"head": f"{of[name]}{AT_GREENS}: {hours}", "columns": HEADS, "rows": rows} for name, hours, rows in told if rows]


def _called_groups(report: Report, rows: Sequence[tuple[str, ...]]) -> list[tuple[str, ...]]:
    """Rows of lane groups by the approach and the ways that they take where these are known, not by their place in the study."""
    names, approaches = RoadNames(report), report.units.approaches
    movements = {one.cells[-1]: (approach.name, one.into) for approach in approaches for one in approach.movements if one.cells}
    called = {}
    for group in report.units.at_random.lane_groups:
        own = [movements[cell] for cell in group.cells if cell in movements]
        if own:
            called[group.name] = names.moving(names.approach(own[0][0]), own[0][0], [into for _, into in own])
    return [(called.get(name, name), *row) for name, *row in rows]


def approaches_of(reports: Sequence[Report], names: Sequence[str]) -> list[dict[str, Any]]:
    """For each report with approaches a head, and a row for each approach and movement, the greatest control delay first."""
    of = {name: f"{name}: " if len(names) > 1 else "" for name in names}
    return [{"head": f"{of[name]}{head}", **_service(report, by)} for report, name in zip(reports, names)
            if report.units.known and report.units.approaches for by, head in (("approach", "Approaches"), ("movement", "Movements"))]


def queues_of(report: Report, bounds: Sequence[int]) -> list[dict[str, Any]]:
    """The queues over time of the approaches where they grow longest, in m, frame by frame."""
    if not report.units.known or not report.units.approaches:
        return []
    courses = sorted(queue_courses(report, bounds).items(), key=lambda row: -float(row[1].max()))
    names = RoadNames(report)
    return [{"name": names.approach(name), "metres": [round(float(value), 1) for value in course]}
            for name, course in courses[:MOST_COURSES]]


def _service(report: Report, by: str) -> dict[str, Any]:
    """The columns and rows of a report's approaches, or of their movements."""
    frame = by_approach(report, by=by).sort_values("delay", ascending=False, kind="stable")
    columns = [name for name in SERVICE if name in frame]
    names = RoadNames(report)
    titles = [names.approach(name) if by == "approach" else names.moving(names.approach(name), name, [into])
              for name, into in zip(frame.approach, frame.get("movement", frame.approach))]
    rows = [[title, *(_plain(value) for value in row)] for title, row in zip(titles, frame[columns].itertuples(index=False))]
    return {"columns": [by, *(SERVICE[name] for name in columns)], "rows": rows}


def _plain(value: Any) -> Any:
    """A value as the page has it: none where it is lacking or without an end, and amounts to a thousandth."""
    if isinstance(value, str):
        return value
    return round(float(value), 3) if numpy.isfinite(value) else None
