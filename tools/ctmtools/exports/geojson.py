"""A report as GeoJSON, for QGIS and others: a line for each cell, or a point for each approach, in all or by time."""

from __future__ import annotations

from collections.abc import Iterator, Mapping
from typing import Any

import numpy
import pandas

from ..approaches.by_approach import by_approach
from ..plots.layout import Line, lay_out
from ..problem import Problem
from ..report.measures import hour_of, measured
from ..report.reading import Report
from ..report.states import KNOWN, UNKNOWN
from ..study.coordinates import DEGREES, METRES, moved

Feature = dict[str, Any]
DEGREE_DECIMALS = 7  # of a degree, by which a place is known to a centimetre


def features(report: Report, every: float | None = None) -> Iterator[Feature]:
    """The cells as features: at the end of the run, or for each span of `every` s (or steps, where these aren't known).

    A feature has cell, kind, road, from_km, to_km, lanes, and of the whole run the vehicles that left and the delay; of
    a span density, flow and speed, the delay, and begin and end as times of the study's date, else of 1 January 1900.
    """
    lines = _located(report, lay_out(report))
    spans = None if every is None else _Spans(report, every)
    for cell in report.cells.index:
        shape = {"type": "LineString", "coordinates": lines[cell]}
        for terms in [_whole(report, cell)] if spans is None else spans.of(cell):
            yield {"type": "Feature", "geometry": shape, "properties": {**_place(report, cell), **terms}}


def collection(report: Report, every: float | None = None) -> dict[str, Any]:
    """The features as a collection, with the units of their properties."""
    known = KNOWN if report.units.known else UNKNOWN
    named = {"coordinates": coordinates_of(report), "delay": report.units.delay_unit,
             **{name: known[name] for name in ("flow", "density", "speed")}}
    return {"type": "FeatureCollection", "name": report.title, "units": named,
            "features": list(features(report, every))}


def by_service(report: Report, every: float | None = None, by: str = "approach") -> dict[str, Any]:
    """A point at the stop line of each approach, or for each movement, with what `table` has of it, as a collection."""
    frame = by_approach(report, every, by)
    lines = _located(report, lay_out(report))
    at = {approach.name: lines[approach.last][-1] for approach in report.units.approaches}
    begins = sorted(set(frame.step))
    ends = dict(zip(begins, [*begins[1:], report.steps]))
    rows = [_service(report, row, at, ends) for row in frame.drop(columns="time").to_dict("records")]
    return {"type": "FeatureCollection", "name": report.title,
            "units": {"coordinates": coordinates_of(report), **frame.attrs["units"]}, "features": rows}


def _service(report: Report, row: dict[str, Any], at: Mapping[str, list[float]], ends: Mapping[int, int]) -> Feature:
    """The feature of a row of an approach, without what isn't known of it."""
    step = row.pop("step")
    terms = {key: value for key, value in row.items() if value == value and value not in (float("inf"), "")}
    span = {"begin": _time(report, step), "end": _time(report, ends[step])}
    return {"type": "Feature", "geometry": {"type": "Point", "coordinates": at[row["approach"]]}, "properties": {**terms, **span}}


def coordinates_of(report: Report) -> str:
    """What the coordinates of the features are."""
    units = report.units
    if units.points and units.crs:
        return "longitude and latitude"
    if units.points:
        return "local, in metres"
    return f"local, of a schematic map in {'km' if units.known else 'cells'}"


def _located(report: Report, lines: Mapping[str, Line]) -> dict[str, list[list[float]]]:
    """The lines of cells as longitude and latitude where their place on the earth is known, else as they are in metres."""
    units = report.units
    scale, decimals = (METRES, 3) if units.points else (1.0, 6)
    places = [(x * scale, y * scale) for line in lines.values() for x, y in line]
    if units.points and units.crs:
        places, decimals = moved(places, units.crs, DEGREES, f"{report.name}: crs"), DEGREE_DECIMALS
    rest = iter(places)
    return {cell: [[round(value, decimals) for value in next(rest)] for _ in line] for cell, line in lines.items()}


def _place(report: Report, cell: str) -> dict[str, Any]:
    row = report.units.cells.get(cell, {})
    return {"cell": cell, "kind": report.need_network().kinds[cell], **{key: row[key] for key in
            ("road", "from_km", "to_km", "lanes") if key in row}}


def _whole(report: Report, cell: str) -> dict[str, Any]:
    row = report.cells.loc[cell]
    return {"left": float(row.gone), "delay": round(float(report.units.hours(row.wait)), 6)}


class _Spans:
    """The measures of cells over each span of time."""

    def __init__(self, report: Report, every: float) -> None:
        report.need_records()
        self.report, (self.starts, self.width) = report, _starts(report, every)
        rows = numpy.searchsorted(report.times, self.starts)
        bounds = numpy.append(report.times[rows], report.steps)
        self.found = measured(report, bounds)
        self.delay = report.units.hours(numpy.add.reduceat(report.waited, rows, axis=0))
        self.limits = numpy.add.reduceat(report.free_parts * report.lasting, rows, axis=0) / numpy.diff(bounds)[:, None]
        self.speeds = report.lengths * hour_of(report)

    def of(self, cell: str) -> Iterator[dict[str, Any]]:
        """What is exported of a cell in each span."""
        report, place = self.report, self.report.place(cell)
        road = report.need_network().kinds[cell] == "road"
        for span, begin in enumerate(self.starts):
            end = min(begin + self.width, report.steps)
            terms = {"begin": _time(report, begin), "end": _time(report, end), "flow": round(float(self.found.flow[span, place]), 3),
                     "delay": round(float(self.delay[span, place]), 6)}
            if road:
                terms["density"], terms["speed"] = (_rounded(values[span, place]) for values in (self.found.density, self.found.speed))
            if road and report.need_network().paces:
                part = self.limits[span, place]
                terms["speed_limit"] = _rounded(part * self.speeds[place]) if part < 1 else None
            yield terms


def _starts(report: Report, every: float) -> tuple[list[int], int]:
    """The steps at which spans begin of so many seconds, or steps where these aren't known, and the steps of a span."""
    step = report.units.step
    wanted = every if step is None else every / step
    if wanted < report.times[1] - report.times[0]:
        raise Problem("--every: is less than the time from record to record")
    width = max(1, round(wanted))
    starts = numpy.arange(0, report.steps, width)
    rows = numpy.append(numpy.searchsorted(report.times[:-1], starts), len(report.times) - 1)
    return starts[numpy.diff(rows) > 0].tolist(), width


def _rounded(value: float) -> float | None:
    return None if numpy.isnan(value) else round(float(value), 3)


def _time(report: Report, step: int) -> Any:
    units = report.units
    if units.step is None:
        return step
    seconds = (units.start or 0) + step * units.step
    return (pandas.Timestamp(units.first_day) + pandas.Timedelta(round(seconds * 1000), "ms")).isoformat()
