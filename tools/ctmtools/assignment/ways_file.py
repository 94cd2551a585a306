"""The ways of an assignment as a CSV file: for each pair, interval and way its vehicles, its minutes and its roads."""

from __future__ import annotations

import csv
from collections.abc import Iterable, Iterator, Sequence
from dataclasses import dataclass
from pathlib import Path


from ..arrays import Numbers
from ..files.reading import read_bytes
from ..network_file.checksums import checksum
from ..problem import Problem
from ..report.reading import Report
from ..texts.cells import rows_text, unguarded
from ..units import Units, clock_text, seconds_of_clock
from .choices import Choice, Departures
from .first_ways import road_of
from .legs import Legs, RouteLegs

COLUMNS = ("from", "to", "start", "way", "vehicles", "minutes", "roads")
THEN = " > "  # between two roads
LEAST = 5e-7  # vehicles; fewer aren't written
MOST = 1e300  # vehicles and minutes are below


@dataclass(frozen=True)
class WayRow:
    """A row of the file: a pair, the clock time at which its interval begins, and a way with who set out on it then."""

    source: str
    into: str
    start: str
    way: int
    vehicles: float
    minutes: float
    roads: tuple[str, ...]

    @property
    def seconds(self) -> int:
        """The seconds after midnight at which the interval begins."""
        return seconds_of_clock(self.start)


def roads_of(legs: Legs, units: Units, way: RouteLegs) -> tuple[str, ...]:
    """The roads of a way in their order, without its gate."""
    roads = [road_of(units, cell) for cell in legs.cells(way)[1:]]
    return tuple(road for place, road in enumerate(roads) if not place or road != roads[place - 1])


def rows_of(choices: Sequence[Choice], times: Sequence[Numbers], departures: Departures, legs: Legs,
            units: Units) -> Iterator[WayRow]:
    """The rows of an assignment: pair by pair, interval by interval, the ways that anybody takes."""
    step, start = units.step or 0, units.start or 0
    for choice, vehicles, steps in zip(choices, departures.by_interval, times):
        roads = [roads_of(legs, units, way) for way in choice.ways]
        parts = choice.parts
        for interval in range(departures.intervals):
            clock = clock_text(start + departures.begins(interval) * step, always=True)
            for way, own in enumerate(roads):
                taken = float(parts[way, interval] * vehicles[interval])
                if taken >= LEAST:
                    yield WayRow(choice.source, choice.into, clock, way + 1, taken, float(steps[way, interval] * step / 60),
                                 own)


def ways_text(rows: Sequence[WayRow]) -> str:
    """The text of the file."""
    return rows_text([COLUMNS, *([row.source, row.into, row.start, row.way, f"{row.vehicles:.6f}", f"{row.minutes:.4f}", THEN.join(row.roads)]
                                 for row in rows)])


def read_ways(path: Path) -> list[WayRow]:
    """The rows of a file."""
    return rows_in(read_bytes(path), path)


def rows_in(content: bytes, path: Path) -> list[WayRow]:
    """The rows in the bytes of a file."""
    reader = csv.reader(content.decode("utf-8", "replace").splitlines())
    try:
        if tuple(next(reader, ())) != COLUMNS:
            raise Problem(f"{path}: expected the columns {','.join(COLUMNS)}; `ctm-tools assign` writes such a file")
        return [_row(map(unguarded, row)) for row in reader if row]
    except (IndexError, TypeError, ValueError, csv.Error):
        raise Problem(f"{path}: line {reader.line_num} isn't one that `ctm-tools assign` writes") from None


def _row(fields: Iterable[str]) -> WayRow:
    """The row of a line's fields, or a ValueError."""
    source, into, start, way, vehicles, minutes, roads = fields
    row = WayRow(source, into, start, int(way), float(vehicles), float(minutes), tuple(roads.split(THEN)) if roads else ())
    if not (0 <= row.vehicles < MOST and 0 <= row.minutes < MOST and row.seconds >= 0):
        raise ValueError(row)
    return row


def ways_path(report: Path) -> Path:
    """Where the ways of a report stand: beside it, under its name."""
    return report.with_suffix(".ways.csv")


def ways_of_report(report: Report) -> list[WayRow] | None:
    """The ways that stand beside a report, where they are of the assignment that ended in its network."""
    path, units = ways_path(Path(report.name)), report.units
    if units.ways.checksum is None or units.ways.network != units.network.checksum or not path.exists():
        return None
    content = read_bytes(path)
    return rows_in(content, path) if checksum(content) == units.ways.checksum else None
