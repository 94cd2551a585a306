"""The ways of a page: of reports beside which those of an assignment stand, who takes them, when, and how long they take."""

from __future__ import annotations

from collections.abc import Iterable, Mapping, Sequence
from typing import Any

from ..assignment.first_ways import cells_along
from ..assignment.ways_file import WayRow, ways_of_report
from ..report.reading import Report
from ..study.plan import Route
from .networks import RoadNames

MOST_NUMBERS = 100_000  # of all reports, ways and intervals together, about a megabyte; the ways that most take come first

RouteRoads = tuple[str, str, tuple[str, ...]]  # a gate, an exit and the roads between them
Spans = list[list[int]]  # the first and the last number of cells whose numbers follow each other


def ways_of(reports: Sequence[Report]) -> dict[str, Any] | None:
    """The ways of the reports, pair by pair, of which each has the cells, vehicles and minutes of each report; None of none.

    Vehicles and minutes have an entry for each interval of setting out, None where nobody takes the way. Minutes are means.
    """
    found = [ways_of_report(report) for report in reports]
    rows = [row for own in found for row in own or ()]
    if not rows:
        return None
    starts = sorted({row.seconds for row in rows})
    by_way = [_by_way(own or ()) for own in found]
    ways = sorted(dict.fromkeys(way for own in by_way for way in own), key=lambda way: -_most([way], by_way))
    room = max(1, MOST_NUMBERS // (2 * len(reports) * len(starts)))
    of_reports = [_ReportWays(report, own, starts) for report, own in zip(reports, by_way)]
    belongs = {road: first for report in reversed(reports) for road, first in _belongs(report).items()}
    pairs: dict[tuple[str, str], list[RouteRoads]] = {}
    for way in ways[:room]:
        pairs.setdefault(way[:2], []).append(way)
    return {"starts": starts, "widths": [_width(report) for report in reports], "has": [own is not None for own in found],
            "left_out": max(0, len(ways) - room),
            "pairs": [{"from": source, "to": into, "ways": [{"roads": _shown(way[2], belongs),
                                                             "of": [one.data(way) for one in of_reports]}
                                                            for way in own]}
                      for (source, into), own in sorted(pairs.items(), key=lambda pair: -_most(pair[1], by_way))]}


def _belongs(report: Report) -> dict[str, str]:
    """The road to which each road belongs on the page; none of what a junction made."""
    made = {road: "" for road, cells in report.units.roads.items() if cells[0] in report.units.within}
    return {**made, **RoadNames(report).belongs}


def _shown(roads: Iterable[str], belongs: Mapping[str, str]) -> list[str]:
    """The roads of a way as the page has them, each once where it goes on."""
    found = [belongs.get(road, road) for road in roads]
    found = [road for road in found if road]
    return [road for place, road in enumerate(found) if not place or road != found[place - 1]]


def _by_way(rows: Iterable[WayRow]) -> dict[RouteRoads, list[WayRow]]:
    """The rows of each way."""
    found: dict[RouteRoads, list[WayRow]] = {}
    for row in rows:
        found.setdefault((row.source, row.into, row.roads), []).append(row)
    return found


def _most(ways: Iterable[RouteRoads], by_way: Sequence[dict[RouteRoads, list[WayRow]]]) -> float:
    """The most vehicles that take any of some ways in one of the reports."""
    return max(sum(row.vehicles for way in ways for row in own.get(way, ())) for own in by_way)


def _width(report: Report) -> float | None:
    """The seconds of an interval of choice."""
    interval = report.units.ways.interval
    return None if interval is None else interval * (report.units.step or 1)


class _ReportWays:
    """The ways of one report, as the page has them."""

    def __init__(self, report: Report, rows: dict[RouteRoads, list[WayRow]], starts: Sequence[int]) -> None:
        self.report, self.rows = report, rows
        self.intervals = {start: number for number, start in enumerate(starts)}
        self.numbers = {cell: number for number, cell in enumerate(report.cells.index)}

    def data(self, way: RouteRoads) -> dict[str, Any] | None:
        """What the page has of a way; None where nobody takes it in this report."""
        if way not in self.rows:
            return None
        vehicles: list[float | None] = [None] * len(self.intervals)
        minutes = vehicles.copy()
        for row in self.rows[way]:
            place = self.intervals[row.seconds]
            vehicles[place], minutes[place] = round(row.vehicles, 3), round(row.minutes, 3)
        return {"cells": self._spans(way), "vehicles": vehicles, "minutes": minutes}

    def _spans(self, way: RouteRoads) -> Spans:
        """The numbers of the way's cells, from its gate to its exit."""
        source, into, roads = way
        route = Route(source, into, list(roads), [], "")
        spans: Spans = []
        for cell in cells_along(route, self.report.need_network().graph, self.report.units.roads, self.report.name):
            number = self.numbers[cell]
            if spans and spans[-1][1] == number - 1:
                spans[-1][1] = number
            else:
                spans.append([number, number])
        return spans
