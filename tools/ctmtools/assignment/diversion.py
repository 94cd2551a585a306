"""Diversion: drivers who have their ways from an earlier assignment, of whom a part chooses anew."""

from __future__ import annotations

from collections.abc import Sequence
from pathlib import Path

import numpy

from ..arrays import Numbers
from ..problem import Problem
from ..study.folder import file_beside
from ..study.plan import Route
from ..study.reading import read_scenario
from ..units import clock_text
from .assigning import Assignment
from .choices import Choice
from .first_ways import legs_of_route
from .legs import RouteLegs
from .ways_file import LEAST, WayRow, read_ways

ALIKE = "trips and the interval of choice have to be the same"


def ways_of_study(path: str | Path) -> list[WayRow]:
    """The ways of a study that `assign` made."""
    study = read_scenario(path)
    if study.ways is None:
        raise Problem(f"{path}: has no routes; `ctm-tools assign` makes a study that has them")
    try:
        ways = file_beside(study.path, study.ways, "assigned.ways")
    except Problem as problem:
        raise Problem(f"{path}: {problem}") from None
    return read_ways(ways)


def divert(assignment: Assignment, rows: Sequence[WayRow], informed: float, after: float | None = None) -> None:
    """Gives all drivers their ways; so many of those who set out from a step on, else of all, choose anew."""
    departures = assignment.departures
    begins = numpy.array([departures.begins(i) for i in range(departures.intervals)], dtype=float)
    parts = numpy.where(begins >= (0 if after is None else after), informed, 0.0)
    if after is not None and not departures.by_interval[:, begins >= after].any():
        raise Problem(f"{assignment.study.path}: --after: no driver departs in an interval of choice that begins then or later, so "
                      "none would choose anew")
    by_pair: dict[tuple[str, str], list[WayRow]] = {}
    for row in rows:
        by_pair.setdefault((row.source, row.into), []).append(row)
    for choice, vehicles in zip(assignment.choices, departures.by_interval):
        if choice.given:
            continue
        own = by_pair.get((choice.source, choice.into), [])
        ways = {roads: _way(assignment, choice, roads) for roads in dict.fromkeys(row.roads for row in own)}
        for way in ways.values():
            choice.most += 1
            choice.put(way)
        choice.keep(_parts(assignment, choice, own, ways, vehicles), parts)


def _way(assignment: Assignment, choice: Choice, roads: tuple[str, ...]) -> RouteLegs:
    place = f"the earlier assignment's routes from {choice.source} to {choice.into}"
    return legs_of_route(Route(choice.source, choice.into, list(roads), [], place), assignment.study, assignment.legs,
                  assignment.shared.built.units)


def _parts(assignment: Assignment, choice: Choice, rows: Sequence[WayRow], ways: dict[tuple[str, ...], RouteLegs],
           vehicles: Numbers) -> Numbers:
    """The part of a pair's drivers on each way in each interval, by the ways of their roads."""
    departures, study = assignment.departures, assignment.study
    clocks = [clock_text(float(study.start + departures.begins(i) * study.step), always=True)
              for i in range(departures.intervals)]
    taken = numpy.zeros((len(choice.ways), departures.intervals))
    for row in rows:
        if row.start not in clocks:
            raise Problem(f"{study.path}: the earlier assignment has drivers from {choice.source} to {choice.into} who depart at "
                          f"{row.start}, at which no interval of choice begins here; {ALIKE}")
        taken[choice.ways.index(ways[row.roads]), clocks.index(row.start)] += row.vehicles
    totals = taken.sum(axis=0)
    lost = numpy.flatnonzero((vehicles > 2 * LEAST) & (totals == 0))
    if len(lost):
        raise Problem(f"{study.path}: the earlier assignment has no driver from {choice.source} to {choice.into} who departs at "
                      f"{clocks[lost[0]]}; {ALIKE}")
    taken[0] += (vehicles > 0) & (totals == 0)  # so few that the earlier assignment didn't write them
    parts: Numbers = taken / numpy.where(taken.any(axis=0), taken.sum(axis=0), 1)
    return parts
