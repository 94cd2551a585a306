"""The trips of a study: who wants to drive from a gate to an exit, by which ways where they are given, and how they choose."""

from __future__ import annotations

from collections.abc import Iterable, Iterator
from dataclasses import dataclass, replace
from fractions import Fraction
from typing import Any

from ..problem import Problem
from ..texts.quantities import HOUR, duration, file_name, not_negative, number, shown, whole, word
from ..texts.text_table import first_few
from .entries import Entries, Reader, list_of
from .folder import file_beside
from .plan import Flow, Route, Routing, Share, Scenario, Trips
from .times import Times
from .trip_files import trips_of_list, trips_of_matrix

MOST_NAMED = 6  # gates or exits of the study that a message names
MOST_WAYS = 1000  # of a pair
MOST_IN_STEP = 10_000_000  # vehicles that a network file says to come to a gate in a step
_part = not_negative("a share")


@dataclass(frozen=True)
class Travel:
    """Who drives where: trips, the routes that are given, how drivers choose, and the file of ways."""

    trips: list[Trips]
    routes: list[Route]
    routing: Routing
    ways: str | None


def read_trips(entries: Entries, times: Times, flows: Reader[list[Flow]]) -> Travel:
    """The trips, routes, routing and the file of ways that a study's file says."""
    travel = Travel(entries.take("trips", _trips(times, flows), []), [_route(table, times) for table in entries.list("routes")],
                    entries.take("routing", _routing, Routing()), entries.take("assigned", _ways_file, None))
    if travel.routes and not travel.trips:
        raise Problem("routes: there are no trips that could take them")
    return travel


def _trips(times: Times, flows: Reader[list[Flow]]) -> Reader[list[Trips]]:
    """A reader of trips: tables of them, or one table that names files; the trips of a pair stand together."""
    def read(value: Any, key: str) -> list[Trips]:
        if isinstance(value, dict):
            return _of_files(Entries(value, key), times)
        tables = list_of(lambda one, place: Entries(one, place))(value, key)
        return _by_pair(_pair(table, flows) for table in tables)
    return read


def _pair(table: Entries, flows: Reader[list[Flow]]) -> Trips:
    trips = Trips(table.take("from", word), table.take("to", word), table.take("demand", flows), table.place)
    table.done()
    return trips


def _of_files(table: Entries, times: Times) -> list[Trips]:
    """The trips of a list of them, a CSV file, or of a matrix for each slice of time."""
    name, slices = table.take("file", file_name, None), table.list("matrices")
    if (name is None) == (not slices):
        raise Problem(f"{table.key('file')}: say either file, a list of trips, or matrices, one for each slice of time")
    found = list(trips_of_list(file_beside(times.path, name, table.key("file")), times)) if name is not None else []
    spans: list[tuple[str, Fraction, Fraction]] = []
    for one in slices:
        path = file_beside(times.path, one.take("file", file_name), one.key("file"))
        begin, end = times.span(one)
        one.done()
        times.remarks += _overlaps(one.place, begin, end, spans, times)
        spans.append((one.place, begin, end))
        found += trips_of_matrix(path, begin, end)
    table.done()
    if not any(trips.demand for trips in found):
        times.remarks.append(f"{table.place}: there are no trips in it")
    return _by_pair(found)


def _overlaps(place: str, begin: Fraction, end: Fraction, spans: Iterable[tuple[str, Fraction, Fraction]], times: Times) -> Iterator[str]:
    """Which slices before it a slice of time overlaps, and when."""
    for other, first, last in spans:
        if max(begin, first) < min(end, last):
            span = f"{times.clock(max(begin, first))} to {times.clock(min(end, last))}"
            yield f"{place}: overlaps {other} from {span}, and the vehicles of both come"


def _by_pair(found: Iterable[Trips]) -> list[Trips]:
    """The trips of each pair as one, at the place of the first of them."""
    pairs: dict[tuple[str, str], Trips] = {}
    for trips in found:
        pairs.setdefault((trips.source, trips.into), Trips(trips.source, trips.into, [], trips.place)).demand += trips.demand
    return list(pairs.values())


def _route(table: Entries, times: Times) -> Route:
    route = Route(table.take("from", word), table.take("to", word), table.take("roads", list_of(word)),
                  table.take("share", _shares(times), []), table.place)
    table.done()
    if not route.roads:
        raise Problem(f"{table.key('roads')}: expected the roads of the route, found none")
    return route


def _shares(times: Times) -> Reader[list[Share]]:
    """A reader of shares by time: one number for the whole study, or rows of start, end and share."""
    def read(value: Any, key: str) -> list[Share]:
        if not isinstance(value, list):
            return [Share(Fraction(0), times.duration, _part(value, key))]
        if not value:
            raise Problem(f"{key}: expected a number or rows of [start, end, share], found none")
        return [row(one, f"{key}[{i}]") for i, one in enumerate(value, 1)]

    def row(value: Any, key: str) -> Share:
        if not isinstance(value, list) or len(value) != 3:
            raise Problem(f"{key}: expected [start, end, share], found {shown(value)}")
        begin, end = times.checked(times.after_start(value[0], key), times.after_start(value[1], key), key, key)
        return Share(begin, end, _part(value[2], key))
    return read


def _routing(value: Any, key: str) -> Routing:
    table = Entries(value, key)
    routing = Routing(table.take("ways", whole, Routing.ways), table.take("interval", duration, Routing.interval),
                      table.take("informed", part_of_drivers, Routing.informed))
    table.done()
    if routing.interval == 0:
        raise Problem(f"{table.key('interval')}: must be above 0")
    if routing.ways > MOST_WAYS:
        raise Problem(f"{table.key('ways')}: expected at most {MOST_WAYS:,}, found {shown(routing.ways)}")
    return routing


def part_of_drivers(value: Any, key: str) -> Fraction:
    """A part of the drivers, 0 to 1."""
    part = number(value, key)
    if not 0 <= part <= 1:
        raise Problem(f"{key}: expected a part from 0 to 1, found {shown(value)}")
    return part


def _ways_file(value: Any, key: str) -> str:
    table = Entries(value, key)
    name: str = table.take("ways", file_name)
    table.done()
    return name


def with_demand(study: Scenario) -> Scenario:
    """The study in which each gate of trips has the demand that they are; trips that can't be of the study are refused."""
    for trips in study.trips:
        if trips.source not in study.gates:
            raise Problem(f"{trips.place}: {_end('from', trips.source, trips)} is no gate of the study, which has {first_few(study.gates, MOST_NAMED)}")
        if trips.into not in study.exits:
            raise Problem(f"{trips.place}: {_end('to', trips.into, trips)} is no exit of the study, which has {first_few(study.exits, MOST_NAMED)}")
        most = max((flow.flow for flow in trips.demand), default=Fraction(0))
        if most * study.step > MOST_IN_STEP * HOUR:
            raise Problem(f"{trips.place}: {shown(most)} vehicles/h are more than {MOST_IN_STEP:,} in a step")
    gates = dict(study.gates)
    for name in dict.fromkeys(trips.source for trips in study.trips):
        if gates[name].demand:
            raise Problem(f"gates.{name}.demand: trips come from this gate, so it has no demand of its own")
        gates[name] = replace(gates[name], demand=summed(flow for trips in study.trips if trips.source == name for flow in trips.demand))
    idle = [name for name, gate in gates.items() if not gate.demand]
    if study.trips and idle:
        study.remarks.append(f"no trips come from gate{'s'[:len(idle) != 1]} {first_few(idle, MOST_NAMED)}")
    study = replace(study, trips=[trips for trips in study.trips if trips.demand] or study.trips)
    pairs = {(trips.source, trips.into) for trips in study.trips}
    for route in study.routes:
        if (route.source, route.into) not in pairs:
            raise Problem(f"{route.place}: there are no trips from {route.source} to {route.into}")
        own = [other for other in study.routes if (other.source, other.into) == (route.source, route.into)]
        if any(bool(other.shares) != bool(route.shares) for other in own):
            raise Problem(f"{route.place}.share: either all routes from {route.source} to {route.into} have shares or none")
    return replace(study, gates=gates)


def _end(word: str, name: str, trips: Trips) -> str:
    """What a message calls the gate or the exit of trips: by its name where the study itself has it, and not a file."""
    return f"{word} {name}:" if trips.place.startswith("trips") else f"{word}:"


def summed(flows: Iterable[Flow]) -> list[Flow]:
    """Flows that may overlap as flows behind each other, each the sum of those that hold then."""
    rises: dict[Fraction, Fraction] = {}
    for flow in flows:
        rises[flow.start] = rises.get(flow.start, Fraction(0)) + flow.flow
        rises[flow.end] = rises.get(flow.end, Fraction(0)) - flow.flow
    found: list[Flow] = []
    height = Fraction(0)
    times = sorted(rises)
    for begin, end in zip(times, times[1:]):
        height += rises[begin]
        if not height:
            continue
        if found and found[-1].end == begin and found[-1].flow == height:
            found[-1].end = end
        else:
            found.append(Flow(begin, end, height))
    return found
