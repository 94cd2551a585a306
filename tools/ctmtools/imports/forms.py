"""Tables to fill in beside a study: the vehicles that come to each gate, or those of each gate and exit, hour by hour."""

from __future__ import annotations

from collections.abc import Iterator
from math import ceil

import networkx

from ..problem import Problem
from ..texts.cells import rows_text
from ..texts.quantities import DAY, HOUR
from .osm_map import Place
from .streets import Streets, Trip
from .study_file import Writer
from .traffic import EXIT, GATE


def demand_form(writer: Writer) -> str:
    """A row for each gate and each hour of the study, with the gate's street and where it lies."""
    hours = range(ceil(writer.terms.duration / HOUR))
    if len(hours) > DAY // HOUR:
        raise Problem("--until: with --after it is more than a day, and an hour of the file of demand would be of two days")
    streets = writer.found.streets
    return rows_text([("gate", "street", "longitude", "latitude", "time", "vehicles"), *(
        [writer.names[GATE + name], streets[name].title, *(f"{value:.5f}" for value in streets[name].points[0]),
         _clock(writer, hour * HOUR, DAY), 0] for name in gates(writer) for hour in hours)])


def trips_form(writer: Writer, until: float) -> str:
    """A row for each pair of a gate and an exit that a way joins and each hour until a time, with the streets of both."""
    streets = writer.found.streets
    return rows_text([("from", "to", "start", "end", "vehicles", "from_street", "to_street"), *(
        [writer.names[GATE + trip.route[0]], writer.names[EXIT + trip.route[-1]], _clock(writer, begin),
         _clock(writer, min(begin + HOUR, until)), 0, streets[trip.route[0]].title, streets[trip.route[-1]].title]
        for trip in writer.found.trips for begin in range(0, ceil(until), HOUR))])


def open_trips(found: Streets, until: float) -> list[Trip]:
    """No vehicles yet from each street that none leads into to each that leads into none, where a way joins both."""
    graph = networkx.DiGraph(list(found.ways))
    graph.add_nodes_from(found.streets)
    ends = [name for name in found.streets if not graph.out_degree(name)]
    trips = []
    for name in found.streets:
        if not graph.in_degree(name):
            reached = {name} | networkx.descendants(graph, name)
            trips += [Trip(list(dict.fromkeys([name, end])), 0.0, until, 0.0) for end in ends if end in reached]
    return trips


def end_places(writer: Writer) -> Iterator[Place]:
    """The gates and the exits of a study, each with its street and where it lies."""
    streets = writer.found.streets
    for kind, before, behind, at in (("gate", GATE, "", 0), ("exit", "", EXIT, -1)):
        for name in writer.traffic.streets:
            if (before + name, behind + name) in writer.traffic.moved:
                yield Place(kind, streets[name].title, streets[name].points[at],
                            f"{writer.names[before + behind + name]}, of the road {writer.names[name]}")


def gates(writer: Writer) -> list[str]:
    """The streets of a study at which vehicles come in, in the order of its roads."""
    return [street for street in writer.traffic.streets if (GATE + street, street) in writer.traffic.moved]


def _clock(writer: Writer, seconds: float, wraps: int | None = None) -> str:
    """A clock time, past midnight beyond 24:00, or where it `wraps` of the next day."""
    text = writer.terms.clock(seconds)
    if wraps is not None:
        hours, rest = text.split(":", 1)
        text = f"{int(hours) % (wraps // HOUR):02d}:{rest}"
    return text.removesuffix(":00")
