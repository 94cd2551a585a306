"""The ways with which a pair begins: those that the study gives by their roads, else the shortest at free flow."""

from __future__ import annotations

from collections.abc import Mapping, Sequence

import networkx
import numpy

from ..problem import Problem
from ..study.plan import Route, Scenario, Trips
from ..units import Units, clock_text
from .choices import Choice, Departures
from .legs import Legs, RouteLegs


def given_choice(study: Scenario, legs: Legs, units: Units, trips: Trips, departures: Departures) -> Choice:
    """The choice of a pair with its first ways, or the problem that there is none."""
    choice = Choice(trips.source, trips.into, numpy.full(departures.intervals, float(study.routing.informed)),
                    study.routing.ways)
    routes = [route for route in study.routes if (route.source, route.into) == (trips.source, trips.into)]
    if routes:
        ways = [legs_of_route(route, study, legs, units) for route in routes]
        choice.most = max(choice.most, len(ways))
        for way in ways:
            choice.put(way)
        choice.closed = True
        if routes[0].shares:
            _share(choice, list(zip(routes, ways)), study, departures)
        return choice
    for way in legs.free_ways(trips.source, trips.into, study.routing.ways):
        choice.put(way)
    if not choice.ways:
        last = legs.farthest(trips.source)
        raise Problem(f"{study.path}: {trips.place}: no route leads from {trips.source} to {trips.into}; the last road that is "
                      f"reached is {road_of(units, last)}")
    return choice


def _share(choice: Choice, routes: Sequence[tuple[Route, RouteLegs]], study: Scenario, departures: Departures) -> None:
    """Parts the drivers of a pair as its routes say; in each interval the share at its middle counts."""
    choice.given = True
    step, width = float(study.step), departures.width
    for interval in range(departures.intervals):
        middle = (interval + 0.5) * width * step
        parts = numpy.zeros(len(choice.ways))
        for route, way in routes:
            parts[choice.ways.index(way)] += sum(float(share.share) for share in route.shares
                                                 if share.start <= middle < share.end)
        if not parts.any():
            clock = clock_text(float(study.start) + middle)
            raise Problem(f"{study.path}: {routes[0][0].place}.share: no route from {choice.source} to {choice.into} has a "
                          f"share at {clock}, when drivers depart")
        choice.chosen[:, interval] = parts / parts.sum()
    choice.kept = choice.chosen.copy()


def legs_of_route(route: Route, study: Scenario, legs: Legs, units: Units) -> RouteLegs:
    """The way that a study gives: by the nearest cell of each of its roads in turn, and on to the exit."""
    return legs.along(cells_along(route, legs.network.graph, units.roads, f"{study.path}: {route.place}.roads"))


def cells_along(route: Route, graph: networkx.DiGraph, roads: Mapping[str, Sequence[str]], place: str) -> list[str]:
    """The cells of a route from its gate to its exit."""
    cells = [route.source]
    for road in route.roads:
        if road not in roads:
            raise Problem(f"{place}: there is no road {road}")
        cells += _on(graph, cells[-1], roads[road], place, f"road {road}")
    return cells + _on(graph, cells[-1], [route.into], place, route.into)


def _on(graph: networkx.DiGraph, start: str, targets: Sequence[str], place: str, name: str) -> list[str]:
    """The cells behind one, on the way to the nearest of some others."""
    if start in targets:
        return []
    wanted, before = set(targets), {}
    for up, down in networkx.bfs_edges(graph, start):
        before[down] = up
        if down in wanted:
            path = [down]
            while before[path[-1]] != start:
                path.append(before[path[-1]])
            return path[::-1]
    raise Problem(f"{place}: no route leads from {start} to {name}")


def road_of(units: Units, cell: str) -> str:
    """The road of a cell; a gate is its own."""
    return str(units.cells[cell]["road"]) if cell in units.cells else cell
