"""Where the streets of a map end: at its edge, within it, or nowhere."""

from __future__ import annotations

import re
from bisect import bisect
from collections.abc import Iterable, Iterator, Sequence
from math import cos, hypot, radians

import networkx

from .osm_map import Place, Point
from .streets import Street, Streets, grouped, reached

EDGE = 50.0  # metres within which an end lies at the edge of the map
GAP = 25.0  # metres between two ends that a gap may lie between
STRAIGHT = 0.5  # the cosine of 60 degrees, by which a street may bend at a gap
DEGREE = 111_195.0  # metres of a degree of latitude, on a globe of 6,371 km


class Ends:
    """The streets of a map at which vehicles come in and go out: those into which none leads, and out of which none does."""

    def __init__(self, streets: Streets, bounds: tuple[float, float, float, float]) -> None:
        self.streets, self.bounds = streets, bounds

    def gates(self) -> list[Street]:
        """The streets into which no other leads."""
        behind = {two for _, two in self.streets.ways}
        return [street for name, street in self.streets.streets.items() if name not in behind]

    def exits(self) -> list[Street]:
        """The streets that lead into no other."""
        before = {one for one, _ in self.streets.ways}
        return [street for name, street in self.streets.streets.items() if name not in before]

    def at_edge(self, place: Point) -> bool:
        """Whether a place lies at the edge of the map, or beyond it."""
        west, south, east, north = self.bounds
        wide = EDGE / DEGREE / max(0.01, cos(radians(place[1])))
        return not (west + wide < place[0] < east - wide and south + EDGE / DEGREE < place[1] < north - EDGE / DEGREE)

    def within(self) -> Iterator[Place]:
        """The ends within the map."""
        ends = {**{street.start: (street.title, street.points[0]) for street in self.gates()},
                **{street.end: (street.title, street.points[-1]) for street in self.exits()}}
        for title, at in ends.values():
            if not self.at_edge(at):
                yield Place("dead end", title, at, "a gate or an exit is there")

    def gaps(self) -> Iterator[Place]:
        """Where a street ends, and another begins near by that goes on as it does, or backwards."""
        gates = sorted(self.gates(), key=lambda gate: gate.points[0][1])
        souths = [gate.points[0][1] for gate in gates]
        told: set[frozenset[str]] = set()
        for one in self.exits():
            at = one.points[-1]
            near = gates[bisect(souths, at[1] - GAP / DEGREE):bisect(souths, at[1] + GAP / DEGREE)]
            for two in near:
                beside, ends = two.points[0], frozenset((one.end, two.start))
                if one.end != two.start and ends not in told and metres(at, beside) <= GAP and goes_on(one, two):
                    told.add(ends)
                    yield Place("gap", " and ".join(sorted({one.title, two.title})), middle([at, beside]),
                                f"{metres(at, beside):.0f} m between two ends that the map doesn't join")


def middle(points: Sequence[Point]) -> Point:
    """The mean of some places."""
    return sum(x for x, _ in points) / len(points), sum(y for _, y in points) / len(points)


def goes_on(one: Street, two: Street) -> bool:
    """Whether a street begins in the direction in which another ends, or nearly so."""
    (x, y), (u, v) = (((end[0] - start[0]) * cos(radians(start[1])), end[1] - start[1])
                      for start, end in (one.points[-2:], two.points[:2]))
    return x * u + y * v > STRAIGHT * hypot(x, y) * hypot(u, v)


def metres(one: Point, two: Point) -> float:
    """How far two places near each other are apart."""
    return DEGREE * hypot((two[0] - one[0]) * cos(radians(one[1])), two[1] - one[1])


def drop_ways_to_nowhere(streets: Streets, ends: Ends) -> list[Place]:
    """Drops the streets that lie on no way from a gate to an exit, and those that no way joins to the map's edge or to most
    others; gives what is reported of them, a place for each way."""
    graph = networkx.DiGraph(list(streets.ways))
    graph.add_nodes_from(streets.streets)
    causes = dict.fromkeys(streets.streets, "")
    onward = reached(graph, [gate.name for gate in ends.gates()])
    back = reached(graph.reverse(), [exit_.name for exit_ in ends.exits()])
    for name in causes:
        causes[name] = "no gate leads to it" if name not in onward else "it leads to no exit" if name not in back else ""
    parts = _joined(streets, [name for name in causes if not causes[name]])
    largest: list[str] = max(parts, key=lambda part: (sum(streets.streets[name].length for name in part), sorted(part)), default=[])
    edge = {street.name for street in ends.gates() if ends.at_edge(street.points[0])} | {
        street.name for street in ends.exits() if ends.at_edge(street.points[-1])}
    for part in parts:
        if part is not largest and not edge.intersection(part):
            causes.update(dict.fromkeys(part, "it is joined to no other road and lies within the map"))
    gone = {name: cause for name, cause in causes.items() if cause}
    told = {re.sub(r"^-|#.*", "", name): Place("left out", streets.streets[name].title, streets.streets[name].points[0], cause)
            for name, cause in reversed(gone.items())}
    for name in gone:
        del streets.streets[name]
    for way in [way for way in streets.ways if not streets.streets.keys() >= set(way)]:
        del streets.ways[way]
    return [*reversed(told.values())]


def _joined(streets: Streets, names: Iterable[str]) -> list[list[str]]:
    """Streets as parts of the map of which no two have a node in common, both directions of a street in one part."""
    graph = networkx.Graph((street.start, street.end) for street in streets.streets.values())
    part: dict[str, str] = {}
    for nodes in networkx.connected_components(graph):
        part.update(dict.fromkeys(nodes, min(nodes)))
    return [*grouped(names, lambda name: part[streets.streets[name].start]).values()]
