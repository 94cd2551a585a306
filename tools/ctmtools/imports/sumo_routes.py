"""What SUMO's files say of vehicles: their types, and their routes, each alone or as one of several that are drawn from."""

from __future__ import annotations

from collections.abc import Iterator

import networkx

from ..problem import Problem
from .streets import Streets
from .sumo_net import CAR, Element, amount_of

Parts = dict[str, float]  # for each of some names the part of all, which add up to 1
DEFAULTS = {"DEFAULT_VEHTYPE": CAR, "DEFAULT_TAXITYPE": "taxi", "DEFAULT_BIKETYPE": "bicycle", "DEFAULT_PEDTYPE":
            "pedestrian", "DEFAULT_RAILTYPE": "rail", "DEFAULT_CONTAINERTYPE": "container"}  # those of no file
ANY_STREET = "ignoring"  # the class of vehicles that may drive anywhere
Weighted = list[tuple[list[str], float]]  # routes, each with its weight among those that are drawn from
MOST_REPEATS = 1000
AREAS = ("fromTaz", "toTaz", "fromJunction", "toJunction", "fromXY", "toXY", "fromLonLat", "toLonLat")


def parts_of(weights: list[tuple[str, float]], key: str) -> Parts:
    """The parts of names with weights, whatever these add up to."""
    total = sum(weight for _, weight in weights)
    if not total > 0:
        raise Problem(f"{key}: has nothing with a probability above 0")
    parts: Parts = {}
    for name, weight in weights:
        parts[name] = parts.get(name, 0.0) + weight / total
    return parts


def listed(element: Element, names: str, weights: str, key: str) -> Iterator[tuple[str, float]]:
    """The names that an attribute lists, with their weights in another, which are 1 where there are none."""
    own, said = element.get(names, "").split(), element.get(weights, "").split()
    if said and len(said) != len(own):
        raise Problem(f"{key}: has {len(own)} {names} and {len(said)} {weights}")
    yield from zip(own, [amount_of(text, f"{key}: {weights}") for text in said] or [1.0] * len(own))


class Kinds:
    """The types that files have, by their names."""

    def __init__(self) -> None:
        self.classes: dict[str, str] = {}
        self.mixed: dict[str, list[tuple[str, float]]] = {}
        self.lengths: set[float] = set()

    def take(self, element: Element, path: str) -> None:
        """Keeps a type, or a distribution with the types in it."""
        name = element.get("id", "")
        if element.tag == "vType":
            self._keep(element, f"{path}: vType {name}")
            return
        key = f"{path}: {element.tag} {name}"
        own = list(listed(element, "vTypes", "probabilities", key))
        for inner in element.iter("vType"):
            self._keep(inner, f"{path}: vType {inner.get('id', '')}")
            own.append((inner.get("id", ""), amount_of(inner.get("probability", "1"), f"{key}: probability")))
        self.mixed[name] = own

    def _keep(self, element: Element, key: str) -> None:
        self.classes[element.get("id", "")] = element.get("vClass", CAR)
        self.lengths.add(amount_of(element.get("length", "5"), f"{key}: length") +
                         amount_of(element.get("minGap", "2.5"), f"{key}: minGap"))

    def parts(self, element: Element, key: str) -> Parts:
        """Of what classes the vehicles of an element are, and in what parts."""
        name = element.get("type", "DEFAULT_VEHTYPE")
        if name in self.mixed:
            return parts_of([(self._class(one, key), weight) for one, weight in self.mixed[name]], f"{key}: type {name}")
        return {self._class(name, key): 1.0}

    def _class(self, name: str, key: str) -> str:
        found = self.classes.get(name, DEFAULTS.get(name))
        if found is None:
            raise Problem(f"{key}: there is no vType {name}; name the file that has it with --additional")
        return found


def _written(element: Element, key: str) -> list[str]:
    """The edges of a route, as often as it says: once, and once more for each repeat."""
    again = element.get("repeat", "0")
    if not again.isdecimal() or int(again) > MOST_REPEATS:
        raise Problem(f"{key}: repeat: expected a whole number up to {MOST_REPEATS:,}, found {again}")
    return element.get("edges", "").split() * (1 + int(again))


class Routes:
    """The routes that files have, by their names, and the ways over the network of who has none."""

    def __init__(self, found: Streets) -> None:
        self.found = found
        self.named: dict[str, list[str]] = {}
        self.mixed: dict[str, Weighted] = {}
        self.graphs: dict[str, networkx.DiGraph] = {}
        self.ways: dict[tuple[str, str, str], list[str] | None] = {}

    def take(self, element: Element, path: str) -> None:
        """Keeps a route, or a distribution with the routes in it."""
        name = element.get("id", "")
        if element.tag == "route":
            self.named[name] = _written(element, f"{path}: route {name}")
        else:
            self.mixed[name] = list(self._drawn(element, f"{path}: routeDistribution {name}"))

    def of(self, element: Element, key: str) -> Weighted | None:
        """The routes of a vehicle or a flow by its file; none where it has only ends."""
        alone, several = element.find("route"), element.find("routeDistribution")
        if alone is not None:
            return [(self._edges(alone, key), 1.0)]
        if several is not None:
            return list(self._drawn(several, key))
        name = element.get("route")
        if name is None:
            return None
        return self.mixed[name] if name in self.mixed else [(self._known(name, key), 1.0)]

    def _drawn(self, element: Element, key: str) -> Iterator[tuple[list[str], float]]:
        """The routes of a distribution: those that it names, and those within it."""
        for name, weight in listed(element, "routes", "probabilities", key):
            yield self._known(name, key), weight
        for inner in element.iter("route"):
            edges = self._edges(inner, key)
            if inner.get("id"):
                self.named[inner.get("id", "")] = edges
            yield edges, amount_of(inner.get("probability", "1"), f"{key}: probability")

    def _edges(self, element: Element, key: str) -> list[str]:
        reference = element.get("refId")
        return self._known(reference, key) if reference else _written(element, key)

    def _known(self, name: str, key: str) -> list[str]:
        if name not in self.named:
            raise Problem(f"{key}: there is no route {name}; name the file that has it with --additional")
        return self.named[name]

    def why_not(self, route: list[str], kind: str) -> str | None:
        """Why vehicles of a class can't drive a route; none where they can."""
        if not route:
            return "without a route"
        for edge in route:
            if edge not in self.found.streets:
                return f"over {edge}, which isn't among the streets"
            if not self._may(self.found.streets[edge].classes, kind):
                return f"over {edge}, which {kind} may not use"
        for pair in zip(route, route[1:]):
            if pair not in self.found.ways or not self._may(self.found.ways[pair].classes, kind):
                return f"from {pair[0]} to {pair[1]}, which no connection joins"
        return None

    @staticmethod
    def _may(classes: frozenset[str], kind: str) -> bool:
        return kind in classes or kind == ANY_STREET

    def between(self, element: Element, kind: str) -> tuple[list[str], str]:
        """The way of the least time from one end to the other, by all streets between that are named; or why there is none."""
        area = next((word for word in AREAS if element.get(word)), None)
        if area:
            return [], f"with {area}, which isn't read"
        if element.get("from") is None or element.get("to") is None:
            return [], "by stops, which aren't read" if element.find("stop") is not None else "without both ends"
        stops = [element.get("from", ""), *element.get("via", "").split(), element.get("to", "")]
        whole = stops[:1]
        for one, two in zip(stops, stops[1:]):
            way = self._way(one, two, kind)
            if way is None:
                return [], f"from {one} to {two}, which no connection joins"
            whole += way[1:]
        return whole, ""

    def _way(self, one: str, two: str, kind: str) -> list[str] | None:
        if (one, two, kind) not in self.ways:
            try:
                self.ways[one, two, kind] = networkx.shortest_path(self._graph(kind), one, two, weight="seconds")
            except (networkx.NetworkXNoPath, networkx.NodeNotFound):
                self.ways[one, two, kind] = None
        return self.ways[one, two, kind]

    def _graph(self, kind: str) -> networkx.DiGraph:
        """The streets that a class may use, with the time that each takes."""
        if kind not in self.graphs:
            streets = {name: street for name, street in self.found.streets.items() if self._may(street.classes, kind)}
            graph = networkx.DiGraph()
            graph.add_nodes_from(streets)
            graph.add_edges_from((one, two, {"seconds": streets[two].seconds}) for (one, two), way in self.found.ways.items()
                                 if one in streets and two in streets and self._may(way.classes, kind))
            self.graphs[kind] = graph
        return self.graphs[kind]
