"""Where the nodes of a network in GMNS lie: their coordinate system, and what the lengths of links say of it."""

from __future__ import annotations

import math
from statistics import median

from ..problem import Problem
from ..study.coordinates import DEGREES, METRES, Point, coded, flat, system
from .gmns_tables import Row

FITS = (0.5, 20.0)  # how long a link may be, in ways from its one node to the other, at the middle of all
THOUSAND = (300.0, 4000.0)  # the same where metres or feet were taken for km or miles


class Places:
    """The coordinates of the nodes, in the system of config.csv, or else in the one by which the links' lengths fit."""

    def __init__(self, config: Row, nodes: dict[str, Row]) -> None:
        self.nodes = nodes
        self.crs: str | None = config.text("crs") or None
        self.usable = True
        self.notes: list[str] = []
        self.config = config
        if self.crs:
            system(self.crs, f"{config.path}: crs")

    def line(self, link: Row) -> list[Point]:
        """The points of a link's nodes, which have to be there; none where a node has no coordinates."""
        found = []
        for column in ("from_node_id", "to_node_id"):
            node = self.nodes.get(link.text(column))
            if node is None:
                raise Problem(f"{link.key(column)}: there is no node {link.text(column)} in node.csv")
            if node.text("x_coord") and node.text("y_coord"):
                found.append((node.number("x_coord"), node.number("y_coord")))
        return found if len(found) == 2 else []

    def settle(self, ways: dict[str, list[Point]], lengths: dict[str, float], kilometre: float | None) -> None:
        """Finds the coordinate system where config.csv has none, and refuses lengths that can only be of another unit.

        The lengths are in `kilometre` km, or in km where config.csv doesn't say their unit.
        """
        named = {name: (way, lengths[name] * (kilometre or 1.0)) for name, way in ways.items() if way and way[0] != way[1]}
        if not named:
            return
        candidates: list[str | None] = [self.crs] if self.crs else [None, *([DEGREES] if _in_degrees(ways) else [])]
        ratios = {crs: self._ratio(crs, [pair for pair in named.values() if pair[1]]) for crs in candidates}
        fitting = [crs for crs, ratio in ratios.items() if ratio is None or FITS[0] <= ratio <= FITS[1]]
        odd = next((ratio for ratio in ratios.values() if ratio and THOUSAND[0] <= ratio <= THOUSAND[1]), None)
        if fitting:
            self.crs = fitting[0]
            if self.crs and not self.config.text("crs"):
                self.notes.append("config.csv has no crs; the coordinates are taken as longitude and latitude, by which the "
                                  "lengths fit")
        elif odd and kilometre is None:
            raise Problem(f"{self.config.path}: has no long_length, and in km the links are {odd:,.0f} times as long as the distances "
                          "between their nodes; say their unit, as long_length = m")
        else:
            self.usable = False
            told = next(iter(ratios.values()))
            self.notes.append(f"the coordinates of the nodes aren't kept: by them the links are {told:.3g} times as long as the "
                              "distances between their nodes")

    def _ratio(self, crs: str | None, rows: list[tuple[list[Point], float]]) -> float | None:
        """How long links are, at the middle of all, in ways from node to node by a system, or in metres; None of none."""
        ways = [(length, _straight(way, crs, f"{self.config.path}: crs")) for way, length in rows]
        found = [length / straight for length, straight in ways if straight > 0]
        return median(found) if found else None

    def kilometres(self, way: list[Point]) -> float:
        """How long the way from node to node is in km, where the coordinate system is known; else 0."""
        return _straight(way, self.crs, f"{self.config.path}: crs") if way and self.crs else 0.0

    def points(self, way: list[Point]) -> list[Point]:
        """The points of a street, in its coordinate system, or in km where there is none."""
        if not self.usable:
            return []
        return coded(way, self.crs, f"{self.config.path}: crs")[1] if self.crs else [(x / METRES, y / METRES) for x, y in way]

    @property
    def code(self) -> str | None:
        """The code of the system of the streets' points, where there is one."""
        return coded([], self.crs, f"{self.config.path}: crs")[0] if self.crs and self.usable else None


def _in_degrees(ways: dict[str, list[Point]]) -> bool:
    return all(-180 <= x <= 180 and -90 <= y <= 90 for way in ways.values() for x, y in way)


def _straight(way: list[Point], crs: str | None, key: str) -> float:
    """The km between two points, in a system or in metres."""
    if crs is None:
        return math.dist(*way) / METRES
    _, (one, two) = flat(way, crs, key)
    return math.dist(one, two)
