"""What a map file of OpenStreetMap says, as XML: nodes, ways with a class of road, forbidden turns; and what became of its places."""

from __future__ import annotations

import re
from collections.abc import Iterable, Iterator, Sequence
from dataclasses import dataclass, field
from pathlib import Path
from xml.etree import ElementTree

from ..problem import Problem, one_line
from ..texts.cells import rows_text
from ..texts.text_table import first_few
from .streets import Item
from .sumo_net import Element, check_root, elements

Point = tuple[float, float]  # longitude and latitude in degrees
HALF_TURN = 180.0
SIGNALS = "traffic_signals"
GONE = {"action": "delete", "visible": "false"}  # of what an editor or the history keeps, and isn't on the map
HEADER = ("kind", "street", "longitude", "latitude", "what")
DECIMALS = 5  # of a degree, a metre


@dataclass(frozen=True)
class Way:
    """A way that has a class of road: its number, its nodes in order, and its tags."""

    name: str
    nodes: list[str]
    tags: dict[str, str]

    @property
    def kind(self) -> str:
        """The class of road."""
        return self.tags["highway"]

    @property
    def title(self) -> str:
        """The name of the street, or its number, or where it has neither its class and its number on the map."""
        said = (one_line(self.tags.get(key, "")) for key in ("name", "ref"))
        return next((name for name in said if name), f"{self.kind} {self.name}")


@dataclass
class Map:
    """A map: where its nodes are, those with a signal, its ways by their numbers, and its forbidden turns.

    `bounds` are west, south, east and north of the part of the world of which it is, where the file says them.
    """

    nodes: dict[str, Point] = field(default_factory=dict)
    signals: set[str] = field(default_factory=set)
    ways: dict[str, Way] = field(default_factory=dict)
    turns: list[Element] = field(default_factory=list)
    bounds: tuple[float, float, float, float] | None = None


def read(path: str | Path, told: str) -> Map:
    """The map in a file, of which messages say that it is the one that is `told`."""
    check_root(path, "osm")
    found = Map()
    for element in elements(path, "end", told):
        if element.tag in ("node", "way", "relation", "bounds"):
            if not any(element.get(key) == value for key, value in GONE.items()):
                _take(found, element, told)
            if element.tag != "relation":
                element.clear()
    _check(found, told)
    return found


def _take(found: Map, element: Element, told: str) -> None:
    key = f"{told}: {element.tag} {element.get('id', '')}".rstrip()
    tags = {tag.get("k", ""): tag.get("v", "") for tag in element.iter("tag")}
    if element.tag == "bounds":
        west, south, east, north = (_degrees(element, name, key) for name in ("minlon", "minlat", "maxlon", "maxlat"))
        found.bounds = west, south, east, north
    elif element.tag == "node":
        _put(found.nodes, element.get("id", ""), (_degrees(element, "lon", key), _degrees(element, "lat", key)), key)
        if tags.get("highway") == SIGNALS:
            found.signals.add(element.get("id", ""))
    elif element.tag == "way" and "highway" in tags:
        name = element.get("id", "")
        _put(found.ways, name, Way(name, [node.get("ref", "") for node in element.iter("nd")], tags), key)
    elif tags.get("type", "").startswith("restriction"):
        found.turns.append(element)


def _put(items: dict[str, Item], name: str, item: Item, key: str) -> None:
    """Puts a node or a way where there is none of its number, or one alike, as where two extracts overlap."""
    if items.setdefault(name, item) != item:
        raise Problem(f"{key}: is there twice, and not alike")


def _degrees(element: Element, name: str, key: str) -> float:
    """A longitude or a latitude."""
    most = HALF_TURN if name.endswith("lon") else HALF_TURN / 2
    try:
        value = float(element.get(name, ""))
    except ValueError:
        raise Problem(f"{key}: {name}: expected degrees, found \"{element.get(name, '')}\"") from None
    if not abs(value) <= most:
        raise Problem(f"{key}: {name}: expected degrees from {-most:g} to {most:g}, found {value:g}")
    return value


def _check(found: Map, told: str) -> None:
    """Refuses what has no roads at all, and a map that lies on both sides of the date line."""
    if not found.ways:
        raise Problem(f"{told}: has no roads: {_counted(len(found.nodes), 'node')}, and no way with the key highway")
    east = [longitude for longitude, _ in found.nodes.values()]
    if east and max(east) - min(east) > HALF_TURN:
        raise Problem(f"{told}: reaches from longitude {min(east):g} to {max(east):g}: a map over the date line can't be kept; "
                      "take one side of it by --box")


def _counted(count: int, what: str) -> str:
    return f"{count:,} {what}{'s'[:count != 1]}"


def reach(points: Iterable[Point]) -> tuple[float, float, float, float]:
    """West, south, east and north of some places."""
    east, north = zip(*points)
    return min(east), min(north), max(east), max(north)


def write(found: Map, ways: Iterable[Way], path: Path) -> None:
    """Writes a map of some ways alone, with their nodes and the turns that are forbidden between them."""
    chosen = {way.name: way for way in ways}
    root = ElementTree.Element("osm", version="0.6")
    for node in dict.fromkeys(node for way in chosen.values() for node in way.nodes):
        longitude, latitude = found.nodes[node]
        element = ElementTree.SubElement(root, "node", id=node, lat=f"{latitude:.9f}", lon=f"{longitude:.9f}")
        if node in found.signals:
            ElementTree.SubElement(element, "tag", k="highway", v=SIGNALS)
    for way in chosen.values():
        element = ElementTree.SubElement(root, "way", id=way.name)
        for node in way.nodes:
            ElementTree.SubElement(element, "nd", ref=node)
        for key, value in way.tags.items():
            ElementTree.SubElement(element, "tag", k=key, v=value)
    root.extend(turn for turn in found.turns if all(
        member.get("ref") in chosen for member in turn.iter("member") if member.get("type") == "way"))
    ElementTree.ElementTree(root).write(path, encoding="utf-8", xml_declaration=True)


def way_of(street: str, ways: dict[str, Way]) -> Way:
    """The way of a street of netconvert's, which is called -WAY#PART, with the - where it goes against the way."""
    name = re.sub(r"#.*$", "", street)
    return ways[name] if name in ways else ways[name[1:]]


@dataclass(frozen=True)
class Place:
    """A place of the map: of which kind it is, the street there, its longitude and latitude, and what became of it."""

    kind: str
    street: str
    at: Point
    what: str

    @property
    def text(self) -> str:
        """The place as notes name it."""
        return f"{self.street} at {self.at[0]:.{DECIMALS}f}, {self.at[1]:.{DECIMALS}f}"


def notes_of(places: Sequence[Place], says: dict[str, str]) -> Iterator[str]:
    """A line for each kind that `says` has words for, with how many there are and the first places."""
    for kind, words in says.items():
        own = [place for place in places if place.kind == kind]
        if own:
            yield f"{len(own)} {words}: {first_few([place.text for place in own])}"


def table(places: Sequence[Place]) -> str:
    """All places as CSV."""
    return rows_text([HEADER, *([place.kind, place.street, *(f"{value:.{DECIMALS}f}" for value in place.at), place.what] for place in places)])
