"""Trips between zones: SUMO's matrices with its districts, and DTALite's demand.csv with the zones of GMNS nodes."""

from __future__ import annotations

import re
from collections.abc import Iterator, Sequence
from dataclasses import dataclass, field
from pathlib import Path

import networkx

from ..files.reading import read_bytes
from ..problem import Problem
from . import gmns_tables
from .gmns_tables import ZONAL, once, read_table
from .streets import Said, Streets, Trip
from .sumo_net import amount_of, read_xml

TIMES = re.compile(r"(\d+)\.(\d+)\s+(\d+)\.(\d+)(\s.*)?", re.ASCII)  # hours and minutes, twice

@dataclass
class Zone:
    """A zone: the streets at which its trips begin and end, each with its weight."""

    sources: dict[str, float] = field(default_factory=dict)
    sinks: dict[str, float] = field(default_factory=dict)


Zones = dict[str, Zone]
Row = tuple[str, str, float]  # from, to and vehicles


def read_districts(found: Streets, path: str | Path) -> Zones:
    """The districts of a file of SUMO: their edges, or sources and sinks with weights."""
    zones: Zones = {}
    for element in read_xml(path, "additional", "tazs").iter("taz"):
        name = element.get("id", "")
        zone = zones.setdefault(name, Zone())
        for street in element.get("edges", "").split():
            zone.sources[street] = zone.sinks[street] = 1.0
        for tag, streets in (("tazSource", zone.sources), ("tazSink", zone.sinks)):
            for end in element.iter(tag):
                street = end.get("id", "")
                streets[street] = amount_of(end.get("weight", "1"), f"{path}: taz {name}, {tag} {street}: weight")
    for zone in zones.values():
        for streets in (zone.sources, zone.sinks):
            for street in [street for street in streets if street not in found.streets]:
                del streets[street]
    if not zones:
        raise Problem(f"{path}: has no districts; SUMO writes them as <taz>")
    return zones


def read_matrix(path: str | Path) -> tuple[float, float, list[Row]]:
    """The seconds from and to, and the rows, of a matrix in SUMO's formats O and V."""
    lines = [line.strip() for line in read_bytes(path).decode("utf-8", "replace").splitlines()]
    kept = [(number, line) for number, line in enumerate(lines, 1) if line and not line.startswith("*")]
    sort = kept[0][1].partition(";")[0] if kept else ""
    if not sort.startswith(("$O", "$V")):
        raise Problem(f"{path}: no matrix of SUMO; the first line begins with $O or $V")
    kept = kept[2 if "M" in sort else 1:]  # after an M a line says the type of the vehicles
    if len(kept) < 3:
        raise Problem(f"{path}: ends before its times, its factor and its rows")
    (begin, end), factor = _times(path, kept[0]), _number(path, kept[1])
    rows = _list_rows(path, kept[2:]) if sort.startswith("$O") else _square_rows(path, kept[2:])
    return begin, end, [(source, into, vehicles * factor) for source, into, vehicles in rows]


def _times(path: str | Path, line: tuple[int, str]) -> tuple[float, float]:
    """Two times in seconds, each written as the hour, a point and the whole minutes: 7.5 is five past seven, as in SUMO."""
    found = TIMES.fullmatch(line[1])
    if not found:
        raise Problem(f"{path}: line {line[0]}: expected two times as hours.minutes, as 7.00 8.30, found \"{line[1]}\"")
    begin, end = (60 * (60 * int(found[hour]) + int(found[hour + 1])) for hour in (1, 3))
    if end <= begin:
        raise Problem(f"{path}: line {line[0]}: the end isn't after the start")
    return begin, end


def _number(path: str | Path, line: tuple[int, str]) -> float:
    return amount_of(line[1], f"{path}: line {line[0]}")


def _list_rows(path: str | Path, lines: Sequence[tuple[int, str]]) -> Iterator[Row]:
    for number, line in lines:
        texts = line.split()
        if len(texts) != 3:
            raise Problem(f"{path}: line {number}: expected from, to and vehicles, found \"{line}\"")
        yield texts[0], texts[1], _number(path, (number, texts[2]))


def _square_rows(path: str | Path, lines: Sequence[tuple[int, str]]) -> Iterator[Row]:
    """The rows of a matrix: the number of districts, their names, and all numbers row by row."""
    texts = [(number, text) for number, line in lines for text in line.split()]
    count = _count(path, texts[0])
    names, numbers = [text for _, text in texts[1:1 + count]], texts[1 + count:]
    if len(names) != count or len(numbers) != count * count:
        raise Problem(f"{path}: {count} districts need as many names and {count * count} numbers; found {len(names)} and "
                      f"{len(numbers)}")
    for place, number in enumerate(numbers):
        yield names[place // count], names[place % count], _number(path, number)


def _count(path: str | Path, line: tuple[int, str]) -> int:
    if not line[1].isascii() or not line[1].isdecimal():
        raise Problem(f"{path}: line {line[0]}: expected the number of districts, found \"{line[1]}\"")
    return int(line[1])


def read_gmns_trips(found: Streets, folder: str | Path, until: float) -> None:
    """Puts the trips of a folder's demand.csv, between the zones of its nodes, among those of the streets."""
    path = Path(folder) / "demand.csv"
    rows = read_table(Path(folder), "demand")
    if not rows or ZONAL[0] not in rows[0].fields:
        raise Problem(f"{path}: has no trips between zones; --trips takes the columns {', '.join(ZONAL)}")
    zones = _zones_of_nodes(found, once(read_table(Path(folder), "node", needed=True), "node_id"))
    made = []
    for row in rows:
        for column in ZONAL[:2]:
            if row.text(column) not in zones:
                raise Problem(f"{row.key(column)}: there is no zone {row.text(column)} in zone_id of node.csv")
        made.append((row.text(ZONAL[0]), row.text(ZONAL[1]), row.number(ZONAL[2], least=0.0)))
    put_trips(found, zones, (0.0, until, made), path, until)


def _zones_of_nodes(found: Streets, nodes: dict[str, gmns_tables.Row]) -> Zones:
    """The zones of GMNS nodes: the streets that begin at a node of the zone, and those that end there."""
    zones: Zones = {row.text("zone_id"): Zone() for row in nodes.values() if row.text("zone_id")}
    at = {name: zones[row.text("zone_id")] for name, row in nodes.items() if row.text("zone_id")}
    for street in found.streets.values():
        if street.start in at:
            at[street.start].sources[street.name] = 1.0
        if street.end in at:
            at[street.end].sinks[street.name] = 1.0
    return zones


def put_trips(found: Streets, zones: Zones, matrix: tuple[float, float, Sequence[Row]], path: str | Path, until: float) -> None:
    """Puts the trips of a matrix, until a time, among those of the streets, parted among those of their zones by weight.

    Of two streets between which no way leads no trip is made; where that is so of all of a pair's, its vehicles are reported.
    """
    begin, end, rows = matrix
    coming = min(1.0, max(0.0, (until - begin) / (end - begin)))  # of the vehicles of each pair
    graph = networkx.DiGraph(list(found.ways))
    reached: dict[str, set[str]] = {}
    lost = 0.0
    for source, into, vehicles in rows:
        for name in (source, into):
            if name not in zones:
                raise Problem(f"{path}: there is no zone {name}")
        if not vehicles:
            continue
        pairs = {(one, two): zones[source].sources[one] * zones[into].sinks[two] for one in zones[source].sources
                 for two in zones[into].sinks if one != two and two in _reached(graph, one, reached)}
        total = sum(pairs.values())
        lost += 0 if total else vehicles * coming
        found.trips += [Trip([one, two], begin, min(end, until), vehicles * coming * weight / total)
                        for (one, two), weight in pairs.items() if total and weight and coming]
    _say(found, matrix, until, coming, lost)
    if lost:
        found.notes.append(f"{Path(path).name}: {lost:,.6g} vehicles without a route over the network are left out")


def _say(found: Streets, matrix: tuple[float, float, Sequence[Row]], until: float, coming: float, lost: float) -> None:
    """Says how many vehicles a matrix has until a time, of which some are lost, and after it."""
    begin, end, rows = matrix
    whole = sum(vehicles for _, _, vehicles in rows)
    for first, last, vehicles, kept in ((begin, min(end, until), whole * coming, whole * coming - lost),
                                        (max(begin, until), end, whole * (1 - coming), 0.0)):
        if vehicles > 0:
            found.said.append(Said("all", first, last, vehicles, kept))


def _reached(graph: networkx.DiGraph, street: str, known: dict[str, set[str]]) -> set[str]:
    """The streets that are reached from one."""
    if street not in known:
        known[street] = set(networkx.descendants(graph, street)) if street in graph else set()
    return known[street]
