"""The networks of a page: where the cells of a report lie, what they belong to, what these are called, and speed limits."""

from __future__ import annotations

import re
from collections import Counter
from collections.abc import Callable, Mapping, Sequence
from functools import cached_property
from typing import Any

import networkx

from ..plots.layout import Line, lay_out
from ..report.measures import hour_of
from ..report.reading import Report
from ..report.routes import roads_and_gates as folded
from ..texts.text_table import listed
from ..units import Units

WITHOUT_ROADS = "all road cells, in the order of the file"  # of a network whose units, and so whose roads, aren't known
Green = tuple[int, int, int, int]  # a cycle in steps, when one begins, and from when to when in it is green
Place = Callable[[Line], Line]  # takes a line of the map to where the page draws it
MADE = re.compile(r"(.+)-(?:fork|join)\d+")  # what parts or joins the movements of a road, as studies name it
MOST_NAMED = 4  # of the ways that lead into a junction so many name it
# What an import calls a road: its street, where it leads, and a number; a way of a map without a name by its class and number.
DIRECTED = re.compile(r"(.+?) ((?:north|south)(?:-(?:east|west))?|east|west)(?: \d+)?")
NAMELESS = re.compile(r"([a-z]+(?:_[a-z]+)*) -?\d+")
RAMP, SIDE_ROAD = "a ramp", "a road"  # what a street without a name is called


def street_of(road: str) -> str | None:
    """The street of an imported road, of one without a name what it is; None of a road that its user named."""
    found = DIRECTED.fullmatch(road)
    unnamed = NAMELESS.fullmatch(found[1]) if found else None
    return found[1] if found and not unnamed else None if unnamed is None else RAMP if unnamed[1].endswith("_link") else SIDE_ROAD


class RoadNames:
    """The roads of a report as a reader knows them: stubs of one cell belong to the road of their street, and each road is called
    by its street and those from and to which it leads."""

    def __init__(self, report: Report) -> None:
        self.report, within = report, set(movements(report))
        self.cells = {road: list(cells) for road, cells in report.units.roads.items() if cells[0] not in within}
        self.road_of = {cell: road for road, cells in self.cells.items() for cell in cells}

    @cached_property
    def chains(self) -> dict[str, list[str]]:
        """The roads that are one, in the order of travel, by the one to which the others belong."""
        found, belongs = {road: [road] for road in self.cells}, {road: road for road in self.cells}
        of_one = (road for road, cells in self.cells.items() if len(cells) == 1)
        for stub in (road for road in of_one if street_of(road) not in (None, RAMP, SIDE_ROAD)):
            before, behind = self._beside(stub, back=True), self._beside(stub, back=False)
            beside = before or behind
            if beside is None or belongs[beside] == stub:
                continue
            own, chain = found.pop(stub), found[belongs[beside]]
            chain[:] = [*chain, *own] if before else [*own, *chain]
            belongs.update(dict.fromkeys(own, belongs[beside]))
        return found

    @cached_property
    def belongs(self) -> dict[str, str]:
        """The road to which each one belongs."""
        return {road: first for first, chain in self.chains.items() for road in chain}

    def _beside(self, road: str, back: bool) -> str | None:
        """The road of the same street from which one drives into a road, or into which from its end."""
        graph = self.report.need_network().graph
        following = graph.predecessors if back else graph.successors
        waiting, seen = [self.cells[road][0 if back else -1]], set()
        while waiting:
            for cell in following(waiting.pop()):
                other = self.road_of.get(cell)
                if other is not None and other != road and street_of(other) == street_of(road):
                    return other
                if other is None and cell not in seen:
                    seen.add(cell)
                    waiting.append(cell)
        return None

    @cached_property
    def _joints(self) -> dict[object, int]:
        """The number of the joint at which each end of a road lies."""
        joined = networkx.Graph()
        for up, down in self.report.need_network().graph.edges:
            one, two = self.road_of.get(up), self.road_of.get(down)
            if one is None or one != two:
                joined.add_edge((one, "end") if one else up, (two, "start") if two else down)
        return {end: number for number, ends in enumerate(networkx.connected_components(joined)) for end in ends}

    def _crossing(self, road: str, side: str) -> str | None:
        """Another street that one meets at an end of a road, the first of those with a name."""
        joint, own = self._joints.get((road, side)), street_of(road)
        others = {street: None for other in self.cells for end in ("start", "end") for street in [street_of(other)]
                  if joint is not None and self._joints.get((other, end)) == joint and street not in (None, own)}
        return min(others, key=lambda street: street in (RAMP, SIDE_ROAD), default=None)

    @cached_property
    def titles(self) -> dict[str, str]:
        """What a reader calls each imported road, with those that are one with it."""
        found = self._titles(self.chains)
        return {road: found[first] for road, first in self.belongs.items() if first in found}

    @cached_property
    def alone(self) -> dict[str, str]:
        """What a reader calls each imported road by itself, as an approach."""
        return self._titles({road: [road] for road in self.cells})

    def _titles(self, chains: Mapping[str, Sequence[str]]) -> dict[str, str]:
        """Titles of imported roads, "Mill Lane, from High Street to Ring": of those alike with the direction, then numbered."""
        found = {road: self._title(chain, False) for road, chain in chains.items() if DIRECTED.fullmatch(road)}
        alike = {title for title, count in Counter(found.values()).items() if count > 1}
        found = {road: self._title(chains[road], True) if title in alike else title for road, title in found.items()}
        seen: Counter[str] = Counter()
        for road, title in found.items():
            seen[title] += 1
            found[road] = f"{title} ({seen[title]})" if seen[title] > 1 else title
        return found

    def _title(self, chain: Sequence[str], directed: bool) -> str:
        """A title: with the direction also where one of the ends has no name; of what goes round neither."""
        ends = (chain[0], "start"), (chain[-1], "end")
        is_round = self._joints.get(ends[0], -1) == self._joints.get(ends[1], -2)
        begin, end = (None, None) if is_round else (self._crossing(*one) for one in ends)
        way = " ".join([*([f"from {begin}"] if begin else []), *([f"to {end}"] if end else [])])
        directed = directed or not is_round and bool({begin, end} & {None, RAMP, SIDE_ROAD})
        street = heading_of(chain[0]) if directed else str(street_of(chain[0])).removeprefix("a ")
        return f"{street}, {way}" if way else street

    def called(self, road: str) -> str:
        """What a reader calls a road, or a gate or an exit that an import made at one."""
        if road in self.titles:
            return self.titles[road]
        kind, graph = self.report.need_network().kinds.get(road), self.report.need_network().graph
        beside = {"gate": ("in-", graph.successors), "exit": ("out-", graph.predecessors)}.get(kind or "")
        if beside is None or not road.startswith(beside[0]):
            return road
        own = next((self.road_of[cell] for cell in beside[1](road) if cell in self.road_of), "")
        return heading_of(own) if own in self.titles else road

    def approach(self, name: str) -> str:
        """What a reader calls an approach: by its road, and where its stop line is where that isn't the end."""
        road, between, place = name.rpartition(" km ")
        return f"{self.called(road)} km {place}" if between else self.alone.get(name, self.called(name))

    def moving(self, title: str, road: str, into: Sequence[str]) -> str:
        """What a reader calls movements of an approach with a title."""
        told = ", ".join(heading_of(way) for way in into)
        if not told:
            return title
        return f"{title}{',' if told == 'ahead' else ', into'} {told}" if road in self.alone else f"{title} to {told}"

    def place_of(self, cell: str) -> str:
        """A cell as the page names it: one that a junction made by the road and the movement that drive through it."""
        made, row = self.report.units.made_place(cell, self.called, heading_of), self.report.units.cells.get(cell)
        if made is None and row and row["road"] in self.titles:
            return f"{self.titles[row['road']]}, km {row['from_km']:.6g} to {row['to_km']:.6g}"
        return made or cell


def heading_of(road: str) -> str:
    """An imported road as a way that one takes: its street, and where it leads."""
    found = DIRECTED.fullmatch(road)
    return f"{str(street_of(road)).removeprefix('a ')} {found[2]}" if found else road


def roads_of(report: Report, names: RoadNames | None = None) -> dict[str, list[str]]:
    """The cells of each road, without those within junctions; of one of all cells where no roads are known."""
    names = names or RoadNames(report)
    roads = {road: [cell for one in chain for cell in names.cells[one]] for road, chain in names.chains.items()}
    return roads or {WITHOUT_ROADS: [cell for cell, kind in report.need_network().kinds.items() if kind == "road"]}


def whole_roads(report: Report, names: RoadNames | None = None) -> dict[str, list[str]]:
    """The cells of each road with those that junctions made of it."""
    names, made = names or RoadNames(report), folded(report)
    return {road: [cell for one in names.chains.get(road, ()) for cell in made.get(one, names.cells[one])] or cells
            for road, cells in roads_of(report, names).items()}


def titles_of(reports: Sequence[Report]) -> dict[str, str]:
    """What a reader calls roads, gates and exits where that isn't their name; the first report that knows one says it."""
    found: dict[str, str] = {}
    for report in reports:
        names = RoadNames(report)
        ends = [cell for cell, kind in report.need_network().kinds.items() if kind != "road"]
        for name in (*names.cells, *ends):
            if names.called(name) != name:
                found.setdefault(name, names.called(name))
    return found


def is_measured(report: Report) -> bool:
    """Whether the length of each road cell is known."""
    return all(report.units.length(cell) for cell, kind in report.need_network().kinds.items() if kind == "road")


def network_of(report: Report, measured: bool, place: Place) -> dict[str, Any]:
    """The cells and the roads of a report for the page; a road has the numbers of its cells."""
    lines, cells, names = lay_out(report), list(report.cells.index), RoadNames(report)
    parts = {cell: name for name, own in junctions_of(report).items() for cell in own}
    numbers = {cell: i for i, cell in enumerate(cells)}
    roads = {road: [numbers[cell] for cell in own] for road, own in roads_of(report, names).items()}
    places: dict[str, tuple[float, float]] = _places(report, names) if measured else {
        cells[number]: (i, i + 1) for road in roads.values() for i, number in enumerate(road)}
    found = []
    for cell in cells:
        row = _cell(report, cell, names, parts)
        begin, end = places.get(cell, (0, 0) if measured else (0, 1))
        found.append({**row, "line": [[round(x, 5), round(y, 5)] for x, y in place(lines[cell])], "from": begin, "to": end})
    return {"cells": found, "roads": roads}


def _places(report: Report, names: RoadNames) -> dict[str, tuple[float, float]]:
    """From which to which km of its road each cell lies; those of a stub go on where the road before it ends."""
    rows = report.units.cells
    found = {cell: (round(row["from_km"], 6), round(row["to_km"], 6)) for cell, row in rows.items()}
    for chain in names.chains.values():
        end = rows[names.cells[chain[0]][0]]["from_km"]
        for cell in (cell for road in chain for cell in names.cells[road]):
            begin, end = end, end + rows[cell]["to_km"] - rows[cell]["from_km"]
            found[cell] = round(begin, 6), round(end, 6)
    return found


def _cell(report: Report, cell: str, names: RoadNames, parts: Mapping[str, str]) -> dict[str, Any]:
    """What a cell is and what it belongs to, for the page."""
    row = report.units.cells.get(cell, {})
    found: dict[str, Any] = {"name": cell, "kind": report.need_network().kinds[cell]}
    if cell in report.units.within:
        found["place"] = names.place_of(cell)
    if cell in parts:
        found["junction"] = parts[cell]
    elif row:
        found["road"] = names.belongs.get(row["road"], row["road"])
    if row.get("lanes"):
        found["lanes"] = row["lanes"]
    return found


def speed_limits(report: Report) -> list[dict[str, Any]]:
    """The speed limits of a report: from and to when, as the page's clock has it, the speed, and the numbers of the cells.

    The speed is in km/h, or in cells in a step where the units aren't known.
    """
    step, start = report.units.step, report.units.start or 0
    found: dict[tuple[float, float, float], list[int]] = {}
    for number, cell in enumerate(report.cells.index):
        pace = report.need_network().paces.get(cell)
        own = report.units.cells.get(cell, {}).get("free_flow_kmh", 1)
        for begin, end, part in pace.slower() if pace else ():
            first, last = (bound if step is None else start + bound * step for bound in (begin, end))
            found.setdefault((first, last, round(own * part, 6)), []).append(number)
    return [{"begin": begin, "end": end, "speed": speed, "cells": cells} for (begin, end, speed), cells in found.items()]


def closures_of(report: Report) -> list[dict[str, Any]]:
    """The closures of a report: from and to when, the flow that they leave in vehicles/h or in a step, and their cells' numbers.

    Limits that stand for the red of a signal and for who gives way are none.
    """
    network, units, found = report.need_network(), report.units, dict[tuple[int, int, float], list[int]]()
    others = {*units.cycles, *units.within, *(approach.last for approach in units.approaches)}
    for number, cell in enumerate(report.cells.index):
        for begin, end, most in network.limits_of.get(cell, ()) if network.kinds[cell] == "road" and cell not in others else ():
            if most < network.capacities[cell] and begin < report.steps:
                found.setdefault((begin, min(end, report.steps), most * hour_of(report)), []).append(number)
    return [{"begin": _moment(units, begin), "end": _moment(units, end), "flow": round(flow, 6), "cells": cells}
            for (begin, end, flow), cells in found.items()]


def _moment(units: Units, step: float) -> float:
    """A step on the page's clock."""
    return step if units.step is None else (units.start or 0) + step * units.step


def signals_of(report: Report) -> list[dict[str, Any]]:
    """The fixed signals of a report, by approach: whose greens they are, when in the cycle, and the cell at whose end they stand.

    Approaches that lead into one road are of one junction, so their greens stand in one cycle, which begins with the first of
    them. A signal that stands by no approach is one.
    """
    greens, names, numbers = _greens(report), RoadNames(report), {cell: i for i, cell in enumerate(report.cells.index)}
    rows: list[tuple[str, str, str, Green]] = []
    for approach in report.units.approaches:
        own: dict[Green, list[str]] = {}
        for one in approach.movements:
            if one.line in greens:
                own.setdefault(greens[one.line], []).append(one.into)
        title = names.approach(approach.name)
        rows += [(title, approach.last, names.moving(title, approach.road, into), row) for row, into in own.items()]
    known = {one.line for approach in report.units.approaches for one in approach.movements}
    rows += [(names.place_of(cell), cell, names.place_of(cell), row) for cell, row in greens.items() if cell not in known]
    joined = networkx.Graph((("approach", names.approach(one.name)), ("way", way.into or one.name))
                            for one in report.units.approaches for way in one.movements)
    parts = list(networkx.connected_components(joined))
    junctions = {name: number for number, ends in enumerate(parts) for side, name in ends if side == "approach"}
    found, zeros, scale = [], dict[str, int](), report.units.step or 1
    for title, cell, name, (cycle, zero, begin, end) in rows:
        junction = f"{junctions.get(title, cell)} {cycle}"
        first = zeros.setdefault(junction, zero)
        begin, end = (begin + zero - first) % cycle, (begin + zero - first) % cycle + end - begin
        spans = [(begin, min(end, cycle)), *([(0, end - cycle)] if end > cycle else [])]
        found.append({"approach": title, "name": name, "at": numbers[cell], "junction": junction, "cycle": cycle * scale,
                      "zero": _moment(report.units, first), "greens": [[one * scale, two * scale] for one, two in sorted(spans)]})
    return found


def _greens(report: Report) -> dict[str, Green]:
    """Of each fixed signal its cycle in steps, when one begins first, and its green in it, by the cell of its stop line."""
    return {row.cell: (int(row.cycle), -int(row.offset) % int(row.cycle), int(row[4]), int(row[5]))
            for row in report.need_network().signals.itertuples()}


def junctions_of(report: Report) -> dict[str, list[str]]:
    """The cells of each junction, by a name made of the roads and gates that lead into it."""
    graph, within = report.need_network().graph, dict.fromkeys(movements(report))
    touching = networkx.Graph()
    for cell in within:
        touching.add_edges_from((("into", cell), ("from", up)) for up in graph.predecessors(cell))
        touching.add_edges_from((("from", cell), ("into", down)) for down in graph.successors(cell))
        touching.add_edge(("into", cell), ("from", cell))
    found = {}
    for ends in networkx.connected_components(touching):
        cells = [cell for cell in report.cells.index if ("into", cell) in ends and cell in within]
        ways = dict.fromkeys(_way(report, up) for cell in cells for up in graph.predecessors(cell) if up not in within)
        found[f"junction of {_told(list(ways))}"] = cells
    return found


def movements(report: Report) -> list[str]:
    """The roads of one cell that are a movement through a junction, or that part or join movements there, as cells."""
    roads, kinds = report.units.roads, report.need_network().kinds
    ends = {*roads, *(cell for cell, kind in kinds.items() if kind != "road")}
    return [cells[0] for road, cells in roads.items() if len(cells) == 1 and _is_within(road, ends)]


def _is_within(road: str, ends: set[str]) -> bool:
    made = MADE.fullmatch(road)
    if made:
        return made[1] in ends
    hyphens = (place for place, letter in enumerate(road) if letter == "-")
    return any(road[:place] in ends and road[place + 1:] in ends for place in hyphens)


def _way(report: Report, cell: str) -> str:
    row = report.units.cells.get(cell)
    return str(row["road"]) if row else cell


def _told(ways: list[str]) -> str:
    more = len(ways) - MOST_NAMED
    return f"{', '.join(ways[:MOST_NAMED])} and {more} more" if more > 0 else listed(ways)
