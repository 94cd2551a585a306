"""The study that a street network of another program becomes, as TOML."""

from __future__ import annotations

import re
from collections.abc import Iterator, Sequence
from dataclasses import dataclass, replace
from fractions import Fraction
from math import floor
from typing import Any

import networkx

from ..chains import chains
from ..study.coordinates import decimals_of
from ..study.crossings import MOST_ARMS
from ..study.scale import rounded_text
from ..study.writing import Noted, Rows, Section, text_of
from ..texts.quantities import HOUR, clock
from ..visible import visible
from .giving_way import GivingWay
from .greens import Following, kept_green, stages, stages_of
from .road_names import LONGEST_NAME, apart, heading, short_name
from .speed_limits import limits_on
from .streets import Connection, Movement, Program, Stage, Street, Streets, grouped
from .traffic import EXIT, GATE, Traffic

TOO_WIDE = f"with the streams to which they give way they would be a junction of more than {MOST_ARMS} streets"
LOCAL_DECIMALS = 5  # of a km
CHANGED = 0.01  # shares of a span that differ by less are those of the whole time


@dataclass(frozen=True)
class Terms:
    """What a study needs beside the network: seconds of a step, the clock time of 0, the time, and the lanes' terms.

    `gap` are the metres of a standing vehicle, `headway` the seconds between two that follow each other; `counts` is the
    file beside the study of which its gates take their demand, where there is one.
    """

    step: float
    start: str
    duration: float
    gap: float = 7.5
    headway: float = 1.4
    counts: str | None = None

    @property
    def wave(self) -> float:
        """The wave speed in km/h."""
        return self.gap / self.headway * 3.6

    def saturation(self, speed: float) -> float:
        """The vehicles/h that a lane passes at a speed in km/h, just below the top of its triangle."""
        return floor(3600 / (self.headway + self.gap / (speed / 3.6))) - 1

    def clock(self, seconds: float) -> str:
        """The clock time of a second of the network, past 24:00 on the day behind the first."""
        whole = int(clock(self.start, "start")) + round(seconds)
        return f"{whole // 3600:02d}:{whole // 60 % 60:02d}:{whole % 60:02d}"


class Writer:
    """Writes the study: streets that follow each other as one road, and what joins roads at the nodes."""

    def __init__(self, found: Streets, traffic: Traffic, terms: Terms) -> None:
        self.found, self.traffic, self.terms = found, traffic, terms
        self.into: dict[str, list[str]] = {}
        self.out_of: dict[str, list[str]] = {}
        for one, two in traffic.ways():
            self.out_of.setdefault(one, []).append(two)
            self.into.setdefault(two, []).append(one)
        self.giving = GivingWay(found, traffic)
        self.following = Following(found, traffic, self.giving.taken)
        self.joints = self._joints()
        self.unopposed = grouped((way for ways in self.giving.left.values() for way in ways), lambda way: way[0])
        self.crossed = {arm for comes, _ in self.joints if len(comes) > 1 for arm in comes}
        self.chains = chains(self.traffic.streets, self._follows)
        self.chain_of = {street: chain for chain in self.chains for street in chain}
        self.names: dict[str, str] = {}
        self.cells: dict[str, str] = {}
        self._name_roads()

    def text(self) -> str:
        """The text of the study file."""
        return text_of(self.values(), self.tables(), f"Made by ctm-tools import of {self.found.title}.")

    def values(self) -> dict[str, Any]:
        """What of the study stands before its tables."""
        terms, notes = self.terms, self.notes()
        values = {"title": visible(self.found.title), "step": Noted(rounded(terms.step), "s"), "start": terms.start,
                  "duration": Noted(rounded(terms.duration), "s")}
        if self.found.crs:
            values["crs"] = Noted(self.found.crs, "of the roads' points")
        if notes:
            values["notes"] = Rows(notes)
        return values

    def tables(self) -> Iterator[Section]:
        """The tables of the study."""
        terms = self.terms
        yield Section(("lane",), {"wave_speed": Noted(rounded(terms.wave), "km/h"),
                                  "jam_density": Noted(rounded(1000 / terms.gap), "vehicles/km")})
        yield from map(self._road, self.chains)
        yield from self._ends()
        for comes, leaves in self.joints:
            yield from self._node(comes, leaves)
        yield from self._speed_limits()

    def _speed_limits(self) -> Iterator[Section]:
        """The speed limits by time of the roads."""
        limits, terms = grouped(self.found.limits, lambda limit: limit.street), self.terms
        for chain in self.chains:
            streets = [self.found.streets[street] for street in chain]
            for limit in limits_on(streets, limits, float(clock(terms.start, "start")), terms.duration, terms.step):
                values: dict[str, Any] = {"road": self.names[chain[0]]}
                if limit.start_km:
                    values["from"] = rounded(limit.start_km)
                if limit.end_km is not None:
                    values["to"] = rounded(limit.end_km)
                values |= {"start": terms.clock(limit.begin), "end": terms.clock(limit.end), "speed": Noted(rounded(limit.speed), "km/h")}
                yield Section(("speed_limits",), values, in_list=True)

    def _joints(self) -> list[tuple[list[str], list[str]]]:
        """What comes and what leaves where movements meet or part, in the order of the network."""
        graph = networkx.Graph()
        graph.add_edges_from(((one, "comes"), (two, "leaves")) for one, two in self.traffic.ways())
        self._unite(graph)
        order = {arm: place for place, arm in enumerate(graph)}
        found = []
        for arms in networkx.connected_components(graph):
            own = sorted(arms, key=order.__getitem__)
            found.append(([arm for arm, side in own if side == "comes"], [arm for arm, side in own if side == "leaves"]))
        return found

    def _unite(self, graph: networkx.Graph) -> None:
        """Joins those who give way with those to whom they do, also where no street has both, and all of a node whose greens
        follow traffic; where that makes too many arms, they give way no longer."""
        for node in self.following.nodes:
            ways = self.following.at[node]
            graph.add_edges_from(((ways[0][0], "comes"), (way[0], "comes")) for way in ways[1:])
        for way, one in list(self.giving.taken.items()):
            ends = [(other[0], "comes") for other in (way, *one.others)]
            arms = set().union(*(networkx.node_connected_component(graph, end) for end in ends))
            if max(sum(side == each for _, side in arms) for each in ("comes", "leaves")) > MOST_ARMS:
                self.giving.leave([way], TOO_WIDE)
            else:
                graph.add_edges_from((ends[0], end) for end in ends[1:])

    def _signalled(self, street: str) -> bool:
        return street in self.found.streets and self.found.streets[street].end in self.found.programs

    def _follows(self, street: str) -> str | None:
        """The street that goes on where one ends, where nothing else comes there or leaves."""
        ways = self.out_of.get(street, [])
        if len(ways) != 1 or ways[0].startswith(EXIT) or self._signalled(street) or street in self.crossed:
            return None
        return ways[0] if self.into[ways[0]] == [street] else None

    def _name_roads(self) -> None:
        """Names roads, their cells, gates and exits: for a chain's first and last street that of its road."""
        taken: set[str] = set()
        for number, chain in enumerate(self.chains, 1):
            title = visible(self.found.streets[chain[0]].title)
            if title:
                road = apart(f"{title} {self._direction(chain)}".rstrip(), taken)
                name = short_name(title, taken)
            else:
                name = re.sub(r"[^A-Za-z0-9_-]", "_", chain[0])
                road = name = f"r{number}" if len(name) > LONGEST_NAME or name in taken else name
            taken |= {road, name}
            for street in chain:
                self.names[street], self.cells[street] = road, name
                self.names[GATE + street], self.names[EXIT + street] = f"in-{name}", f"out-{name}"

    def _direction(self, chain: Sequence[str]) -> str:
        """Where a road leads, from its first point to its last; nowhere where it has no points or comes back."""
        points = [point for street in chain for point in self.found.streets[street].points]
        return heading(points[0], points[-1], self.found.crs) if points else ""

    def _road(self, chain: Sequence[str]) -> Section:
        streets, name = [self.found.streets[street] for street in chain], self.names[chain[0]]
        values: dict[str, Any] = {} if self.cells[chain[0]] == name else {"cells": self.cells[chain[0]]}
        values["length"] = Noted(rounded(sum(street.length for street in streets)), "km")
        points = [point for street in streets for point in street.points]
        if len(points) > 1:
            values["points"] = [[self._place(x), self._place(y)] for i, (x, y) in enumerate(points) if not i or (x, y) != points[i - 1]]
        sections = list(self._sections(streets))
        if len(sections) == 1:
            values |= self._lane(streets[0])
        else:
            values["sections"] = Rows({"from": rounded(start), **self._lane(street)} for start, street in sections)
        streets_told = f"{', '.join(chain[:8])}{f' and {len(chain) - 8} more' if len(chain) > 8 else ''}"
        return Section(("roads", name), values, above="" if list(chain) == [name] else streets_told)

    def _place(self, value: float) -> Fraction:
        """A coordinate to a centimetre, in km, metres or degrees."""
        decimals = LOCAL_DECIMALS if self.found.crs is None else decimals_of(self.found.crs)
        return Fraction(f"{value:.{decimals}f}")

    @staticmethod
    def _sections(streets: Sequence[Street]) -> Iterator[tuple[float, Street]]:
        """Where on a road the lanes or the speed change."""
        start, last = 0.0, None
        for street in streets:
            terms = street.lanes, round(street.speed, 3), street.capacity
            if terms != last:
                yield start, street
            last = terms
            start += street.length

    def _lane(self, street: Street) -> dict[str, Any]:
        each = street.capacity / street.lanes if street.capacity else self.terms.saturation(street.speed)
        return {"lanes": street.lanes, "free_flow_speed": rounded(street.speed), "saturation_flow": rounded(each)}

    def _ends(self) -> Iterator[Section]:
        """The gates with their demand, and the exits."""
        for street in self.traffic.streets:
            if (GATE + street, street) in self.traffic.moved:
                is_alone = self.into[street] == [GATE + street]
                beside: dict[str, Any] = {"into": self.names[street]} if is_alone else {"capacity": self._capacity(street)}
                yield Section(("gates", self.names[GATE + street]), {**beside, "demand": self._demand(street)})
        for street in self.traffic.streets:
            if (street, EXIT + street) in self.traffic.moved:
                beside = {"from": self.names[street]} if self.out_of[street] == [EXIT + street] else {"capacity": self._capacity(street)}
                yield Section(("exits", self.names[EXIT + street]), beside)

    def _capacity(self, street: str) -> Fraction:
        found = self.found.streets[street]
        return rounded(found.capacity or found.lanes * self.terms.saturation(found.speed))

    def _demand(self, street: str) -> dict[str, str] | list[dict[str, Any]]:
        """The demand of a gate: by its rows in the file of counts, by those of its network, or by the trips from span to span."""
        interval, terms = self.traffic.interval, self.terms
        if terms.counts:
            return {"counts": terms.counts, "column": "vehicles", "station": self.names[GATE + street], "station_column": "gate",
                    "interval": "60 min"}
        rows = self.found.gates.get(street, []) if not self.found.trips else [
            (span * interval, min((span + 1) * interval, terms.duration), vehicles * HOUR / interval)
            for span, vehicles in enumerate(self.traffic.demand(street))]
        return [{"start": terms.clock(begin), "end": terms.clock(end), "flow": rounded(flow)} for begin, end, flow in rows
                if flow > 0 and begin < end]

    def _node(self, comes: list[str], leaves: list[str]) -> Iterator[Section]:
        """What joins roads, gates and exits at a node: nothing, a merge, a diverge or a junction; who is unopposed stands above it."""
        unopposed = [self._moving(way) for one in comes for way in self.unopposed[one]]
        above = f"Give way to others, and don't wait for them here: {', '.join(unopposed)}" if unopposed else ""
        for section in self._joined(comes, leaves):
            yield replace(section, above=above)
            above = ""

    def _joined(self, comes: list[str], leaves: list[str]) -> Iterator[Section]:
        signal = any(self._signalled(street) for street in comes)
        giving = [one for one in comes if (one, leaves[0]) in self.giving.taken]
        if len(comes) == len(leaves) == 1:
            yield from self._straight(comes[0], leaves[0])
        elif not signal and len(leaves) == 1 and len(comes) == 2 and len(giving) < 2:
            yield self._merge(comes, leaves[0], giving)
        elif not signal and len(comes) == 1 and len(leaves) == 2:
            yield Section(("diverges",), {"from": self.names[comes[0]], "into": self._named(leaves),
                                          **self._shares(comes, leaves, single=True)}, in_list=True)
        else:
            yield from self._junction(comes, leaves, signal)

    def _merge(self, comes: list[str], into: str, giving: list[str]) -> Section:
        """A merge of two streets, of which one may give way to the other."""
        values: dict[str, Any] = {"from": self._named(comes), "into": self.names[into],
                                  "priorities": [rounded(self._way((one, into)).priority) for one in comes]}
        for one in giving:
            values["yields_to"] = self.names[next(other for other in comes if other != one)]
            values |= self.giving.taken[one, into].terms()
        return Section(("merges",), values, in_list=True)

    def _straight(self, one: str, two: str) -> Iterator[Section]:
        """A link from a street to the one into which all drive, with the signal between them."""
        if GATE + two == one or EXIT + one == two or self.chain_of[two][0] != two:
            return  # a gate, an exit, or a road that goes on
        yield Section(("links",), {"from": self.names[one], "into": self.names[two]}, in_list=True)
        if self._dark((one, two)):
            yield _closed(self.names[one], 0.999 * sum(self.found.streets[street].length for street in self.chain_of[one]))
        elif self._signalled(one):
            yield self._signal(one, two)

    def _signal(self, one: str, two: str) -> Section:
        """The signal at the end of a street."""
        node = self.found.streets[one].end
        program = self.found.programs[node]
        (start, green), _ = self._phases([(one, two)], program.cycle)[0]
        values: dict[str, Any] = {"road": self.names[one], "cycle": rounded(program.cycle), "green": rounded(green),
                                  "first_green": rounded((program.offset + start) % program.cycle)}
        own = [program.stages[k] for k in stages_of(self._way((one, two)), program)] if node in self.following.nodes else []
        if own and own[0].least < own[0].most:
            values["actuated"] = _actuated(own[0])
        return Section(("signals",), values, in_list=True)

    def _dark(self, way: Movement) -> bool:
        """Whether a movement at a signal is green in no phase."""
        return self._signalled(way[0]) and way in self.found.ways and not self.found.ways[way].green

    def _named(self, arms: Sequence[str]) -> list[str]:
        return [self.names[arm] for arm in arms]

    def _way(self, movement: Movement) -> Connection:
        """A movement between streets; that of a gate or an exit is as wide as its street."""
        street = movement[1] if movement[0].startswith(GATE) else movement[0]
        return self.found.ways.get(movement) or Connection(self.found.streets[street].lanes, 1)

    def _junction(self, comes: list[str], leaves: list[str], signal: bool) -> Iterator[Section]:
        ways = [[(one, two) if two in self.out_of.get(one, []) else None for two in leaves] for one in comes]
        own = [way for row in ways for way in row if way]
        values = {"from": self._named(comes), "into": self._named(leaves),
                  "lanes": [[self._way(way).lanes if way else 0 for way in row] for row in ways],
                  "priorities": [[rounded(self._way(way).priority if way else 0) for way in row] for row in ways],
                  **self._shares(comes, leaves)}
        if signal:
            node = next(self.found.streets[one].end for one in comes if one in self.found.streets)
            program = self.found.programs[node]
            values |= {"cycle": rounded(program.cycle), "offset": rounded(program.offset),
                       "phases": Rows(self._phase_rows(node, own, program))}
        yields = Rows(self._yielding(way) for way in own if way in self.giving.taken)
        if yields:
            values["yields"] = yields
        yield Section(("junctions",), values, in_list=True)
        yield from (_closed(f"{self.names[one]}-{self.names[two]}", 0) for one, two in own if self._dark((one, two)))

    def _yielding(self, way: Movement) -> dict[str, Any]:
        """To whom a movement gives way, and how."""
        gives = self.giving.taken[way]
        others = [[*self._named(other), *([count] if count > 1 else [])] for other, count in gives.others.items()]
        return {"movement": self._named(way), "yields_to": others, **gives.terms()}

    def _phase_rows(self, node: str, ways: Sequence[Movement], program: Program) -> Iterator[dict[str, Any]]:
        """The phases of a junction: those that follow traffic, those in whose greens some give way, or its greens as they are."""
        if node in self.following.nodes:
            for k, stage in enumerate(program.stages):
                own = [way for way in ways if k in stages_of(self._way(way), program)]
                follows = {"actuated": _actuated(stage)} if stage.least < stage.most else {}
                if own:
                    yield {**self._phase(stage.start, stage.lasting, own), **follows}
        elif any(way in self.giving.taken for way in ways):
            for part in stages({way: self._way(way) for way in ways}, self.giving.taken, program.cycle):
                gives = {"permitted": [self._named(way) for way in part.gives]} if part.gives else {}
                start, end = part.span
                yield {**self._phase(start, end - start, part.green), **gives}
        else:
            for (start, green), own in self._phases(ways, program.cycle):
                yield self._phase(start, green, own)

    def _phase(self, start: float, green: float, ways: Sequence[Movement]) -> dict[str, Any]:
        return {"start": rounded(start), "green": rounded(green), "movements": [self._named(way) for way in ways]}

    def _phases(self, ways: Sequence[Movement], cycle: float) -> list[tuple[tuple[float, float], list[Movement]]]:
        """The greens of a node, each from when on, for how long, and the movements that have it."""
        greens: dict[tuple[float, float], list[Movement]] = {}
        for way in ways:
            start, end = kept_green(self._way(way), cycle)
            greens.setdefault((start % cycle, min(end - start, cycle)), []).append(way)
        return sorted(greens.items())

    def _shares(self, comes: list[str], leaves: list[str], single: bool = False) -> dict[str, Any]:
        """The shares of the whole time, and those of the spans in which they differ."""
        moved, terms = self.traffic.moved, self.terms
        whole = [[sum(moved.get((one, two), [])) for two in leaves] for one in comes]
        rows = Rows()
        for span in range(self.traffic.spans if self.traffic.spans > 1 else 0):
            here = [[moved[one, two][span] if (one, two) in moved else 0.0 for two in leaves] for one in comes]
            own = [row if sum(row) > 0 else all_ for row, all_ in zip(here, whole)]
            begin, end = (time * self.traffic.interval for time in (span, span + 1))
            if begin < terms.duration and any(_differ(row, all_) for row, all_ in zip(own, whole)):
                rows.append({"start": terms.clock(begin), "end": terms.clock(min(end, terms.duration)),
                             "shares": _numbers(own[0]) if single else _matrix(_parts(own))})
        return {"shares": _numbers(whole[0]) if single else _matrix(_parts(whole)), **({"turns": rows} if rows else {})}

    def notes(self) -> list[str]:
        """What isn't kept: that of the network, and what is in the making of the study."""
        notes = [*self.found.notes, "vehicles have no routes of their own: at each junction they turn by the shares of "
                 "the vehicles there in each span"]
        left = len(self.found.streets) - len(self.traffic.streets)
        if left:
            notes.append(f"{left} of {len(self.found.streets)} streets, on which no vehicle drives, are left out")
        split = [way for way in self.traffic.ways() if way in self.found.ways and len(self.found.ways[way].green) > 1]
        if split:
            notes.append(f"{len(split)} movements are green several times in a cycle, as {self._moving(split[0])}; "
                         "the longest of them is kept")
        notes += [*self.giving.notes(self._moving), *self.following.notes()]
        dark = [way for way in self.traffic.ways() if self._dark(way)]
        if dark:
            notes.append(f"{len(dark)} movements at signals are never green in their program, as {self._moving(dark[0])}; "
                         "they are closed, and hold up all behind them")
        lengths = {chain[0]: sum(self.found.streets[street].length for street in chain) for chain in self.chains}
        short = [one for one, length in lengths.items() if length < self.found.streets[one].speed * self.terms.step / 3600 / 2]
        if short:
            notes.append(f"{len(short)} roads are shorter than half a cell and become one, as {rounded_text(lengths[short[0]] * 1000)} m at "
                         f"{self._called(short[0])}")
        return list(map(visible, notes))

    def _called(self, street: str) -> str:
        """What messages call a street: its own name, or where that is a map's number the name of its road."""
        return self.names[street] if street in self.found.streets and self.found.streets[street].title else street

    def _moving(self, movement: Movement) -> str:
        """What messages call a movement."""
        return " to ".join(self._called(street) for street in movement)


def rounded(value: float) -> Fraction:
    """A number to six digits."""
    return Fraction(f"{value:.6g}")


def _actuated(stage: Stage) -> dict[str, Fraction]:
    """How a green follows traffic; its least is above 0, and it ends some time."""
    return {"least": rounded(max(1, stage.least)), "most": rounded(min(HOUR, stage.most)), "gap": rounded(stage.gap)}


def _closed(road: str, kilometre: float) -> Section:
    """A road, or its end, that nobody passes."""
    return Section(("closures",), {"road": road, "from": rounded(kilometre), "capacity": 0}, in_list=True, behind="never green")


def _parts(rows: Sequence[Sequence[float]]) -> list[list[float]]:
    """Shares of each approach, of 100."""
    return [[100 * value / (sum(row) or 1) for value in row] for row in rows]


def _differ(row: Sequence[float], whole: Sequence[float]) -> bool:
    pairs = zip(_parts([row])[0], _parts([whole])[0])
    return any(abs(one - two) > 100 * CHANGED for one, two in pairs)


def _numbers(row: Sequence[float]) -> list[Fraction]:
    return list(map(rounded, row))


def _matrix(rows: Sequence[Sequence[float]]) -> list[list[Fraction]]:
    return list(map(_numbers, rows))
