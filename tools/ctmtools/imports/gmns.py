"""A network in GMNS, a folder of CSV files: node, link, movement, and the tables of signals, with demand beside them."""

from __future__ import annotations

import re
from collections.abc import Mapping
from math import inf
from pathlib import Path

from ..problem import Problem
from ..texts.quantities import DAY, MILE
from ..texts.text_table import first_few
from .gmns_places import Places
from .gmns_tables import ZONAL, Row, once, read_table
from .streets import ALL_STOP, GIVE_WAY, STOP, Connection, Movement, Program, Said, Span, SpeedSpan, Street, Streets, grouped
from .sumo import always, joined
from .turning import meet, turn_of

KILOMETRES = {"km": 1.0, "kilometer": 1.0, "kilometers": 1.0, "kilometre": 1.0, "kilometres": 1.0, "m": 0.001, "meter": 0.001,
              "meters": 0.001, "metre": 0.001, "metres": 0.001, "mi": float(MILE), "mile": float(MILE), "miles": float(MILE),
              "ft": 0.0003048, "foot": 0.0003048, "feet": 0.0003048}
SPEEDS = {"kph": 1.0, "km/h": 1.0, "kmh": 1.0, "mph": float(MILE), "m/s": 3.6}
CARS = re.compile(r"(?i)auto|car|all|motor|^\s*$|vehicle")
SIGNAL = "signal"
CONTROLS = {"": "", "no_control": "", SIGNAL: "", "yield": GIVE_WAY, "stop": STOP, "stop_2_way": STOP, "stop_4_way": ALL_STOP}
# The days of the week from Sunday on, and perhaps holidays; from when to when.
TIME_DAY = re.compile(r"(?P<days>[01]{7,8})_(?P<h1>\d\d)(?P<m1>\d\d)_(?P<h2>\d\d)(?P<m2>\d\d)")
USUAL = 50.0  # km/h, of a link that doesn't say its speed
BACK = "_back"  # behind the name of the street against the direction of a link that isn't directed
MOVED = ("mvmt_id", "ib_link_id", "ob_link_id")
LANES = {"lane": ("lane_num",), "movement": ("start_ib_lane", "end_ib_lane", "start_ob_lane", "end_ob_lane")}  # their numbers


def read_folder(folder: str | Path, until: float = inf, links: bool = True) -> Streets:
    """The streets of a folder of GMNS files, with the shares of its movements and the demand of its links until a time.

    Where trips between zones take its place, `links` is false.
    """
    reader = Reader(Path(folder), until)
    reader.links()
    reader.movements()
    reader.signals()
    reader.uncontrolled()
    if links:
        reader.demand()
    reader.by_time()
    return reader.found


class Reader:
    """Reads the tables one by one."""

    def __init__(self, folder: Path, until: float) -> None:
        self.folder, self.until = folder, until
        self.found = Streets(folder.resolve().name)
        config = next(iter(read_table(folder, "config")), Row(folder / "config.csv", 2, {}))
        self.kilometre = _unit(config, "long_length", KILOMETRES)
        self.speed = _unit(config, "speed", SPEEDS) or 1.0
        self.nodes = once(read_table(folder, "node", needed=True), "node_id")
        self.places = Places(config, self.nodes)
        self.pairs: dict[str, Movement | None] = {}  # the streets of each movement's name; none where cars may not use them
        self.left: set[str] = set()  # links that cars may not use
        self.yielding: set[Movement] = set()  # movements that give way by their ctrl_type
        self.at: Mapping[str, list[Movement]] = {}  # the movements of each node
        self.unsaid: dict[str, str] = {}  # the control of nodes that don't say who gives way
        self.signalled: set[str] = set()  # nodes of which a movement has a signal

    def links(self) -> None:
        """The links in one direction; one that isn't directed makes two streets."""
        rows = once(read_table(self.folder, "link", needed=True), "link_id")
        ways = {name: self.places.line(row) for name, row in rows.items()}
        lengths = {name: row.number("length", 0.0, 0.0) for name, row in rows.items()}
        self.places.settle(ways, lengths, self.kilometre)
        speedless = 0
        for name, row in rows.items():
            if not CARS.search(row.text("allowed_uses")):
                self.left.add(name)
                continue
            self._street(row, name, ways[name], lengths[name])
            speedless += not row.text("free_speed")
        self.found.crs = self.places.code
        self.found.notes += self.places.notes
        for count, says in ((len(self.left), "links that cars may not use are left out"),
                            (speedless, f"links have no free_speed; {USUAL:g} km/h are taken")):
            if count:
                self.found.notes.append(f"{count} {says}")

    def _street(self, row: Row, name: str, way: list[tuple[float, float]], length: float) -> None:
        lanes = row.number("lanes", 1.0)
        kilometres = length * (self.kilometre or 1.0) or self.places.kilometres(way)
        speed = row.number("free_speed", USUAL / self.speed) * self.speed
        if lanes < 1 or speed <= 0 or kilometres <= 0:
            raise Problem(f"{row.key()}: link {name}: lanes, free_speed and length must be above 0")
        if lanes % 1:
            raise Problem(f"{row.key('lanes')}: expected a whole number, found \"{row.text('lanes')}\"")
        capacity = row.number("capacity", 0.0, 0.0) * lanes or None
        ends = row.text("from_node_id"), row.text("to_node_id")
        points = self.places.points(way)
        self.found.streets[name] = Street(name, *ends, kilometres, int(lanes), speed, points, capacity)
        if not row.yes("directed", True):
            self.found.streets[name + BACK] = Street(name + BACK, *ends[::-1], kilometres, int(lanes), speed, points[::-1],
                                                     capacity)

    def movements(self) -> None:
        """The movements; where there are none, all but the way back is allowed at each node."""
        rows = read_table(self.folder, "movement")
        has_0 = any(row.number(column, 1.0) == 0 for name, columns in LANES.items() for row in read_table(self.folder, name)
                    for column in columns)
        for name, row in once(rows, "mvmt_id").items():
            pair = self.pairs[name] = self._pair(row)
            if pair is None:
                continue
            lanes = lanes_between(row.number("start_ib_lane", 1.0), row.number("end_ib_lane", 1.0), has_0)
            control = self._control(row, pair)
            way = self.found.ways.setdefault(pair, Connection(0, 0))  # of several movements by lanes from link to link
            way.lanes, way.priority = way.lanes + lanes, way.priority + lanes * (1 if control else 4)
            way.turns = turn_of(row.text("type"), self.found.streets[pair[0]], self.found.streets[pair[1]])
            if control:
                self.yielding.add(pair)
                way.control = control
            if row.text("share"):
                self.found.shares[pair] = self.found.shares.get(pair, 0.0) + row.number("share", least=0.0)
        self.at = grouped(self.found.ways, lambda pair: self.found.streets[pair[0]].end)
        self._yields()
        self._check_shares(rows)
        if not rows:
            self.found.notes.append("there is no movement.csv: at each node all movements but turning back are taken")
            leaving = grouped(self.found.streets.values(), lambda street: street.start)
            for one in self.found.streets.values():
                for two in leaving[one.end]:
                    if one.start != two.end:
                        self.found.ways[one.name, two.name] = Connection(min(one.lanes, two.lanes), one.lanes)

    def _control(self, row: Row, pair: Movement) -> str:
        """How a movement gives way, by itself or by a node at which all stop; empty where it doesn't."""
        node = self.nodes[self.found.streets[pair[0]].end]
        for one in (row, node):
            if one.text("ctrl_type").lower() not in CONTROLS:
                raise Problem(f"{one.key('ctrl_type')}: expected {', '.join(filter(None, CONTROLS))} or nothing, found "
                              f"\"{one.text('ctrl_type')}\"")
        if SIGNAL in (row.text("ctrl_type").lower(), node.text("ctrl_type").lower()):
            self.signalled.add(node.text("node_id"))
        own, whole = (CONTROLS[one.text("ctrl_type").lower()] for one in (row, node))
        if not row.text("ctrl_type") and whole in (GIVE_WAY, STOP):
            self.unsaid.setdefault(node.text("node_id"), node.text("ctrl_type"))
        return whole if whole == ALL_STOP and not row.text("ctrl_type") else own

    def _yields(self) -> None:
        """To whom those give way who do: to all whom they meet, but those who give way themselves."""
        for pair in self.yielding:
            way, others = self.found.ways[pair], self._others(pair)
            way.yields |= others if way.control == ALL_STOP else others - self.yielding
        without = sorted(pair for pair in self.yielding if not self.found.ways[pair].yields and self._others(pair))
        if without:
            self.found.notes.append(f"{len(without)} movements give way by their ctrl_type, and so do all that they meet, so none "
                                    f"has priority: {first_few([' to '.join(pair) for pair in without])}")

    def uncontrolled(self) -> None:
        """Says at which nodes all drive freely though they have a ctrl_type: signals without times, and who gives way unsaid."""
        if not self.pairs:
            controls = {name: self.nodes[name].text("ctrl_type") for name in
                        dict.fromkeys(self.found.streets[one].end for one, _ in self.found.ways)}
            self.signalled |= {name for name, control in controls.items() if control.lower() == SIGNAL}
            self.unsaid = {name: control for name, control in controls.items() if CONTROLS.get(control.lower())}
        untimed = sorted(self.signalled - self.found.programs.keys())
        if untimed:
            self.found.notes.append(f"{len(untimed)} nodes have ctrl_type {SIGNAL} and no times of one, so all movements are green at "
                                    f"all times and the delay is too low: {first_few(untimed)}")
        if self.unsaid:
            self.found.notes.append(f"{len(self.unsaid)} nodes have a ctrl_type, as {first_few(dict.fromkeys(self.unsaid.values()))}, and "
                                    f"no movement that says which gives way: {first_few(self.unsaid)}")

    def _check_shares(self, rows: list[Row]) -> None:
        """Refuses a movement without a share whose link has others with one, since by lanes it would be another measure."""
        shared = {pair[0] for pair in self.found.shares}
        for row in rows:
            pair = self.pairs[row.text("mvmt_id")]
            if pair is not None and not row.text("share") and pair[0] in shared:
                raise Problem(f"{row.key('share')}: is empty, and other movements from link {pair[0]} have one")

    def _pair(self, row: Row) -> Movement | None:
        """The streets of a movement, which meet at a node; none where cars may not use one of its links."""
        names = [row.text(column) for column in MOVED[1:]]
        for column, name in zip(MOVED[1:], names):
            if name not in self.found.streets and name not in self.left:
                raise Problem(f"{row.key(column)}: there is no link {name}")
        if self.left & set(names):
            return None
        streets = self.found.streets
        for one in (names[0], names[0] + BACK):
            for two in (names[1], names[1] + BACK):
                if one in streets and two in streets and streets[one].end == streets[two].start and \
                        row.text("node_id") in ("", streets[one].end):
                    return one, two
        where = f"node {row.text('node_id')}" if row.text("node_id") else "a node"
        raise Problem(f"{row.key()}: link {names[0]} doesn't lead to {where} at which {names[1]} begins")

    def _others(self, pair: Movement) -> set[Movement]:
        """The movements that come from other streets to the node of one, and meet it there."""
        ways = self.found.ways
        return {other for other in self.at[self.found.streets[pair[0]].end] if other[0] != pair[0] and
                meet(pair, ways[pair], other, ways[other])}

    def signals(self) -> None:
        """The signals of the first timing plan of each controller, each phase as long as its greatest green."""
        plans: dict[str, Row] = {}
        for row in read_table(self.folder, "signal_timing_plan"):
            if row.text("controller_id") in plans:
                self.found.notes.append(f"signal {row.text('controller_id')}: plan {row.text('timing_plan_id')} is left out, "
                                        "since the first one is kept for the whole time")
            plans.setdefault(row.text("controller_id"), row)
        offsets = {row.text("timing_plan_id"): row.number("offset", 0.0) for row in
                   read_table(self.folder, "signal_coordination")}
        phases = read_table(self.folder, "signal_timing_phase")
        served = read_table(self.folder, "signal_phase_mvmt")
        if phases and not self.pairs:
            self.found.notes.append("there is no movement.csv, so the signals aren't kept: all movements are green at all times")
            return
        self._check_signals(phases, served)
        phases_of = grouped(phases, lambda row: row.text("timing_plan_id"))
        services_of = grouped(served, lambda row: row.text("timing_phase_id"))
        for plan in plans.values():
            own = phases_of[plan.text("timing_plan_id")]
            if own:
                self._plan(plan, own, services_of, offsets.get(plan.text("timing_plan_id"), 0.0))
        always(self.found, {pair for pair, way in self.found.ways.items() if way.green})
        for pair in self.yielding:
            program = self.found.programs.get(self.found.streets[pair[0]].end)
            if program and not self.found.ways[pair].permitted:
                self.found.ways[pair].permitted = self.found.ways[pair].green

    def _check_signals(self, phases: list[Row], served: list[Row]) -> None:
        """Refuses phases of no plan, and what they serve where there is no such phase or movement."""
        plans = {row.text("timing_plan_id") for row in read_table(self.folder, "signal_timing_plan")}
        known = {row.text("timing_phase_id") for row in phases}
        for rows, column, names in ((phases, "timing_plan_id", plans), (served, "timing_phase_id", known),
                                    (served, "mvmt_id", self.pairs.keys())):
            for row in rows:
                if row.text(column) not in names:
                    raise Problem(f"{row.key(column)}: there is none of this name, \"{row.text(column)}\"")

    def _plan(self, plan: Row, phases: list[Row], services_of: Mapping[str, list[Row]], offset: float) -> None:
        """The greens of a plan's phases; `services_of` are the movements of each phase."""
        spans = phase_spans(phases)
        cycle = plan.number("cycle_length", 0.0, 0.0) or max(
            end + row.number("clearance", 0.0, 0.0) for row, (_, end) in zip(phases, spans))
        greens: dict[Movement, list[tuple[Span, bool]]] = {}
        for row, span in zip(phases, spans):
            for service in services_of[row.text("timing_phase_id")]:
                pair = self.pairs.get(service.text("mvmt_id"))
                if pair:
                    greens.setdefault(pair, []).append((span, service.text("protection").lower() == "permitted"))
        for pair, own in greens.items():
            self.found.programs[self.found.streets[pair[0]].end] = Program(cycle, offset % cycle)
            self.found.ways[pair].green = joined([span for span, _ in own], cycle)
            permitted = [span for span, yields in own if yields]
            self.found.ways[pair].permitted = joined(permitted, cycle)
            self.found.ways[pair].yields |= {other for other in self._others(pair) if any(
                one[0] < two[1] and two[0] < one[1] for one in permitted for two, _ in greens.get(other, []))}

    def demand(self) -> None:
        """The demand of links at which vehicles come in: demand.csv with link_id, start and end in s, and flow."""
        rows = read_table(self.folder, "demand")
        if rows and ZONAL[0] in rows[0].fields:
            self.found.notes.append("demand.csv has trips between zones, which --trips takes, so no vehicle comes")
            return
        for row in rows:
            name = row.text("link_id")
            if name not in self.found.streets:
                raise Problem(f"{row.key('link_id')}: " + (f"cars may not use link {name}" if name in self.left else
                                                            f"there is no link {name}"))
            start, end, flow = row.number("start", least=0.0), row.number("end", least=0.0), row.number("flow", least=0.0)
            if end <= start:
                raise Problem(f"{row.key('end')}: expected a time after the start at {start:g} s, found {end:g}")
            if start < self.until:
                self.found.gates.setdefault(name, []).append((start, min(end, self.until), flow))
            self._say(start, min(end, self.until), flow, 1.0)
            self._say(max(start, self.until), end, flow, 0.0)
        if not rows:
            self.found.notes.append("there is no demand.csv, so no vehicle comes")

    def _say(self, start: float, end: float, flow: float, kept: float) -> None:
        vehicles = flow * (end - start) / 3600
        if vehicles > 0:
            self.found.said.append(Said("all", start, end, vehicles, vehicles * kept))

    def by_time(self) -> None:
        """The speeds of links by time of a working day; notes what else the tables of links by time of day say, which isn't kept."""
        known = {"", *self.found.streets}
        for name in ("link_tod", "segment_tod"):
            rows = [row for row in read_table(self.folder, name) if row.text("link_id") in known]
            limits = [row for row in rows if row.text("free_speed")]
            left = [row for row in limits if name != "link_tod" or not self._limit(row)]
            if left:
                links = dict.fromkeys(row.text("link_id") for row in left if row.text("link_id"))
                where = f" at links {first_few(links)}" if links else ""
                self.found.notes.append(f"{name}.csv: {len(left)} speeds by time{where} are left out; of links those are kept that hold "
                                        "from Monday to Friday and are below the link's own")
            for column in ("lanes", "capacity"):
                count = sum(bool(row.text(column)) for row in rows)
                if count:
                    self.found.notes.append(f"{name}.csv: {count} rows with {column} by time are left out")

    def _limit(self, row: Row) -> bool:
        """Puts a speed by time among the speed limits, where it holds on working days and is below the link's own."""
        times = TIME_DAY.fullmatch(row.text("time_day"))
        speed = row.number("free_speed", least=0.0) * self.speed
        streets = [self.found.streets[name] for name in (row.text("link_id"), row.text("link_id") + BACK) if name in self.found.streets]
        if not times or times["days"][1:6] != "11111" or not streets or not 0 < speed < streets[0].speed:
            return False
        begin, end = (3600 * int(times[hour]) + 60 * int(times[minute]) for hour, minute in (("h1", "m1"), ("h2", "m2")))
        end += DAY if end <= begin else 0
        self.found.limits += [SpeedSpan(street.name, begin, end, speed, by_clock=True) for street in streets]
        return True


def _unit(config: Row, column: str, units: dict[str, float]) -> float | None:
    said = config.text(column).lower()
    if said and said not in units:
        raise Problem(f"{config.path}: {column}: expected {' or '.join(units)}, found {said}")
    return units[said] if said else None


def lanes_between(first: float, last: float, has_0: bool) -> int:
    """How many lanes there are from one to another, both with them: .., -2, -1, 1, 2, .., where no lane has the number 0."""
    left_out = first < 0 < last and not has_0
    return max(1, round(last - first + 1 - left_out))


def phase_spans(phases: list[Row]) -> list[Span]:
    """When in the cycle each phase is green: those of a ring one behind the other, all rings together at each barrier."""
    found: dict[int, Span] = {}
    start = 0.0
    for barrier in sorted({row.number("barrier", 1.0) for row in phases}):
        ends = [start]
        for ring in sorted({row.number("ring", 1.0) for row in phases}):
            time = start
            own = [i for i, row in enumerate(phases) if (row.number("barrier", 1.0), row.number("ring", 1.0)) == (barrier, ring)]
            for i in sorted(own, key=lambda i: phases[i].number("position", 0.0)):
                green = phases[i].number("max_green", 0.0, 0.0) or phases[i].number("min_green", 0.0, 0.0)
                found[i] = time, time + green
                time += green + phases[i].number("clearance", 0.0, 0.0)
            ends.append(time)
        start = max(ends)
    return [found[i] for i in range(len(phases))]
