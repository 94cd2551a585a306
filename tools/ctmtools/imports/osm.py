"""A map of OpenStreetMap as streets: cut by osmium, made a network by SUMO's netconvert, and read as one of SUMO."""

import os
import re
import shutil
import subprocess
import tempfile
from collections.abc import Sequence
from math import pi, sqrt
from pathlib import Path

from ..imports import osm_map, osm_roads
from ..problem import Problem, one_line
from ..program.processes import aside, called, ended
from ..study.coordinates import DEGREES, moved
from .osm_ends import Ends, drop_ways_to_nowhere, metres, middle
from .osm_map import Map, Place, Point, Way, notes_of, way_of
from .streets import Street, Streets, grouped
from .sumo import streets_of
from .sumo_net import Net, read_net

Box = tuple[float, float, float, float]  # west, south, east and north
PACKED = (".pbf", ".bz2", ".o5m")  # what osmium alone can read
WORDS = {"no-turnarounds": "true", "junctions.join": "true", "max-join-ids": "1000", "roundabouts.guess": "true",
         "tls.guess-signals": "true", "tls.discard-simple": "true", "tls.join": "true", "tls.default-type": "static",
         "osm.turn-lanes": "true", "xml-validation": "never", "xml-validation.net": "never"}
UNREAD = re.compile(r"Value of key 'maxspeed[^']*' is not numeric \(.*\) in edge '(.*)'\.")
JOINED = re.compile(r"cluster|joined")  # how the names of nodes begin that netconvert made of several
SIDEWAYS = 5.5  # m/s2, the acceleration in a turn that netconvert takes for the most
NO_LENGTH = 0.1  # metres
STOP_LINE = 25.0  # metres before a junction within which netconvert takes a signal for the junction's
GUESSED_SPEED, GUESSED_LANES = "speed", "lanes"
SAYS = {
    "left out": "ways lead nowhere and are left out",
    "gap": "gaps lie between streets that go on behind them, and stay",
    "no street": "ways are no streets: of no length, over the nodes of others, or within junctions",
    "dead end": "streets end within the map, and have a gate or an exit there",
    "barred": "ways are barred to cars and left out",
    "missing": "ways miss nodes that aren't in the file, past which they go straight",
    GUESSED_SPEED: "ways have no speed on the map, or none that says both directions, and have a guess",
    GUESSED_LANES: "ways have no number of lanes on the map, or none that says both directions, and have a guess",
    "joined": "junctions are made of several nodes, as those of carriageways side by side",
    "roundabout": "roundabouts are rings of streets, on which circulating vehicles have priority",
    "signal": "signals have a program of netconvert's, since a map has none",
    "signal left out": "signals on the map are left out, as at crossings for people on foot",
    "short": "streets are shorter than half a cell, and become one where they are no part of a longer road",
}
PACKAGES = {"netconvert": "sumo", "osmium": "osmium-tool"}  # of Debian
MOST_TOLD = 3  # lines of what a program says of its failure
SETTINGS = {"PROJ_NETWORK": "OFF", "LC_ALL": "C.UTF-8"}  # nothing is fetched, and what is said is said in English
OWN_TYPES = "SUMO_HOME"  # where another version of SUMO may have other types of roads; without it they are netconvert's own


def box_of(text: str) -> Box:
    """The box that a text of four numbers says."""
    try:
        west, south, east, north = (float(part) for part in text.split(","))
    except ValueError:
        raise Problem(f"--box: expected west,south,east,north in degrees, found \"{text}\"") from None
    if not (-180 <= west < east <= 180 and -90 <= south < north <= 90):
        raise Problem(f"--box: expected a west below the east from -180 to 180, and a south below the north from -90 to 90, found "
                      f"\"{text}\"; a box over the date line is two")
    return west, south, east, north


def read_map(path: str, classes: Sequence[str], box: Box | None, step: float) -> tuple[Streets, list[Place]]:
    """The streets of a map file, or of a box of it, with roads of some classes, and what became of it place by place.

    A step has so many seconds.
    """
    where = path if box is None else f"{path}: box {','.join(f'{value:g}' for value in box)}"
    with tempfile.TemporaryDirectory() as folder:
        found = osm_map.read(_xml(path, box, Path(folder)), where)
        ways, barred = osm_roads.chosen(found, classes, where)
        network, said = Path(folder) / "map.net.xml", Path(folder) / "roads.osm.xml"
        osm_map.write(found, ways, said)
        words = [word for name, value in WORDS.items() for word in (f"--{name}", value)]
        heard = call("netconvert", ["--osm-files", str(said), "--output-file", str(network), *words], path)
        net = read_net(network)
    by_name = {way.name: way for way in ways}
    add_rings(net, by_name)
    reader = Reader(found, by_name, net, path)
    reader.read(box or found.bounds)
    reader.tell_guesses(set(UNREAD.findall(heard)))
    reader.tell_ways(barred)
    reader.tell_short(step)
    reader.streets.notes += notes_of(reader.places, SAYS)
    return reader.streets, reader.places


def _xml(path: str, box: Box | None, folder: Path) -> Path:
    """The map as XML: the file itself, or what osmium makes of it."""
    if not Path(path).is_file():
        raise Problem(f"{path}: there is no such file")
    source = Path(path)
    if box is not None:
        cut = folder / ("box.osm.pbf" if source.suffix in PACKED else "box.osm")
        call("osmium", ["extract", "--bbox", ",".join(f"{value:.7f}" for value in box), path, "-o", str(cut)], path)
        source = cut
    if source.suffix in PACKED:
        roads = folder / "map.osm"
        call("osmium", ["tags-filter", str(source), "w/highway", "r/type=restriction", "-o", str(roads)], path)
        return roads
    return source


def add_rings(net: Net, ways: dict[str, Way]) -> None:
    """Puts the map's roundabouts of one or two arms, which netconvert takes for none, among those of its network."""
    known = {name for names in net.roundabouts for name in names}
    for name, edges in grouped(net.edges, lambda edge: way_of(edge.name, ways).name).items():
        if osm_roads.is_ring(ways[name]) and known.isdisjoint(edge.name for edge in edges):
            net.roundabouts.append(frozenset(edge.name for edge in edges))
            net.ring_nodes.append([edge.start for edge in edges])


class Reader:
    """Makes streets of a network that netconvert made of a map, and says what became of the map."""

    def __init__(self, found: Map, ways: dict[str, Way], net: Net, path: str) -> None:
        self.map, self.ways, self.net, self.path = found, ways, net, path
        self.places: list[Place] = []
        self.radii: dict[str, float] = {}  # in metres, of the roundabouts whose speed is by it
        self.streets = streets_of(net, path)
        self.streets.title = re.sub(r"\.(gz|bz2|pbf|o5m|xml|osm)\b", "", Path(path).name)
        if not self.streets.streets:
            raise Problem(f"{path}: netconvert made no street for cars of it")

    def read(self, bounds: Box | None) -> None:
        """Names the streets, puts their points where they lie, and drops those that lead nowhere."""
        crs = self.streets.crs or DEGREES
        for name, street in self.streets.streets.items():
            street.title = way_of(name, self.ways).title
            street.speed = round(street.speed, 1)  # which netconvert has in m/s
            street.points = moved(street.points, crs, DEGREES, self.path)
        self.streets.crs = DEGREES
        ends = Ends(self.streets, bounds or osm_map.reach(self.map.nodes[node] for way in self.ways.values() for node in way.nodes))
        self._tell_vanished()
        self.places += ends.gaps()
        self.places += drop_ways_to_nowhere(self.streets, ends)
        if not self.streets.streets:
            raise Problem(f"{self.path}: no road leads from an end of a street to another, so no vehicle could drive there")
        self.places += ends.within()
        for ring in self.net.ring_nodes:
            self._take_roundabout(ring)
        self._tell_junctions()
        self._tell_signals()

    def _tell_vanished(self) -> None:
        """Says of which ways netconvert made no street: of no length, over the nodes of others, or within junctions."""
        there = {way_of(name, self.ways).name for name in self.streets.streets}
        over = {frozenset(self.ways[name].nodes): self.ways[name].title for name in there}
        for way in self.ways.values():
            if way.name not in there:
                points = [self.map.nodes[node] for node in way.nodes]
                why = "it has no length" if sum(map(metres, points, points[1:])) < NO_LENGTH else \
                    f"{over[frozenset(way.nodes)]} lies over the same nodes" if frozenset(way.nodes) in over else \
                    "it lies within a junction"
                self.places.append(Place("no street", way.title, points[0], why))

    def _at(self, node: str) -> Point:
        """Where a node of the network lies."""
        if node in self.map.nodes:
            return self.map.nodes[node]
        street = next(street for street in self.streets.streets.values() if node in (street.start, street.end))
        return street.points[0 if street.start == node else -1]

    def _by_node(self) -> dict[str, list[Street]]:
        """The streets that begin or end at each node."""
        found: dict[str, list[Street]] = {}
        for street in self.streets.streets.values():
            for node in dict.fromkeys((street.start, street.end)):
                found.setdefault(node, []).append(street)
        return found

    def _take_roundabout(self, nodes: Sequence[str]) -> None:
        """Says that a roundabout is a ring of streets, which have the speed of its radius where the map says none."""
        own = [street for street in self.streets.streets.values() if street.start in nodes and street.end in nodes]
        if not own:
            return
        round_ = sum(metres(one, two) for street in own for one, two in zip(street.points, street.points[1:]))
        at = middle([street.points[0] for street in own])
        self.places.append(Place("roundabout", own[0].title, at, f"a ring of {len(own)} streets of {round_:.0f} m in all"))
        for street in own:
            radius = round_ / 2 / pi
            if not osm_roads.says(way_of(street.name, self.ways), osm_roads.SPEEDS):
                self.radii[street.name] = radius
                street.speed = min(street.speed, round(3.6 * sqrt(SIDEWAYS * radius), 1))

    def _tell_junctions(self) -> None:
        """Says which junctions netconvert made of several nodes."""
        for node, streets in self._by_node().items():
            if JOINED.match(node):
                names = " and ".join(sorted({street.title for street in streets}))
                self.places.append(Place("joined", names, self._at(node), f"netconvert's {node} is one junction"))

    def _tell_signals(self) -> None:
        """Says which program each signal has, and which signals of the map have none."""
        by_node = self._by_node()
        controlled = [node for node in by_node if node in self.streets.programs]
        kept: set[str] = set()
        for node in controlled:
            cycle = self.streets.programs[node].cycle
            names = " and ".join(sorted({street.title for street in by_node[node]}))
            self.places.append(Place("signal", names, self._at(node), f"a fixed program of netconvert's with a cycle of {cycle:g} s"))
            kept |= set(re.findall(r"-?\d+", node)) | {node}
            kept |= {other for street in by_node[node] for other in (street.start, street.end) if 1000 * street.length <= STOP_LINE}
        titles = {node: way.title for way in self.ways.values() for node in way.nodes if node in self.map.signals}
        for node in sorted(titles.keys() - kept):
            self.places.append(Place("signal left out", titles[node], self.map.nodes[node], "no junction there has a program"))

    def tell_guesses(self, unread: set[str]) -> None:
        """Says of which ways the speed or the lanes are a guess; of `unread` netconvert couldn't read the speed."""
        for name, own in grouped(self.streets.streets.values(), lambda street: way_of(street.name, self.ways).name).items():
            way = self.ways[name]
            fast = own if name in unread else _unsaid(way, own, osm_roads.SPEEDS)
            if fast:
                by = f" by a radius of {self.radii[fast[0].name]:.0f} m" if fast[0].name in self.radii else \
                    f" by the class {way.kind}" if name in unread else _by(way, osm_roads.SPEEDS)
                self.places.append(Place(GUESSED_SPEED, way.title, fast[0].points[0], f"{fast[0].speed:.0f} km/h{by}"))
            wide = own if osm_roads.parted(way) else _unsaid(way, own, osm_roads.LANES)
            if wide:
                lanes = " and ".join(str(count) for count in dict.fromkeys(street.lanes for street in wide))
                by = f" of the {way.tags['lanes']} of both directions" if osm_roads.parted(way) else _by(way, osm_roads.LANES)
                self.places.append(Place(GUESSED_LANES, way.title, wide[0].points[0], lanes + by))

    def tell_ways(self, barred: Sequence[Way]) -> None:
        """Says which ways are barred to cars, and which miss nodes."""
        for way in barred:
            self.places.append(Place("barred", way.title, self.map.nodes[way.nodes[0]], "cars may not use it"))
        for way in self.ways.values():
            whole = self.map.ways[way.name].nodes
            if len(whole) > len(way.nodes):
                self.places.append(Place("missing", way.title, self.map.nodes[way.nodes[0]],
                                         f"{len(whole) - len(way.nodes)} of its {len(whole)} nodes aren't in the file"))

    def tell_short(self, step: float) -> None:
        """Says which streets are shorter than half a cell, so that each that isn't part of a longer road becomes one."""
        for street in self.streets.streets.values():
            cell = street.speed * step / 3600
            if street.length < cell / 2:
                self.places.append(Place("short", street.title, street.points[0], f"{1000 * street.length:.0f} m, and a cell has "
                                         f"{1000 * cell:.0f} m"))


def _unsaid(way: Way, own: Sequence[Street], keys: Sequence[str]) -> list[Street]:
    """Those of a way's streets of whose direction it says none of some keys."""
    return [street for street in own if not osm_roads.says_of(way, keys, back=street.name.startswith(f"-{way.name}"))]


def _by(way: Way, keys: Sequence[str]) -> str:
    """By what a guess is made of what a way says none of some keys of."""
    return ", of the direction of which the map says none" if osm_roads.says(way, keys) else f" by the class {way.kind}"


def call(program: str, words: Sequence[str], source: str) -> str:
    """What a program says as it works; where it fails, its own words are reported of the source, the file that it is about."""
    path = shutil.which(program)
    if path is None:
        raise Problem(f"{program}, which reads {source}, isn't installed: sudo apt-get install {PACKAGES[program]}")
    around = {name: value for name, value in os.environ.items() if name != OWN_TYPES}
    with called([path, *words], env={**around, **SETTINGS}, stdin=subprocess.DEVNULL, stdout=subprocess.PIPE,
                stderr=subprocess.STDOUT) as process:
        assert process.stdout  # it is a pipe
        out = aside(process.stdout.read)
        status = ended(process, out)
    said = out.result().decode("utf-8", "replace")
    if status:
        raise Problem(f"{source}: {program} failed with status {status}: {_cause(said)}")
    return said


def _cause(said: str) -> str:
    """The lines in which a program says why it failed: from the first that names an error on, else the last ones."""
    lines = [line.strip() for line in said.splitlines() if line.strip() and not line.startswith("Warning")]
    first = next((place for place, line in enumerate(lines) if "error" in line.lower()), max(0, len(lines) - MOST_TOLD))
    return one_line("; ".join(lines[first:first + MOST_TOLD])) or "it doesn't say why"
