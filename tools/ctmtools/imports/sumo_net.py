"""What a network file of SUMO, NET.net.xml, says: edges with the lanes for motor vehicles, connections, signals, nodes."""

from __future__ import annotations

import gzip
import math
import re
import zlib
from collections.abc import Iterable, Iterator
from contextlib import contextmanager
from dataclasses import dataclass, field
from pathlib import Path
from xml.etree import ElementTree

from ..files.unpacking import BinaryInput, opened
from ..problem import Problem, one_line, reason

CAR = "passenger"
MOTOR = frozenset(["private", "emergency", "authority", "army", "vip", CAR, "hov", "taxi", "bus", "coach", "delivery",
                   "truck", "trailer", "motorcycle", "moped", "evehicle", "custom1", "custom2"])  # classes of vehicles
FUNCTIONS = ("normal", "connector")  # of the edges that are streets
YES = ("true", "1", "yes", "on", "x", "t")  # as SUMO has it
GAP = 3.0  # s, SUMO's `max-gap` of actuated signals
INTERNAL = ":"  # before the names of edges and nodes within a junction
# What a parser and an unpacker raise, the first also for an encoding that they don't know.
UNREADABLE = (ElementTree.ParseError, LookupError, ValueError, EOFError, gzip.BadGzipFile, zlib.error)
Element = ElementTree.Element
Points = list[tuple[float, float]]  # in m
CLOCK = re.compile(r"(?:(?P<days>\d+):)?(?P<hours>\d+):(?P<minutes>\d+):(?P<seconds>\d+(?:\.\d*)?)")


@dataclass(frozen=True)
class Lane:
    """A lane: its number from the right, its length in m, its speed in m/s, and the classes of vehicles that may use it."""

    index: int
    length: float
    speed: float
    classes: frozenset[str]


@dataclass(frozen=True)
class Edge:
    """An edge from a node to another, with its lanes for motor vehicles and its shape.

    Without a shape of its own that is the way from node to node.
    """

    name: str
    start: str
    end: str
    lanes: list[Lane]
    shape: Points


@dataclass(frozen=True)
class Link:
    """A connection from an edge's lane into another edge, with its signal and its number there where it has one.

    `via` is the lane within the junction over which it leads, where the network has such lanes; of two the second. `turn` is the
    letter of where it turns.
    """

    source: str
    into: str
    lane: int
    signal: str
    index: int
    state: str
    via: str
    turn: str = "s"


@dataclass(frozen=True)
class LogicPhase:
    """A phase of a signal: how long it lasts, the state of all links, and its least and most where it follows traffic, in s."""

    lasting: float
    state: str
    least: float
    most: float


@dataclass(frozen=True)
class Logic:
    """A program of a signal: its sort, offset in s, its phases, and where they follow traffic how long they go on behind it."""

    name: str
    sort: str
    offset: float
    phases: list[LogicPhase]
    gap: float


@dataclass(frozen=True)
class Node:
    """A node: where it stands in m, its sort, and the lanes within it, each with the ones to which it gives way."""

    place: tuple[float, float]
    sort: str
    yields: dict[str, frozenset[str]] = field(default_factory=dict)


@dataclass(frozen=True)
class Location:
    """Where a network lies: what was added to the coordinates of its projection, in m, and the projection."""

    offset: tuple[float, float]
    projection: str


@dataclass
class Net:
    """A network of SUMO, in the order of its file; of each roundabout the edges and the nodes. In some one drives on the left."""

    name: str
    edges: list[Edge] = field(default_factory=list)
    links: list[Link] = field(default_factory=list)
    logics: list[Logic] = field(default_factory=list)
    nodes: dict[str, Node] = field(default_factory=dict)
    roundabouts: list[frozenset[str]] = field(default_factory=list)
    ring_nodes: list[list[str]] = field(default_factory=list)
    on_the_left: bool = False
    location: Location | None = None


def read_xml(path: str | Path, *tags: str) -> Element:
    """The root of an XML file, which has to be of one of some tags."""
    check_root(path, *tags)
    with reading(path) as file:
        return ElementTree.parse(file).getroot()


def check_root(path: str | Path, *tags: str) -> Element:
    """The first element of a file with its attributes alone; refuses one that is no XML, or is of none of some tags."""
    root = next(elements(path, "start"))
    if root.tag not in tags:
        raise Problem(f"{path}: expected <{'> or <'.join(tags)}>, found <{root.tag}>")
    return root


def elements(path: str | Path, event: str, told: str | None = None) -> Iterator[Element]:
    """The elements of an XML file as they "start" or "end"; where it is none, the problem of the file that is `told`."""
    with reading(path, told) as file:
        for _, element in ElementTree.iterparse(file, events=(event,)):
            yield element


@contextmanager
def reading(path: str | Path, told: str | None = None) -> Iterator[BinaryInput]:
    """The file of some XML to be parsed; where it is none, the problem of the file that is `told`."""
    try:
        with opened(path) as file:
            yield file
    except UNREADABLE as error:
        raise Problem(f"{told or path}: no XML: {one_line(error)}") from None
    except OSError as error:
        raise Problem(f"{told or path}: {reason(error)}") from None


def read_net(path: str | Path) -> Net:
    """The network in a file, which has its name."""
    root = read_xml(path, "net")
    try:
        return _net(root, Path(path).name.removesuffix(".gz").removesuffix(".xml").removesuffix(".net"))
    except ValueError as error:
        raise Problem(f"{path}: expected a number: {one_line(error)}") from None


def _net(root: Element, name: str) -> Net:
    nodes = {node.get("id", ""): _node(node) for node in root.iter("junction") if not node.get("id", "").startswith(INTERNAL)}
    edges = [_edge(edge, nodes) for edge in root.iter("edge") if edge.get("function", "normal") in FUNCTIONS]
    onward = {f"{link.get('from')}_{link.get('fromLane')}": link.get("via", "") for link in root.iter("connection")
              if link.get("from", "").startswith(INTERNAL) and link.get("via")}
    links = [_link(link, onward) for link in root.iter("connection") if not link.get("from", "").startswith(INTERNAL)]
    logics = [_logic(logic) for logic in root.iter("tlLogic")]
    where = root.find("location")
    rings = list(root.iter("roundabout"))
    return Net(name, edges, links, logics, nodes, [frozenset(ring.get("edges", "").split()) for ring in rings],
               [ring.get("nodes", "").split() for ring in rings], root.get("lefthand") in YES,
               None if where is None else _location(where))


def _location(where: Element) -> Location | None:
    """Where a network lies; nowhere where its coordinates are of no projection."""
    projection = where.get("projParameter", "!")
    if projection in ("!", "-", ""):
        return None
    x, y = map(float, where.get("netOffset", "0,0").split(",")[:2])
    return Location((x, y), projection)


def _edge(edge: Element, nodes: dict[str, Node]) -> Edge:
    lanes = [Lane(int(lane.get("index", 0)), float(lane.get("length", 0)), float(lane.get("speed", 0)), classes)
             for lane in edge.iter("lane") if (classes := _allowed(lane))]
    places = [tuple(map(float, place.split(","))) for place in edge.get("shape", "").split()]
    start, end = edge.get("from", ""), edge.get("to", "")
    shape = [(x, y) for x, y, *_ in places] or [nodes[node].place for node in (start, end) if node in nodes]
    return Edge(edge.get("id", ""), start, end, lanes, shape)


def _allowed(lane: Element) -> frozenset[str]:
    """The classes of motor vehicles that may use a lane."""
    allowed, barred = lane.get("allow", "").split(), lane.get("disallow", "").split()
    return _motor(allowed) if allowed else MOTOR - _motor(barred)


def _motor(classes: Iterable[str]) -> frozenset[str]:
    """The motor vehicles among some classes, which `all` stands for."""
    named = set(classes)
    return MOTOR if "all" in named else MOTOR & named


def _node(node: Element) -> Node:
    requests = {int(request.get("index", 0)): request.get("response", "") for request in node.iter("request")}
    return Node((float(node.get("x", 0)), float(node.get("y", 0))), node.get("type", ""),
                _yields(node.get("intLanes", "").split(), requests))


def _yields(lanes: list[str], responses: dict[int, str]) -> dict[str, frozenset[str]]:
    """To which lanes of a node each gives way, by its response: one letter for each lane, the last for the first."""
    found = {}
    for index, response in responses.items():
        if index < len(lanes) and "1" in response:
            found[lanes[index]] = frozenset(lane for lane, letter in zip(lanes, reversed(response)) if letter == "1")
    return found


def _link(link: Element, onward: dict[str, str]) -> Link:
    via = link.get("via", "")
    return Link(link.get("from", ""), link.get("to", ""), int(link.get("fromLane", 0)), link.get("tl", ""),
                max(0, int(link.get("linkIndex", 0))), link.get("state", "M"), onward.get(via, via), link.get("dir", "s"))


def _logic(logic: Element) -> Logic:
    phases = [_phase(phase) for phase in logic.iter("phase")]
    params = {param.get("key"): param.get("value") for param in logic.iter("param")}
    return Logic(logic.get("id", ""), logic.get("type", "static"), float(logic.get("offset", 0)), phases,
                 float(params.get("max-gap") or GAP))


def _phase(phase: Element) -> LogicPhase:
    """A phase; without a least or a most it lasts as long as it says, and a negative one is none."""
    lasting = float(phase.get("duration", 0))
    least, most = (float(phase.get(word, -1)) for word in ("minDur", "maxDur"))
    return LogicPhase(lasting, phase.get("state", ""), lasting if least < 0 else least, lasting if most < 0 else most)


def seconds_of(text: str, key: str) -> float:
    """The seconds that a text spells: `1800`, `00:30:00`, or with days before it `0:00:30:00`."""
    clock = CLOCK.fullmatch(text.strip())
    if clock:
        days, hours, minutes = (int(clock[name] or 0) for name in ("days", "hours", "minutes"))
        return ((days * 24 + hours) * 60 + minutes) * 60 + float(clock["seconds"])
    return amount_of(text, key, "seconds or a clock time such as 00:30:00")


def amount_of(text: str, key: str, expected: str = "a number of 0 or more") -> float:
    """The number that a text spells, which isn't negative."""
    try:
        found = math.nan if "_" in text else float(text)  # Python takes 1_000 for a number
    except ValueError:
        found = math.nan
    if not 0 <= found < math.inf:
        raise Problem(f"{key}: expected {expected}, found \"{text}\"")
    return found
