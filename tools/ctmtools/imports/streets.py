"""A street network of another program: its streets, the movements between them, its signals, and who drives where."""

from __future__ import annotations

from collections import defaultdict
from collections.abc import Callable, Collection, Iterable, Mapping
from dataclasses import dataclass, field
from typing import TypeVar

import networkx

Movement = tuple[str, str]  # a street and the one that it leads into
Span = tuple[float, float]  # from and to, in seconds
CARS = frozenset({"passenger"})  # the classes of vehicles that may use a street or a movement, where no others are known


@dataclass
class Street:
    """A street in one direction between two nodes: km, lanes, km/h, and its points on the map.

    These are in km, or in the coordinate system of the network. `capacity` is that of all lanes in vehicles/h, where it
    is known; `classes` are those of the vehicles that may use it; `title` is what it is called on the map, where it is.
    `by_lane` has the speed of each lane that counts, where the lanes are known.
    """

    name: str
    start: str
    end: str
    length: float
    lanes: int
    speed: float
    points: list[tuple[float, float]] = field(default_factory=list)
    capacity: float | None = None
    classes: frozenset[str] = CARS
    title: str = ""
    by_lane: dict[str, float] = field(default_factory=dict)

    @property
    def seconds(self) -> float:
        """How long driving through takes at free flow."""
        return self.length / self.speed * 3600


LEFT, THROUGH, RIGHT = "left", "through", "right"  # where a movement turns, where one drives on the right
GIVE_WAY, STOP, ALL_STOP, ZIPPER = "give_way", "stop", "all_way_stop", "zipper"  # how a movement gives way to others


@dataclass
class Connection:
    """A movement at a node: its lanes, its priority where it meets others, and when in the cycle it is green.

    `yields` are the movements to which it has to give way, at a signal those that are green while it is, and `permitted` when in
    the cycle it is green for who gives way. It `turns`, and where it gives way it does so by a sort of `control`. `ring` are the
    lanes of the roundabout that it enters, 0 where it enters none.
    """

    lanes: int
    priority: float
    green: list[Span] = field(default_factory=list)
    classes: frozenset[str] = CARS
    yields: set[Movement] = field(default_factory=set)
    permitted: list[Span] = field(default_factory=list)
    turns: str = THROUGH
    control: str = GIVE_WAY
    ring: int = 0


@dataclass(frozen=True)
class Stage:
    """A green of a signal whose greens follow traffic: when it begins, how long it lasts, its least and most, in s.

    `gap` is the time for which a green goes on behind who waited.
    """

    start: float
    lasting: float
    least: float
    most: float
    gap: float


@dataclass
class Program:
    """The signal of a node: the length of its cycle, and when the first one begins, in s.

    Where its greens follow traffic, it has `stages`. Nodes of one `signal` have one program.
    """

    cycle: float
    offset: float
    stages: list[Stage] = field(default_factory=list)
    signal: str = ""


@dataclass
class Trip:
    """Vehicles that take one route, evenly between two times in s."""

    route: list[str]
    begin: float
    end: float
    vehicles: float


@dataclass(frozen=True)
class SpeedSpan:
    """A speed limit of a street in km/h between two times in s: of the network, or `by_clock` after midnight of each day."""

    street: str
    begin: float
    end: float
    speed: float
    by_clock: bool = False


@dataclass(frozen=True)
class Said:
    """Vehicles that a file says: their class, from when to when in s they come, and how many of them are kept.

    Those without a time of departure have none.
    """

    kind: str
    begin: float | None
    end: float
    vehicles: float
    kept: float


@dataclass
class Streets:
    """The network, the trips over it, and a line for each thing in which what is read can't be kept.

    `said` is what the files say of vehicles, whether they are kept or not; `crs` the coordinate system of the streets'
    points, where that is known.
    """

    title: str
    streets: dict[str, Street] = field(default_factory=dict)
    ways: dict[Movement, Connection] = field(default_factory=dict)
    programs: dict[str, Program] = field(default_factory=dict)
    trips: list[Trip] = field(default_factory=list)
    notes: list[str] = field(default_factory=list)
    shares: dict[Movement, float] = field(default_factory=dict)  # where these are known and no trips are
    gates: dict[str, list[tuple[float, float, float]]] = field(default_factory=dict)  # from, to, vehicles/h, with them
    said: list[Said] = field(default_factory=list)
    crs: str | None = None
    limits: list[SpeedSpan] = field(default_factory=list)


Item = TypeVar("Item")


def grouped(items: Iterable[Item], name: Callable[[Item], str]) -> Mapping[str, list[Item]]:
    """The items of each name, in their order; none of a name that no item has."""
    found: dict[str, list[Item]] = defaultdict(list)
    for item in items:
        found[name(item)].append(item)
    return found


def reached(graph: networkx.DiGraph, starts: Collection[str]) -> set[str]:
    """What is reached in a graph from some starts, with these."""
    return {name for layer in networkx.bfs_layers(graph, starts) for name in layer} if starts else set()
