"""A study as its file says it: roads, gates, exits, junctions, signals, closures, all in physical units."""

from __future__ import annotations

import datetime
from dataclasses import dataclass, field
from fractions import Fraction
from pathlib import Path

from .times import RoadPart
from .uncertainty import Uncertainty


@dataclass
class Section:
    """A stretch of a road from a kilometre on: lanes, and what holds of each lane, in km/h, vehicles/km, vehicles/h.

    `first_density` is what stands on each lane at the start, in vehicles/km; `cells` is the name before the numbers.
    """

    start: Fraction
    lanes: int
    free_flow_speed: Fraction
    wave_speed: Fraction
    jam_density: Fraction
    saturation_flow: Fraction
    first_density: Fraction
    cells: str


@dataclass
class Road:
    """A road in one direction: its length in km, its sections in the direction of travel, its points on the map in km."""

    name: str
    length: Fraction
    sections: list[Section]
    points: list[list[float]] = field(default_factory=list)


@dataclass
class Flow:
    """A flow in vehicles/h from a clock time to another, in seconds after the study's start."""

    start: Fraction
    end: Fraction
    flow: Fraction


@dataclass
class Gate:
    """Where vehicles come in: the road that it leads into, its demand, its capacity in vehicles/h where it is said.

    Where the demand is `counted` its gaps are reported with the counts.
    """

    name: str
    into: str | None = None
    demand: list[Flow] = field(default_factory=list)
    capacity: Fraction | None = None
    limits: list[Flow] = field(default_factory=list)
    first: Fraction = Fraction(0)
    counted: bool = False


@dataclass
class Exit:
    """Where vehicles go out: the road that leads to it, its capacity in vehicles/h where it is said, and limits."""

    name: str
    source: str | None = None
    capacity: Fraction | None = None
    limits: list[Flow] = field(default_factory=list)


@dataclass
class Merge:
    """Two streams into one, with what passes of each where both queue. `at` is the km of a road that a ramp joins.

    Where it says `yields_to`, the other of both gives way to that one, by `gaps`.
    """

    sources: list[str]
    into: str
    priorities: list[Fraction]
    at: Fraction | None = None
    place: str = ""
    yields_to: str | None = None
    gaps: Gaps | None = None


@dataclass
class Turn:
    """Turning shares from a time to another, in seconds after the study's start."""

    start: Fraction
    end: Fraction
    shares: list[Fraction]


@dataclass
class Diverge:
    """One stream into two, with turning shares and those by time. `at` is the km of a road that a ramp leaves.

    Where it goes `by_trips` the study leaves its shares out, and those here say nothing.
    """

    source: str
    into: list[str]
    shares: list[Fraction]
    turns: list[Turn] = field(default_factory=list)
    at: Fraction | None = None
    place: str = ""
    by_trips: bool = False


@dataclass
class Signal:
    """A signal: the road and km of its stop line or the gate, from when to when it runs, its cycle and green in s.

    `first_green` is the time after its start at which it turns green; with an `actuation` its green follows traffic.
    """

    road: str
    at: Fraction | None
    start: Fraction
    end: Fraction
    cycle: Fraction
    green: Fraction
    first_green: Fraction
    place: str
    actuation: Actuation | None = None


Matrix = list[list[Fraction]]  # a row for each approach, with a number for each way out
Movement = tuple[int, int]  # a movement of a junction: the numbers of its approach and of its way out


@dataclass(frozen=True)
class Gaps:
    """How drivers take gaps: the critical and the follow-up gap in s, the formula, and whether they only give way.

    Who stops does so where nobody comes too, so the follow-up gap bounds what passes then; who gives way is unbounded then.
    """

    critical: Fraction
    follow_up: Fraction
    formula: str
    give_way: bool = False


@dataclass(frozen=True)
class Precedence:
    """That a movement of a junction gives way to others, each with the part of its flow that counts.

    `holds` is how many vehicles the median has room for, 0 without one; `first` are those of the others that are crossed
    before it, and `stage` the gaps of each of both stages. `sneakers` are the vehicles that turn at the end of a green.
    """

    way: Movement
    others: list[tuple[Movement, Fraction]]
    gaps: Gaps
    holds: int
    first: list[Movement]
    stage: Gaps
    sneakers: Fraction
    place: str


@dataclass(frozen=True)
class Lanes:
    """So many lanes of an approach, and the roads of one cell of the movements that stand in them.

    So many vehicles find room beside each other in the `flare` before the stop line.
    """

    count: int
    roads: list[str]
    flare: int = 0


@dataclass(frozen=True)
class Stream:
    """A stream with priority: the road or the gate that it leaves, at a km or at its end, and the part that counts.

    In the second stage it is crossed behind the median. At a signal it is green from and to some seconds of the cycle, and waits
    in the lanes of its `queue`.
    """

    road: str
    at: Fraction | None = None
    part: Fraction = Fraction(1)
    second: bool = False
    green: tuple[Fraction, Fraction] | None = None
    queue: Lanes | None = None


@dataclass(frozen=True)
class Permission:
    """When a movement that gives way is green: the cycle and its offset in s, and seconds of the cycle.

    It gives way in the `permitted` spans, and is alone in the others of its `green`; `sneakers` turn at the end of each.
    """

    cycle: Fraction
    offset: Fraction
    green: tuple[Fraction, Fraction]
    permitted: list[tuple[Fraction, Fraction]]
    sneakers: Fraction


@dataclass
class Yield:
    """Who leaves a road at its end, or a gate, gives way to some streams, and what passes by time, once that is known.

    `holds` and `stage` are those of a median, as of a `Precedence`. `shared` are the lanes that it shares with other movements.
    """

    road: str
    name: str
    streams: list[Stream]
    gaps: Gaps
    place: str
    holds: int = 0
    stage: Gaps | None = None
    permission: Permission | None = None
    shared: Lanes | None = None
    capacities: list[Flow] | None = None


@dataclass(frozen=True)
class Actuation:
    """How a green follows traffic: its least and most, and how long it goes on behind those who waited, in s."""

    least: Fraction
    most: Fraction
    gap: Fraction


StopLine = tuple[str, Fraction | None]  # a road, at a km or at its end, or a gate


@dataclass(frozen=True)
class ActuatedPhase:
    """A green of a signal that follows traffic: the stop lines that have it, and the seconds from it to the next.

    Where it doesn't follow traffic it lasts `green` s.
    """

    lines: list[StopLine]
    green: Fraction
    actuation: Actuation | None
    pause: Fraction


@dataclass(frozen=True)
class ActuatedJunction:
    """The greens of a junction in their order, and the seconds after the study's start at which the first begins."""

    phases: list[ActuatedPhase]
    offset: Fraction
    place: str


@dataclass
class Phase:
    """A green of a junction: its start after that of the cycle and its length in s, and the movements that have it.

    A movement is the numbers of its approach and of its way out. Those that are `permitted` give way in it.
    """

    start: Fraction
    green: Fraction
    movements: list[Movement]
    permitted: list[Movement] = field(default_factory=list)
    actuation: Actuation | None = None


@dataclass(frozen=True)
class Pocket:
    """Lanes of the last km of an approach in which some of its movements wait, apart from all others of it.

    Without a length they begin where the approach's second cell does.
    """

    movements: list[Movement]
    lanes: int
    length: Fraction | None
    place: str

    @property
    def approach(self) -> int:
        """The number of the approach of which they are."""
        return self.movements[0][0]


@dataclass
class Crossing:
    """A junction of several approaches and ways out, with turning shares, those by time, priorities and phases.

    `priorities` and `lanes` are those of each movement, where they are said. The cycle begins `offset` s after the
    study's start; with a cycle of None there is no signal. Where `within` is true its cells are taken off the approaches.
    Where it goes `by_trips` the study leaves its shares out, and those here say which movements there are.

    Once its `pockets` are roads, these and those of the lanes beside them are its sources, and `approaches` the roads that part into
    them.
    """

    sources: list[str]
    into: list[str]
    shares: Matrix
    turns: list[tuple[Fraction, Fraction, Matrix]]
    priorities: Matrix | None
    lanes: Matrix | None
    cycle: Fraction | None
    offset: Fraction
    phases: list[Phase]
    within: bool
    place: str
    by_trips: bool = False
    yields: list[Precedence] = field(default_factory=list)
    pockets: list[Pocket] = field(default_factory=list)
    flares: dict[str, int] = field(default_factory=dict)  # by road, the vehicles that find room beside others at its end
    approaches: list[str] = field(default_factory=list)

    def approach(self, number: int) -> str:
        """The road or the gate by which those of a source come."""
        return self.approaches[number] if self.approaches else self.sources[number]


@dataclass
class Closure:
    """Lanes closed on a part of a road, or the capacity in vehicles/h that is left there."""

    part: RoadPart
    lanes: Fraction | None = None
    capacity: Fraction | None = None
    saturation_flow: Fraction | None = None


@dataclass
class Opening:
    """Lanes opened on a part of a road beside its own, as a hard shoulder."""

    part: RoadPart
    lanes: Fraction
    saturation_flow: Fraction | None = None


@dataclass
class Meter:
    """A ramp meter with feedback: the ramp, and the road and km of its detector where these are said.

    `gain` is in vehicles/h for each per cent of occupancy, `occupancy` the set point in per cent of the jam density, where
    it is said, `interval` in s, and `least` and `most`, where it is said, are rates in vehicles/h. It runs from `start` to
    `end`, in seconds after the study's start.
    """

    ramp: str
    road: str | None = None
    at: Fraction | None = None
    gain: Fraction = Fraction(70)
    occupancy: Fraction | None = None
    interval: Fraction = Fraction(60)
    least: Fraction = Fraction(240)
    most: Fraction | None = None
    start: Fraction = Fraction(0)
    end: Fraction | None = None
    place: str = "meter"


@dataclass
class SpeedLimit:
    """A speed limit of a part of a road for some time, in km/h: a free-flow speed in place of the road's own, where less."""

    part: RoadPart
    speed: Fraction


@dataclass
class Trips:
    """Who wants to drive from a gate to an exit: flows by time, as a gate's demand, and the place in the study."""

    source: str
    into: str
    demand: list[Flow]
    place: str


@dataclass
class Share:
    """A route's share of its pair from a time to another, in seconds after the study's start."""

    start: Fraction
    end: Fraction
    share: Fraction


@dataclass
class Route:
    """A way that is given from a gate by some roads to an exit; without shares its pair's drivers choose."""

    source: str
    into: str
    roads: list[str]
    shares: list[Share]
    place: str


@dataclass
class Routing:
    """How drivers choose: the most ways of a pair, the interval of choice in s, and the part of those who are informed."""

    ways: int = 5
    interval: Fraction = Fraction(300)
    informed: Fraction = Fraction(1)


@dataclass
class Scenario:
    """A study: its step in s, the clock time of its start in s after midnight, its duration in s, and its parts.

    `remarks` are lines on what was read beside its file. `crs` is the coordinate system in metres in which the points of
    its roads lie, where that is known. `date` is the day on which it begins, where it says one. What is `uncertain` of it only draws heed.
    """

    title: str
    step: Fraction
    start: Fraction
    duration: Fraction
    roads: dict[str, Road]
    gates: dict[str, Gate]
    exits: dict[str, Exit]
    links: list[tuple[str, str, str]]  # from, into, and the place in the study
    merges: list[Merge]
    diverges: list[Diverge]
    signals: list[Signal]
    closures: list[Closure]
    openings: list[Opening]
    crossings: list[Crossing]
    path: Path
    remarks: list[str] = field(default_factory=list)
    meters: list[Meter] = field(default_factory=list)
    speed_limits: list[SpeedLimit] = field(default_factory=list)
    crs: str | None = None
    date: datetime.date | None = None
    uncertain: Uncertainty | None = None
    trips: list[Trips] = field(default_factory=list)
    routes: list[Route] = field(default_factory=list)
    routing: Routing = field(default_factory=Routing)
    ways: str | None = None  # the file of ways of a study that `assign` made
    actuated: list[ActuatedJunction] = field(default_factory=list)
    yields: list[Yield] = field(default_factory=list)
    yield_interval: Fraction = Fraction(300)  # s for which what passes of those who give way is worked out

    @property
    def by_trips(self) -> list[str]:
        """The places of the diverges and junctions whose shares follow from the trips."""
        joints: list[Diverge | Crossing] = [*self.diverges, *self.crossings]
        return list(dict.fromkeys(joint.place for joint in joints if joint.by_trips))
