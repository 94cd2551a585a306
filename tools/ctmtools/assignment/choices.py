"""Who sets out when, in which intervals the drivers of a pair choose, and how they part among its ways in each."""

from __future__ import annotations

from dataclasses import dataclass, field
from functools import cached_property

import numpy

from ..arrays import Numbers
from ..study.plan import Scenario, Trips
from .legs import RouteLegs

FINEST = 30  # spans in an interval of choice, at most; none is shorter than a step


@dataclass(frozen=True)
class Departures:
    """The vehicles of each pair in each span: a row for each pair, and the bounds of the spans in steps.

    An interval of choice is `parts` spans, and `width` steps long. The trips end at the step `last`.
    """

    pairs: list[tuple[str, str]]
    bounds: Numbers
    vehicles: Numbers
    parts: int
    width: int
    last: float

    @cached_property
    def intervals(self) -> int:
        """How many intervals of choice there are."""
        return (len(self.bounds) - 1) // self.parts

    @cached_property
    def by_interval(self) -> Numbers:
        """The vehicles of each pair in each interval."""
        return self.summed(self.vehicles)

    def summed(self, values: Numbers) -> Numbers:
        """The sums by interval of values by span, in rows."""
        sums: Numbers = values.reshape(-1, self.intervals, self.parts).sum(axis=2)
        return sums

    def begins(self, interval: int) -> int:
        """The step at which an interval begins."""
        return interval * self.width

    def middle(self, interval: int) -> float:
        """The middle of the time in which drivers set out in an interval."""
        return (self.begins(interval) + min(self.begins(interval + 1), max(self.last, self.begins(interval)))) / 2


def departures_of(study: Scenario, steps: int) -> Departures:
    """The departures of a study's trips; the intervals end with the last of the trips."""
    step = float(study.step)
    width = max(1, min(steps, round(float(study.routing.interval) / step)))
    last = max((min(float(flow.end) / step, steps) for trips in study.trips for flow in trips.demand), default=0)
    parts = min(width, FINEST)
    intervals = max(1, int(numpy.ceil(last / width - 1e-9)))
    bounds = numpy.linspace(0, intervals * width, intervals * parts + 1)
    vehicles = numpy.array([_spread(trips, bounds, step, steps) for trips in study.trips])
    return Departures([(trips.source, trips.into) for trips in study.trips], bounds, vehicles, parts, width, last)


def _spread(trips: Trips, bounds: Numbers, step: float, steps: int) -> Numbers:
    """The vehicles of a pair in each span."""
    come = numpy.zeros(len(bounds))
    for flow in trips.demand:
        begin, end = (min(round(float(time) / step), steps) for time in (flow.start, flow.end))
        come += float(flow.flow) * step / 3600 * numpy.clip(bounds - begin, 0, end - begin)
    return numpy.diff(come)


@dataclass
class Choice:
    """A pair's ways, at most so many, and for each way and interval the part of the drivers who choose it or who keep it.

    The informed choose and the others keep what they have; each of both parts is of all of its kind, and `informed` is the
    part of the first in each interval. Where the split is `given` nobody chooses, and where it is `closed` no way is sought.
    """

    source: str
    into: str
    informed: Numbers
    most: int
    ways: list[RouteLegs] = field(default_factory=list)
    chosen: Numbers = field(default_factory=lambda: numpy.zeros((0, 0)))
    kept: Numbers = field(default_factory=lambda: numpy.zeros((0, 0)))
    closed: bool = False
    given: bool = False

    def __post_init__(self) -> None:
        self.chosen = numpy.zeros((len(self.ways), len(self.informed)))
        self.kept = numpy.zeros((len(self.ways), len(self.informed)))

    @property
    def parts(self) -> Numbers:
        """The part of all drivers who take each way in each interval."""
        return self.informed * self.chosen + (1 - self.informed) * self.kept

    def put(self, way: RouteLegs) -> bool:
        """Adds a way, where there is room for one more or for one in place of a way that nobody takes; whether it is there now."""
        if way in self.ways:
            return True
        if len(self.ways) >= self.most:
            self._drop()
        if len(self.ways) >= self.most:
            return False
        self.ways.append(way)
        row = numpy.zeros((1, len(self.informed)))
        self.chosen, self.kept = numpy.vstack([self.chosen, row]), numpy.vstack([self.kept, row])
        return True

    def _drop(self) -> None:
        """Drops a way that nobody takes in any interval, where there is one."""
        unused = [number for number in range(len(self.ways)) if not self.parts[number].any()]
        if unused:
            del self.ways[unused[0]]
            self.chosen, self.kept = (numpy.delete(parts, unused[0], axis=0) for parts in (self.chosen, self.kept))

    def keep(self, kept: Numbers, informed: Numbers) -> None:
        """Has all drivers begin with the ways that they have, of whom so many in each interval may choose anew."""
        self.kept, self.chosen, self.informed = kept, kept.copy(), informed
