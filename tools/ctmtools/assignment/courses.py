"""The ways of all pairs on their course through a run: when who sets out arrives, and who comes to each leg when."""

from __future__ import annotations

from collections.abc import Sequence

import numpy
from scipy.sparse import csr_matrix

from ..arrays import Numbers, Wholes, left_at
from .choices import Choice, Departures
from .passing import Passing, in_turn

MOST_MOMENTS = 2_000_000  # that are worked out at once
MOST_SHARES = 50_000  # diverges times spans of shares, about
FINEST = 30  # spans of shares in an interval of choice, at most


class Courses:
    """The ways as they stand, by one passing: a row for each way, pair by pair.

    `arrived` has when those arrive who depart at the bounds of the departures. `origins` has a row for each way and each leg of
    it but the first: who comes to the leg at each bound of the shares set out at the bound of the departures of this number,
    which has a fraction; `rows` are the ways of these rows and `into` joins them to the legs.
    """

    def __init__(self, choices: Sequence[Choice], departures: Departures, passing: Passing, bounds: Numbers) -> None:
        self.departures = departures
        self.pairs = numpy.repeat(numpy.arange(len(choices)), [len(choice.ways) for choice in choices])
        ways = [way for choice in choices for way in choice.ways]
        self.arrived = numpy.tile(departures.bounds, (len(ways), 1))
        rows: list[Wholes] = []
        legs: list[Wholes] = []
        origins: list[Numbers] = []
        at_once = max(1, MOST_MOMENTS // len(departures.bounds))
        for first in range(0, len(ways), at_once):
            moments = self.arrived[first:first + at_once]
            for place, (numbers, own) in enumerate(in_turn(ways[first:first + at_once])):
                if place:
                    rows.append(first + numbers)
                    legs.append(own)
                    origins.append(_origins(moments[numbers], bounds))
                moments[numbers] = passing.through(own, moments[numbers])
        self.rows = numpy.concatenate([numpy.empty(0, int), *rows])
        self.origins = numpy.concatenate([numpy.empty((0, len(bounds))), *origins])
        into = numpy.concatenate([numpy.empty(0, int), *legs]), numpy.arange(len(self.rows))
        self.into = csr_matrix((numpy.ones(len(self.rows)), into), (len(passing.legs.legs), len(self.rows)))


def _origins(moments: Numbers, bounds: Numbers) -> Numbers:
    """The numbers, with fractions, of the departures' bounds whose moments are some others; the last one behind them all."""
    last = moments.shape[1] - 1
    found = left_at(numpy.arange(last + 1.0), moments, numpy.tile(bounds, (len(moments), 1)))
    return numpy.where(numpy.isnan(found), last, found)


def loaded(choices: Sequence[Choice], courses: Courses) -> Numbers:
    """The vehicles that enter each leg in each span of shares: a row for each leg, of which gates have none.

    The cumulative departures on a way, moved to the moments at which they leave each leg, are those into the next one.
    """
    departures = courses.departures
    parts = numpy.concatenate([choice.parts for choice in choices])
    vehicles = numpy.repeat(parts, departures.parts, axis=1) * departures.vehicles[courses.pairs]
    come = numpy.hstack([numpy.zeros((len(vehicles), 1)), numpy.cumsum(vehicles, axis=1)])
    span = numpy.minimum(courses.origins, vehicles.shape[1] - 1).astype(int)
    rows = courses.rows[:, None]
    before = come[rows, span]
    passed = before + (courses.origins - span) * (come[rows, span + 1] - before)
    counts: Numbers = courses.into @ numpy.diff(passed, axis=1)
    return counts


def share_bounds(width: int, steps: int, diverges: int) -> Numbers:
    """The steps at which shares may change: those of the intervals of choice, and between them as finely as they are few."""
    count = max(1, min(FINEST, width, MOST_SHARES * width // max(1, diverges * steps)))
    span = next(span for span in range(-(-width // count), width + 1) if width % span == 0)
    return numpy.append(numpy.arange(0, steps, span), steps).astype(float)


def moved(before: Numbers, after: Numbers, bounds: Numbers, width: int) -> float:
    """The part of all that comes to branches by which two loadings differ, by intervals of choice of so many steps."""
    total = after.sum()
    firsts = numpy.flatnonzero(bounds[:-1] % width == 0)
    change = numpy.add.reduceat(after - before, firsts, axis=1)
    return float(numpy.abs(change).sum() / 2 / total) if total else 0.0
