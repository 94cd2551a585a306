"""What the ways of each pair take in each interval of setting out, the gap to the shortest, and who changes to these.

Drivers move after C.-C. Lu, H. S. Mahmassani, X. Zhou, "Equivalent gap function-based reformulation and solution algorithm for the
dynamic user equilibrium problem", Transportation Research Part B 43(3), 2009: in each interval a part of those on a way moves to the
best one that grows with what the way takes more, relative to the best. How fast they move follows the self-regulated averages
of H. X. Liu, X. He, B. He, "Method of successive weighted averages (MSWA) and self-regulated averaging schemes for solving
stochastic user equilibrium problem", Networks and Spatial Economics 9(4), 2009: slower in earnest where the gap grew, else
a little slower. Where queues that block each other make it jump, the next round goes on from the best one, half as fast.
"""

from __future__ import annotations

from collections.abc import Sequence
from dataclasses import dataclass

import numpy

from ..arrays import Numbers
from .choices import Choice, Departures
from .courses import Courses

FIRST = 1.0
GREW, FELL = 0.5, 0.02  # what a round adds to the divisor of the pace where the gap grew, and where it fell
STEEP = 6.0  # so much of a way's drivers move for each part that it takes more than the best, at a pace of 1
JUMPED = 20.0  # times the gap of the best round, above which the next one goes on from there
FEW = 1e-3  # of a pair's drivers; where fewer are left on a way they move too


def times_of(courses: Courses) -> list[Numbers]:
    """The mean steps from gate to exit on each way of each pair in each interval: a row for each way.

    They are means over those who set out; where nobody does, over the interval.
    """
    departures, pairs = courses.departures, courses.pairs
    weights = departures.vehicles + 1e-9 * numpy.diff(departures.bounds)
    steps = courses.arrived - departures.bounds
    means = departures.summed(weights[pairs] * (steps[:, :-1] + steps[:, 1:]) / 2) / departures.summed(weights)[pairs]
    return numpy.split(means, numpy.searchsorted(pairs, numpy.arange(1, len(weights))))


@dataclass(frozen=True)
class Gap:
    """Vehicle-steps of those who choose, on their ways and on the shortest ones, and of all drivers."""

    taken: float
    least: float
    all_: float

    @property
    def relative(self) -> float:
        """What the ways taken need beyond the shortest ones, as a part of what these need."""
        return (self.taken - self.least) / self.least if self.least else 0.0


def gap_of(choices: Sequence[Choice], departures: Departures, times: Sequence[Numbers]) -> Gap:
    """The gap of all pairs; of a pair whose split is given nobody chooses."""
    taken = least = all_ = 0.0
    for choice, vehicles, steps in zip(choices, departures.by_interval, times):
        all_ += float((vehicles * choice.parts * steps).sum())
        if not choice.given:
            informed = vehicles * choice.informed
            taken += float((informed * choice.chosen * steps).sum())
            least += float((informed * steps.min(axis=0)).sum())
    return Gap(taken, least, all_)


class Pace:
    """How fast drivers move, by how the gap went."""

    def __init__(self) -> None:
        self.divisor = FIRST
        self.most = 1.0  # of the drivers of a way that move at once
        self.before: float | None = None

    def next(self, gap: float) -> float:
        """The pace after a round with a gap."""
        if self.before is not None:
            self.divisor += GREW if gap >= self.before else FELL
        self.before = gap
        return 1 / self.divisor

    def back(self, best: float) -> float:
        """The pace from the best round, whose gap is given, behind one that jumped: half of what it was, for no more drivers."""
        self.divisor *= 2
        self.most = 1 / self.divisor
        self.before = best
        return 1 / self.divisor


def swap(choices: Sequence[Choice], departures: Departures, times: Sequence[Numbers], pace: float,
         most: float = 1.0) -> float:
    """Moves drivers who choose to the best ways of their pairs, of each way that part at most; gives how many vehicles did."""
    changed = 0.0
    for choice, vehicles, steps in zip(choices, departures.by_interval, times):
        if choice.given or len(choice.ways) < 2:
            continue
        least = steps.min(axis=0)
        leaving = choice.chosen * numpy.minimum(most, pace * STEEP * (steps - least) / least)
        leaving = numpy.where((choice.chosen - leaving < FEW) & (steps > least), choice.chosen, leaving)
        best = steps == least
        choice.chosen = choice.chosen - leaving + best * leaving.sum(axis=0) / best.sum(axis=0)
        changed += float((leaving.sum(axis=0) * choice.informed * vehicles).sum())
    return changed
