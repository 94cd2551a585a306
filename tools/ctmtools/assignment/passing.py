"""When a driver who enters a leg leaves it: at free flow, by the speed limits in force, or by the cumulative curves of a run.

A chain is left in the order in which it was entered: the N-th driver to enter it leaves it when N have left. So two curves
say all of it: that of drivers who come to its first cell, behind those who stand in the chain at the start, and that of drivers
who leave its last one.
"""

from __future__ import annotations

from collections.abc import Iterable, Iterator, Sequence

import numpy
from scipy.interpolate import interp1d

from ..arrays import Numbers, Wholes, left_at
from ..report.reading import Report
from ..texts.amounts import PARTS
from .legs import Legs

LEFT_BEHIND = 0.01  # vehicles; the rounding of a diverge leaves up to 0.002 in the cell before it
BEYOND = 3  # so many times the steps of the run go the curves that are given; behind the run travel times stay
CLOSED = 0.02  # a capacity of less than this part of the cell's own lets nobody through
MOMENTS = 800  # of a grid, about
LEAST = 1e-9  # of a span of the grid, which rounding may leave of nothing
SPAN = 20  # of so many parts of the run the last one shows how fast a queue that is left at the end goes on


class Passing:
    """For each leg the moment, in steps, at which who enters it at each moment of a grid leaves it.

    The grid is even but for its last span.
    """

    def __init__(self, legs: Legs, grid: Numbers, chains: Numbers) -> None:
        self.legs = legs
        self.grid = numpy.append(grid, BEYOND * grid[-1])
        last = chains[:, -1:] + (BEYOND - 1) * grid[-1]
        chains = numpy.maximum.accumulate(numpy.hstack([chains, last]), axis=1)
        self.left = numpy.tile(self.grid, (len(legs.legs), 1))
        for numbers, own in in_turn([leg.chains for leg in legs.legs]):
            self.left[numbers] = self._read(chains, own, self.left[numbers])

    def through(self, legs: Wholes, entered: Numbers) -> Numbers:
        """When those leave legs that enter them at some moments: a row for each of these legs."""
        return self._read(self.left, legs, entered)

    def _read(self, curves: Numbers, rows: Wholes, moments: Numbers) -> Numbers:
        """What rows of curves over the grid have at the moments of each; behind the grid they rise as time does."""
        last = len(self.grid) - 2
        within = numpy.minimum(moments, self.grid[-1])
        span = numpy.minimum(within / (self.grid[1] - self.grid[0]), last - 1).astype(int)
        span[within >= self.grid[last]] = last
        begin, rows = self.grid[span], rows[:, None]
        part = (within - begin) / (self.grid[span + 1] - begin)
        before = curves[rows, span]
        read: Numbers = before + part * (curves[rows, span + 1] - before) + (moments - within)
        return read


def in_turn(rows: Sequence[Sequence[int]]) -> Iterator[tuple[Wholes, Wholes]]:
    """The first members of all rows, then the second ones, and so on: the numbers of the rows that have one, and these."""
    for place in range(max(map(len, rows), default=0)):
        own = [number for number, row in enumerate(rows) if len(row) > place]
        yield numpy.array(own), numpy.array([rows[number][place] for number in own])


class Passings:
    """Makes of runs of a network the passing of its legs; what it knows of closed cells is the same in all of them."""

    def __init__(self, legs: Legs) -> None:
        self.legs = legs
        steps = legs.network.steps
        self.steps = steps
        places = {cell: place for place, cell in enumerate(legs.network.kinds)}
        self.first = numpy.array([places[chain[0]] for chain in legs.chains])
        self.last = numpy.array([places[chain[-1]] for chain in legs.chains])
        self.cells = numpy.array([places[cell] for chain in legs.chains for cell in chain])
        self.lengths = numpy.array([len(chain) for chain in legs.chains])
        self.begins = numpy.cumsum([0, *self.lengths[:-1]])  # of the chains among these
        closed = {number: list(self._closed(chain)) for number, chain in enumerate(legs.chains)}
        self.closed = {number: own for number, own in closed.items() if own}
        self.slow = {number for number, chain in enumerate(legs.chains) if not legs.network.paces.keys().isdisjoint(chain)}

    def _closed(self, chain: Iterable[str]) -> Iterable[tuple[int, int, int]]:
        """For a chain's cells that let nobody through for some time: the place in it, and the steps from and to."""
        capacity, limits = self.legs.network.capacities, self.legs.network.limits_of
        for place, cell in enumerate(chain):
            for begin, end, left in limits.get(cell, ()):
                if left < CLOSED * capacity[cell]:
                    yield place, begin, end

    def free(self) -> Passing:
        """The passing at free flow, where who comes to a closed cell waits until it is open."""
        grid = numpy.linspace(0, self.steps, min(self.steps, MOMENTS) + 1)
        return Passing(self.legs, grid, self._soonest(grid))

    def of(self, report: Report) -> Passing:
        """The passing of a run; between two records as many come in each moment."""
        recorded = numpy.asarray(report.times, dtype=float)
        grid = _finer(recorded)
        departed, held = report.records.left / PARTS, report.records.vehicles / PARTS
        come = (held[:, self.first] + departed[:, self.first]).T
        come += (numpy.add.reduceat(held[0, self.cells], self.begins) - held[0, self.first])[:, None]
        left = _queued(recorded, interp1d(recorded, come)(grid), numpy.ascontiguousarray(departed[:, self.last].T))
        return Passing(self.legs, grid, numpy.maximum(left, self._soonest(grid)))

    def _soonest(self, entered: Numbers) -> Numbers:
        """When who enters each chain leaves it at the soonest: at free flow, but for the wait at closed cells."""
        left: Numbers = entered + self.lengths[:, None]
        for chain in self.closed.keys() | self.slow:
            moments, place = entered, 0
            for cell, begin, end in self.closed.get(chain, ()):
                moments = self._freely(chain, place, cell, moments)
                moments = numpy.where((moments - 1 >= begin) & (moments - 1 < end), end + 1, moments)
                moments = numpy.where((moments >= begin) & (moments < end), end, moments)
                place = cell
            left[chain] = self._freely(chain, place, self.lengths[chain], moments)
        return left

    def _freely(self, chain: int, first: int, last: int, moments: Numbers) -> Numbers:
        """When who comes to a place in a chain at some moments comes to a later one at free flow."""
        if chain not in self.slow:
            return moments + (last - first)
        return self.legs.network.left_freely(self.legs.chains[chain][first:last], moments)


def _finer(recorded: Wholes) -> Numbers:
    """Moments between recorded steps, and these, but none within a step; the last of them may be nearer to the one before."""
    between = recorded[1] - recorded[0]
    width = between / max(1, min(int(between), round(MOMENTS / len(recorded))))
    return numpy.append(numpy.arange(numpy.ceil(recorded[-1] / width - LEAST)) * width, recorded[-1])


def _queued(recorded: Wholes, come: Numbers, gone: Numbers) -> Numbers:
    """When who enters chains as these numbers leaves each by its curve; behind the run the queue goes on as at its end."""
    numbers = come - LEFT_BEHIND
    left = left_at(recorded, gone, numbers)
    since = max(0, min(len(recorded) - 2, int(len(recorded) * (1 - 1 / SPAN))))
    rate = (gone[:, -1:] - gone[:, [since]]) / (recorded[-1] - recorded[since])
    wait = numpy.full(left.shape, recorded[-1])  # as if for a run more, at most
    numpy.divide(numbers - gone[:, -1:], rate, out=wait, where=rate > 0)
    return numpy.where(numpy.isnan(left), recorded[-1] + numpy.minimum(wait, recorded[-1]), left)
