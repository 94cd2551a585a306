"""A stream that gives way, on a network that was built: its cell, and what may pass in each interval or step of a cycle."""

from __future__ import annotations

from collections.abc import Container, Iterator, Mapping
from fractions import Fraction
from itertools import groupby

import numpy

from ..arrays import Numbers
from ..report.reading import Report
from ..study.precedences import SIEGLOCH
from ..study.network_text import Built
from ..study.plan import Flow, Scenario, Yield
from ..texts.amounts import PARTS, rounded_parts
from ..texts.quantities import HOUR
from ..units import Loss, cell_of
from .conflicts import A_VEHICLE, SharedLanes, come_to, flow_of, own_flow, streams_of, total, whole_cycles
from .gaps import at_roundabout, at_signal, at_stop, in_two_stages, passing
from .permitted import ALONE, InLane, PermittedGreen, opposing_of

A_PART = 0.01  # of a lane's time, below which nothing is left of it
FULL = 0.99  # of what may pass, from which on a queue stands; what may pass is settled to a hundredth


class Yielding:
    """What passes of a stream that gives way: `rates` in vehicles/h, a row for each interval, a column for each step of a cycle.

    Without a signal there is one column. `width` is the number of steps of an interval, whole cycles where there is a signal.
    """

    def __init__(self, one: Yield, study: Scenario, built: Built) -> None:
        units, network = built.units, built.network
        self.of, self.step, self.units = one, float(study.step), units
        self.exact_step = study.step
        self.cell = cell_of(one.road, units)
        self.most = network.capacities[self.cell] * HOUR / self.step
        self.capacity = {name: most * HOUR / self.step for name, most in network.capacities.items()}
        self.green = PermittedGreen(one, one.permission, self.step, self.most) if one.permission else None
        cycle = self.green.count if self.green else 1
        self.width = whole_cycles(round(study.yield_interval / study.step), cycle)
        self.bounds = numpy.append(numpy.arange(0, network.steps, self.width), network.steps).astype(float)
        self.rates = numpy.full((len(self.bounds) - 1, cycle), self.most)
        self.shared = SharedLanes.of(one.shared, units, self.capacity) if one.shared else None
        self.of_lane = numpy.ones(len(self.bounds) - 1)  # the part of a lane's vehicles that its own are

    def potential(self, report: Report) -> Numbers:
        """What may pass by the flows of a run."""
        if self.green is None:
            return numpy.minimum(self.most, self._by_gaps(report))[:, None]
        return self._by_green(self.green, report)

    def in_lanes(self, report: Report, rates: Numbers, means: Mapping[str, Numbers]) -> Numbers:
        """What may pass of these rates, those from a lane of its own, in the lanes that it shares with others.

        `means` are those of all who give way, in the mean of whole cycles. In one lane at a signal these rates are so already.
        """
        if self.shared is None:
            return rates
        shares = self.shared.shares(report, self.bounds)
        if self._waits_in_green:
            self.of_lane = numpy.where(shares[self.cell] > 0, shares[self.cell], 1.0)
            return rates
        freely = self.mean(numpy.full(self.rates.shape, self.shared.saturation))
        passing = {cell: means.get(cell, freely) for cell in shares}
        if self.shared.flare:
            part = self.shared.flared(self.cell, {cell: come_to(report, cell, self.bounds) for cell in shares}, passing)
            part = numpy.where(shares[self.cell] > 0, part, 1.0)
        else:
            part = self.shared.part(self.cell, shares, passing)
        self.of_lane = numpy.where(part < 1, shares[self.cell] * self.shared.count, 1.0)
        return rates * part[:, None]

    def mean(self, rates: Numbers) -> Numbers:
        """What passes by rates in the mean of whole cycles."""
        return self.green.in_cycle(rates) if self.green else rates[:, 0]

    def unimpeded(self, report: Report, ones: Mapping[str, Yielding], potential: Mapping[str, Numbers],
                  of: Yielding | None = None) -> Numbers:
        """For each interval the chance that none of those with priority who give way themselves waits: of each `1 - v/c`.

        What may pass of these, `c`, is less by those to whom they give way in turn (HCM 2010, chapter 19: ranks 2 to 4); not by
        those whose own chance this is `of`, so that two who give way to each other share what there is.
        """
        chance = numpy.ones(len(self.bounds) - 1)
        for stream in self.of.streams:
            other = ones.get(cell_of(stream.road, self.units)) if stream.at is None and self.green is None else None
            if other is None:
                continue
            most = potential[other.cell]
            if of is None:
                most = most * other.unimpeded(report, ones, potential, self)
            if other is not of:
                chance = chance * (1 - other.waiting(report, most[:, 0], ones))
        return chance[:, None]

    def waiting(self, report: Report, most: Numbers, giving: Container[str]) -> Numbers:
        """The chance that one of it waits where so many may pass; behind him stand those who share his lane and give way to nobody.

        That is `(v/c)/(1 - x)` with the part `x` of the lane's time that these take (HCM 2010, chapter 19).
        """
        part: Numbers = own_flow(report, self.of, self.bounds) / numpy.maximum(most, A_VEHICLE)
        if self.shared:
            part = part / numpy.maximum(1 - self.shared.freely(report, self.bounds, giving), A_PART)
        return numpy.clip(part, 0, 1)

    def waits(self, report: Report) -> Loss:
        """What vehicles lose by coming at random, in the intervals of a run in which fewer come than may pass, each with its lane."""
        flows, capacities = own_flow(report, self.of, self.bounds), self.mean(self.rates)
        delay = at_signal if self.green else at_roundabout if self.of.gaps.formula == SIEGLOCH else at_stop
        hours = numpy.diff(self.bounds) * self.step / HOUR
        free = [(flow * lasting, delay(flow / part, capacity / part)) for flow, capacity, lasting, part
                in zip(flows, capacities, hours, self.of_lane) if 0 < flow < FULL * capacity]
        return Loss(self.of.name, sum(vehicles for vehicles, _ in free), sum(vehicles * lost for vehicles, lost in free) / HOUR,
                    int((flows >= FULL * numpy.maximum(capacities, A_VEHICLE)).sum()))

    def move(self, wanted: Numbers) -> float:
        """The most by which the limit of an interval would move to what is wanted, as a part of it."""
        permitted = self.green.permitted if self.green else numpy.ones(1, dtype=bool)
        now, then = ((rates * permitted).sum(axis=1) / max(1, permitted.sum()) for rates in (self.rates, wanted))
        moved = numpy.abs(then - now)
        return float(numpy.where(moved <= A_VEHICLE, 0, moved / numpy.maximum(now, A_VEHICLE)).max())

    def take(self, wanted: Numbers, part: float) -> None:
        """Goes a part of the way to what is wanted."""
        self.rates = self.rates + part * (wanted - self.rates)

    def capacities(self) -> list[Flow]:
        """What passes where that is less than the cell does by itself, in whole parts of a vehicle, from step to step."""
        found = []
        for parts, group in groupby(self._by_step(), key=lambda row: row[2]):
            rows = list(group)
            if parts < rounded_parts(Fraction(self.most) * self.exact_step / HOUR):
                found.append(Flow(rows[0][0] * self.exact_step, rows[-1][1] * self.exact_step,
                                  Fraction(parts, PARTS) * HOUR / self.exact_step))
        return found

    def _by_step(self) -> Iterator[tuple[int, int, int]]:
        """From when to when so many parts pass in a step."""
        for row, begin, end in zip(self.rates, self.bounds[:-1].astype(int), self.bounds[1:].astype(int)):
            parts = [rounded_parts(Fraction(float(rate)) * self.exact_step / HOUR) for rate in row]
            if len(parts) == 1:
                yield int(begin), int(end), parts[0]
                continue
            for step in range(int(begin), int(end)):
                yield step, step + 1, parts[(step - int(begin)) % len(parts)]

    def _by_gaps(self, report: Report) -> Numbers:
        """What the gaps of all streams let pass in each interval, in two stages where there is a median."""
        flows, stage = streams_of(report, self.of, self.bounds), self.of.stage
        at_once = self._passing(total(flows, self.bounds))
        if stage is None:
            return at_once
        seconds = [stream.second for stream in self.of.streams]
        first, second = (numpy.array([passing(flow, stage) for flow in total(
            [flow for flow, behind in zip(flows, seconds) if behind == which], self.bounds)]) for which in (False, True))
        return numpy.array([in_two_stages(self.of.holds, *(min(self.most, each) for each in row))
                            for row in zip(first, second, at_once)])

    def _passing(self, flows: Numbers) -> Numbers:
        return numpy.array([passing(flow, self.of.gaps) for flow in flows])

    def _by_green(self, green: PermittedGreen, report: Report) -> Numbers:
        """What the permitted greens let pass in each step of the cycle."""
        flows = streams_of(report, self.of, self.bounds)
        queues = [SharedLanes.of(stream.queue, self.units, self.capacity) for stream in self.of.streams if stream.queue]
        arriving = [total([flow_of(report, cell, self.bounds) for cell in queue.cells], self.bounds) for queue in queues]
        rows = []
        for k, lane in enumerate(self._lanes_of(green, report)):
            rows.append(green.rates([opposing_of(stream, flow[k], come[k], queue.count * queue.saturation) for stream, flow, come, queue
                                     in zip(self.of.streams, flows, arriving, queues)], lane))
        return numpy.array(rows)

    @property
    def _waits_in_green(self) -> bool:
        """Whether others wait behind it in its one lane, at a signal."""
        return self.green is not None and self.shared is not None and self.shared.count == 1

    def _lanes_of(self, green: PermittedGreen, report: Report) -> list[InLane]:
        """Who turns among those of his lane in each interval."""
        if not self.shared or not self._waits_in_green:
            return [ALONE] * (len(self.bounds) - 1)
        parts = self.shared.shares(report, self.bounds)[self.cell]
        come = come_to(report, self.cell, self.bounds) * green.cycle / HOUR
        return [InLane(part, number) if part > 0 else ALONE for part, number in zip(parts.tolist(), come.tolist())]
