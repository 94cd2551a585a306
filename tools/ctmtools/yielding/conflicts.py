"""What a run let pass where streams meet, by interval, and what passes of those who give way in lanes that they share.

The shared lane of the Highway Capacity Manual (2010, chapter 19; 2016, chapter 20): where `v` vehicles/h of each movement come, of
which from a lane of its own `c` may pass, a lane passes `sum of v / sum of v/c` of all. So each has the lane for its part of
`sum of v/c`. Where some find room beside each other before the stop line, a flare, it passes the more the more do: with room for the
greatest queue that a movement would have in a lane of its own as much as lanes of their own. Several lanes are shared alike, but each movement that gives way passes as from one of them.
"""

from __future__ import annotations

from collections.abc import Container, Mapping, Sequence
from dataclasses import dataclass

import numpy

from ..arrays import Numbers
from ..report.reading import Report
from ..study.plan import Lanes, Stream, Yield
from ..texts.amounts import PARTS
from ..texts.quantities import HOUR
from ..units import Units, cell_of
from .gaps import at_stop

A_VEHICLE = 1.0  # vehicles/h below which a limit isn't held against itself


def flow_of(report: Report, cell: str, bounds: Numbers) -> Numbers:
    """The vehicles/h that left a cell between each of some steps and the next."""
    left = numpy.interp(bounds, report.times, report.records.left[:, report.place(cell)] / PARTS)
    flow: Numbers = numpy.diff(left) / numpy.diff(bounds) * (HOUR / (report.units.step or 1.0))
    return flow


def come_to(report: Report, cell: str, bounds: Numbers) -> Numbers:
    """The vehicles/h that came to a cell between each of some steps and the next."""
    place = report.place(cell)
    come = numpy.interp(bounds, report.times, (report.records.left[:, place] + report.records.vehicles[:, place]) / PARTS)
    flow: Numbers = numpy.diff(come) / numpy.diff(bounds) * (HOUR / (report.units.step or 1.0))
    return flow


def streams_of(report: Report, one: Yield, bounds: Numbers) -> list[Numbers]:
    """The flows of the streams that have priority, each counted as far as it counts."""
    return [float(stream.part) * flow_of(report, _cell(stream, report.units), bounds) for stream in one.streams]


def whole_cycles(steps: int, cycle: int) -> int:
    """The steps of the fewest whole cycles that last so many steps."""
    return cycle * max(1, -(-steps // cycle))


def own_flow(report: Report, one: Yield, bounds: Numbers) -> Numbers:
    """The flow of the stream that gives way."""
    return flow_of(report, cell_of(one.road, report.units), bounds)


def _cell(stream: Stream, units: Units) -> str:
    return cell_of(stream.road, units, None if stream.at is None else float(stream.at))


def total(flows: Sequence[Numbers], bounds: Numbers) -> Numbers:
    """The sum of flows, 0 where there are none."""
    return sum(flows, numpy.zeros(len(bounds) - 1))


@dataclass(frozen=True)
class SharedLanes:
    """The lanes that a movement shares: how many, the cells of all who stand in them, and what a lane passes in vehicles/h."""

    count: int
    cells: Sequence[str]
    saturation: float
    flare: int = 0

    @classmethod
    def of(cls, lanes: Lanes, units: Units, most: Mapping[str, float]) -> SharedLanes:
        """Those of a study's network, whose cells pass so much at most."""
        cells = [cell_of(road, units) for road in lanes.roads]
        return cls(lanes.count, cells, max(most[cell] / units.cells[cell]["lanes"] for cell in cells), lanes.flare)

    def shares(self, report: Report, bounds: Numbers) -> dict[str, Numbers]:
        """The part of each movement of those who come in an interval; of those of all intervals where nobody comes."""
        flows = {cell: come_to(report, cell, bounds) for cell in self.cells}
        every = sum(flow.sum() for flow in flows.values())
        sums = total(list(flows.values()), bounds)
        return {cell: numpy.where(sums > 0, flow / numpy.where(sums > 0, sums, 1), flow.sum() / every if every else 0.0)
                for cell, flow in flows.items()}

    def part(self, own: str, shares: Mapping[str, Numbers], passing: Mapping[str, Numbers]) -> Numbers:
        """The part of what may pass of a movement from a lane of its own that passes in these lanes, where all are full.

        `passing` is what may pass of each from a lane of its own.
        """
        loads = {cell: share / numpy.maximum(passing[cell], A_VEHICLE) for cell, share in shares.items()}
        every = sum(loads.values())
        part = self.count * loads[own] / numpy.where(every > 0, every, 1)
        return numpy.where(loads[own] > 0, numpy.minimum(1.0, part), 1.0)

    def flared(self, own: str, flows: Mapping[str, Numbers], passing: Mapping[str, Numbers]) -> Numbers:
        """The part of what may pass of a movement from a lane of its own that passes where so many come of each, with the flare.

        It passes `(sum of c - c_s)·n/n_m + c_s` of the shared lane's `c_s`, where `n` of `n_m` find room.
        """
        each = [(flows[cell], numpy.maximum(passing[cell], A_VEHICLE)) for cell in flows]
        come = numpy.maximum(sum(flow for flow, _ in each), A_VEHICLE)
        lane = come / numpy.maximum(sum(flow / most for flow, most in each), come / sum(most for _, most in each))
        apart = sum(most for _, most in each)
        wanted = numpy.max([longest_queue(flow, most) for flow, most in each], axis=0)
        passes = lane + (apart - lane) * numpy.minimum(1.0, self.flare / wanted)
        part: Numbers = numpy.clip(passes * flows[own] / come / numpy.maximum(passing[own], A_VEHICLE), 0, 1)
        return part

    def freely(self, report: Report, bounds: Numbers, giving: Container[str]) -> Numbers:
        """The part of the lanes' time that those take who give way to nobody."""
        return total([come_to(report, cell, bounds) for cell in self.cells if cell not in giving], bounds) / (
            self.saturation * self.count)


def longest_queue(flows: Numbers, capacities: Numbers) -> Numbers:
    """The vehicles that a flare needs room for so that a movement has a lane of its own: its mean queue and one, rounded."""
    waits = [at_stop(flow, capacity) * flow / HOUR for flow, capacity in zip(flows, capacities)]
    rounded: Numbers = numpy.floor(numpy.array(waits) + 1.5)
    return rounded
