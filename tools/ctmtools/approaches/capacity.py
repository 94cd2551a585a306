"""Of an approach its cells and what waits in them, and of each movement what may pass and what is lost by coming at random.

What may pass follows from the greens and the limits of the network.
"""

from __future__ import annotations

from collections.abc import Callable, Sequence
from dataclasses import dataclass
from functools import cached_property

import numpy

from ..arrays import Flags, Numbers
from ..network_file.network import Network
from ..report.measures import hour_of
from ..report.reading import Report
from ..texts.amounts import PARTS
from ..texts.quantities import HOUR
from ..units import Approach, ApproachMovement
from ..yielding.conflicts import flow_of, total, whole_cycles
from ..yielding.gaps import at_roundabout, at_signal, at_stop
from ..yielding.yielding import FULL

METRES = 1000
PERIOD = 900  # s, the manual's analysis period, for which flows are counted where a network says no other
DELAYS: dict[str, Callable[[float, float], float]] = {
    "signal": at_signal, "permitted": at_signal, "stop": at_stop, "roundabout": at_roundabout}
Z_95 = 150  # of the root of the queue's 95th percentile
LEAST = 1e-6  # vehicles/h, as little as nothing


@dataclass
class Stages:
    """An approach of a report: the cells that all of it share, from the stop line back, and the sums of what passes and waits.

    Of each cell `waits` are vehicle-steps, beyond what a speed limit takes, and `passed` the vehicles that leave it, from each
    recorded step to the next.
    """

    report: Report
    approach: Approach

    def __post_init__(self) -> None:
        self.shared = shared_cells(self.report, self.approach)
        self.movements = self.approach.movements

    @property
    def cells(self) -> list[str]:
        """All cells of the approach, each once."""
        return list(dict.fromkeys([*self.shared, *(cell for one in self.movements for cell in one.cells)]))

    def waits(self, cells: Sequence[str]) -> Numbers:
        """The vehicle-steps that are waited in some cells."""
        places = self.report.places(cells)
        waited: Numbers = (self.report.waited[:, places] - self.report.slowed[:, places]).clip(min=0).sum(axis=1)
        return waited

    def passed(self, cells: Sequence[str]) -> Numbers:
        """The vehicles that leave some cells."""
        passed: Numbers = self.report.passed[:, self.report.places(cells)].sum(axis=1)
        return passed

    def last(self, movement: ApproachMovement) -> str:
        """The cell that a movement leaves last."""
        return movement.cells[-1] if movement.cells else self.approach.last

    def parts(self, rows: slice) -> Numbers:
        """The part that each movement is of the vehicles that leave in some rows; of all rows where nobody does."""
        left = numpy.array([[self.passed([self.last(one)])[own].sum() for one in self.movements] for own in (rows, slice(None))])
        own = left[0] if left[0].any() else left[1]
        parts: Numbers = own / own.sum() if own.any() else numpy.full(len(own), 1 / len(own))
        return parts

    def waits_of(self, place: int, parts: Numbers) -> Numbers:
        """The vehicle-steps that a movement's vehicles wait, of what they share with others in proportion to all who leave."""
        movement = self.movements[place]
        own = self.waits([movement.cells[-1]]) if movement.cells else 0.0
        forks = sum(self.waits([fork]) * parts[place] / self._through(fork, parts) for fork in movement.cells[:-1])
        found: Numbers = self.waits(self.shared) * parts[place] + forks + own
        return found

    def _through(self, fork: str, parts: Numbers) -> float:
        """The part of the vehicles that drive through a cell which parts movements."""
        return float(sum(part for one, part in zip(self.movements, parts) if fork in one.cells)) or 1.0

    def come(self, rows: slice) -> float:
        """The vehicles that come to the approach in some rows: those that leave it, and what is in it more at the end."""
        held = self.report.records.vehicles[:, self.report.places(self.cells)].sum(axis=1) / PARTS
        left = sum(float(self.passed([self.last(one)])[rows].sum()) for one in self.movements)
        return max(0.0, left + float(held[rows.stop] - held[rows.start]))

    @property
    def jam(self) -> float:
        """The vehicles that stand on a metre of a lane; lacking where no road leads to the approach."""
        units, network = self.report.units, self.report.need_network()
        cell = next((cell for cell in [*self.shared, *self.movements[0].cells] if cell in units.cells), None)
        if cell is None:
            return float("nan")
        length = (units.length(cell) or float("nan")) * METRES
        return float(network.of_cells[cell]["N"] / length / units.cells[cell]["lanes"])


def shared_cells(report: Report, approach: Approach) -> list[str]:
    """The cells before an approach's stop line in which its vehicles wait, back to the junction, the stop line or the gate before.

    So a road goes on over what joins or leaves it between its ends, and over roads that lead into it alone.
    """
    units, network = report.units, report.need_network()
    ends = {*units.within, *(other.last for other in units.approaches if other.last != approach.last)}
    found = [approach.last]
    while (before := _before(report, found[-1], ends)) is not None and before not in found:
        found.append(before)
    moving = {cell for other in units.approaches for one in other.movements for cell in one.cells}
    begun = {road for road, cells in units.roads.items() if cells[0] in found}
    return [*found, *(cell for cell, road in units.within.items() if road in begun and cell not in moving)]


def _before(report: Report, cell: str, ends: set[str]) -> str | None:
    """The cell before another on the way to a stop line; None where that way begins."""
    units, network = report.units, report.need_network()

    def road(name: str) -> object:
        return units.cells.get(name, {}).get("road")

    ups = [up for up in network.ups[cell] if up not in ends]
    own = [up for up in ups if road(up) is not None and road(up) == road(cell)]
    if own:
        return own[0]
    alone = len(network.ups[cell]) == 1 and ups and len(network.downs[ups[0]]) == 1
    return ups[0] if alone else None


@dataclass
class Passing:
    """A movement of a report: the vehicles/h that its lanes pass in each step, and the intervals in which flows are counted."""

    report: Report
    movement: ApproachMovement
    own: str  # the cell that it leaves last
    behind: Passing | None = None  # who turns left in the same single lane once the others let it, and holds up all of it till then

    @cached_property
    def capacities(self) -> Numbers:
        """What its lanes pass in each step; of who gives way what is let of that movement alone."""
        network, movement = self.report.need_network(), self.movement
        part = numpy.ones(network.steps)
        for cell in dict.fromkeys(filter(None, [movement.line, self.own])):
            part = part * _part(network, cell, network.steps, is_signal=cell == (movement.line or self.own))
        if movement.control in ("", "signal"):
            found: Numbers = part * movement.saturation
            return found
        lanes_most = network.capacities[self.own] * hour_of(self.report)
        return part * lanes_most

    @property
    def gives_way(self) -> bool:
        """Whether what passes is let by the gaps of others."""
        return self.movement.control not in ("", "signal")

    def turns_in(self, other: ApproachMovement) -> bool:
        """Whether it gives way at a green in the lanes of another."""
        return self.movement.control == "permitted" and self.own in other.beside

    def mean(self, begin: int, end: int) -> float:
        """What may pass from a step to another in their mean."""
        return float(self.capacities[begin:end].mean())

    @cached_property
    def bounds(self) -> Numbers:
        """The steps between which flows are counted: whole cycles that last an interval."""
        report, step = self.report, self.report.units.step or 1.0
        steps = report.units.at_random.interval or max(1, round(PERIOD / step))
        cycles = {**report.units.cycles, **report.need_network().cycles}
        cycle = int(cycles.get(self.movement.line, 1)) if self.movement.line else 1
        return numpy.append(numpy.arange(0, report.steps, whole_cycles(steps, cycle)), report.steps).astype(float)

    @cached_property
    def _rows(self) -> list[tuple[float, float, float, float]]:
        """For each interval its own vehicles, the flow of its lanes and what these pass in vehicles/h, and its hours."""
        bounds = self.bounds
        flows = {cell: flow_of(self.report, cell, bounds) for cell in dict.fromkeys([*self.movement.beside, self.own])}
        every = total([flows[cell] for cell in self.movement.beside], bounds)
        may = numpy.add.reduceat(self.capacities, bounds[:-1].astype(int)) / numpy.diff(bounds)
        if self.gives_way:
            share = flows[self.own] / numpy.where(every > 0, every, 1)
            part = numpy.where(every > 0, numpy.minimum(1.0, share * self.movement.lanes), 1.0)
            part = numpy.where(part > 0, part, 1.0)
            every, may = flows[self.own] / part, may / part
        hours = numpy.diff(bounds) / hour_of(self.report)
        if self.behind:
            lane = [(flow, most) if vehicles else own for own, (vehicles, flow, most, _) in zip(zip(every, may), self.behind._rows)]
            every, may = numpy.array(lane).T
        return list(zip((flows[self.own] * hours).tolist(), every.tolist(), may.tolist(), hours.tolist()))

    def lost(self, begin: int, end: int) -> float:
        """The vehicle-hours that its vehicles lose from a step to another by coming at random, where no queue stands."""
        if self.movement.control not in DELAYS:
            return 0.0
        delay = DELAYS[self.movement.control]
        bounds = self.bounds
        inside = numpy.clip(numpy.minimum(bounds[1:], end) - numpy.maximum(bounds[:-1], begin), 0, None) / numpy.diff(bounds)
        lost: float = sum(part * vehicles * delay(flow, may) / HOUR for part, (vehicles, flow, may, _) in zip(inside.tolist(), self._rows)
                          if part and LEAST < flow < FULL * may)
        return lost

    def long_queue(self, begin: int, end: int) -> float:
        """The vehicles that stand in a lane at once no more than in one of twenty moments, where they give way.

        It is the 95th percentile of the Highway Capacity Manual (2010, equations 19-68 and 21-20), of the interval in which it is
        greatest; 0 at signals.
        """
        if self.movement.control not in ("stop", "roundabout"):
            return 0.0
        bounds = self.bounds
        inside = (bounds[:-1] < end) & (bounds[1:] > begin)
        return max((_percentile(flow, may) for own, (_, flow, may, _) in zip(inside, self._rows)
                    if own and LEAST < flow < FULL * may), default=0.0)


def _percentile(flow: float, capacity: float) -> float:
    """The 95th percentile of the vehicles that wait, of a flow in what may pass, both in vehicles/h."""
    period, part = PERIOD / HOUR, flow / capacity
    root = numpy.sqrt((part - 1) ** 2 + HOUR / capacity * part / (Z_95 * period))
    return float(PERIOD * (part - 1 + root) * capacity / HOUR)


def _part(network: Network, cell: str, steps: int, is_signal: bool) -> Numbers:
    """What a cell passes in each step, of what it does at most: by its signal where that is asked for, and by its limits."""
    passing = numpy.ones(steps)
    most = network.capacities[cell]
    for begin, end, capacity in network.limits_of.get(cell, ()):
        passing[begin:end] *= min(1.0, capacity / most)
    if is_signal and cell in network.cycles:
        passing *= _green(network, cell, steps)
    return passing


def _green(network: Network, cell: str, steps: int) -> Flags:
    """In which steps a signal is green."""
    signal = network.signals.set_index("cell").loc[cell]
    green: Flags = ((numpy.arange(steps) + signal.offset - signal["from"]) % signal.cycle) < signal["to"] - signal["from"]
    return green
