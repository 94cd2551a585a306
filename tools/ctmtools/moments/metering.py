"""Ramp metering with feedback, by ALINEA, as an example of what saved moments are for.

The run is taken from moment to moment. At each of them the rate of a ramp follows from the occupancy that its detector saw
since the one before, and is put into the network's plan for the next interval; what was before stays as it was, so the moment
is one of the changed network too. The law is that of M. Papageorgiou, H. Hadj-Salem and J.-M. Blosseville, "ALINEA: a local
feedback control law for on-ramp metering", Transportation Research Record 1320, 1991: `rate = rate before + gain · (set point
- occupancy)`, between a least and a most.
"""

from __future__ import annotations

from collections.abc import Callable, Iterator, Sequence
from dataclasses import dataclass, field, replace
from fractions import Fraction
from itertools import groupby
from pathlib import Path

import numpy
import pandas

from ..files.writing import write
from ..network_file.checksums import checksum
from ..network_file.kinds import Record, record, record_of
from ..network_file.network import Network
from ..network_file.pace import Pace
from ..problem import Problem
from ..study.network_text import Built
from ..study.plan import Meter
from ..texts.amounts import PARTS, rounded_parts
from ..texts.quantities import HOUR
from ..units import Units
from .agreement import Plan, last_of, plan_of
from .moment import Moment, Runner, kept_state, state_text


@dataclass
class Gauge:
    """A meter on a network: the cell whose capacity it sets, that of its detector, and its figures.

    `wanted` is the set point in per cent of the jam density; `rate`, `least` and `most` are in vehicles/h; it runs from
    the step `begin` to the step `end`. Where a speed limit holds at the detector, a set point that the study doesn't say is
    the occupancy of its capacity at the limit.
    """

    meter: Meter
    cell: str
    detector: str
    wanted: float
    least: float
    most: float
    rate: float
    begin: int
    end: int
    limited: Callable[[int, int], float] | None = field(default=None, repr=False)  # the set point between two steps

    def adjust(self, occupancy: float, begin: int, end: int) -> None:
        """Sets the rate by the occupancy, in per cent, that the detector saw in the last interval, between two steps."""
        wanted = self.limited(begin, end) if self.limited else self.wanted
        self.rate = alinea(self.rate, float(self.meter.gain), wanted, occupancy, self.least, self.most)


def alinea(rate: float, gain: float, wanted: float, occupancy: float, least: float, most: float) -> float:
    """The next rate of a ramp in vehicles/h, by the last one and the occupancy in per cent."""
    return min(max(rate + gain * (wanted - occupancy), least), most)


def gauge_of(meter: Meter, network: Network, units: Units) -> Gauge:
    """A meter of a study on the network that was built of it."""
    kinds, place = network.kinds, meter.place
    cell = units.roads[meter.ramp][-1] if meter.ramp in units.roads else meter.ramp
    if kinds.get(cell) not in ("road", "gate"):
        raise Problem(f"{place}.ramp: there is no road and no gate {meter.ramp}")
    detector = _detector(meter, cell, network, units)
    step, row = units.step or 1.0, network.cells.loc[detector]
    most = float(meter.most) if meter.most is not None else network.capacities[cell] * HOUR / step
    wanted = float(meter.occupancy) if meter.occupancy is not None else critical(row)
    if not 0 < wanted < 100:
        raise Problem(f"{place}.occupancy: must be above 0 and below 100 % of the jam density")
    if float(meter.least) > most:
        raise Problem(f"{place}.least: is above the most, {most:g} vehicles/h")
    end = network.steps if meter.end is None else min(network.steps, round(float(meter.end) / step))
    limited = _limited(row, network.paces.get(detector)) if meter.occupancy is None else None
    return Gauge(meter, cell, detector, wanted, float(meter.least), most, most, round(float(meter.start) / step), end, limited)


def _limited(road: pandas.Series, pace: Pace | None) -> Callable[[int, int], float] | None:
    """The set point of a road with speed limits between two steps, by the mean of its speed."""
    if pace is None:
        return None
    mean = pace.mean
    return lambda first, last: critical(road, float(mean(numpy.array([first, last]))[0]))


def critical(road: pandas.Series, part: float = 1.0) -> float:
    """The occupancy of a road's capacity in per cent, at a part of its own free-flow speed."""
    return float(100 * min(road.Q / part, road.N * road.A / (road.A + part * road.B)) / road.N)


def _detector(meter: Meter, cell: str, network: Network, units: Units) -> str:
    """The cell at which occupancy is measured: that at the detector's kilometre, else the one behind the merge."""
    if meter.road is not None and meter.at is not None:
        if meter.road not in units.roads:
            raise Problem(f"{meter.place}.road: there is no road {meter.road}")
        cells = units.roads[meter.road]
        length = units.cells[cells[-1]]["to_km"]
        if float(meter.at) > length + 1e-9:
            raise Problem(f"{meter.place}.at: km {float(meter.at):g} is beyond road {meter.road}, which has {length:g} km")
        return next(name for name in cells if float(meter.at) <= units.cells[name]["to_km"] + 1e-9)
    ways = [(down, way["kind"]) for _, down, way in network.graph.out_edges(cell, data=True)]
    if len(ways) != 1 or ways[0][1] != "merge" or network.kinds[ways[0][0]] != "road":
        raise Problem(f"{meter.place}.ramp: {meter.ramp} leads into no merge with a road; say road and at of the detector")
    return str(ways[0][0])


@dataclass
class Metered:
    """A network with the limits that its meters have set, and the moment at the end of their last interval.

    `rates` has a row for each interval and meter: `step`, `ramp`, `occupancy`, that in per cent which the detector saw in the
    interval before, and `rate` in vehicles/h.
    """

    built: Built
    rates: pandas.DataFrame
    moment: Moment


def meter(built: Built, gauges: Sequence[Gauge], runner: Runner, kept: Path | None = None,
          done: Callable[[], object] | None = None) -> Metered:
    """Runs a built network from interval to interval, and sets the rates of its meters in each.

    With a file what was reached is kept there, and is taken up again; `done` is called after each interval.
    """
    return Metering(built, gauges, runner, kept).run(done)


def intervals(built: Built, gauges: Sequence[Gauge]) -> range:
    """The steps at which the intervals of meters begin."""
    width = max(1, round(float(gauges[0].meter.interval) / (built.units.step or 1.0)))
    return range(min(gauge.begin for gauge in gauges), max(gauge.end for gauge in gauges), width)


class Metering:
    """The network so far: the limits that were set, and the moment that was reached."""

    def __init__(self, built: Built, gauges: Sequence[Gauge], runner: Runner, kept: Path | None = None) -> None:
        self.own, self.network, self.step = built.network.content, built.network, built.units.step or 1.0
        self.built, self.gauges, self.runner, self.kept = built, gauges, runner, kept
        self.times = intervals(built, gauges)
        odd = next((gauge for gauge in gauges if gauge.meter.interval != gauges[0].meter.interval), None)
        if odd:
            raise Problem(f"{odd.meter.place}.interval: all meters of a study have one interval")
        cells = [gauge.cell for gauge in gauges]
        twice = next((gauge for i, gauge in enumerate(gauges) if gauge.cell in cells[:i]), None)
        if twice:
            raise Problem(f"{twice.meter.place}.ramp: {twice.meter.ramp} has a meter already")
        self.plan: Plan = plan_of(self.network)
        self.places = {name: place for place, name in enumerate(self.network.kinds)}
        self.limits: list[Record] = []
        self.rows: list[tuple[int, str, float, float]] = []
        self.seen: dict[str, float] = {}
        self.moment: Moment | None = None
        self.reached = self.times.start
        # By which what was kept of another network or of other meters is distinguished.
        self.mark = checksum(self.own + repr(list(gauges)).encode())

    @property
    def limited(self) -> Network:
        """The network with the limits that were set."""
        return self.network.with_more(self.limits)

    def run(self, done: Callable[[], object] | None = None) -> Metered:
        """Goes through all intervals, from the one on that was reached by an earlier call."""
        if not self.times:
            raise Problem(f"{self.gauges[0].meter.place}: no interval lies in the study's time")
        self._take_up()
        if self.moment is None and self.times.start:
            self.moment = self.runner.moment(self.own, self.times.start)
        for time in self.times:
            if time >= self.reached:
                self._interval(time, min(time + self.times.step, self.times.stop))
            if done:
                done()
        assert self.moment is not None  # there is an interval
        rates = pandas.DataFrame(self.rows, columns=["step", "ramp", "occupancy", "rate"])
        units = replace(self.built.units, title=f"{self.built.units.title}, metered")
        return Metered(replace(self.built, network=self.limited, units=units), rates, self.moment)

    def _interval(self, time: int, until: int) -> None:
        """Sets the rates of an interval, and goes to its end."""
        for gauge in self.gauges:
            if gauge.begin <= time < gauge.end:
                self._set(gauge, time, until, self.seen.get(gauge.detector))
        before, self.moment = self.moment, self._go_on(self.moment, until)
        self.seen = {gauge.detector: self._occupancy(gauge.detector, before, self.moment, until - time) for gauge in self.gauges}
        self.reached = until
        if self.kept:
            write(self.kept, self._state())

    def _state(self) -> str:
        """What was reached, as text."""
        assert self.moment is not None
        return state_text(self.mark, self.moment, reached=self.reached, limits=[one.text for one in self.limits], rows=self.rows, seen=self.seen,
                          rates=[gauge.rate for gauge in self.gauges])

    def _take_up(self) -> None:
        """Takes up what an earlier call has kept of the same network and meters."""
        state = kept_state(self.kept, self.mark)
        if state is None:
            return
        self.reached, self.seen = state["reached"], state["seen"]
        self.limits = [record_of(text) for text in state["limits"]]
        self.rows = [(step, ramp, occupancy, rate) for step, ramp, occupancy, rate in state["rows"]]
        for gauge, rate in zip(self.gauges, state["rates"]):
            gauge.rate = rate
        self.moment = state["moment"].of(self.limited.content)

    def _set(self, gauge: Gauge, time: int, until: int, occupancy: float | None) -> None:
        """Sets the rate of a meter for an interval."""
        if occupancy is not None:
            gauge.adjust(occupancy, time - self.times.step, time)
        self.limits += self._records(gauge, time, until)
        self.rows.append((time, gauge.meter.ramp, float("nan") if occupancy is None else occupancy, gauge.rate))

    def _records(self, gauge: Gauge, time: int, until: int) -> Iterator[Record]:
        """The limits of an interval: the rate, or what the plan has itself where that is less."""
        parts = rounded_parts(Fraction(gauge.rate * self.step / HOUR))
        own = last_of(self.plan.limits.get(gauge.cell, []), self.plan.capacity[gauge.cell], until)[time:]
        place = time
        for capacity, same in groupby(own.tolist()):
            end = place + len(list(same))
            yield record("limit", gauge.cell, place, end, min(parts, capacity))
            place = end

    def _go_on(self, moment: Moment | None, until: int) -> Moment:
        """The moment at a step, of the network with the limits that were set."""
        content = self.limited.content
        return self.runner.moment(content, until) if moment is None else self.runner.later(moment.of(content), until)

    def _occupancy(self, cell: str, before: Moment | None, now: Moment, steps: int) -> float:
        """The mean occupancy of a cell over so many steps, in per cent of its room.

        What waits in a step is what the cell holds less what leaves it, so both together are the sum of what it held.
        """
        rows = [moment.rows[self.places[cell]] for moment in (before, now) if moment is not None]
        held = rows[-1].wait + rows[-1].gone - (rows[0].wait + rows[0].gone if len(rows) > 1 else 0)
        return 100 * held / PARTS / steps / float(self.network.cells.N[cell])
