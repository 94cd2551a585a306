"""A report by approach or by movement as the Highway Capacity Manual has it: demand, capacity, control delay, service, queues."""

from __future__ import annotations

from collections.abc import Iterator, Sequence
from dataclasses import dataclass

import numpy
import pandas

from ..arrays import Numbers
from ..problem import Problem
from ..report.by_road import DIGITS, bounds_of
from ..report.measures import hour_of
from ..report.reading import Report
from ..report.states import times
from ..texts.quantities import HOUR
from .capacity import METRES, Passing, Stages

# The most s of control delay of each level of service: at signals, and where vehicles give way (HCM 2010, chapters 18, 19 and 21).
AT_SIGNALS = (("A", 10), ("B", 20), ("C", 35), ("D", 55), ("E", 80))
GIVING_WAY = (("A", 10), ("B", 15), ("C", 25), ("D", 35), ("E", 50))
MEASURES = ("demand", "left", "capacity", "ratio", "delay_even", "delay_random", "delay_each", "level", "delay", "queue",
            "longest_queue", "lanes", "over_pocket")
COMPARED = ("demand", "capacity", "ratio", "delay_each", "level", "delay", "longest_queue")  # of two reports
UNITS = {"demand": "vehicles/h", "left": "vehicles", "capacity": "vehicles/h", "ratio": "demand/capacity", "delay_even": "s",
         "delay_random": "s", "delay_each": "s", "delay": "vehicle-hours", "queue": "m", "longest_queue": "m",
         "over_pocket": "vehicles"}


def level(delay: float, control: str, ratio: float = 0.0) -> str:
    """The level of service of a control delay in s, A to F, and F above capacity; empty where nothing holds vehicles up."""
    if not control or delay != delay:
        return ""
    steps = AT_SIGNALS if control in ("signal", "permitted") else GIVING_WAY
    return "F" if ratio > 1 else next((name for name, most in steps if delay <= most), "F")


@dataclass
class Row:
    """What a movement, or an approach, comes to in a span; flows in vehicles/h, delays in vehicle-hours, queues in m."""

    demand: float
    left: float
    capacity: float
    ratio: float
    even: float
    random: float
    queue: float
    longest: float
    lanes: int
    over: float
    control: str

    def values(self) -> tuple[object, ...]:
        """The values of the columns, delays of each vehicle in s."""
        even, random = (hours * HOUR / self.left if self.left > 0 else numpy.nan for hours in (self.even, self.random))
        return (self.demand, self.left, self.capacity, self.ratio, even, random, even + random,
                level(even + random, self.control, self.ratio), self.even + self.random, self.queue, self.longest, self.lanes, self.over)


def by_approach(report: Report, every: float | None = None, by: str = "approach", value_of_time: float | None = None,
                drawn: bool = False) -> pandas.DataFrame:
    """A row for each span of time and each approach, or by "movement" for each movement of it.

    `demand` comes and `capacity` may pass, in vehicles/h; `ratio` is what is asked of what may pass, of an approach that of its
    busiest lanes. Control delay, `delay_each` in s for each vehicle that left, is `delay_even`, that of the run, in which vehicles
    come evenly, and `delay_random`, what the manual adds where they come at random; `delay` is both in vehicle-hours. `queue` is
    the mean and `longest_queue` the greatest in m, on so many `lanes`. `over_pocket` are the most vehicles at once that a pocket
    can't hold. With a value of time, in money an hour, `cost` is what the delay costs. Where arrivals were `drawn` the run's delay and
    queues have what comes of them, so nothing of the manual is added.
    """
    if not report.units.known:
        raise Problem(f"{report.name}: the units aren't known, so approaches have no delay in s")
    bounds = bounds_of(report, every)
    found = [(name, list(rows)) for name, rows in _all(report, bounds, by, drawn)]
    key = list(("approach", "movement")[:1 + (by == "movement")])
    rows = [(bounds[span], *name, *own[span].values()) for span in range(len(bounds) - 1) for name, own in found]
    frame = pandas.DataFrame(rows, columns=["step", *key, *MEASURES]).round(DIGITS)
    frame.insert(0, "time", times(report.units, frame["step"].to_numpy()))
    if frame.over_pocket.isna().all():
        frame = frame.drop(columns="over_pocket")
    if value_of_time is not None:
        frame["cost"] = frame.delay * value_of_time
    frame.attrs["units"] = {name: unit for name, unit in UNITS.items() if name in frame}
    return frame


def _all(report: Report, bounds: Sequence[int], by: str, drawn: bool) -> Iterator[tuple[tuple[str, ...], Iterator[Row]]]:
    """The name of each approach or movement, and its rows, one for each span."""
    for approach in report.units.approaches:
        own = Service(Stages(report, approach), drawn)
        spans = [own.rows(begin, end) for begin, end in zip(bounds, bounds[1:])]
        if by == "approach":
            yield (approach.name,), iter([together(rows) for rows in spans])
        else:
            for place, movement in enumerate(approach.movements):
                yield (approach.name, movement.into or "ahead"), iter([rows[place] for rows in spans])


class Service:
    """The measures of an approach's movements, span by span; of a run of `drawn` arrivals without what the manual adds."""

    def __init__(self, stages: Stages, drawn: bool = False) -> None:
        self.stages, self.report, self.drawn = stages, stages.report, drawn
        self.passing = [Passing(self.report, one, stages.last(one)) for one in stages.movements]
        for one in self.passing:
            if one.movement.control == "signal" and one.movement.lanes == 1:
                one.behind = next((other for other in self.passing if other.turns_in(one.movement)), None)

    def rows(self, begin: int, end: int) -> list[Row]:
        """A row for each movement from a recorded step to another."""
        stages, report = self.stages, self.report
        first, last = numpy.searchsorted(report.times, [begin, end])
        rows = slice(int(first), int(last))
        parts = stages.parts(rows)
        hours = (end - begin) / hour_of(report)
        demand = stages.come(rows) / hours * parts
        waits = [stages.waits_of(place, parts)[rows] for place in range(len(parts))]
        random = [0.0 if self.drawn else one.lost(begin, end) for one in self.passing]
        return [self._row(place, (begin, end), rows, _Span(hours, demand, waits, random)) for place in range(len(parts))]

    def _row(self, place: int, steps: tuple[int, int], rows: slice, span: _Span) -> Row:
        """The row of a movement; its queue is that of its lanes, with all who stand in them."""
        movement, passing, report = self.stages.movements[place], self.passing[place], self.report
        beside = [k for k, one in enumerate(self.stages.movements) if self.stages.last(one) in movement.beside] or [place]
        may, ratio = self._may_pass(place, sum(span.demand[k] for k in beside), steps, span.demand)
        metre = self.stages.jam * movement.lanes
        queued = sum(span.waits[k] for k in beside) / report.lasting[rows, 0]
        mean = sum(float(report.units.hours(span.waits[k].sum())) + span.random[k] for k in beside) / span.hours
        long = 0.0 if self.drawn else passing.long_queue(*steps) * movement.lanes
        most = max(float(queued.max(initial=0)), long, mean)
        over = numpy.nan if movement.room is None else max(0.0, most - movement.room)
        return Row(float(span.demand[place]), float(self.stages.passed([self.stages.last(movement)])[rows].sum()), may, float(ratio),
                   float(report.units.hours(span.waits[place].sum())), span.random[place], mean / metre, most / metre,
                   movement.lanes, over, movement.control)

    def _may_pass(self, place: int, asked: float, steps: tuple[int, int], demand: Numbers) -> tuple[float, float]:
        """What may pass of a movement at the demand of each, and what is asked of that; of its lanes it has its part."""
        passing, flow = self.passing[place], float(demand[place])
        turning = sum(float(one) for one, other in zip(demand, self.passing) if other is passing.behind)
        if passing.behind and turning:
            may = passing.behind.mean(*steps) * flow / turning
            return may, flow / may if flow else 0.0
        may = passing.mean(*steps)
        if passing.gives_way:
            return may, flow / may if may > 0 else numpy.inf
        return may * flow / asked if asked > 0 else may, asked / may if may > 0 else numpy.inf


def queue_courses(report: Report, bounds: Sequence[int]) -> dict[str, Numbers]:
    """The queue of each approach in m, on its longest lanes: the most from each of some recorded steps to the next."""
    rows = numpy.searchsorted(report.times, bounds)
    return {approach.name: numpy.maximum.reduceat(_queue(Stages(report, approach))[:rows[-1]], rows[:-1])
            for approach in report.units.approaches}


def _queue(stages: Stages) -> Numbers:
    """The queue of an approach on its longest lanes in m, from each recorded step to the next."""
    parts = stages.parts(slice(None))
    waits = {stages.last(one): stages.waits_of(place, parts) for place, one in enumerate(stages.movements)}
    lanes = [sum(waits[cell] for cell in one.beside if cell in waits) / one.lanes for one in stages.movements]
    longest: Numbers = numpy.max(numpy.array(lanes), axis=0) / stages.report.lasting[:, 0] / stages.jam
    return numpy.nan_to_num(longest)


@dataclass
class _Span:
    """What is known of all movements in a span: its hours, what comes of each in vehicles/h, and what each waits and loses."""

    hours: float
    demand: Numbers
    waits: list[Numbers]
    random: list[float]


def together(rows: Sequence[Row]) -> Row:
    """The movements of an approach as one: sums of flows and delays, and of ratios and queues the greatest."""
    controls = {row.control for row in rows}
    over = [row.over for row in rows if row.over == row.over]
    longest = max(rows, key=lambda row: row.longest)
    return Row(sum(row.demand for row in rows), sum(row.left for row in rows), sum(row.capacity for row in rows),
               max(row.ratio for row in rows), sum(row.even for row in rows), sum(row.random for row in rows),
               max(row.queue for row in rows), longest.longest, longest.lanes, sum(over) if over else numpy.nan,
               "" if "" in controls else controls.pop())


def compared(first: Report, second: Report, by: str = "approach") -> pandas.DataFrame:
    """The approaches, or movements, of both reports: each figure of each and the rise, the greatest changes of delay first."""
    key = ["approach", "movement"][:1 + (by == "movement")]
    one, two = (by_approach(report, by=by).drop(columns=["time", "step"]).set_index(key) for report in (first, second))
    found = pandas.DataFrame(index=one.index[one.index.isin(two.index)])
    for name in COMPARED:
        found[f"{name}_first"], found[f"{name}_second"] = one[name], two[name]
        if name != "level":
            found[f"{name}_rise"] = (two[name] - one[name]).round(DIGITS)
    found.attrs["units"] = {column: UNITS[name] for name in UNITS for column in found if column.rpartition("_")[0] == name}
    order = found.delay_rise.abs().sort_values(ascending=False, kind="stable").index
    ordered = found.loc[order]
    ordered.attrs = found.attrs
    return ordered
