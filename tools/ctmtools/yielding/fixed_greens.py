"""What vehicles lose at fixed greens by coming at random, beside the delay of a run, in which they come evenly.

It is the incremental delay of the Highway Capacity Manual (2010, chapter 18; 2016, chapter 19) of each lane group: with `v`
vehicles/h that come to it, and `c` that pass in its greens, each vehicle loses `900·T·(x - 1 + sqrt((x - 1)² + 4·x/(c·T)))` s.
"""

from __future__ import annotations

from collections.abc import Iterable, Iterator, Sequence
from dataclasses import dataclass
from typing import TYPE_CHECKING

import numpy

from ..arrays import Numbers
from ..network_file.network import Network
from ..report.reading import Report
from ..study.crossings import stop_line
from ..study.approaches import Group, LaneUse
from ..study.movements import movement_name, movement_road, movements
from ..study.network_text import Built
from ..study.plan import Crossing, Scenario
from ..texts.quantities import HOUR
from ..units import AtRandom, LaneGroup, Loss, Units, cell_of
from .conflicts import A_VEHICLE, flow_of, total, whole_cycles
from .gaps import at_signal
from .yielding import FULL

if TYPE_CHECKING:
    import pandas

MINUTE = 60


@dataclass(frozen=True)
class GreenWaits:
    """What a lane group's vehicles lose by coming at random: how many do, while no queue stands, in vehicle-hours.

    `part` is what they are of those that may pass, in their mean. `full` is for how many s a queue stands, whose delay is that of
    the run. `most` is the greatest part of what may pass that does in the run.
    """

    name: str
    vehicles: float
    hours: float
    part: float
    full: float
    most: float


def note_losses(study: Scenario, waits: Sequence[Loss], built: Built) -> None:
    """Notes in the units of a network that was settled by what its reports show what is lost by coming at random."""
    units = built.units
    units.at_random = AtRandom(round(study.yield_interval / study.step), lane_groups(study, built.network, units), list(waits))


def waits_at_greens(report: Report) -> list[GreenWaits]:
    """What is lost by coming at random at each lane group of a study, by the report of a run that has records."""
    report.need_records()
    if not report.units.at_random.lane_groups:
        return []
    network, signals = report.need_network(), report.need_network().signals.set_index("cell")
    found = []
    for group in report.units.at_random.lane_groups:
        if group.line not in signals.index:  # of a network from which it was taken by hand
            continue
        width = whole_cycles(report.units.at_random.interval or 1, int(signals.cycle[group.line]))
        bounds = numpy.append(numpy.arange(0, report.steps, width), report.steps).astype(float)
        parts = _green_parts(signals.loc[group.line], network.limits_of.get(group.line, ()), network.capacities[group.line], bounds)
        found.append(_waits(group, report, bounds, group.saturation * parts))
    return found


def lost_at_random(report: Report) -> dict[str, float] | None:
    """The vehicle-hours that are lost by coming at random, by where; None where that isn't known, as without records."""
    if not report.recorded or report.network is None or report.units.at_random.interval is None:
        return None
    return {"at fixed greens": sum(one.hours for one in waits_at_greens(report)),
            "where streams give way": sum(one.hours for one in report.units.at_random.giving_way)}


def _waits(group: LaneGroup, report: Report, bounds: Numbers, capacities: Numbers) -> GreenWaits:
    """What is lost in the intervals in which less comes to a lane group than may pass."""
    come, own = (total([flow_of(report, cell, bounds) for cell in cells], bounds) for cells in (group.all_cells, group.cells))
    hours = numpy.diff(bounds) * (report.units.step or 1.0) / HOUR
    rows = [(one * lasting, flow / capacity, at_signal(flow, capacity)) for one, flow, capacity, lasting
            in zip(own, come, capacities, hours) if 0 < flow < FULL * capacity]
    vehicles = sum(count for count, _, _ in rows)
    part = sum(count * x for count, x, _ in rows) / vehicles if vehicles else 0.0
    most = float((come / numpy.maximum(capacities, A_VEHICLE)).max(initial=0))
    return GreenWaits(group.name, vehicles, sum(count * lost for count, _, lost in rows) / HOUR, part,
                      float(hours[(come > 0) & (come >= FULL * capacities)].sum()) * HOUR, most)


def by_lane_group(report: Report, value_of_time: float | None = None) -> pandas.DataFrame:
    """A row for each lane group at a fixed green, the greatest loss by coming at random first, which is no part of the delay.

    `vehicles` come while no queue stands, `part` of those that may pass in their mean; each loses `lost_each` s, which are `lost`
    vehicle-hours, and for `queue_stands` min a queue stands. With a value of time, in money an hour, `cost` is what they cost.
    """
    import pandas

    rows = [(one.name, one.vehicles, one.part, one.hours * HOUR / one.vehicles if one.vehicles else float("nan"), one.hours,
             one.full / MINUTE) for one in sorted(waits_at_greens(report), key=lambda one: -one.hours)]
    frame = pandas.DataFrame(rows, columns=["lane_group", "vehicles", "part", "lost_each", "lost", "queue_stands"])
    frame.attrs["units"] = {"vehicles": "vehicles", "lost_each": "s", "lost": "vehicle-hours", "queue_stands": "min"}
    if value_of_time is not None:
        frame["cost"] = frame.lost * value_of_time
    return frame


def _green_parts(signal: pandas.Series, limits: Iterable[tuple[int, int, float]], most: float, bounds: Numbers) -> Numbers:
    """What passes a stop line in each interval, as a part of what would in green all the time: limits of it count."""
    times = numpy.arange(int(bounds[-1]))
    passing = ((times + signal.offset - signal["from"]) % signal.cycle < signal["to"] - signal["from"]).astype(float)
    for begin, end, capacity in limits:
        passing[begin:end] *= min(1.0, capacity / most)
    parts: Numbers = numpy.add.reduceat(passing, bounds[:-1].astype(int)) / numpy.diff(bounds)
    return parts


def lane_groups(study: Scenario, network: Network, units: Units) -> list[LaneGroup]:
    """The lane groups at the signals that a study's network has at all times, without those in which all give way."""
    lines = network.cycles
    free = [name for name in lines if name not in {cell_of(one.road, units) for one in study.yields}]
    found, known = [], set()
    for crossing in study.crossings:
        if crossing.phases:
            own = [cell_of(stop_line(crossing, way), units) for way in movements(crossing)]
            known.update(own)
            found += [group for group in _of_crossing(crossing, study, units) if group.line in lines]
    step = units.step or 1.0
    alone = [LaneGroup(name, name, [name], [name], network.capacities[name] * HOUR / step) for name in free if name not in known]
    return found + alone


def _of_crossing(crossing: Crossing, study: Scenario, units: Units) -> Iterator[LaneGroup]:
    """The lane groups of a junction's approaches."""
    for approach in range(len(crossing.sources)):
        for group in LaneUse(crossing, approach, study.roads).groups():
            yield _group(crossing, group, study, units)


def _group(crossing: Crossing, group: Group, study: Scenario, units: Units) -> LaneGroup:
    own = group.own
    roads = [movement_road(crossing, way) for way in own]
    section = study.roads[roads[0]].sections[0]
    into = ", ".join(crossing.into[way[1]] for way in own)
    name = movement_name(crossing, own[0]) if len(own) == 1 else f"{crossing.approach(own[0][0])} to {into}"
    return LaneGroup(f"{crossing.place}, {name}", cell_of(stop_line(crossing, own[0]), units), [cell_of(road, units) for road in roads],
                     [cell_of(movement_road(crossing, way), units) for way in group.loading], group.lanes * float(section.saturation_flow))
