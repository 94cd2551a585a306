"""Travel times along a chain of cells, from the curves of arrival and departure of each cell.

A cell is left in the order in which it was entered, so who enters as the N-th leaves it when N have left. Of those who
enter between two records the one in the middle is followed, and flows are taken as even there, also within a step.
"""

from __future__ import annotations

from collections.abc import Sequence
from dataclasses import dataclass
from itertools import groupby
from typing import TYPE_CHECKING

import numpy

from ..arrays import Flags, Numbers, first_greatest, left_at
from ..problem import Problem
from ..texts.amounts import PARTS
from .reading import Report
from .routes import cells_of_road, main_route
from .states import times

if TYPE_CHECKING:
    import pandas

LEAST = 0.01  # vehicles; a recorded step in which fewer enter counts for nothing
DIGITS = 9  # behind the point of a delay, beyond which is what differences leave of nothing
DUST = 1e-6  # vehicles, a part: what rounding may leave


@dataclass(frozen=True)
class Trips:
    """Who enters a chain of cells: how many at which step, and the steps that they need, lacking without an arrival.

    `free` are the steps at free flow, by the speed limits in force.
    """

    entered: Numbers
    vehicles: Numbers
    steps: Numbers
    free: Numbers

    def of(self, chosen: Flags) -> Trips:
        """Those of them that are chosen."""
        return Trips(self.entered[chosen], self.vehicles[chosen], self.steps[chosen], self.free[chosen])

    @property
    def mean(self) -> float:
        """The mean of the steps over the vehicles; lacking where there are none, or not all arrive."""
        if not len(self.vehicles) or numpy.isnan(self.steps).any():
            return float("nan")
        return float((self.vehicles * self.steps).sum() / self.vehicles.sum())

    @property
    def mean_free(self) -> float:
        """The mean over the vehicles of the steps at free flow; lacking where there are none."""
        if not len(self.free) or numpy.ptp(self.free) == 0:
            return float(self.free[0]) if len(self.free) else float("nan")
        return float((self.vehicles * self.free).sum() / self.vehicles.sum())


def trips(report: Report, cells: Sequence[str]) -> Trips:
    """The vehicles that enter the first of the cells, those of each recorded step together, followed to the last one.

    Where cells have merges and diverges between them, who is followed takes the way of the chain.
    """
    report.need_records()
    recorded = numpy.asarray(report.times, dtype=float)
    arrivals = _arrivals(report, cells[0])
    vehicles = numpy.diff(arrivals)
    entered = (recorded[:-1] + recorded[1:]) / 2
    enough = vehicles >= LEAST
    entered, vehicles = entered[enough], vehicles[enough]
    moments = _followed(report, cells, entered)
    free = report.need_network().left_freely(cells, entered) - entered if report.network else numpy.full(len(entered), len(cells))
    return Trips(entered, vehicles, moments - entered, free)


def _arrivals(report: Report, cell: str) -> Numbers:
    """All vehicles that have come to a cell until each recorded step, with those that stood there at first."""
    place = report.place(cell)
    arrivals: Numbers = (report.records.vehicles[:, place] + report.records.left[:, place]) / PARTS
    return arrivals


def _followed(report: Report, cells: Sequence[str], entered: Numbers) -> Numbers:
    """When those leave the last of some cells that enter the first one at some moments; lacking where they don't.

    Cells in which nobody waited are passed together, a step in each, where each step is recorded.
    """
    exact, last, moments = bool((report.lasting == 1).all()), float(report.times[-1]), entered
    free = report.amounts.wait[report.places(cells)] == 0
    for is_free, group in groupby(zip(cells, free.tolist()), key=lambda row: exact and row[1]):
        if is_free:
            moments = moments + len(list(group))
            moments = numpy.where(moments > last, numpy.nan, moments)
            continue
        for cell, _ in group:
            moments = _left(report, cell, moments)
    return moments


def _left(report: Report, cell: str, entered: Numbers) -> Numbers:
    """When those leave a cell that enter it at some moments, in steps; lacking where they don't."""
    recorded, place = numpy.asarray(report.times, dtype=float), report.place(cell)
    # Nobody passes a cell in less than a step, and no moment is known behind the last one.
    soonest = numpy.where(entered + 1 > recorded[-1], numpy.nan, entered + 1)
    departed = report.records.left[:, place] / PARTS
    numbers = numpy.interp(entered, recorded, _arrivals(report, cell)) - DUST
    left, = left_at(recorded, departed[None], numbers[None])
    return numpy.maximum(left, soonest)


def travel_times(report: Report, cells: Sequence[str], every: float | None = None) -> pandas.DataFrame:
    """A row for each span in which vehicles enter a chain of cells: how many, and the time that they need to its end.

    `every` is the length of a span in seconds (in steps where the step isn't known), by default the whole time. The
    frame has `time`, when the span begins, `entered`, how many vehicles, `mean`, `least`, `most`, `free` and `delay` in minutes (or
    steps), and `speed` in km/h where all lengths are known. What is lacking belongs to a span of which not all have
    arrived by the end. `free` is at the speed limits in force. `frame.attrs["units"]` names the units.
    """
    import pandas

    units = report.units
    found, step = trips(report, cells), units.step
    width = (report.steps if every is None else every if step is None else every / step)
    if width <= 0:
        raise Problem("--every: must be above 0")
    spans = numpy.floor(found.entered / width).astype(int)
    scale = 1.0 if step is None else step / 60
    lengths = [units.length(cell) for cell in cells]
    length = sum(filter(None, lengths)) if units.known and any(lengths) else numpy.nan
    rows = []
    for span in sorted(set(spans.tolist())):
        own = found.of(spans == span)
        bounds = (own.steps.min(), own.steps.max()) if own.mean == own.mean else (numpy.nan, numpy.nan)
        rows.append((span * width, own.vehicles.sum(), own.mean * scale, bounds[0] * scale, bounds[1] * scale,
                     own.mean_free * scale))
    frame = pandas.DataFrame(rows, columns=["step", "entered", "mean", "least", "most", "free"])
    frame["delay"] = (frame["mean"] - frame["free"]).round(DIGITS) + 0.0  # and no -0
    frame["speed"] = length / (frame["mean"] / 60) if step is not None else numpy.nan
    frame["step"] = frame.pop("step")  # behind the others
    frame.insert(0, "time", times(units, frame["step"].to_numpy()))
    unit = "steps" if step is None else "min"
    frame.attrs["units"] = {"entered": "vehicles", **dict.fromkeys(("mean", "least", "most", "free", "delay"), unit),
                            "speed": "km/h"}
    return frame


@dataclass(frozen=True)
class RoadTime:
    """The travel time on a road in steps: at free flow, the mean, and the longest, of who entered at a step, the first of those who took so long."""

    road: str
    free: float
    mean: float
    most: float
    entered: float


def road_times(report: Report) -> list[RoadTime]:
    """The travel times of all roads on which vehicles have driven from end to end, the greatest delay first.

    Those who are still on the road at the end aren't counted. Where the units name no roads there is none.
    """
    found, within = [], report.units.within
    for road, cells in ((road, cells) for road, cells in report.units.roads.items() if cells[0] not in within):
        driven = trips(report, cells)
        driven = driven.of(~numpy.isnan(driven.steps))
        if len(driven.steps):
            most = first_greatest(driven.steps)
            found.append(RoadTime(road, driven.mean_free, driven.mean, float(driven.steps[most]), float(driven.entered[most])))
    return sorted(found, key=lambda time: time.free - time.mean)


def chain_of(report: Report, begin: str | None = None, end: str | None = None, road: str | None = None) -> list[str]:
    """The cells from a place to another, those of a road, or, where nothing is said, those of the longest route.

    A place is `ROAD.KM`, a gate or an exit, or the name of a cell where the units name no road.
    """
    if road:
        if begin or end:
            raise Problem("--road: say either a road or --from and --to")
        return cells_of_road(report, road)
    if begin is None and end is None:
        return _driven(report, main_route(report.need_network()))
    if begin is None or end is None:
        raise Problem(f"--{'to' if end is None else 'from'}: is missing; both ends of a route are said")
    first, last = _cell_at(report, begin, "--from"), _cell_at(report, end, "--to")
    import networkx  # here, so that a run of which no way is asked doesn't load it

    try:
        cells = networkx.shortest_path(report.need_network().graph, first, last)
    except networkx.NetworkXNoPath:
        raise Problem(f"{report.name}: no route leads from {begin} to {end}") from None
    return _driven(report, cells)


def cell_before(report: Report, place: str) -> str:
    """The cell that ends at a place, which is written as those of `chain_of`."""
    return _cell_at(report, place, "--to")


def _driven(report: Report, cells: Sequence[str]) -> list[str]:
    """The cells of a chain in which vehicles drive or wait: an exit is left out."""
    kinds = report.need_network().kinds
    found = [cell for cell in cells if kinds[cell] != "exit"]
    if not found:
        raise Problem(f"{report.name}: the route has no cells to drive through")
    return found


def _cell_at(report: Report, place: str, key: str) -> str:
    """The cell behind a place where a route begins, or before it where one ends."""
    units, kinds = report.units, report.need_network().kinds
    for road, cells in units.roads.items():
        kilometre = _kilometre(place, road)
        if kilometre is not None:
            return _on_road(report, road, kilometre, place, key)
    if place in kinds and (not units.roads or kinds[place] != "road"):
        return place
    known = f"a place on a road, as {next(iter(units.roads))}.0.5," if units.roads else "a cell,"
    raise Problem(f"{key} {place}: there is no such place; it is {known} a gate or an exit")


def _kilometre(place: str, road: str) -> float | None:
    """The kilometre of `ROAD.KM`, or None where the place isn't on the road."""
    if not place.startswith(f"{road}."):
        return None
    try:
        return float(place[len(road) + 1:])
    except ValueError:
        return None


def _on_road(report: Report, road: str, kilometre: float, place: str, key: str) -> str:
    rows = [(cell, report.units.cells[cell]) for cell in report.units.roads[road]]
    end = rows[-1][1]["to_km"]
    if not 0 <= kilometre <= end + 1e-9:
        raise Problem(f"{key} {place}: road {road} has {end:g} km")
    if key == "--from":
        return next((cell for cell, row in rows if (row["from_km"] + row["to_km"]) / 2 > kilometre), rows[-1][0])
    return next((cell for cell, row in reversed(rows) if (row["from_km"] + row["to_km"]) / 2 < kilometre), rows[0][0])
