"""One run of a draw: a plan with what was drawn, run and measured."""

from __future__ import annotations

from dataclasses import dataclass
from typing import Any

import numpy

from ..many_runs.task import Ran, Task, ran, study
from ..problem import Problem
from ..report.routes import roads_and_gates
from ..report.queues import stands
from ..report.reading import Report
from ..report.travel import cell_before, chain_of, trips
from ..runs.arrivals import Draw
from ..study.plan import Closure
from ..study.uncertainty import Incidents
from .incident import happened
from .reliability import DELAY

LONGEST = "longest route"


@dataclass(frozen=True)
class Asked:
    """What is measured of each run beside its delay: travel times of routes, and whether a queue passes some places."""

    routes: tuple[tuple[str, str], ...] = ()
    places: tuple[str, ...] = ()


@dataclass(frozen=True)
class DrawTask:
    """A run to be made: a plan with its draw, and the incidents that it may have, by the vehicle-km of the first plan.

    With `arrivals` vehicles come at random, in both, by the seed and the number of the draw.
    """

    plan: Task
    first: Task | None
    incidents: tuple[Incidents, ...]
    seed: int
    number: int
    asked: Asked
    arrivals: bool = False

    @property
    def draw(self) -> Draw | None:
        """By what arrivals are drawn, where they are."""
        return Draw(self.seed, self.number) if self.arrivals else None


def measure(task: DrawTask) -> dict[str, Any]:
    """What a run comes to.

    Delay is in vehicle-hours, `last_queue_s` when the last queue cleared, in s after the start, or None without one;
    `delays` are those of each road and gate, `travel` and `free` the mean travel time of those who arrive and that at free flow,
    in min, by road and route; `past` says whether a queue stood before each place; `network` is the checksum of the network.
    """
    made = study(task.plan)
    first = _first(task) if task.first else None
    closures = first.closures if first else []
    made.closures += closures
    run = first.run if first and not closures and task.first == task.plan else ran(made, task.plan, task.draw)
    run.report.need_records()
    return {**figures(run.report, task.asked), "incidents": len(closures), "network": run.checksum, "rounded": run.notes}


@dataclass(frozen=True)
class _First:
    """The run of a draw's first plan without incidents, and the closures of those that happen, the same for each plan."""

    run: Ran
    closures: list[Closure]


def _first(task: DrawTask) -> _First:
    assert task.first is not None  # it is asked for where there may be incidents
    made = study(task.first)
    run = ran(made, task.first, task.draw)
    run.report.need_records()
    return _First(run, happened(task.incidents, run.report, made, task.seed, task.number))


def figures(report: Report, asked: Asked) -> dict[str, Any]:
    """The figures of a report."""
    travel, free = {}, {}
    for name, cells in _ways(report, asked).items():
        found = trips(report, cells)
        arrived = found.of(~numpy.isnan(found.steps))
        minutes = (report.units.step or 0) / 60
        travel[name] = _told(arrived.mean * minutes)
        free[name] = (arrived.mean_free if len(arrived.free) else len(cells)) * minutes
    queued = stands(report)
    rows = numpy.flatnonzero(queued.any(axis=1))
    last = float(report.times[rows[-1] + 1] * (report.units.step or 0)) if len(rows) else None
    past = {place: bool(queued[:, report.place(_cell_before(report, place))].any()) for place in asked.places}
    delays = {name: float(report.units.hours(float(report.amounts.wait[report.places(cells)].sum())))
              for name, cells in roads_and_gates(report).items()}
    return {DELAY: report.delay_vehicle_hours, "left_vehicles": float(report.sums.left),
            "inside_vehicles": float(report.sums.inside), "last_queue_s": last, "delays": delays, "travel": travel,
            "free": free, "past": past}


def _ways(report: Report, asked: Asked) -> dict[str, list[str]]:
    """The cells of each road, of the longest route, and of the routes that are asked for."""
    ways = {road: list(cells) for road, cells in report.units.roads.items()}
    ways[LONGEST] = chain_of(report)
    for begin, end in asked.routes:
        ways[f"{begin} to {end}"] = chain_of(report, begin, end)
    return ways


def _cell_before(report: Report, place: str) -> str:
    """The cell that a queue stands in once it has passed a place."""
    try:
        return cell_before(report, place)
    except Problem as problem:
        raise Problem(f"--queue-past{str(problem).removeprefix('--to')}") from None


def _told(value: float) -> float | None:
    return None if numpy.isnan(value) else float(value)
