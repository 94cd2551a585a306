"""One assignment of several that are made side by side, as for several shares of informed drivers."""

from __future__ import annotations

from collections.abc import Sequence
from dataclasses import dataclass
from pathlib import Path
from typing import Any

import pandas

from ..many_runs.results import Results
from ..study.plan import Scenario
from ..study.reading import scenario_of
from ..study.times import Times
from .assigning import Assignment, Round
from .diversion import divert
from .ways_file import WayRow
from .writing import Places, written

MEASURES = ("rounds", "gap", "delay_vehicle_hours", "travel_vehicle_hours", "mean_minutes", "left_vehicles",
            "inside_vehicles")


@dataclass(frozen=True)
class AssignTask:
    """A study's values and path, the ways that drivers have, who may choose anew from which step on, and when to end."""

    values: dict[str, Any]
    path: str
    program: str
    rows: Sequence[WayRow] | None
    informed: float | None
    after: float | None
    gap: float
    iterations: int


def begun(task: AssignTask, workers: int | None = None) -> Assignment:
    """The assignment of a task, before its first round."""
    assignment = Assignment(scenario_of(task.values, Path(task.path)), workers, task.program)
    if task.rows is not None:
        informed = float(assignment.study.routing.informed) if task.informed is None else task.informed
        divert(assignment, task.rows, informed, task.after)
    elif task.informed is not None:
        for choice in assignment.choices:
            choice.informed[:] = task.informed
    assignment.start()
    return assignment


def measure_assigned(task: AssignTask) -> dict[str, Any]:
    """The measures of a task's best round, by name."""
    assignment = begun(task, 1)
    for _ in assignment.rounds(task.gap, task.iterations):
        pass
    return measures(assignment, assignment.best)


def assigned_ways(task: AssignTask, output: str | Path | None, earlier: str | Path | None) -> Results:
    """The ways of a study's assignment, and its measures; with a place for it, it is written."""
    places = None if output is None else Places(Path(output))
    if places:
        places.guard(Path(task.path), Path(earlier) if earlier else None)
    assignment = begun(task)
    for _ in assignment.rounds(task.gap, task.iterations):
        pass
    last = assignment.best
    if places:
        last = written(assignment, last, task.values, places).last
    rows = pandas.DataFrame(assignment.rows()).rename(columns={"source": "from", "into": "to"})
    return Results(rows, figures=measures(assignment, last))


def step_of(after: str | None, study: Scenario) -> float | None:
    """The step of a clock time from which on drivers choose anew."""
    return None if after is None else float(Times(study).after_start(after, "--after") / study.step)


def measures(assignment: Assignment, last: Round) -> dict[str, float]:
    """What an assignment came to."""
    report = assignment.report
    assert report is not None  # a round was made
    step = report.units.step or 0
    vehicles = float(assignment.departures.vehicles.sum())
    hours = last.gap.all_ * step / 3600
    return dict(zip(MEASURES, (last.number, last.gap.relative, last.delay, hours, 60 * hours / vehicles if vehicles else 0.0,
                               float(report.sums.left), float(report.sums.inside))))
