"""Draws of a study or of several plans: their runs, kept as they come, and the rows that they make."""

from __future__ import annotations

import hashlib
import json
from collections.abc import Iterator, Mapping, Sequence
from contextlib import closing
from dataclasses import dataclass, replace
from fractions import Fraction
from pathlib import Path
from typing import Any

import pandas

from ..many_runs.kept_rows import KeptValues
from ..many_runs.task import Task, fingerprint
from ..many_runs.workers import apart, done
from ..problem import Problem
from ..program.calls import need_records, program_path
from ..study.keys import gate_of_factor
from ..study.messages import warned_before_runs
from ..study.study import StudySource
from .incident import drawn
from .plan import Plan, need_what_varies, plans_of, what_varies, with_drawn
from .reliability import DELAY, OF_ROAD, PAST, TRAVEL, Within
from .task import Asked, DrawTask, measure

COLUMNS = ("mark", "run", "measured")
MEASURED = 2  # the way in which runs are measured; what stands in a folder by an earlier one is made anew
BATCH = 20  # draws after which it is seen whether an interval is narrow enough
MOST_AT_ONCE = 1000  # draws that are given out at once
AS_IT_STANDS = 0  # the number of the draw in which nothing is drawn


@dataclass(frozen=True)
class Wanted:
    """What is wanted of draws: how many, by which seed, of which file of what is uncertain in place of what the study says, what is
    measured, how many steps from record to record, and how narrow an interval has to be for an end before the last draw."""

    runs: int
    seed: int
    given: Path | None = None
    asked: Asked = Asked()
    every: int | None = None
    within: Within | None = None


class DrawnRuns:
    """The runs of one plan or more over the same draws; those that stand in the folder already aren't made again."""

    def __init__(self, sources: Sequence[StudySource], wanted: Wanted, folder: Path | None = None) -> None:
        self.runs, self.seed, self.asked, self.every, self.within = wanted.runs, wanted.seed, wanted.asked, wanted.every, wanted.within
        self.program = str(program_path())
        self.plans = plans_of(sources)
        self.uncertainty = what_varies(self.plans, wanted.given)
        need_records()
        for plan in self.plans:
            need_what_varies(plan, self.uncertainty)
            plan.mark = fingerprint(self._task(plan, {}))
        self.kept = KeptValues(None if folder is None else folder / "runs.csv", self._mark(), COLUMNS)
        self.failures: dict[str, str] = {}
        self.count = self.runs  # of the draws that are reported; fewer where an interval was narrow enough

    @property
    def missing(self) -> int:
        """How many runs aren't done."""
        return sum(len(self._missing(1, self.runs, plan)) for plan in self.plans)

    def warnings(self) -> list[str]:
        """The warnings of the plans as they stand, each once."""
        return list(dict.fromkeys(line for plan in self.plans for line in warned_before_runs(replace(plan.study, actuated=[]))))

    def as_it_stands(self) -> list[dict[str, Any]]:
        """The figures of each plan with nothing drawn; where one can't be run, the problem."""
        for plan in self.plans:
            if self._point(plan, AS_IT_STANDS) not in self.kept.values:
                self._put(plan, AS_IT_STANDS, apart(measure, self._draw_task(plan, AS_IT_STANDS)))
            failed = self.failures.get(self._point(plan, AS_IT_STANDS))
            if failed:
                raise Problem(failed if failed.startswith(str(plan.path)) else f"{plan.path}: {failed}")
        return [self.measured(plan, AS_IT_STANDS) for plan in self.plans]

    def run(self, jobs: int | None = None, address: str | None = None) -> Iterator[int]:
        """Does what is missing, so many runs side by side or on a cluster, and gives the number of each draw as it is done.

        Where an interval is asked for, the draws are made in batches, and end where it is narrow enough.
        """
        width = BATCH if self.within else MOST_AT_ONCE
        for first in range(1, self.runs + 1, width):
            self.count = min(first + width - 1, self.runs)
            yield from self._batch(first, self.count, jobs, address)
            if self.within and self.is_narrow:
                return

    def _batch(self, first: int, last: int, jobs: int | None, address: str | None) -> Iterator[int]:
        missing = [(plan, number) for number in range(first, last + 1) for plan in self.plans
                   if self._point(plan, number) not in self.kept.values]
        if not missing:
            return
        tasks = [self._draw_task(plan, number) for plan, number in missing]
        with closing(done(tasks, measure, jobs, address)) as found:
            for i, measured in found:
                self._put(*missing[i], measured)
                yield missing[i][1]

    @property
    def is_narrow(self) -> bool:
        """Whether the interval is as narrow as was asked for, if it was."""
        return self.within is None or self.within.is_reached(self.judged())

    def judged(self) -> list[float]:
        """What the interval is of: the delays of the draws, or of two plans or more the second's less the first's."""
        delays = [[self.measured(plan, number).get(DELAY) for number in range(1, self.count + 1)] for plan in self.plans[:2]]
        if len(delays) == 1:
            return [one for one in delays[0] if one is not None]
        return [second - first for first, second in zip(*delays) if first is not None and second is not None]

    def measured(self, plan: Plan, number: int) -> dict[str, Any]:
        """What a run of a plan came to, or why it failed; nothing where it isn't done."""
        point = self._point(plan, number)
        if point in self.kept.values:
            found: dict[str, Any] = json.loads(self.kept.values[point])
            return found
        return {"error": self.failures[point]} if point in self.failures else {}

    def frame(self) -> pandas.DataFrame:
        """A row for each plan and draw that is done: what was drawn, the figures, and why a run failed."""
        rows = []
        for plan in self.plans:
            for number in range(1, self.count + 1):
                measured = self.measured(plan, number)
                if measured:
                    values = {key: _shown(value) for key, value in drawn(self.uncertainty, self.seed, number).items()}
                    rows.append({"plan": plan.name, "draw": number, **values, **flat(measured)})
        return pandas.DataFrame(rows)

    def _put(self, plan: Plan, number: int, measured: Mapping[str, Any]) -> None:
        point = self._point(plan, number)
        if measured["error"]:
            self.failures[point] = measured["error"]
        else:
            self.failures.pop(point, None)
            self.kept.put(point, json.dumps(measured))

    def _point(self, plan: Plan, number: int) -> str:
        return f"{plan.mark}.{number}"

    def _missing(self, first: int, last: int, plan: Plan) -> list[int]:
        return [number for number in range(first, last + 1) if self._point(plan, number) not in self.kept.values]

    def _task(self, plan: Plan, values: Mapping[str, Any]) -> Task:
        """The run of a plan with values for the keys that vary; none of them where it stands as it is."""
        factors = {key: value for key, value in values.items() if gate_of_factor(key) is not None}
        own = any(gate_of_factor(key) is None for key in values)
        made = with_drawn(plan.values, self.uncertainty.varying, values) if own else plan.values
        return Task(made, str(plan.path.resolve()), factors, self.program, self.every)

    def _draw_task(self, plan: Plan, number: int) -> DrawTask:
        values = drawn(self.uncertainty, self.seed, number) if number != AS_IT_STANDS else {}
        incidents = self.uncertainty.incidents if number != AS_IT_STANDS else ()
        first = self._task(self.plans[0], values) if incidents else None
        arrivals = self.uncertainty.arrivals and number != AS_IT_STANDS
        return DrawTask(self._task(plan, values), first, incidents, self.seed, number, self.asked, arrivals)

    def _mark(self) -> str:
        """A short text that another uncertainty, seed or question would change, and with incidents another first plan."""
        first = self.plans[0].mark if self.uncertainty.incidents else ""
        terms = (MEASURED, self.uncertainty, self.seed, self.asked, first)
        return hashlib.sha256(repr(terms).encode()).hexdigest()[:16]


def flat(measured: Mapping[str, Any]) -> dict[str, Any]:
    """The figures of a run as columns."""
    if measured["error"]:
        return {"error": measured["error"]}
    single = {name: measured[name] for name in ("incidents", DELAY, "left_vehicles", "inside_vehicles", "last_queue_s")}
    return {**single, **{OF_ROAD + road: value for road, value in measured["delays"].items()},
            **{TRAVEL + way: value for way, value in measured["travel"].items()},
            **{PAST + place: int(value) for place, value in measured["past"].items()},
            "rounded": measured["rounded"], "error": ""}


def _shown(value: Any) -> Any:
    """A value that was drawn as a number, or as its text."""
    return float(value) if isinstance(value, (int, Fraction)) else value
