"""A sweep: every combination of varied values, built, run and measured, with what is there already."""

from __future__ import annotations

from collections.abc import Iterator, Mapping, Sequence
from contextlib import closing
from dataclasses import replace
from pathlib import Path
from typing import Any

import numpy
import pandas

from ..many_runs.kept_rows import SEAL, KeptRows
from ..many_runs.results import Results
from ..many_runs.task import Task, fingerprints, ran, study
from ..many_runs.variations import Variation, combinations, shown
from ..many_runs.workers import Done, done, side_by_side
from ..problem import NoSuchKey, Problem
from ..program.calls import need_records, program_path
from ..report.queues import Queue, queues_in
from ..report.reading import Report
from ..report.travel import chain_of, trips
from ..report.upstream import waiting_upstream
from ..study.messages import warned_before_runs
from ..study.study import StudySource, study_from

MEASURES = ("delay_vehicle_hours", "longest_queue_km", "most_waiting_vehicles", "left_vehicles", "inside_vehicles",
            "travel_time_min", "waiting_upstream_vehicles")
BEHIND = (*MEASURES, "rounded", "error", "fingerprint")


def measure(task: Task) -> dict[str, Any]:
    """The measures of a task's run, by name, and what of it was rounded."""
    run = ran(study(task), task)
    return {**measures_of(run.report), "rounded": run.notes}


def measures_of(report: Report) -> dict[str, float]:
    """The measures of a report, by name.

    Delay is in vehicle-hours, the longest queue in km of whole cells, most waiting are the vehicles that waited at once
    in one queue, on roads and in gates, the travel time is the mean of the longest route from a gate, with the wait in
    it, of vehicles that have arrived. Waiting upstream are the most vehicles in a gate behind a queue that reached the upstream end
    of the model, which is longer than reported. The rest is in vehicles at the end.
    """
    travel_time = _travel_time(report)  # first, since it reads all records
    queues = queues_in(report)
    values = (report.units.hours(report.sums.delay), *_greatest(queues), report.sums.left, report.sums.inside,
              travel_time, waiting_upstream(report, queues))
    return dict(zip(MEASURES, map(float, values)))


def _greatest(queues: Sequence[Queue]) -> tuple[float, float]:
    """The way that the longest queue reached back, in km, and the most vehicles that waited in one queue."""
    return (max((queue.longest_reach for queue in queues), default=0.0),
            max((queue.most for queue in queues), default=0.0))


def _travel_time(report: Report) -> float:
    """The mean travel time in minutes along the longest route, of vehicles that have arrived; lacking without any."""
    if not report.recorded:
        return float("nan")
    found = trips(report, chain_of(report))
    return found.of(~numpy.isnan(found.steps)).mean * (report.units.step or 0) / 60


class SweptRows:
    """The rows by the fingerprints of their runs; those of earlier calls over the same keys stay in the file, but for failures."""

    def __init__(self, path: Path | None, keys: Sequence[str], marks: Sequence[str]) -> None:
        self.path, self.marks = path, set(marks)
        self.columns = [*keys, *BEHIND]
        self.kept = KeptRows(path, self.columns, self._of_another, "line", "its run is made anew", lambda row: not row[-2])
        self.rows: dict[str, dict[str, Any]] = {row[-1]: dict(zip(self.columns, row)) for row in self.kept.rows}

    @property
    def done(self) -> set[str]:
        """The fingerprints of this call's runs that have their rows."""
        return self.marks & self.rows.keys()

    def _of_another(self, columns: Sequence[str]) -> str:
        """What is wrong with a file that has other columns."""
        keys, own = (", ".join(name for name in names if name not in (*BEHIND, SEAL)) or "nothing" for names in (columns, self.columns))
        if keys == own:
            return "has other measures, as another version of these tools wrote it; name another folder with -o"
        return f"has the results of a sweep over {keys}; name another folder with -o"

    def put(self, changes: Mapping[str, Any], measured: Mapping[str, Any], mark: str) -> None:
        """Adds the row of a run, and writes it at once; a measure that it lacks stays empty."""
        lacking: dict[str, Any] = dict.fromkeys(MEASURES)
        row = {**{key: shown(value) for key, value in changes.items()}, **lacking, "rounded": "", **measured, "fingerprint": mark}
        self.rows[mark] = row
        self.kept.put(["" if pandas.isna(row[name]) else str(row[name]) for name in self.columns])

    def frame(self) -> pandas.DataFrame:
        """This call's rows as a data frame, the least delay first and those that failed last."""
        frame = pandas.DataFrame([self.rows[mark] for mark in self.done], columns=self.columns)
        for name in MEASURES:
            frame[name] = pandas.to_numeric(frame[name], errors="coerce")  # earlier versions wrote nan
        order = ["delay_vehicle_hours", "longest_queue_km", *self.columns[:-len(BEHIND)]]
        return frame.sort_values(order, na_position="last", kind="stable", ignore_index=True)


class Sweep:
    """The runs of a study over varied values; those that stand in the folder already aren't made again.

    The study is read as it stands, so that a mistake in it ends the sweep at once.
    """

    def __init__(self, source: StudySource, variations: Sequence[Variation], every: int | None = None,
                 folder: Path | None = None) -> None:
        made, program = study_from(source), str(program_path())
        values, path = made.values, str(made.path.resolve())
        self.keys = [one.key for one in variations]
        self.tasks = [Task(values, path, changes, program, every) for changes in combinations(variations)]
        self.title = made.title
        for one in variations:
            _need_key(Task(values, path, {one.key: one.values[0]}, program))
        need_records()
        self.marks = fingerprints(self.tasks)
        self.rows = SweptRows(None if folder is None else folder / "results.csv", self.keys, self.marks)

    @property
    def missing(self) -> list[int]:
        """The numbers of the tasks that aren't done."""
        return [i for i, mark in enumerate(self.marks) if mark not in self.rows.rows]

    def warnings(self) -> list[str]:
        """The warnings of the first run's study; none where it can't be built, since its row says why."""
        try:
            return list(warned_before_runs(replace(study(self.tasks[0]), actuated=[])))  # each run has its greens follow traffic
        except Problem:
            return []

    def run(self, jobs: int | None = None, address: str | None = None) -> Iterator[int]:
        """Does what is missing, so many runs side by side or on a cluster, and gives the number of each as it is done.

        A cluster is asked for at once, the runs are begun when the first number is.
        """
        missing = self.missing
        return self._kept(missing, done([self.tasks[i] for i in missing], measure, jobs, address)) if missing else iter(())

    def _kept(self, numbers: Sequence[int], found: Done) -> Iterator[int]:
        """Puts what was measured of the tasks of these numbers among the rows, as it comes."""
        with closing(found):
            for i, measured in found:
                self.rows.put(self.tasks[numbers[i]].changes, measured, self.marks[numbers[i]])
                yield numbers[i]

    def side_by_side(self, jobs: int | None = None) -> int:
        """How many runs are made at once on this machine."""
        return side_by_side(len(self.missing), jobs)

    def results(self) -> Results:
        """The rows, the least delay first and those that failed last, numbers of the varied keys as numbers."""
        frame = self.rows.frame().drop(columns="fingerprint")
        for key in self.keys:
            frame[key] = _numbers(frame[key])
        return Results(frame, tuple(self.keys))


def _numbers(column: pandas.Series) -> pandas.Series:
    """A column as numbers, where all of it are."""
    try:
        return pandas.to_numeric(column)
    except ValueError:
        return column


def _need_key(task: Task) -> None:
    """Refuses a key that the study doesn't have; a value that it can't have is a matter of its row."""
    try:
        study(task)
    except NoSuchKey:
        raise
    except Problem:
        pass
