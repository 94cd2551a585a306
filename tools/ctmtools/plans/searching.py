"""The search for the timing of signals with the least delay, by scipy's differential evolution over whole numbers."""

from __future__ import annotations

import os
from collections.abc import Callable, Sequence
from dataclasses import dataclass, replace
from fractions import Fraction
from pathlib import Path
from typing import Any

import numpy
import pandas

from ..files.writing import write
from ..many_runs.kept_rows import KeptValues
from ..many_runs.results import Results
from ..many_runs.task import Task, fingerprint
from ..program.calls import program_path
from ..runs.running import settled_by_runs
from ..study.folder import allow_files
from ..study.keys import counted_demands, names_of
from ..study.reading import scenario_of
from ..study.study import StudySource, study_from
from ..study.writing import study_text
from .choosing import MOST_PLANS, candidate, judged
from .timing import Point, Timing

FILE, BEST = "tried.csv", "best.toml"
COLUMNS = ["search", "point", "delay_vehicle_steps"]  # of `FILE`
News = Callable[[int, int, float], object]  # takes the generation, the runs so far, and the least delay in vehicle-hours


class Tried:
    """The delays of the points that were tried for a search, in vehicle-steps."""

    def __init__(self, path: Path | None, mark: str) -> None:
        self.path, self.kept = path, KeptValues(path, mark, COLUMNS)
        self.delays: dict[Point, Fraction] = {tuple(map(int, point.split())): Fraction(delay)
                                              for point, delay in self.kept.values.items()}

    def put(self, point: Point, delay: Fraction) -> None:
        """Adds a point with its delay, and writes its row."""
        self.delays[point] = delay
        self.kept.put(" ".join(map(str, point)), f"{delay.numerator}/{delay.denominator}")

    @property
    def best(self) -> Point:
        """The point of the least delay; of equals the first that was tried."""
        return min(self.delays, key=lambda point: self.delays[point])


@dataclass(eq=False, kw_only=True)
class Optimised(Results):
    """The plans that were tried, the least delay first: the delay before and after, in vehicle-hours, and the best study's text.

    A row has for each stop line or junction when it turns green or its cycle begins, in s, as `keys` have it.
    """

    before: float
    after: float
    text: str


class Search:
    """A search over the timing of a study's signals, the program its judge; what was tried isn't run again.

    With a folder it is kept there.
    """

    def __init__(self, source: StudySource, folder: Path | None = None, least_green: Fraction = Fraction(10)) -> None:
        made = study_from(source)
        self.path, values = made.path, made.values
        self.timing = Timing(values, self.path, least_green)
        mark = fingerprint(Task(values, str(self.path), {"least green": least_green}, ""))
        self.program, self.runs = program_path(), 0
        self.tried = Tried(folder / FILE if folder else None, mark)
        self.earlier = len(self.tried.delays)

    def hours(self, point: Point) -> float:
        """The delay of a point that was tried, in vehicle-hours."""
        return float(self.tried.delays[point] * self.timing.step / 3600)

    def run(self, generations: int, population: int = 48, seed: int = 1, news: News | None = None) -> Point:
        """The best point that was tried, after so many generations of so many plans.

        The draws are those of the seed, so the same call tries the same plans.
        """
        from scipy.optimize import differential_evolution

        most = numpy.array(self.timing.most)
        moved = numpy.flatnonzero(most)  # scipy takes no variable of a single value
        start = numpy.array(self.timing.start)
        first = numpy.random.default_rng(seed).integers(0, most + 1, size=(population, len(most)))
        first[0] = start
        done = 0

        def delays(columns: Any) -> Any:
            points = numpy.tile(start, (columns.shape[1], 1))
            points[:, moved] = numpy.rint(columns.T)
            return numpy.array([float(delay) for delay in self._judged([tuple(map(int, point)) for point in points])])

        def generation_done(*_: Any, **__: Any) -> None:
            nonlocal done
            done += 1
            if news:
                news(done, self.runs, self.hours(self.tried.best))

        differential_evolution(delays, [(0, int(one)) for one in most[moved]], integrality=numpy.ones(len(moved), bool),
                               vectorized=True, updating="deferred", init=first[:, moved].astype(float), seed=seed,
                               maxiter=generations, tol=0, polish=False, callback=generation_done)
        return self.tried.best

    def _judged(self, points: Sequence[Point]) -> list[Fraction]:
        """The delays of points, those that weren't tried judged by the program in groups."""
        new = [point for point in dict.fromkeys(points) if point not in self.tried.delays]
        for begin in range(0, len(new), MOST_PLANS):
            group = new[begin:begin + MOST_PLANS]
            studies = [scenario_of(self.timing.changed(point), self.path) for point in group]
            candidates = [candidate(settled_by_runs(replace(one, actuated=[]), 1, str(self.program)).study) for one in studies]
            found = [delay for part in judged(candidates, self.program) for delay in part]
            for point, delay in zip(group, found):
                self.tried.put(point, delay)
            self.runs += len(group)
        return [self.tried.delays[point] for point in points]


def moved_to(values: dict[str, Any], source: Path, target: Path) -> dict[str, Any]:
    """A study's values for a file in another place: files of counts are named as they are seen from there, and may be read so."""
    allow_files(source.parent)
    for demand in counted_demands(values):
        names = [os.path.relpath(source.parent / name, target.parent) for name in names_of(demand)]
        demand["counts"] = names if isinstance(demand["counts"], list) else names[0]
    return values


def optimised(search: Search, best: Point, folder: Path | None) -> Optimised:
    """What a search has found; the study with the best timing is written into a folder where one is given."""
    rows = [{**{place: float(first) for place, first, _ in search.timing.rows(point)}, "delay_vehicle_hours": search.hours(point)}
            for point in sorted(search.tried.delays, key=search.hours)]
    return Optimised(pandas.DataFrame(rows), tuple(rows[0])[:-1], before=search.hours(search.timing.start), after=search.hours(best),
                     text=best_study(search, best, folder))


def best_study(search: Search, best: Point, folder: Path | None) -> str:
    """The text of the study with the best timing, which is written into a folder where one is given."""
    target = (folder or Path()) / BEST
    values = moved_to(search.timing.changed(best), search.path, target)
    text = study_text(values, f"{search.path} with the best of {len(search.tried.delays)} plans that were tried")
    if folder:
        write(target, text)
    return text
