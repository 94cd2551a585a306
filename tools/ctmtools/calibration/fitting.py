"""The values of a study's keys by which it comes nearest to what detectors saw, and those that do as well.

The search for the nearest point of a cube is from a grid of points to the nearest of them, and from several on to valleys.
Each search is scipy's of Nelder and Mead, which ends in the valley that it begins in. So it begins at several points of the
grid: those that are nearer than all the points beside them.
"""

from __future__ import annotations

import itertools
from collections.abc import Callable, Sequence
from dataclasses import dataclass
from fractions import Fraction
from math import inf
from pathlib import Path
from typing import Any

import numpy
import pandas

from ..many_runs.kept_rows import KeptValues
from ..many_runs.results import Results
from ..many_runs.task import Task, fingerprint, ran, study as study_of
from ..many_runs.workers import Done, apart, done
from ..problem import Problem
from ..program.calls import program_path
from ..study.study import StudySource, study_from
from .observed import Observed, modelled

Parts = tuple[float, ...]  # a point: the part of each range
Distance = Callable[[Sequence[float]], float]

TOLERANCE = 0.002  # of a range, within which a search ends
SIDES = (-1, 1)
DIGITS = 4  # of the values that are tried
AS_WELL = 0.05  # values do as well where they add no more than this part to the distance
LEAST = 0.001  # or no more than this
FEWEST = 8  # runs for each key, with which a search is worth its while
HALVINGS = 6  # of the way to the end of a range, by which is found how far they do
FILE = "tried.csv"
COLUMNS = ["search", "point", "distance"]
Point = tuple[float, ...]  # a value for each key; none where the study is as it stands
News = Callable[[int, dict[str, float], float], object]  # takes the runs so far, the nearest values and their distance


def around(dimensions: int, count: int) -> list[Parts]:
    """The points of a grid, each with the part of every range, as many as stay within a count."""
    each = max(1, int(count ** (1 / dimensions) + 1e-9))
    return list(itertools.product([(i + 0.5) / each for i in range(each)], repeat=dimensions))


def starts(grid: Sequence[Parts], off: Callable[[Parts], float], count: int) -> list[Parts]:
    """The points of a grid at which searches begin: the nearest, and those that are nearer than all beside them."""
    width = 1.5 / len({parts[0] for parts in grid})
    valleys = [parts for parts in grid if all(off(parts) <= off(other) for other in grid
                                              if max(abs(a - b) for a, b in zip(parts, other)) < width)]
    return sorted(valleys, key=off)[:count]


def descend(distance: Distance, start: Parts, wide: float, most: int) -> None:
    """Has scipy go down from a point, with a first simplex of a width, in at most so many runs."""
    from scipy.optimize import minimize

    corner = numpy.array(start)
    step = numpy.where(corner + wide <= 1, wide, -wide)
    minimize(distance, corner, method="Nelder-Mead", bounds=[(0, 1)] * len(start),
             options={"maxfev": most, "xatol": TOLERANCE, "fatol": 1e-6,
                      "initial_simplex": numpy.vstack([corner, *(corner + numpy.diag(step))])})


def width_of(grid: Sequence[Parts]) -> float:
    """The width of the first simplex at a point of a grid: half the way to the next, or a third of the range."""
    each = len({parts[0] for parts in grid})
    return 0.3 if each == 1 else 0.5 / each


class Reach:
    """How far one part can move from the nearest point to one side while the distance does as well, found by halving."""

    def __init__(self, best: Parts, place: int, side: int) -> None:
        self.best, self.place, self.side = best, place, side
        self.good, self.bad = best[place], 1.0 if side > 0 else 0.0
        self.tried = self.bad

    @property
    def parts(self) -> Parts:
        """The point to try next: first the end of the range."""
        return tuple(self.tried if i == self.place else part for i, part in enumerate(self.best))

    @property
    def end(self) -> Parts:
        """The farthest point that does as well."""
        return tuple(self.good if i == self.place else part for i, part in enumerate(self.best))

    def judged(self, as_well: bool) -> None:
        """Goes on from whether the point does as well."""
        if as_well:
            self.good = self.tried
        else:
            self.bad = self.tried
        self.tried = (self.good + self.bad) / 2


@dataclass(frozen=True)
class Range:
    """A key of the study and the numbers between which its value lies."""

    key: str
    low: float
    high: float

    def __post_init__(self) -> None:
        if not self.key or not -inf < self.low < self.high < inf:
            raise Problem(f"--vary {self.key}={self.low:g}:{self.high:g}: expected KEY=LOW:HIGH, the lower one first")


def range_of(text: str) -> Range:
    """The range that KEY=LOW:HIGH spells."""
    key, _, bounds = text.partition("=")
    parts = bounds.split(":")
    try:
        low, high = map(float, parts)
    except ValueError:
        raise Problem(f"--vary {text}: expected KEY=LOW:HIGH") from None
    return Range(key, low, high)


def geh(model: pandas.Series, seen: pandas.Series) -> pandas.Series:
    """The GEH of flows in vehicles/h: the root of 2(m - c)²/(m + c)."""
    both = (model + seen).where(model + seen > 0, 1)
    return (2 * (model - seen) ** 2 / both) ** 0.5


def distance(model: pandas.DataFrame, observed: Observed) -> float:
    """How far a model is from what was seen: the root mean square of flows and of speeds, each by its mean, in one."""
    parts = []
    for name in ("flow", "speed"):
        seen = observed.rows[name]
        off = ((model[name] - seen) / (seen.mean() or 1)).dropna()
        if len(off):
            parts.append(float((off ** 2).mean()))
    return float(numpy.sqrt(numpy.mean(parts)))


@dataclass(frozen=True)
class Trial:
    """A run to be made and compared: the study, what is changed in it, the program, and what detectors saw."""

    task: Task
    observed: Observed


def tried(trial: Trial) -> dict[str, Any]:
    """What the run of a trial has where detectors stand."""
    return {"model": modelled(ran(study_of(trial.task), trial.task).report, trial.observed)}


@dataclass(eq=False, kw_only=True)
class Fitted(Results):
    """The values that were tried, the nearest first, how far they and those of the study are, and what the model has with them.

    `as_well` has for each key the least and the greatest value that does as well while the other keys stay.
    """

    values: dict[str, float]
    distance: float
    before: float
    modelled: pandas.DataFrame
    runs: int
    as_well: dict[str, tuple[float, float]]


class Calibration:
    """The runs of a study with some keys varied, and how far each is from what was seen.

    With a folder the distances are kept there as they come, and what stands there isn't run again. Runs that need not follow
    each other are made on `jobs` processes, or on the Dask cluster at an address.
    """

    news: News | None = None

    def __init__(self, study: StudySource, observed: Observed, ranges: Sequence[Range], jobs: int = 1, dask: str | None = None,
                 folder: Path | None = None) -> None:
        if not ranges:
            raise Problem("--vary: name a key of the study to vary")
        made = study_from(study)
        self.path, self.observed, self.ranges, self.values = str(made.path), observed, ranges, made.values
        self.jobs, self.dask, self.program = jobs, dask, str(program_path())
        self.models: dict[Point, pandas.DataFrame] = {}
        self.runs = 0
        mark = fingerprint(Task(self.values, self.path, {"observed": observed.rows.to_csv(), "keys": [one.key for one in ranges]}, ""))
        self.kept = KeptValues(None if folder is None else folder / FILE, mark, COLUMNS)
        self.off = {tuple(map(float, point.split())): float(off) for point, off in self.kept.values.items()}
        self.earlier = len(self.off)

    def point_of(self, parts: Sequence[float]) -> Point:
        """The values, of a few digits, at a point that says the part of each range."""
        return tuple(float(f"{one.low + min(1, max(0, part)) * (one.high - one.low):.{DIGITS}g}")
                     for one, part in zip(self.ranges, parts))

    def distance(self, parts: Sequence[float]) -> float:
        """How far the run at a point is from what was seen."""
        point = self.point_of(parts)
        self.need([point])
        return self.off[point]

    def need(self, points: Sequence[Point]) -> None:
        """Makes the runs of some points that haven't been made."""
        missing = [point for point in dict.fromkeys(points) if point not in self.off]
        for place, found in self._done([self._trial(point) for point in missing]):
            if found["error"]:
                raise Problem(found["error"])
            self._put(missing[place], found["model"])

    def model(self, point: Point) -> pandas.DataFrame:
        """What the run of a point has where detectors stand."""
        if point not in self.models:
            found = apart(tried, self._trial(point))
            if found["error"]:
                raise Problem(found["error"])
            self.models[point] = found["model"]
        return self.models[point]

    @property
    def best(self) -> Point:
        """The nearest point within the ranges that was run; of those that are as near the first."""
        within = (point for point in self.off if point and all(one.low <= value <= one.high
                                                               for one, value in zip(self.ranges, point)))
        return min(within, key=lambda point: self.off[point])

    def named(self, point: Point) -> dict[str, float]:
        """The values of a point by their keys."""
        return dict(zip((one.key for one in self.ranges), point))

    def _trial(self, point: Point) -> Trial:
        changes = {key: Fraction(str(value)) for key, value in self.named(point).items()}
        return Trial(Task(self.values, self.path, changes, self.program), self.observed)

    def _put(self, point: Point, model: pandas.DataFrame) -> None:
        self.runs += 1
        self.models[point], self.off[point] = model, distance(model, self.observed)
        self.kept.put(" ".join(map(repr, point)), repr(self.off[point]))
        if self.news and point:
            self.news(self.runs, self.named(self.best), self.off[self.best])

    def _done(self, trials: Sequence[Trial]) -> Done:
        """Does the trials on the cluster, on processes or here; a single one is done here."""
        return done(trials, tried, self.jobs, self.dask if len(trials) > 1 else None)

    def search(self, most: int, first: int, count: int) -> Point:
        """The nearest point after at most so many runs, of which `first` are those of a grid, in `count` searches."""
        keys = len(self.ranges)
        grid = around(keys, min(first, max(1, most // 2)))
        self.need([(), *map(self.point_of, grid)])
        left = most - len(grid)
        begins = starts(grid, self.distance, max(1, min(count, left // (FEWEST * keys))))
        for start in begins:
            descend(self.distance, start, width_of(grid), max(1, left // len(begins)))
        return self.best

    def as_well(self, best: Point) -> dict[str, tuple[float, float]]:
        """For each key the values next to the best one that do as well while the others stay."""
        most = self.off[best] + max(AS_WELL * self.off[best], LEAST)
        parts = tuple((value - one.low) / (one.high - one.low) for one, value in zip(self.ranges, best))
        reaches = [Reach(parts, place, side) for place in range(len(parts)) for side in SIDES]
        for _ in range(HALVINGS):
            points = [self.point_of(reach.parts) for reach in reaches]
            self.need(points)
            for reach, point in zip(reaches, points):
                reach.judged(self.off[point] <= most)
        ends = [self.point_of(reach.end)[reach.place] for reach in reaches]
        return {one.key: (min(ends[2 * i], best[i]), max(ends[2 * i + 1], best[i])) for i, one in enumerate(self.ranges)}


def most_runs(most: int, keys: int) -> int:
    """The runs of a calibration of so many keys, at most, whose search has so many."""
    return 1 + most + 2 * HALVINGS * keys


def fitted(calibration: Calibration, most: int = 80, first: int = 16, searches: int = 3) -> Fitted:
    """The values by which the study comes nearest, after at most so many runs, and those that do as well.

    The runs begin with a grid of `first` points, and so many searches go down from the nearest of them that lie apart. What
    does as well takes up to a dozen more for each key.
    """
    calibration.search(most, first, searches)
    as_well = calibration.as_well(calibration.best)
    best = calibration.best
    off = sorted((point for point in calibration.off if point), key=lambda point: calibration.off[point])
    rows = pandas.DataFrame([{**calibration.named(point), "distance": calibration.off[point]} for point in off])
    return Fitted(rows, tuple(one.key for one in calibration.ranges), values=calibration.named(best), distance=calibration.off[best],
                  before=calibration.off[()], modelled=calibration.model(best), runs=calibration.runs, as_well=as_well)


def by_place(model: pandas.DataFrame, observed: Observed) -> pandas.DataFrame:
    """A row for each detector: the mean GEH, the share of rows with a GEH below 5, and the RMSE of flow and of speed."""
    rows = observed.rows.assign(model=model.flow, model_speed=model.speed, geh=geh(model.flow, observed.rows.flow))
    found = {}
    for place in observed.places:
        own = rows[rows.place == place]
        found[place] = {"rows": len(own), "geh": own.geh.mean(), "below_5": (own.geh < 5).mean(),
                        "rmse_flow": ((own.model - own.flow) ** 2).mean() ** 0.5,
                        "rmse_speed": ((own.model_speed - own.speed) ** 2).mean() ** 0.5}
    frame = pandas.DataFrame(found).T
    frame.index.name = "place"
    return frame
