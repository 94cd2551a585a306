"""A study run many times: varied, drawn, chosen, optimised, calibrated, assigned."""

from __future__ import annotations

from collections.abc import Mapping, Sequence
from fractions import Fraction
from pathlib import Path
from typing import TYPE_CHECKING, TypedDict, Unpack

from ..detectors.options import StationOptions, station_options, wanted_by
from ..problem import check_options
from ..study.study import StudySource, study_from

if TYPE_CHECKING:
    from ..calibration.fitting import Fitted
    from ..many_runs.results import Results
    from ..many_runs.variations import Vary
    from ..plans.searching import Optimised
    from ..uncertainty.results import Draws


def sweep(study: StudySource, vary: Vary, output: str | Path | None = None, jobs: int | None = None, every: int | None = None,
          dask: str | None = None) -> Results:
    """A row for each combination of varied values of a study's keys: the measures of its run, the least delay first.

    `vary` has for each key its values, or a text as the command has it: `{"demand": [0.8, 1], "signals.offset":
    "0:60:10"}`. With the folder `output` the rows are kept there as they come, and a sweep that was stopped goes on.
    `jobs` runs are made side by side, by default as many as there are processors, or all on the cluster at `dask`.
    A run that failed says why in `error`.
    """
    from ..many_runs.variations import variations_of
    from ..sweeps.sweeping import Sweep

    wanted = Sweep(study, variations_of(vary), every, _folder(output))
    for _ in wanted.run(jobs, dask):
        pass
    return wanted.results()


class DrawOptions(TypedDict, total=False):
    """How many draws there are, of what, what is reported of them, and where they run, as `ctm-tools draw` has it."""

    runs: int
    seed: int
    uncertain: str | Path | None
    output: str | Path | None
    until_within: str | float | None
    routes: Sequence[tuple[str, str]]
    queue_past: Sequence[str]
    queue_after: Sequence[str]
    jobs: int | None
    dask: str | None
    every: int | None


def draw(*studies: StudySource, **options: Unpack[DrawOptions]) -> Draws:
    """A study, or several plans, run over draws of what is uncertain of it, as `ctm-tools draw` has it: 100 of them from seed 1.

    Of what it gives `rows` is a frame with a row for each plan and draw, `summary` one with mean, percentiles and indices of
    delay and travel times, and `compared(plan)` a plan beside the first. `uncertain` is a file in place of what the study says,
    and `until_within` the half width of an interval, a number of vehicle-hours or a text as "2%". With the folder `output` the
    runs are kept there, and draws that were stopped go on.
    """
    from ..study.times import Times
    from ..uncertainty.drawn_runs import DrawnRuns, Wanted
    from ..uncertainty.reliability import within
    from ..uncertainty.results import results_of
    from ..uncertainty.task import Asked

    check_options(options, DrawOptions)
    uncertain, narrow = options.get("uncertain"), options.get("until_within")
    wanted = Wanted(options.get("runs", 100), options.get("seed", 1), None if uncertain is None else Path(uncertain),
                    Asked(tuple(options.get("routes", ())), tuple(options.get("queue_past", ()))), options.get("every"),
                    None if narrow is None else within(str(narrow)))
    drawn_runs = DrawnRuns(studies, wanted, _folder(options.get("output")))
    times = Times(drawn_runs.plans[0].study)
    ends = {time: float(times.after_start(time, "queue_after")) for time in options.get("queue_after", ())}
    drawn_runs.as_it_stands()
    for _ in drawn_runs.run(options.get("jobs"), options.get("dask")):
        pass
    return results_of(drawn_runs, ends)


def choose(study: StudySource, vary: Vary, output: str | Path | None = None) -> Results:
    """A row for each combination of varied values, as plans that the program chooses among: the least delay first.

    `vary` is that of `sweep`. With the folder `output` the delays are kept there as they come, and a choice that was stopped goes
    on. The rows have the keys, `delay_vehicle_hours`, what was `rounded`, and why a plan failed in `error`.
    """
    from ..many_runs.variations import variations_of
    from ..plans.choosing import Choice

    choice = Choice(study, variations_of(vary), _folder(output))
    for _ in choice.run():
        pass
    return choice.results()


def optimise(study: StudySource, output: str | Path | None = None, generations: int = 30, population: int = 48, seed: int = 1,
             least_green: float = 10) -> Optimised:
    """The timing of a study's signals with the least delay that a search finds, as `ctm-tools optimise` has it.

    Its rows are the plans that were tried, and `text` is the study with the best one. With the folder `output` what was tried is
    kept there, and `best.toml` is that study.
    """
    from ..plans.searching import Search, optimised

    search = Search(study, _folder(output), Fraction(str(least_green)))
    return optimised(search, search.run(generations, population, seed), _folder(output))


class CalibrateOptions(StationOptions, total=False):
    """How many runs are made, how and where, where stations stand, and how files of detectors are read."""

    runs: int
    first: int
    starts: int
    jobs: int
    dask: str | None
    at: Mapping[str, str] | None


def calibrate(study: StudySource, observed: str | Path | Sequence[str | Path], vary: Mapping[str, tuple[float, float]],
              output: str | Path | None = None, **options: Unpack[CalibrateOptions]) -> Fitted:
    """The values of a study's keys by which it comes nearest to detectors: `values`, and in `as_well` those that do as well.

    `observed` is a file of detectors, or several, and `vary` has for each key the bounds of its value. `at` says where stations
    stand, and the other options are those of `ctm-tools calibrate`, by default 80 `runs` at most, 16 of them the `first`, and 3
    `starts`. With the folder `output` the distances of all runs are kept there, and a calibration that was stopped goes on.
    """
    from ..calibration.fitting import Calibration, Range, fitted
    from ..calibration.observed import read_observed

    check_options(options, CalibrateOptions)
    made, ranges = study_from(study), [Range(key, float(low), float(high)) for key, (low, high) in vary.items()]
    seen = read_observed(observed, wanted_by(**station_options(options)), options.get("at"), made.scenario)
    calibration = Calibration(made, seen, ranges, options.get("jobs", 1), options.get("dask"), _folder(output))
    return fitted(calibration, options.get("runs", 80), options.get("first", 16), options.get("starts", 3))


class AssignOptions(TypedDict, total=False):
    """Whose ways drivers have, who chooses anew, and when it ends, as `ctm-tools assign` has it; `earlier` is its --from."""

    earlier: str | Path | None
    informed: float | None
    after: str | None
    gap: float
    iterations: int


def assign(study: StudySource, output: str | Path | None = None, **options: Unpack[AssignOptions]) -> Results:
    """A row for each pair, interval of setting out and way: `vehicles`, `minutes` and `roads`, with drivers who choose.

    `figures` has `rounds`, `gap`, `delay_vehicle_hours` and the other measures of the last round. The options are those
    of `ctm-tools assign`, and `earlier` is its --from. With `output`, NAME.toml, the study with the shares, its network, its
    report and its ways are written too.
    """
    from ..assignment.diversion import ways_of_study
    from ..assignment.task import AssignTask, assigned_ways, step_of
    from ..program.calls import program_path

    check_options(options, AssignOptions)
    made, earlier = study_from(study), options.get("earlier")
    task = AssignTask(made.values, str(made.path), str(program_path()), ways_of_study(earlier) if earlier else None,
                      options.get("informed"), step_of(options.get("after"), made.scenario), options.get("gap", 0.01),
                      options.get("iterations", 50))
    return assigned_ways(task, output, earlier)


def _folder(output: str | Path | None) -> Path | None:
    return None if output is None else Path(output)
