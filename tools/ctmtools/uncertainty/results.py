"""The results of draws: the rows of all runs, what they show of each plan, and their files, from which a page reads them again."""

from __future__ import annotations

import io
import json
from collections.abc import Mapping, Sequence
from dataclasses import dataclass, fields
from functools import cached_property
from pathlib import Path
from typing import Any

import numpy
import pandas

from ..arrays import Numbers
from ..files.reading import read_bytes
from ..files.seals import KEY, broken, is_sealed, sealed
from ..files.writing import write
from ..many_runs.results import Results
from ..network_file.checksums import checksum
from ..problem import Problem
from ..texts.cells import frame_text, unguarded
from .drawn_runs import DrawnRuns, flat
from .reliability import (DELAY, OF_ROAD, PAST, TRAVEL, Chance, Comparison, Spread, buffer_index, chance, compared,
                          planning_time_index, spread, succeeded)

TIME = "travel time "
LEAST_INSIDE = 0.01  # vehicles; what rounding leaves is no vehicle
FEWEST, MOST = 5, 40  # bars
EACH = 10  # draws of a plan that a bar has in the mean, where neither bound holds
DRAWS, BESIDE = "draws.csv", "draws.json"  # a row for each plan and draw, and what else is reported of them
OF_DRAWS = "draws_checksum"
TEXTS = ("plan", "rounded", "error")  # columns of `DRAWS` that are no numbers, whatever they look like


@dataclass(eq=False, kw_only=True)
class Draws(Results):
    """The draws of some plans, a row for each plan and draw, with the figures of the plans as they stand and their free times.

    `times` are the clock times that a queue may last past, in s after the start; `asked_for` are the draws that were asked
    for, of which `count` were made. `networks` has the checksum of the network of each plan as it stands. With `arrivals` vehicles
    come at random in each draw, and evenly in the plans as they stand.
    """

    title: str
    titles: dict[str, str]
    seed: int
    count: int
    asked_for: int
    places: tuple[str, ...]
    times: dict[str, float]
    stand: dict[str, dict[str, Any]]
    free: dict[str, dict[str, float]]
    networks: dict[str, str]
    arrivals: bool = False

    @property
    def plans(self) -> list[str]:
        """The names of the plans."""
        return list(self.stand)

    def own(self, plan: str) -> pandas.DataFrame:
        """The rows of a plan's runs that didn't fail, by draw."""
        return succeeded(self.rows, plan)

    def delays(self, plan: str) -> pandas.Series:
        """The delays of a plan by draw, in vehicle-hours."""
        return self.own(plan)[DELAY].astype(float)

    @property
    def delays_by_plan(self) -> dict[str, Numbers]:
        """The delays of each plan of which a run succeeded, in vehicle-hours."""
        return {plan: self.delays(plan).to_numpy() for plan in self.plans if len(self.own(plan))}

    @cached_property
    def _spreads(self) -> dict[str, dict[str, Spread]]:
        return {plan: {name: found for name, column in self.columns(plan).items()
                       if column in own and (found := spread(own[column].astype(float)))}
                for plan in self.plans for own in [self.own(plan)]}

    def columns(self, plan: str) -> dict[str, str]:
        """The figures of a plan, each with its column: delay, delay of a road or gate, travel time of a road or route."""
        found = {"delay": DELAY}
        for column in self.stand[plan]:
            if column.startswith(OF_ROAD):
                found[f"delay {column.removeprefix(OF_ROAD)}"] = column
            elif column.startswith(TRAVEL):
                found[TIME + column.removeprefix(TRAVEL)] = column
        return found

    def spreads(self, plan: str) -> dict[str, Spread]:
        """How each figure of a plan lies; those are left out that no run has."""
        return self._spreads[plan]

    def as_it_stands(self, plan: str, name: str) -> float | None:
        """A figure of a plan with nothing drawn."""
        value: float | None = self.stand[plan][self.columns(plan)[name]]
        return value

    def planning_time_index(self, plan: str, name: str) -> float:
        """The planning time index of a travel time."""
        return planning_time_index(self.spreads(plan)[name], self.free[plan][name.removeprefix(TIME)])

    def buffer_index(self, plan: str, name: str) -> float:
        """The buffer index of a travel time."""
        return buffer_index(self.spreads(plan)[name])

    def inside(self, plan: str) -> int:
        """In how many draws vehicles are inside at the end."""
        return int((self.own(plan).inside_vehicles > LEAST_INSIDE).sum())

    def passing(self, plan: str, place: str) -> Chance:
        """In how many draws a queue passes a place."""
        return chance([bool(one) for one in self.own(plan)[PAST + place]])

    def lasting(self, plan: str, time: str) -> Chance:
        """In how many draws a queue lasts past a clock time."""
        return chance([bool(one > self.times[time]) for one in self.own(plan).last_queue_s.astype(float)])

    def compared(self, plan: str) -> Comparison | None:
        """A plan beside the first, draw by draw."""
        return compared(self.delays(self.plans[0]), self.delays(plan))

    @property
    def summary(self) -> pandas.DataFrame:
        """A row for each figure of each plan, and for each plan beside the first: see `tools/docs/uncertainty.md`."""
        rows: list[dict[str, Any]] = []
        for plan in self.plans:
            if not len(self.own(plan)):
                continue
            for name, one in self.spreads(plan).items():
                row = {"plan": plan, "figure": name, "unit": "min" if name.startswith(TIME) else "vehicle-hours",
                       "as_it_stands": self.as_it_stands(plan, name), **_spread_row(one)}
                if name.startswith(TIME):
                    row |= {"free": self.free[plan][name.removeprefix(TIME)],
                            "planning_time_index": self.planning_time_index(plan, name),
                            "buffer_index": self.buffer_index(plan, name)}
                rows.append(row)
            rows += [_chance_row(plan, f"queue past {place}", self.passing(plan, place)) for place in self.places]
            rows += [_chance_row(plan, f"queue after {time}", self.lasting(plan, time)) for time in self.times]
        return pandas.DataFrame([*rows, *self._compared_rows()])

    def _compared_rows(self) -> list[dict[str, Any]]:
        rows = []
        for plan in self.plans[1:]:
            found = self.compared(plan)
            if found:
                rows.append({"plan": plan, "figure": f"delay less {self.plans[0]}'s", "unit": "vehicle-hours",
                             **_spread_row(found.difference)})
                rows.append(_chance_row(plan, f"less delay than {self.plans[0]}", found.less))
        return rows


def _spread_row(one: Spread) -> dict[str, Any]:
    row: dict[str, Any] = {"draws": one.count, "mean": one.mean, "mean_low": one.of_mean[0], "mean_high": one.of_mean[1]}
    for percent, value in one.percentiles.items():
        low, high = one.intervals[percent]
        row |= {f"p{percent}": value, f"p{percent}_low": low, f"p{percent}_high": high}
    return row


def _chance_row(plan: str, figure: str, one: Chance) -> dict[str, Any]:
    low, high = one.interval
    return {"plan": plan, "figure": figure, "unit": "of draws", "draws": one.of, "mean": one.part, "mean_low": low,
            "mean_high": high}


def results_of(drawn_runs: DrawnRuns, times: Mapping[str, float] | None = None) -> Draws:
    """The results of draws that have been made; `times` are clock times, in s after the start."""
    measured = dict(zip([plan.name for plan in drawn_runs.plans], drawn_runs.as_it_stands()))
    titles: Sequence[str] = [plan.title for plan in drawn_runs.plans]
    titles = titles if len(set(titles)) == len(titles) else list(measured)
    return Draws(drawn_runs.frame(), tuple(one.key for one in drawn_runs.uncertainty.varying), title=drawn_runs.plans[0].title,
                 titles=dict(zip(measured, titles)), seed=drawn_runs.seed, count=drawn_runs.count, asked_for=drawn_runs.runs,
                 places=drawn_runs.asked.places, times=dict(times or {}), stand={plan: flat(one) for plan, one in measured.items()},
                 free={plan: one["free"] for plan, one in measured.items()},
                 networks={plan: one["network"] for plan, one in measured.items()}, arrivals=drawn_runs.uncertainty.arrivals)


def bars_of(delays: Mapping[str, Numbers]) -> tuple[Numbers, dict[str, Numbers]]:
    """The ends of the bars, and for each plan the part of its draws in each; a plan has one draw at least.

    They are alike for all plans, and the picture and the page draw them.
    """
    every = numpy.concatenate(list(delays.values()))
    count = min(MOST, max(FEWEST, round(len(every) / len(delays)) // EACH))
    ends = numpy.linspace(every.min(), every.max() if every.max() > every.min() else every.min() + 1, count + 1)
    return ends, {plan: numpy.histogram(values, ends)[0] / len(values) for plan, values in delays.items()}


def write_results(results: Draws, folder: Path) -> None:
    """Writes the rows of all draws, and beside them what they are of."""
    rows = frame_text(results.rows, index=False)
    terms = {term.name: getattr(results, term.name) for term in fields(Draws) if term not in fields(Results)}
    write(folder / DRAWS, rows)
    write(folder / BESIDE, json.dumps(sealed({**terms, OF_DRAWS: checksum(rows.encode())}), indent=1) + "\n")


def read_results(folder: Path) -> Draws:
    """The results that a call of `draw` wrote last into a folder."""
    if not (folder / BESIDE).exists():
        raise Problem(f"{folder}: has no {BESIDE}; `ctm-tools draw` writes such a folder")
    content = read_bytes(folder / DRAWS)
    terms = _terms(folder / BESIDE)
    if terms.pop(OF_DRAWS, None) != checksum(content):
        raise Problem(f"{folder / DRAWS}: isn't what {BESIDE} is of; the same call of `ctm-tools draw` writes both anew")
    rows = pandas.read_csv(io.BytesIO(content), float_precision="round_trip", keep_default_na=False, na_values=[""],
                           dtype=dict.fromkeys(TEXTS, str))
    rows = rows.fillna(dict.fromkeys(TEXTS, "")).rename(columns=unguarded)
    for name in TEXTS:
        if name in rows:
            rows[name] = rows[name].map(unguarded)
    try:
        terms["places"] = tuple(terms["places"])
        return Draws(rows, **terms)
    except (TypeError, KeyError, ValueError):
        raise Problem(f"{folder / BESIDE}: isn't one that this `ctm-tools draw` writes") from None


def _terms(path: Path) -> dict[str, Any]:
    try:
        terms = json.loads(read_bytes(path))
    except (ValueError, RecursionError):
        terms = None
    if not isinstance(terms, dict):
        raise Problem(f"{path}: isn't one that `ctm-tools draw` writes")
    if not is_sealed(terms):
        raise broken(path, cure="the same call of `ctm-tools draw` writes it anew")
    del terms[KEY]
    return terms
