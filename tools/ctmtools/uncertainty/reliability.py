"""What draws show: mean and percentiles of delay and travel times, their indices, probabilities, and two plans compared.

The indices are those of the Federal Highway Administration's Travel Time Reliability, FHWA-HOP-06-070.
"""

from __future__ import annotations

import re
from collections.abc import Iterable, Sequence
from dataclasses import dataclass
from fractions import Fraction
from typing import TYPE_CHECKING

import numpy

from ..problem import Problem

if TYPE_CHECKING:
    import pandas

LEVEL = 0.95  # of each interval
TAIL = (1 + LEVEL) / 2
SPELLED = re.compile(r"([0-9]+(?:\.[0-9]+)?)\s*(%?)")
PERCENTS = (50, 80, 95)
TRAVEL = "travel_min "
PAST = "queue_past "
DELAY = "delay_vehicle_hours"
OF_ROAD = f"{DELAY} "

Interval = tuple[float, float]


def of_mean(values: Sequence[float]) -> Interval:
    """The interval of the mean, by Student's t; all numbers where there are fewer than two."""
    from scipy.special import stdtrit

    count = len(values)
    if count < 2:
        return float("-inf"), float("inf")
    half = float(stdtrit(count - 1, TAIL)) * float(numpy.std(values, ddof=1)) / count**0.5
    mean = float(numpy.mean(values))
    return mean - half, mean + half


def of_percentile(values: Sequence[float], percent: float) -> Interval:
    """The interval of a percentile: two of the values in their order, by how many of them lie below it."""
    from scipy.stats import binom

    ordered, part = sorted(values), percent / 100
    low, high = (int(binom.ppf(tail, len(ordered), part)) for tail in (1 - TAIL, TAIL))
    return ordered[max(low - 1, 0)], ordered[min(high, len(ordered) - 1)]


def of_probability(successes: int, count: int) -> Interval:
    """Wilson's interval of a probability."""
    from scipy.special import ndtri

    score = float(ndtri(TAIL))
    part, share = successes / count, score**2 / count
    middle = (part + share / 2) / (1 + share)
    half = score * (part * (1 - part) / count + share / count / 4)**0.5 / (1 + share)
    return max(0.0, middle - half), min(1.0, middle + half)


@dataclass(frozen=True)
class Within:
    """How narrow the interval of a mean is to be: so far to both sides, in vehicle-hours, or as a part of the mean."""

    half: float
    relative: bool

    def is_reached(self, values: Sequence[float]) -> bool:
        """Whether the mean of values is known so well."""
        low, high = of_mean(values)
        allowed = self.half * abs(float(numpy.mean(values))) if self.relative and len(values) else self.half
        return bool((high - low) / 2 <= allowed)


def within(text: str) -> Within:
    """The interval that `--until-within` asks for: a number, or a number of per cent."""
    found = SPELLED.fullmatch(text.strip())
    if not found or not float(found[1]):
        raise Problem(f"--until-within {text}: expected vehicle-hours above 0, or a part of the mean such as 2%")
    number = Fraction(found[1])
    return Within(float(number / 100 if found[2] else number), bool(found[2]))


@dataclass(frozen=True)
class Spread:
    """How values lie: their mean with its interval, and the percentiles with theirs."""

    count: int
    mean: float
    of_mean: Interval
    percentiles: dict[int, float]
    intervals: dict[int, Interval]


def spread(values: Iterable[float]) -> Spread | None:
    """How values lie, those that lack left out; None where there is none."""
    found = [value for value in values if value == value]
    if not found:
        return None
    return Spread(len(found), float(numpy.mean(found)), of_mean(found),
                  {percent: float(numpy.percentile(found, percent)) for percent in PERCENTS},
                  {percent: of_percentile(found, percent) for percent in PERCENTS})


def planning_time_index(times: Spread, free: float) -> float:
    """The 95th percentile of the travel time by that at free flow."""
    return times.percentiles[95] / free


def buffer_index(times: Spread) -> float:
    """By how much the 95th percentile of the travel time exceeds the mean, as a part of the mean."""
    return (times.percentiles[95] - times.mean) / times.mean


@dataclass(frozen=True)
class Chance:
    """In how many of so many draws something was so, with the interval of its probability."""

    count: int
    of: int

    @property
    def part(self) -> float:
        """In which part of the draws."""
        return self.count / self.of

    @property
    def interval(self) -> Interval:
        """The interval of the probability."""
        return of_probability(self.count, self.of)


def chance(truths: Sequence[bool]) -> Chance:
    """In how many draws something was so."""
    return Chance(sum(truths), len(truths))


@dataclass(frozen=True)
class Comparison:
    """Two plans draw by draw: in how many the second has less delay, and how the second's less the first's lies."""

    less: Chance
    difference: Spread
    middle: Interval  # in which 95 % of the differences lie


def compared(first: pandas.Series, second: pandas.Series) -> Comparison | None:
    """The delays of two plans by draw, compared over the draws that both have."""
    differences = (second - first).dropna()
    found = spread(differences)
    if found is None:
        return None
    low, high = numpy.percentile(differences, [2.5, 97.5])
    return Comparison(chance([bool(one < 0) for one in differences]), found, (float(low), float(high)))


def succeeded(frame: pandas.DataFrame, plan: str) -> pandas.DataFrame:
    """The rows of a plan's runs that didn't fail, by draw."""
    return frame[(frame.plan == plan) & (frame.error == "")].set_index("draw")
