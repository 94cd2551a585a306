"""Distributions of uncertain values, each read at a standard normal score, so that several can be drawn together."""

from __future__ import annotations

import math
from bisect import bisect_right
from collections.abc import Sequence
from dataclasses import dataclass
from itertools import accumulate
from statistics import NormalDist
from typing import Any, Protocol

from ..problem import Problem
from ..texts.quantities import number, shown, word
from .entries import Entries, Reader, list_of

STANDARD = NormalDist()
NEAREST = 2.0**-53  # how near to 0 and 1 a probability comes that a score is taken of
KINDS = ("normal", "lognormal", "uniform", "triangular", "given")


class Distribution(Protocol):
    """What gives a value for each score of a standard normal variate, a greater one for a greater score."""

    def at(self, score: float) -> Any:
        """The value that lies as high in this distribution as the score does in the standard normal one."""


@dataclass(frozen=True)
class Normal:
    """A normal distribution, cut at its least and its most value: what lies beyond them isn't drawn."""

    mean: float
    deviation: float
    least: float
    most: float

    def at(self, score: float) -> float:
        """The value at a score."""
        if self.deviation == 0:
            return self.mean
        low, high = (STANDARD.cdf((bound - self.mean) / self.deviation) for bound in (self.least, self.most))
        if low < NEAREST and high > 1 - NEAREST:
            return self.mean + self.deviation * score
        return min(max(self.mean + self.deviation * _score(low + STANDARD.cdf(score) * (high - low)), self.least), self.most)


@dataclass(frozen=True)
class Lognormal:
    """A lognormal distribution by the mean and the standard deviation of the values, not of their logarithms."""

    mean: float
    deviation: float

    def at(self, score: float) -> float:
        """The value at a score."""
        variance = math.log1p((self.deviation / self.mean) ** 2)
        return self.mean * math.exp(math.sqrt(variance) * score - variance / 2)


@dataclass(frozen=True)
class Uniform:
    """All values between two alike."""

    least: float
    most: float

    def at(self, score: float) -> float:
        """The value at a score."""
        return self.least + (self.most - self.least) * STANDARD.cdf(score)


@dataclass(frozen=True)
class Triangular:
    """A density that rises from the least value to the mode and falls to the most."""

    least: float
    mode: float
    most: float

    def at(self, score: float) -> float:
        """The value at a score."""
        below, width = STANDARD.cdf(score), self.most - self.least
        if below * width < self.mode - self.least:
            return self.least + math.sqrt(below * width * (self.mode - self.least))
        return self.most - math.sqrt((1 - below) * width * (self.most - self.mode))


@dataclass(frozen=True)
class Given:
    """Values that are given, each as often as its weight says."""

    values: tuple[Any, ...]
    weights: tuple[float, ...]

    def at(self, score: float) -> Any:
        """The value at a score."""
        sums = list(accumulate(self.weights))
        return self.values[min(bisect_right(sums, STANDARD.cdf(score) * sums[-1]), len(self.values) - 1)]


def _score(below: float) -> float:
    """The score below which a standard normal variate lies with a probability."""
    return STANDARD.inv_cdf(min(max(below, NEAREST), 1 - NEAREST))


def distribution_of(kind: str, key: str, table: Entries, read: Reader[Any] = number,
                    given: Reader[Any] | None = None) -> Distribution:
    """The distribution of a kind with the terms of a table: its values through `read`, those that are given through `given`."""
    if kind == "given":
        return _given(table, given or read)
    if kind not in KINDS:
        raise Problem(f"{key}: expected {', '.join(KINDS[:-1])} or {KINDS[-1]}, found {shown(kind)}")
    names = {"uniform": ("least", "most"), "triangular": ("least", "mode", "most")}.get(kind, ("mean", "deviation"))
    terms = [float(table.take(name, read)) for name in names]
    if kind in ("uniform", "triangular"):
        if terms != sorted(terms):
            raise Problem(f"{table.key('most')}: expected {', '.join(names[:-1])} and most in rising order")
        if kind == "uniform":
            return Uniform(*terms)
        return Triangular(*terms)
    if terms[1] < 0:
        raise Problem(f"{table.key('deviation')}: a standard deviation isn't negative")
    if kind == "normal":
        return _normal(table, terms[0], terms[1], read)
    return _lognormal(table, terms[0], terms[1])


def _normal(table: Entries, mean: float, deviation: float, read: Reader[Any]) -> Normal:
    least, most = float(table.take("least", read, 0)), float(table.take("most", read, math.inf))
    if not least <= mean <= most:
        raise Problem(f"{table.key('mean')}: lies between least, by default 0, and most")
    return Normal(mean, deviation, least, most)


def _lognormal(table: Entries, mean: float, deviation: float) -> Lognormal:
    if mean <= 0:
        raise Problem(f"{table.key('mean')}: must be above 0")
    return Lognormal(mean, deviation)


def _given(table: Entries, read: Reader[Any]) -> Given:
    values: Sequence[Any] = table.take("values", list_of(read))
    if not values:
        raise Problem(f"{table.key('values')}: has no values")
    weights = [float(weight) for weight in table.take("weights", list_of(number, len(values)), [1] * len(values))]
    if min(weights) < 0 or not sum(weights):
        raise Problem(f"{table.key('weights')}: expected numbers that aren't negative, and not all 0")
    return Given(tuple(values), tuple(weights))


def term_of(value: Any, key: str, read: Reader[Any]) -> Distribution:
    """The distribution of a term that is one value, or a table with its `distribution` and the terms of that."""
    if not isinstance(value, dict):
        return Given((read(value, key),), (1.0,))
    table = Entries(value, key)
    found = distribution_of(table.take("distribution", word), table.key("distribution"), table, read)
    table.done()
    return found
