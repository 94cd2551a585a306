"""The rules by which rows of broken detectors are left out; tools/docs/detectors.md has them with their sources."""

from __future__ import annotations

from collections.abc import Callable, Sequence
from dataclasses import dataclass
from typing import Any

import numpy
import pandas

from ..problem import Problem

AT = ["station", "day", "second"]


@dataclass(frozen=True)
class Rule:
    """A rule by its name, and its limit where it has one."""

    name: str
    limit: float | None

    def __str__(self) -> str:
        return f"{self.name} ({TOLD[self.name].format(self.limit)})"


def occupancy(frame: pandas.DataFrame, limit: float | None) -> pandas.Series:
    """Occupancies that there can't be."""
    return frame.occupancy > limit


def no_occupancy(frame: pandas.DataFrame, limit: float | None) -> pandas.Series:
    """Vehicles that never stood over the detector."""
    return (frame.occupancy == 0) & (frame.flow > 0)


def no_flow(frame: pandas.DataFrame, limit: float | None) -> pandas.Series:
    """A detector that is held down, and counts nobody."""
    return (frame.occupancy > 0) & (frame.flow == 0)


def no_speed(frame: pandas.DataFrame, limit: float | None) -> pandas.Series:
    """Vehicles that pass and stand still."""
    return (frame.speed == 0) & (frame.flow > 0)


def speed(frame: pandas.DataFrame, limit: float | None) -> pandas.Series:
    """Speeds that there can't be."""
    return frame.speed > limit


def constant(frame: pandas.DataFrame, limit: float | None) -> pandas.Series:
    """Flow, occupancy and speed, not all 0, that stay the same in more rows on end than the limit."""
    columns = [frame[name].fillna(-1) for name in ("flow", "occupancy", "speed")]
    goes_on = (frame.station.cat.codes.diff() == 0) & (frame.moment.diff() == frame.interval)
    same = goes_on & numpy.logical_and.reduce([column.diff() == 0 for column in columns])
    runs = (~same).cumsum().to_numpy()
    return numpy.logical_or.reduce([column > 0 for column in columns]) & pandas.Series(numpy.bincount(runs)[runs] > limit, frame.index)


def capacity(frame: pandas.DataFrame, limit: float | None) -> pandas.Series:
    """More vehicles/h in a lane than can pass."""
    unknown = frame.lanes.isna() & (frame.flow > 0)
    if unknown.any():
        station = frame.station[unknown.idxmax()]
        raise Problem(f"the rule capacity needs the number of lanes, and the files don't say it{f' of station {station}' * bool(station)}; "
                      "say lanes")
    return frame.flow > limit * frame.lanes


def observed(frame: pandas.DataFrame, limit: float | None) -> pandas.Series:
    """Values of which too few were observed, and the others made up."""
    return frame.observed < limit


def repeated(frame: pandas.DataFrame, limit: float | None) -> pandas.Series:
    """Rows that stand there again, with the same values."""
    twice = frame.duplicated(AT, keep=False)
    return frame[twice].duplicated([*AT, "flow", "occupancy", "speed", "density", "observed"]).reindex(frame.index, fill_value=False)


# For each rule what finds its rows, and its limit where it has one.
RULES: dict[str, tuple[Callable[[pandas.DataFrame, float | None], pandas.Series], float | None]] = {
    "repeated": (repeated, None), "observed": (observed, 75), "occupancy": (occupancy, 100), "no-occupancy": (no_occupancy, None),
    "no-flow": (no_flow, None), "no-speed": (no_speed, None), "speed": (speed, 200), "capacity": (capacity, 3000),
    "constant": (constant, 8)}
DAY, DAY_LIMIT = "day", 50.0  # the rule of whole days, which comes after all others
TOLD = {"repeated": "the same row again", "observed": "less than {:g} % observed", "occupancy": "above {:g} %",
        "no-occupancy": "flow without occupancy", "no-flow": "occupancy without flow", "no-speed": "flow at a speed of 0",
        "speed": "above {:g} km/h", "capacity": "above {:g} vehicles/h in a lane",
        "constant": "the same in more than {:g} rows on end", DAY: "a day with less than {:g} % of its rows left"}


def rules_of(words: str | Sequence[str], key: str = "leave_out") -> tuple[Rule, ...]:
    """The rules that words name: `all`, names, and names with another limit as `observed=90`."""
    found: dict[str, Rule] = {}
    for word in [words] if isinstance(words, str) else words:
        name, equals, limit = word.partition("=")
        if name == "all" and not equals:
            found |= {one: Rule(one, usual) for one, usual in _usual().items() if one not in found}
            continue
        if name not in _usual():
            raise Problem(f"{key}: expected all or {', '.join(_usual())}, found \"{word}\"")
        found[name] = Rule(name, _limit(key, word, name, limit) if equals else _usual()[name])
    return tuple(found[name] for name in _usual() if name in found)


def _usual() -> dict[str, float | None]:
    return {**{name: limit for name, (_, limit) in RULES.items()}, DAY: DAY_LIMIT}


def _limit(key: str, word: str, name: str, limit: str) -> float:
    try:
        number = float(limit)
    except ValueError:
        number = numpy.nan
    if not number >= 0 or number == numpy.inf or _usual()[name] is None:
        raise Problem(f"{key}: expected {name}{'' if _usual()[name] is None else '=NUMBER'}, found \"{word}\"")
    return number


def broken(frame: pandas.DataFrame, rules: Sequence[Rule]) -> pandas.Series:
    """For each row the rule by which it is left out, the first that does; an empty text where none does.

    The frame is in the order of stations and times.
    """
    found = numpy.zeros(len(frame), dtype=int)  # the number of the rule, from 1 on
    for i, rule in enumerate(rules, 1):
        if rule.name == DAY:
            hit = _days(frame, (found == 0) & frame.flow.notna() & ~frame.again.astype(bool), rule.limit or 0)
        else:
            hit = RULES[rule.name][0](frame, rule.limit)
        found[hit.to_numpy(dtype=bool) & (found == 0)] = i
    return pandas.Series(numpy.array(["", *(rule.name for rule in rules)], dtype=object)[found], index=frame.index)


def _days(frame: pandas.DataFrame, kept: pandas.Series, limit: float) -> pandas.Series:
    """The kept rows of days of a station that has too few of them, of as many times as any station has on that day."""
    keys: list[Any] = [frame.station, frame.day]
    left = kept.groupby(keys, observed=True).transform("sum")
    times = frame.second.groupby(keys, observed=True).transform("nunique")
    most = times.groupby(frame.day, observed=True).transform("max")
    return kept & (left < most * limit / 100)
