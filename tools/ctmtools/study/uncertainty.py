"""What of a study is uncertain: keys that vary, which of them vary together, incidents, and when vehicles come."""

from __future__ import annotations

from collections.abc import Sequence
from dataclasses import dataclass
from fractions import Fraction
from typing import Any

from ..problem import Problem
from ..texts.quantities import duration, flow, lanes, length, number, shown, word
from .distribution import Distribution, distribution_of, term_of
from .entries import Entries, list_of
from .keys import FACTOR
from .times import RoadPart, Times, road_part

ROUNDING = 1e-9  # by which an eigenvalue of a correlation may fall below 0
AT_RANDOM = "random"


@dataclass(frozen=True)
class Varying:
    """A key of the study and how it varies: by a factor, or in its value itself."""

    key: str
    by_factor: bool
    distribution: Distribution


@dataclass(frozen=True)
class Together:
    """Keys whose normal scores are correlated, with the correlations as rows."""

    keys: tuple[str, ...]
    correlations: tuple[tuple[float, ...], ...]


@dataclass(frozen=True)
class Incidents:
    """Incidents on a part of a road: how many in a million vehicle-km, how long each lasts in s, the lanes that it closes.

    It closes `length` km from the upstream end of its cell on, or its cell where this isn't said.
    """

    part: RoadPart
    rate: float
    lasting: Distribution
    lanes: Distribution
    length: Fraction | None
    saturation_flow: Fraction | None


@dataclass(frozen=True)
class Uncertainty:
    """All that is uncertain of a study; with `arrivals` vehicles come at random in each draw."""

    varying: tuple[Varying, ...] = ()
    together: tuple[Together, ...] = ()
    incidents: tuple[Incidents, ...] = ()
    arrivals: bool = False

    def __bool__(self) -> bool:
        return bool(self.varying or self.incidents or self.arrivals)


def uncertainty_of(tables: Sequence[Entries], times: Times) -> Uncertainty:
    """What the tables of `[[uncertain]]` say: each has a `key`, or `keys` that vary together, the road of `incidents`, or `arrivals`."""
    varying: list[Varying] = []
    together: list[Together] = []
    incidents: list[Incidents] = []
    arrivals = False
    for table in tables:
        kinds = [name for name in ("key", "keys", "incidents", "arrivals") if table.has(name)]
        if len(kinds) != 1:
            raise Problem(f"{table.place}: say one of key, keys, incidents and arrivals")
        if kinds == ["key"]:
            varying.append(_varying(table, varying))
        elif kinds == ["keys"]:
            together.append(_together(table))
        elif kinds == ["arrivals"]:
            arrivals = _arrivals(table)
        else:
            incidents.append(_incidents(table, times))
    _check_together(varying, together)
    return Uncertainty(tuple(varying), tuple(together), tuple(incidents), arrivals)


def _varying(table: Entries, before: Sequence[Varying]) -> Varying:
    key = table.take("key", word)
    factor, value = table.take("factor", word, None), table.take("value", word, None)
    if (factor is None) == (value is None):
        raise Problem(f"{table.key('factor')}: say either factor or value, with its distribution")
    if factor is None and key.split(".")[0] == FACTOR:
        raise Problem(f"{table.key('value')}: {key} is varied by a factor")
    if any(one.key == key for one in before):
        raise Problem(f"{table.key('key')}: {key} varies already")
    name = "value" if factor is None else "factor"
    found = Varying(key, factor is not None, distribution_of(value or factor or "", table.key(name), table,
                                                             given=_as_it_is if factor is None else number))
    table.done()
    return found


def _as_it_is(value: Any, key: str) -> Any:
    """A value of a key of the study, a number or a text; whether the key can have it is seen when the study is read with it."""
    if isinstance(value, bool) or not isinstance(value, (int, Fraction, str)):
        raise Problem(f"{key}: expected a number or a text, found {shown(value)}")
    return value


def _together(table: Entries) -> Together:
    import numpy  # here, so that studies without correlations are read faster

    keys: list[str] = table.take("keys", list_of(word))
    value = table.values.get("correlation")
    if isinstance(value, list):
        rows = [[float(one) for one in row]
                for row in table.take("correlation", list_of(list_of(number, len(keys)), len(keys)))]
    else:
        one = float(table.take("correlation", number))
        rows = [[1.0 if i == j else one for j in range(len(keys))] for i in range(len(keys))]
    table.done()
    if len(keys) < 2 or len(set(keys)) < len(keys):
        raise Problem(f"{table.key('keys')}: expected two keys or more, each once")
    matrix = numpy.array(rows)
    if (matrix != matrix.T).any() or (numpy.diag(matrix) != 1).any():
        raise Problem(f"{table.key('correlation')}: expected the same both ways, and 1 of each key with itself")
    if numpy.linalg.eigvalsh(matrix).min() < -ROUNDING:
        raise Problem(f"{table.key('correlation')}: no values vary together like this; its least eigenvalue is below 0")
    return Together(tuple(keys), tuple(map(tuple, rows)))


def _arrivals(table: Entries) -> bool:
    """That vehicles come at random, which is all that may be said of them."""
    value = table.take("arrivals", word)
    if value != AT_RANDOM:
        raise Problem(f"{table.key('arrivals')}: expected {AT_RANDOM}, found {shown(value)}; without it they come evenly")
    table.done()
    return True


def _check_together(varying: Sequence[Varying], together: Sequence[Together]) -> None:
    """Refuses correlations of keys that don't vary, or that stand in two of them."""
    known, seen = {one.key for one in varying}, set[str]()
    for group in together:
        for key in group.keys:
            if key not in known:
                raise Problem(f"uncertain: {key} has a correlation and doesn't vary")
            if key in seen:
                raise Problem(f"uncertain: {key} stands in two correlations; say one with rows")
            seen.add(key)


def _incidents(table: Entries, times: Times) -> Incidents:
    part = road_part(table, times, "incidents")
    rate = float(table.take("rate", number))
    found = Incidents(part, rate, table.take("duration", lambda value, key: term_of(value, key, duration)),
                      table.take("lanes", lambda value, key: term_of(value, key, lanes)),
                      table.take("length", length, None), table.take("saturation_flow", flow, None))
    table.done()
    if rate < 0:
        raise Problem(f"{table.key('rate')}: a rate isn't negative")
    return found
