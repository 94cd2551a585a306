"""What is varied: keys of the study with their values, and every combination of them."""

from __future__ import annotations

import copy
import itertools
from collections.abc import Iterable, Iterator, Mapping, Sequence
from dataclasses import dataclass
from fractions import Fraction
from typing import Any

from ..problem import Problem
from ..study.keys import gate_of_factor, places
from ..texts.quantities import exact

Vary = Mapping[str, str | Iterable[object]]  # for each key its values, or a text as the command has it
MOST_VALUES = 1000
MOST_DENOMINATOR = 10**9  # 0.1 + 0.2 of Python is 3/10


@dataclass(frozen=True)
class Variation:
    """A key of the study and the values that it takes: numbers, in the key's unit, or texts."""

    key: str
    values: tuple[Any, ...]


def variation(text: str) -> Variation:
    """The variation that KEY=FROM:TO:STEP or KEY=VALUE,VALUE,.. spells."""
    key, sign, values = text.partition("=")
    if not sign or not key or not values:
        raise Problem(f"--vary {text}: expected KEY=FROM:TO:STEP or KEY=VALUE,VALUE,..")
    parts = values.split(":")
    numbers = [number for number in map(_number, parts) if isinstance(number, Fraction)]
    if len(parts) == len(numbers) == 3:
        return Variation(key, tuple(_range(text, *numbers)))
    return Variation(key, tuple(_number(part) for part in values.split(",")))


def variations_of(vary: Vary) -> list[Variation]:
    """The variations of keys, each with its values or a text of them."""
    return [variation_of(key, values) for key, values in vary.items()]


def variation_of(key: str, values: str | Iterable[object]) -> Variation:
    """The variation of a key over values as Python has them: numbers and texts, or a text as `variation` reads it."""
    if isinstance(values, str):
        return variation(f"{key}={values}")
    found = [_number(str(value)) for value in values]
    if not found:
        raise Problem(f"vary {key}: has no values")
    return Variation(key, tuple(value.limit_denominator(MOST_DENOMINATOR) if isinstance(value, Fraction) else value
                                for value in found))


def _number(text: str) -> Fraction | str:
    try:
        number = exact(text.strip())
    except ValueError:
        return text.strip()
    return number if isinstance(number, Fraction) else text.strip()


def _range(text: str, first: Fraction, last: Fraction, step: Fraction) -> Iterator[Fraction]:
    """The numbers from the first to the last, both included where they fall on a step."""
    if step <= 0 or last < first:
        raise Problem(f"--vary {text}: the step must be above 0 and the last value at least the first")
    count = int((last - first) / step) + 1
    if count > MOST_VALUES:
        raise Problem(f"--vary {text}: more than {MOST_VALUES} values")
    return (first + i * step for i in range(count))


def combinations(variations: Sequence[Variation]) -> list[dict[str, Any]]:
    """Every combination, as tables of key to value, the last key's values changing first."""
    keys = [one.key for one in variations]
    if len(set(keys)) < len(keys):
        raise Problem("--vary: each key is varied once")
    return [dict(zip(keys, values)) for values in itertools.product(*(one.values for one in variations))]


def changed(values: dict[str, Any], changes: Mapping[str, Any]) -> tuple[dict[str, Any], dict[str, Any]]:
    """A study's values with some keys set, and the factors of demand by gate (by "" for all of them)."""
    values = copy.deepcopy(values)
    factors: dict[str, Any] = {}
    for key, value in changes.items():
        gate = gate_of_factor(key)
        if gate is not None:
            factors[gate] = value
            continue
        for table, name in places(values, key, "--vary "):
            table[name] = value
    return values, factors


def shown(value: object) -> str:
    """A varied value as tables show it."""
    return f"{float(value):.10g}" if isinstance(value, Fraction) else str(value)
