"""Keys of a study's values, as `roads.m.lanes` or `signals.2.offset`: where each stands, and the tables with counts."""

from __future__ import annotations

from collections.abc import Iterator, Sequence
from typing import Any

from ..problem import NoSuchKey

FACTOR = "demand"  # of all gates; `demand.GATE` is that of one


def places(values: Any, key: str, of: str = "") -> Iterator[tuple[dict[str, Any], str]]:
    """The tables that have a key, and its name in them: in a list all tables, or the one whose number from 1 is named.

    A message begins with `of`, which says where the key is from.
    """
    return _places(values, key.split("."), f"{of}{key}")


def _places(values: Any, parts: Sequence[str], key: str) -> Iterator[tuple[dict[str, Any], str]]:
    name, rest = parts[0], parts[1:]
    if isinstance(values, list):
        if name.isdigit():
            if not 1 <= int(name) <= len(values):
                raise NoSuchKey(f"{key}: there are {len(values)} of these")
            if not rest:
                raise NoSuchKey(f"{key}: names a table and no key of it")
            yield from _places(values[int(name) - 1], rest, key)
        else:
            for entry in values:
                yield from _places(entry, parts, key)
    elif not isinstance(values, dict) or rest and name not in values:
        raise NoSuchKey(f"{key}: the study has no {name} there")
    elif rest:
        yield from _places(values[name], rest, key)
    else:
        yield values, name


def gate_of_factor(key: str) -> str | None:
    """The gate whose demand a key multiplies, an empty text for all of them; None where it is another key."""
    first, _, gate = key.partition(".")
    return gate if first == FACTOR and "." not in gate else None


def counted_demands(values: Any) -> Iterator[dict[str, Any]]:
    """The tables with counts, of gates and of trips, anywhere in the values."""
    if isinstance(values, dict):
        if "counts" in values:
            yield values
        for value in values.values():
            yield from counted_demands(value)
    elif isinstance(values, list):
        for value in values:
            yield from counted_demands(value)


def names_of(demand: dict[str, Any]) -> list[str]:
    """The names of files, patterns and folders of such a table."""
    counts = demand["counts"]
    return [str(name) for name in (counts if isinstance(counts, list) else [counts])]
