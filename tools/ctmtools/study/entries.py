"""A table of the study file with its place, of which every key has to be known."""

from __future__ import annotations

import difflib
from collections.abc import Callable, Sequence
from typing import Any, TypeVar, overload

from ..problem import NoSuchKey, Problem
from ..texts.quantities import shown, word

MISSING = object()
Value = TypeVar("Value")
Default = TypeVar("Default")
Reader = Callable[[Any, str], Value]  # takes a value of the file and its key


class Entries:
    """The keys of a table of the study, each taken once by a reader; `done` refuses those that nobody took."""

    def __init__(self, values: Any, place: str) -> None:
        if not isinstance(values, dict):
            raise Problem(f"{place}: expected a table, found {shown(values)}")
        self.values: dict[str, Any] = values
        self.place = place
        self.known: list[str] = []

    def key(self, name: str) -> str:
        """The full name of a key, as messages say it."""
        return f"{self.place}.{name}" if self.place else name

    def has(self, name: str) -> bool:
        """Whether the table has a key."""
        return name in self.values

    @overload
    def take(self, name: str, read: Reader[Value]) -> Value: ...

    @overload
    def take(self, name: str, read: Reader[Value], default: Default) -> Value | Default: ...

    def take(self, name: str, read: Reader[Any], default: Any = MISSING) -> Any:
        """The value of a key through a reader, or the default where there is none."""
        self.known.append(name)
        if name in self.values:
            return read(self.values[name], self.key(name))
        if default is MISSING:
            raise Problem(f"{self.key(name)}: is missing")
        return default

    def tables(self, name: str) -> Sequence[tuple[str, Entries]]:
        """The named tables under a key, in the order of the file."""
        found = self.take(name, lambda value, key: Entries(value, key), None)
        return [] if found is None else [(word(key, found.key(key)), Entries(value, found.key(key))) for key, value in found.values.items()]

    def list(self, name: str) -> Sequence[Entries]:
        """The tables of an array of tables."""
        values: list[Any] = self.take(name, _list_of_tables, [])
        return [Entries(value, f"{self.key(name)}[{i}]") for i, value in enumerate(values, 1)]

    def done(self) -> None:
        """Refuses a key that nobody took, with one that it may be meant to be."""
        for name in self.values:
            if name not in self.known:
                near = difflib.get_close_matches(name, self.known, 1)
                hint = f"is {near[0]} meant?" if near else f"known are {', '.join(self.known)}"
                raise NoSuchKey(f"{self.key(name)}: no such key; {hint}")


def _list(value: Any, key: str) -> list[Any]:
    if not isinstance(value, list):
        raise Problem(f"{key}: expected a list, found {shown(value)}")
    return value


def _list_of_tables(value: Any, key: str) -> list[Any]:
    if isinstance(value, dict):
        hint = "" if "[" in key else f"; head it [[{key}]]"
        raise Problem(f"{key}: expected a list of tables, found one table{hint}")
    return _list(value, key)


def list_of(read: Reader[Value], count: int | None = None) -> Reader[list[Value]]:
    """A reader of lists, each entry through a reader, of a given length where that is said."""
    def read_list(value: Any, key: str) -> list[Value]:
        entries = _list(value, key)
        if count is not None and len(entries) != count:
            raise Problem(f"{key}: expected {count} entries, found {len(entries)}")
        return [read(entry, f"{key}[{i}]") for i, entry in enumerate(entries, 1)]
    return read_list
