"""A study as one has it: read from a file, made in code, changed and written."""

from __future__ import annotations

import datetime
import numbers
from collections.abc import Iterable, Mapping, Sequence
from fractions import Fraction
from functools import cached_property
from math import isfinite
from pathlib import Path
from typing import Any, TypedDict, Unpack

from ..files.reading import read_as
from ..problem import NoSuchKey, Problem
from ..texts.quantities import TEXT, exact, shown
from ..visible import visible
from .keys import FACTOR, gate_of_factor, places
from .plan import Exit, Gate, Road, Scenario
from .reading import scenario_of, values_of
from .writing import Rows, study_text, value_text

UNNAMED = Path("the study")  # as messages call one that isn't of a file
Table = Mapping[str, object]
Tables = Mapping[str, Table]
Span = Sequence[object]  # start, end and what holds between them


class StudyKeys(TypedDict, total=False):
    """The keys of a study, as those of its file, which tools/README.md has with their units."""

    title: str
    date: str | datetime.date
    start: str | datetime.time
    step: str | float
    duration: str | float
    end: str | datetime.time
    notes: Sequence[str]
    crs: str
    lane: Table
    roads: Tables
    gates: Tables
    exits: Tables
    links: Sequence[Table]
    merges: Sequence[Table]
    on_ramps: Sequence[Table]
    diverges: Sequence[Table]
    off_ramps: Sequence[Table]
    junctions: Sequence[Table]
    signals: Sequence[Table]
    closures: Sequence[Table]
    openings: Sequence[Table]
    speed_limits: Sequence[Table]
    meters: Sequence[Table]
    trips: Sequence[Table] | Table
    routes: Sequence[Table]
    routing: Table
    assigned: Table
    uncertain: Sequence[Table]
    yield_interval: str | float


class Study:
    """A study: its text, the values of its keys, and what they mean. It isn't changed: `with_` gives another one.

    `Study(step="10 s", end="08:00", roads={"m": {...}})` is made of keys as a study file has them, with tables as mappings and
    lists of tables as sequences; those whose names are no words of Python may stand in a mapping before them. Files that it
    names stand beside `path`, by default in the folder one is in. A key that isn't known, or a value that it can't have, is a
    `Problem`.
    """

    def __init__(self, keys: Mapping[str, object] | None = None, path: str | Path | None = None, **more: Unpack[StudyKeys]) -> None:
        values = {name: plain(value, name) for name, value in {**(keys or {}), **more}.items() if value is not None}
        self._begin(study_text({name: _rows(value) for name, value in values.items()}), path)

    def _begin(self, text: str, path: str | Path | None) -> None:
        self.text, self.path = text, UNNAMED if path is None else Path(path)
        self.scenario  # so that what is wrong with it is said now

    @classmethod
    def of_text(cls, text: str, path: str | Path | None = None) -> Study:
        """The study of the text of a study file."""
        study = cls.__new__(cls)
        study._begin(text, path)
        return study

    @property
    def values(self) -> dict[str, Any]:
        """The values of the keys, with each decimal number as an exact fraction; they are the caller's own."""
        return values_of(self.text.encode(), self.path)

    @cached_property
    def scenario(self) -> Scenario:
        """What the study means: its parts in the units of ctmtools.study.plan."""
        return scenario_of(self.values, self.path)

    @property
    def title(self) -> str:
        """Its title; where it says none the name of its file."""
        return self.scenario.title

    @property
    def roads(self) -> dict[str, Road]:
        """Its roads, by name, with those that its junctions are made of."""
        return self.scenario.roads

    @property
    def gates(self) -> dict[str, Gate]:
        """Its gates, by name."""
        return self.scenario.gates

    @property
    def exits(self) -> dict[str, Exit]:
        """Its exits, by name."""
        return self.scenario.exits

    @property
    def remarks(self) -> list[str]:
        """Its notes, and lines on what was read beside it."""
        return self.scenario.remarks

    def with_(self, changes: Mapping[str, object] | None = None, **keys: Unpack[StudyKeys]) -> Study:
        """The study with some keys set, or taken away where None stands for them; its comments are kept.

        A key of `changes` is spelled as `sweep` has it: `roads.m.lanes`, `signals.offset` (of all signals), `signals.2.offset`,
        and `demand` or `demand.GATE`, by which demands are multiplied.
        """
        return Study.of_text(changed_text(self.text, {**(changes or {}), **keys}), self.path)

    def to_toml(self) -> str:
        """The text of its file, as it was read, with its comments."""
        return self.text

    def __eq__(self, other: object) -> bool:
        return isinstance(other, Study) and (self.text, self.path) == (other.text, other.path)

    def __hash__(self) -> int:
        return hash((self.text, self.path))

    def __repr__(self) -> str:
        return f"<Study {visible(self.title)!r}: {len(self.roads)} roads, {len(self.gates)} gates, {len(self.exits)} exits>"


StudySource = Study | Path | str  # a study, a file of one, or the text of one


def read_study(path: str | Path) -> Study:
    """The study in a file."""
    content = read_as(path, "a study")
    values_of(content, path)  # which says what is wrong with its letters
    return Study.of_text(content.decode("utf-8-sig"), path)


def study_from(source: StudySource) -> Study:
    """A study as one has it: itself, that of a file, or that of a text, which unlike a path has several lines."""
    if isinstance(source, Study):
        return source
    return Study.of_text(source) if isinstance(source, str) and "\n" in source else read_study(source)


def scenario_from(source: StudySource | Scenario) -> Scenario:
    """What a study means, however it is given."""
    return source if isinstance(source, Scenario) else study_from(source).scenario


def changed_text(text: str, changes: Mapping[str, object]) -> str:
    """The text of a study with some keys set, or taken away where None stands for them; its comments are kept.

    It isn't looked at whether the study may have these values.
    """
    import tomlkit

    document = tomlkit.parse(text)
    for key, value in changes.items():
        gate = gate_of_factor(key)
        if gate is not None:
            _multiply(document, gate, _factor(value, key))
            continue
        for table, name in list(places(document, key)):
            if value is None:
                if table.pop(name, None) is None:
                    raise NoSuchKey(f"{key}: the study has no {name} there")
            else:
                table[name] = item(plain(value, key))
    return tomlkit.dumps(document)


def plain(value: object, key: str) -> Any:
    """A value as a study file may have it: decimal numbers as exact fractions, mappings as tables, sequences as lists."""
    if isinstance(value, (str, bool, Fraction, datetime.date, datetime.time)):
        return value
    if isinstance(value, numbers.Integral):
        return int(value)
    if isinstance(value, numbers.Real) and isfinite(value):
        return exact(str(value))
    if isinstance(value, Mapping):
        return {str(name): plain(one, f"{key}.{name}") for name, one in value.items()}
    if isinstance(value, Iterable):  # as an array of numpy too
        return [plain(one, f"{key}[{i}]") for i, one in enumerate(value, 1)]
    raise Problem(f"{key}: expected a number, a text, a time, a table or a list, found {visible(repr(value))}")


def _rows(value: Any) -> Any:
    """A list that isn't one of tables with a line for each entry."""
    return Rows(value) if isinstance(value, list) and value and not isinstance(value[0], dict) else value


def item(value: Any) -> Any:
    """A value as tomlkit has it: tables, and lists of them, with lines of their own."""
    import tomlkit

    if isinstance(value, list) and value and all(isinstance(one, dict) for one in value):
        tables = tomlkit.aot()
        for one in value:
            tables.append(item(one))
        return tables
    if isinstance(value, dict):
        table = tomlkit.table()
        for name, one in value.items():
            table[name] = tomlkit.value(value_text(one))
        return table
    return tomlkit.value(value_text(value))


def _factor(value: object, key: str) -> Fraction:
    factor = plain(value, key)
    if isinstance(factor, bool) or not isinstance(factor, (int, Fraction)) or factor < 0:
        raise Problem(f"{key}: expected a factor, 0 or more, found {shown(factor)}")
    return Fraction(factor)


def _multiply(document: Any, gate: str, factor: Fraction) -> None:
    """Multiplies the demand of a gate, or of all, and that of the trips from there."""
    gates = document.get("gates", {})
    if gate and gate not in gates:
        raise NoSuchKey(f"{FACTOR}.{gate}: the study has no gate {gate}")
    for name, table in gates.items():
        if gate in ("", name) and "demand" in table:
            table["demand"] = _multiplied(table["demand"], factor, f"gates.{name}.demand")
    trips = document.get("trips", [])
    if isinstance(trips, dict):
        raise Problem("trips: are of files, so no factor of their demand can stand in the study; sweep and draw multiply them")
    for i, table in enumerate(trips, 1):
        if gate in ("", table["from"]):
            table["demand"] = _multiplied(table["demand"], factor, f"trips[{i}].demand")


def _multiplied(value: Any, factor: Fraction, key: str) -> Any:
    """A demand times a factor: of a number, of a text with its unit, or of rows by time."""
    import tomlkit

    if isinstance(value, dict):
        raise Problem(f"{key}: is of files, so no factor of it can stand in the study; sweep and draw multiply it")
    if isinstance(value, list):
        for i, row in enumerate(value, 1):
            place = "flow" if isinstance(row, dict) else 2
            row[place] = _multiplied(row[place], factor, f"{key}[{i}]")
        return value
    if isinstance(value, str):
        found = TEXT.fullmatch(value)
        assert found  # the study was read
        return f"{value_text(Fraction(found[1]) * factor)} {found[2]}"
    return tomlkit.value(value_text(exact(str(value)) * factor))
