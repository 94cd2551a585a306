"""The fields of a study as a form shows them: each key with its value and its unit, in the order of the file."""

from __future__ import annotations

import tomllib
from collections.abc import Iterator, Sequence
from typing import Any

from ..problem import Problem

UNITS = {"length": "km", "from": "km", "to": "km", "at": "km", "lanes": "lanes", "free_flow_speed": "km/h", "wave_speed": "km/h",
         "speed": "km/h", "jam_density": "vehicles/km", "first_density": "vehicles/km", "saturation_flow": "vehicles/h of a lane",
         "demand": "vehicles/h", "capacity": "vehicles/h", "limits": "vehicles/h", "least": "vehicles/h", "most": "vehicles/h",
         "step": "s", "cycle": "s", "green": "s", "offset": "s", "first_green": "s", "interval": "s", "first": "vehicles",
         "yield_interval": "s"}
CLOCKS = ("start", "end")
LANE = ("free_flow_speed", "wave_speed", "jam_density", "saturation_flow")
PART = ("road", "from", "to", "start", "end", "lanes")
# What a table of a kind may have, so that the page can offer what it hasn't.
KNOWN: dict[str, Sequence[str]] = {
    "": ("title", "date", "start", "end", "duration", "step", "notes"), "lane": LANE,
    "roads": ("length", "lanes", "first_density", *LANE, "points"), "gates": ("into", "demand", "capacity", "limits", "first"),
    "exits": ("from", "capacity", "limits"), "closures": (*PART, "capacity", "saturation_flow"), "openings": (*PART, "saturation_flow"),
    "speed_limits": ("road", "from", "to", "start", "end", "speed"),
    "signals": ("road", "at", "start", "end", "cycle", "green", "first_green", "offset"), "links": ("from", "into"),
    "merges": ("from", "into", "priorities"), "on_ramps": ("road", "ramp", "at", "priorities"),
    "diverges": ("from", "into", "shares"), "off_ramps": ("road", "ramp", "at", "shares")}

Field = dict[str, Any]


def values_in(text: str) -> dict[str, Any]:
    """The values of a study's text as TOML has them, or the problem that they can't be read."""
    try:
        return tomllib.loads(text)
    except RecursionError:
        raise Problem("the study: is nested too deeply") from None
    except (tomllib.TOMLDecodeError, ValueError) as error:
        raise Problem(f"the study: {error}") from None


def fields_of(values: dict[str, Any]) -> list[Field]:
    """The fields of a study's values: each has its key, its table, its name, its value as it is typed, and its unit.

    The field of a list of rows has these as `rows`.
    """
    return list(_fields(values, ()))


def _fields(values: dict[str, Any], above: tuple[str, ...]) -> Iterator[Field]:
    """The fields of a table, those of the tables in it behind its own."""
    inner = [(name, value) for name, value in values.items() if _is_tables(value)]
    yield from (_field((*above, name), value) for name, value in values.items() if not _is_tables(value))
    for name, value in inner:
        for part, table in value.items() if isinstance(value, dict) else enumerate(value, 1):
            if isinstance(table, dict):
                yield from _fields(table, (*above, name, str(part)))
            else:
                yield _field((*above, name, str(part)), table)


def _is_tables(value: Any) -> bool:
    """Whether a value is a table, or a list of tables."""
    return isinstance(value, dict) or isinstance(value, list) and bool(value) and all(isinstance(one, dict) for one in value)


def _field(names: tuple[str, ...], value: Any) -> Field:
    name, table = names[-1], ".".join(names[:-1])
    field: Field = {"key": ".".join(names), "table": table, "name": name, "value": typed(value), "unit": unit_of(names, value)}
    if isinstance(value, list) and value and all(isinstance(row, list) for row in value):
        field["rows"] = [[typed(entry) for entry in row] for row in value]
    return field


def unit_of(names: Sequence[str], value: Any) -> str:
    """The unit that a key's number has; none of names and clock times."""
    name = names[-1]
    if name == "from" and (names[0] in ("exits", "links", "merges", "diverges")):
        return ""
    return UNITS.get(name, "" if name not in CLOCKS or isinstance(value, list) else "clock")


def typed(value: Any) -> str:
    """A value as it stands in a field, where texts have no quotes."""
    if isinstance(value, str):
        return value
    if isinstance(value, bool):
        return "true" if value else "false"
    if isinstance(value, float):
        return f"{value:.12g}"
    if isinstance(value, list):
        return f"[{', '.join(map(_in_list, value))}]"
    if isinstance(value, dict):
        return f"{{ {', '.join(f'{name} = {_in_list(one)}' for name, one in value.items())} }}"
    return str(value)


def _in_list(value: Any) -> str:
    return '"' + value.replace("\\", "\\\\").replace('"', '\\"') + '"' if isinstance(value, str) else typed(value)


def value_typed(text: str, names: Sequence[str], old: Any) -> Any:
    """The value that is typed into a field: a number, a list, or a text; of a key whose value is a name it is always a text."""
    text = text.strip()
    if isinstance(old, str) and not unit_of(names, old):
        return text
    try:
        return tomllib.loads(f"value = {text}")["value"] if "\n" not in text else text
    except (tomllib.TOMLDecodeError, ValueError):
        if text.startswith(("[", "{")):
            raise Problem(f"{'.'.join(names)}: expected a list as [1, 2], found {text}") from None
        return text
