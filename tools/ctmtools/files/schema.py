"""Checks of values that a file of JSON has: each names the place and what is expected there."""

from __future__ import annotations

from collections.abc import Callable, Mapping
from typing import Any

from ..problem import Problem
from ..visible import is_visible

MOST = 1e9  # of a number, in whatever unit; it is more than the seconds of a report
Place = tuple[str, ...]  # the names from the whole file to a value
Check = Callable[[Any, Place], None]
KINDS = {dict: "a table", list: "a list", str: "a text", bool: "true or false", type(None): "null", int: "a number", float: "a number"}


def refuse(place: Place, expected: str, value: Any = ...) -> None:
    """The problem that a value isn't what is expected at its place."""
    found = "" if value is ... else f", found {KINDS.get(type(value), 'another value')}"
    raise Problem(f"{'.'.join(place) or 'the file'}: expected {expected}{found}")


def text(value: Any, place: Place) -> None:
    """A text whose letters are shown as themselves."""
    if not isinstance(value, str):
        refuse(place, "a text", value)
    elif not is_visible(value):
        refuse(place, "a text in one line, without letters that aren't shown")


def path(value: Any, place: Place) -> None:
    """The name of a file."""
    if not isinstance(value, str) or not value or "\0" in value:
        refuse(place, "the name of a file", value)


def number(value: Any, place: Place) -> None:
    """A number that is neither infinite nor none."""
    if type(value) not in (int, float):
        refuse(place, "a number", value)
    elif not abs(value) <= MOST:
        refuse(place, f"a number from -{MOST:g} to {MOST:g}")


def above(least: float) -> Check:
    """A number that is above another."""
    def check(value: Any, place: Place) -> None:
        number(value, place)
        if value <= least:
            refuse(place, f"a number above {least:g}")
    return check


def whole(least: int) -> Check:
    """A whole number from another on."""
    def check(value: Any, place: Place) -> None:
        if type(value) is not int or not least <= value <= MOST:
            refuse(place, f"a whole number, {least} or more", value)
    return check


def list_of(check: Check, count: int | None = None, least: int = 0) -> Check:
    """A list, each entry of which passes a check, of so many entries or of some at least."""
    def check_list(value: Any, place: Place) -> None:
        if not isinstance(value, list):
            refuse(place, "a list", value)
        if count is not None and len(value) != count or len(value) < least:
            refuse(place, f"{least if count is None else count} entries{' or more' * (count is None)}")
        for i, entry in enumerate(value, 1):
            check(entry, (*place, str(i)))
    return check_list


def table_of(check: Check) -> Check:
    """A table, each name of which is a text and each value of which passes a check."""
    def check_table(value: Any, place: Place) -> None:
        if not isinstance(value, dict):
            refuse(place, "a table", value)
        for name, entry in value.items():
            text(name, place)
            check(entry, (*place, name))
    return check_table


def record(needed: Mapping[str, Check], others: Mapping[str, Check] | None = None, is_open: bool = False) -> Check:
    """A table with names that it needs, others that it may have, and more where it is open."""
    known = {**needed, **(others or {})}

    def check_record(value: Any, place: Place) -> None:
        if not isinstance(value, dict):
            refuse(place, "a table", value)
        for name in needed:
            if name not in value:
                refuse((*place, name), "a value")
        for name, entry in value.items():
            if name in known:
                known[name](entry, (*place, name))
            elif not is_open:
                refuse(place, f"one of {', '.join(known)}, and not another name")
    return check_record
