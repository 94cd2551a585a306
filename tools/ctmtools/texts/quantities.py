"""Quantities of a study: numbers in the documented unit, or texts such as "500 m", as exact fractions."""

from __future__ import annotations

import datetime
import re
from collections.abc import Callable
from fractions import Fraction
from math import isfinite
from typing import Any

from ..problem import Problem
from ..visible import is_visible

HOUR = 3600  # s
DAY = 24 * HOUR
MILE = Fraction("1.609344")  # km
MOST_NUMBER = 10 ** 300  # what no unit makes more than a floating-point number holds

# For each sort of quantity the unit of a bare number, and what each unit is of it.
UNITS = {
    "length": ("km", {"km": Fraction(1), "m": Fraction(1, 1000), "mi": MILE}),
    "speed": ("km/h", {"km/h": Fraction(1), "m/s": Fraction(18, 5), "mph": MILE}),
    "density": ("vehicles/km", {"vehicles/km": Fraction(1), "veh/km": Fraction(1), "vehicles/mi": 1 / MILE,
                                "veh/mi": 1 / MILE}),
    "flow": ("vehicles/h", {"vehicles/h": Fraction(1), "veh/h": Fraction(1), "vehicles/s": Fraction(3600)}),
    "duration": ("s", {"s": Fraction(1), "min": Fraction(60), "h": Fraction(3600)}),
}
TEXT = re.compile(r"\s*([+-]?[0-9]{1,300}(?:\.[0-9]{1,300})?)\s*(\S(?:.*\S)?|)\s*")
CLOCK = re.compile(r"([0-9]{1,2}):([0-9]{2})(?::([0-9]{2}(?:\.[0-9]{1,300})?))?")


def number(value: Any, key: str) -> Fraction:
    """The exact fraction of a number of the study file."""
    if isinstance(value, bool) or not isinstance(value, (int, Fraction)):
        raise Problem(f"{key}: expected a number, found {shown(value)}")
    result = Fraction(value)
    if abs(result) > MOST_NUMBER:
        raise Problem(f"{key}: expected a number, found one beyond 1e300")
    return result


def exact(text: str) -> Fraction | float:
    """The number that a text as `0.3`, `3e-1` or `3/10` spells: an exact fraction, or a float where it is infinite or nan.

    What is nearer to 0 than any float is 0. A text that spells no number is a ValueError, as a ratio of nothing is.
    """
    try:
        about = float(text)
    except ValueError:
        return _ratio(text)
    if not isfinite(about):
        return about
    return Fraction(text) if about else Fraction(0)


def _ratio(text: str) -> Fraction:
    try:
        return Fraction(text)
    except ZeroDivisionError:
        raise ValueError(f"{text} divides by 0") from None


def not_negative(what: str) -> Callable[[Any, str], Fraction]:
    """A reader of numbers that aren't negative; messages call one so, as "a share"."""
    def read(value: Any, key: str) -> Fraction:
        result = number(value, key)
        if result < 0:
            raise Problem(f"{key}: {what} isn't negative, found {shown(value)}")
        return result
    return read


def quantity(sort: str) -> Callable[[Any, str], Fraction]:
    """A reader of quantities of a sort, which gives each in the unit of a bare number."""
    unit, units = UNITS[sort]

    def read(value: Any, key: str) -> Fraction:
        if isinstance(value, str):
            found = TEXT.fullmatch(value)
            if not found or found[2] not in units:
                raise Problem(f"{key}: expected a {sort}, a number in {unit} or a text in {' or '.join(units)}, "
                              f"found {shown(value)}")
            result = Fraction(found[1]) * units[found[2]]
        else:
            result = number(value, key)
        if result < 0:
            raise Problem(f"{key}: a {sort} isn't negative, found {shown(value)}")
        return result
    return read


length = quantity("length")  # in km
speed = quantity("speed")  # in km/h
density = quantity("density")  # in vehicles/km
flow = quantity("flow")  # in vehicles/h
duration = quantity("duration")  # in s
lanes = not_negative("a number of lanes")  # which needn't be whole


def clock(value: Any, key: str) -> Fraction:
    """A clock time in seconds after midnight: a text `hh:mm` or `hh:mm:ss`, or a local time of TOML."""
    if isinstance(value, datetime.time):
        return Fraction(value.hour * 3600 + value.minute * 60 + value.second) + Fraction(value.microsecond, 10**6)
    found = CLOCK.fullmatch(value) if isinstance(value, str) else None
    if not found or int(found[2]) > 59 or float(found[3] or 0) >= 60 or int(found[1]) > 48:
        raise Problem(f"{key}: expected a clock time such as \"06:30\", found {shown(value)}")
    return Fraction(int(found[1]) * 3600 + int(found[2]) * 60) + Fraction(found[3] or 0)


def day(value: Any, key: str) -> datetime.date:
    """A date: a local date of TOML, or a text such as 2024-05-14."""
    if isinstance(value, datetime.date) and not isinstance(value, datetime.datetime):
        return value
    try:
        return datetime.date.fromisoformat(value if isinstance(value, str) else "")
    except ValueError:
        raise Problem(f"{key}: expected a date such as \"2024-05-14\", found {shown(value)}") from None


def whole(value: Any, key: str) -> int:
    """A whole number, 1 or more."""
    result = number(value, key)
    if result.denominator != 1 or result < 1:
        raise Problem(f"{key}: expected a whole number, 1 or more, found {shown(value)}")
    return int(result)


def word(value: Any, key: str) -> str:
    """A text that isn't empty, and whose letters are shown as themselves: it stands in comments, in messages and in pictures."""
    text = file_name(value, key)
    if not is_visible(text):
        raise Problem(f"{key}: expected a text in one line, without letters that aren't shown, found {shown(value)}")
    return text


def file_name(value: Any, key: str) -> str:
    """The name of a file, which may have any letters that a folder has."""
    if not isinstance(value, str) or not value:
        raise Problem(f"{key}: expected a text, found {shown(value)}")
    return value


def shown(value: object) -> str:
    """A value of the study file as a message shows it."""
    if isinstance(value, dict):
        return "a table"
    if isinstance(value, list):
        return "a list"
    if isinstance(value, Fraction):
        short = f"{float(value):g}"
        return short if Fraction(short) == value else str(float(value))
    return f"\"{value}\"" if isinstance(value, str) else str(value)
