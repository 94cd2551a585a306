"""The numbers of a column of texts: each distinct text is read once."""

from __future__ import annotations

import re
from collections.abc import Callable
from fractions import Fraction
from typing import TypeVar

import numpy
import pandas

from ..problem import Problem

Value = TypeVar("Value")
NONE = ("nan", "na", "n/a", "null", "none", "-")  # what exports write where there is no number
MOST = 10 ** 9  # no number of a detector is greater
THOUSANDS = re.compile(r"[1-9][0-9]{0,2}(?:([.,])[0-9]{3})(?:\1[0-9]{3})*")


def number(text: str, decimal: str | None, key: str, what: str = "a count") -> Fraction:
    """The number that a text spells; one that may have a sign of thousands needs a decimal sign that is said."""
    written, sign = text.strip(), decimal or "."
    other = "," if sign == "." else "."
    point = re.escape(sign)
    found = re.fullmatch(rf"[+-]?(?:[0-9]+(?:{point}[0-9]*)?|{point}[0-9]+)(?:[eE][+-]?[0-9]{{1,3}})?", written)
    thousands = THOUSANDS.fullmatch(written)
    if thousands and decimal is None and found:
        raise Problem(f"{key}: may have decimals, or be a number of thousands; write it without the point, "
                      "or say decimal = \".\" in the study")
    if not found:
        hint = f"; say decimal = \"{other}\" in the study" if other in written and decimal is None else ""
        sort = {".": "point", ",": "comma"}[thousands[1]] if thousands else ""
        hint = f"; write it without the {sort} of thousands" if thousands else hint
        raise Problem(f"{key}: expected {what}{hint}")
    counted = Fraction(written.replace(sign, "."))
    if counted < 0:
        raise Problem(f"{key}: {what} isn't negative")
    return counted


def by_text(column: pandas.Series, read: Callable[[str, str], Value], key: Callable[[int], str],
            blanks: bool = False) -> list[Value | None]:
    """What each distinct text of a column reads as, in the order of its categories.

    It is None where a text is nowhere, or is blank and blanks aren't read.

    `read` takes a text and its key, and `key` makes one of a line. Of several texts that can't be read the first in the file is
    reported.
    """
    codes, texts = column.cat.codes.to_numpy(), list(column.cat.categories)
    places = numpy.full(len(texts), -1)
    places[codes[::-1]] = numpy.arange(len(codes))[::-1]  # the first row of each text
    values: list[Value | None] = [None] * len(texts)
    faults: dict[int, str] = {}
    for code, (text, place) in enumerate(zip(texts, places.tolist())):
        if place >= 0 and (blanks or text.strip()):
            try:
                values[code] = read(text, "")
            except Problem:
                faults[place] = text
    if faults:
        read(faults[min(faults)], key(column.index[min(faults)]))  # is refused again, with its place
    return values


def numbers(column: pandas.Series, decimal: str | None, path: object, name: str, what: str = "a count") -> pandas.Series:
    """The numbers of a column, whose index has the lines of a file; none where a text is blank.

    A point is the decimal sign of all where it is that of one: where no sign of thousands could stand.
    """
    column = column.cat.rename_categories([text if text.strip().casefold() not in NONE else f" {' ' * i}"
                                           for i, text in enumerate(column.cat.categories)])
    if decimal is None and any("." in text and not THOUSANDS.fullmatch(text.strip()) for text in column.cat.categories):
        decimal = "."
    plain = re.compile(rf"[0-9]{{1,9}}(?:{re.escape(decimal)}[0-9]+)?" if decimal else "[0-9]{1,9}")  # about which there is no doubt

    def read(text: str, key: str) -> float:
        if plain.fullmatch(text):
            return float(text.replace(decimal or ".", "."))
        value = number(text, decimal, key, what)
        if value > MOST:
            raise Problem(f"{key}: expected {what}")
        return float(value)

    values = by_text(column, read, lambda line: f"{path}: line {line}, {name}")
    found = numpy.array([numpy.nan if value is None else value for value in values], dtype=float)
    return pandas.Series(found[column.cat.codes.to_numpy()] if len(found) else numpy.empty(0), index=column.index, dtype=float)
