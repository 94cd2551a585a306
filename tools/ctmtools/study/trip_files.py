"""Trips from files: a list of pairs with times and vehicles, and matrices with a row for each gate and a column an exit.

Fields are parted by what stands in the first line, a semicolon, a tab or a comma. A comma or a point is the decimal sign, where
one number at least shows that it is no sign of thousands.
"""

from __future__ import annotations

import csv
import re
from collections import Counter
from collections.abc import Iterable, Iterator, Sequence
from fractions import Fraction
from dataclasses import dataclass
from pathlib import Path

from ..files.reading import check_fields
from ..problem import Problem
from ..texts.cells import unguarded
from ..texts.quantities import HOUR, clock
from ..texts.text_table import first_few
from .plan import Flow, Trips
from .times import Times

COLUMNS = ("from", "to", "start", "end", "vehicles")
MOST_NAMED = 12  # columns that a message names
DECIMAL = re.compile(r"[+-]?([0-9]{1,99}\.?[0-9]{,99}|\.[0-9]{1,99})([eE][+-]?[0-9]{1,2})?")
SIGNS = {",": "comma", ".": "point"}


@dataclass(frozen=True)
class Table:
    """A file's names, in its first line, and its other rows, each with its line."""

    path: Path
    head: int
    names: list[str]
    rows: list[tuple[int, list[str]]]

    @property
    def hint(self) -> str:
        """What is asked where the first line has one field."""
        return "; is the separator another?" if len(self.names) == 1 else ""


class Vehicles:
    """Reads the numbers of vehicles of a file, all of whose texts show its decimal sign."""

    def __init__(self, texts: Iterable[str]) -> None:
        from ..detectors.numbers import THOUSANDS  # here and below, so that who has no such file doesn't load pandas

        self.found = [(sign, text) for text in texts for sign in SIGNS if sign in text]
        self.sign = next((sign for sign, text in self.found if not THOUSANDS.fullmatch(text)), None)
        self.thousands = THOUSANDS

    def read(self, text: str, key: str) -> Fraction:
        """The number that a text spells."""
        if self.sign is None and self.thousands.fullmatch(text):
            sign = SIGNS[next(sign for sign in SIGNS if sign in text)]
            raise Problem(f"{key}: may have decimals, or be a number of thousands; write it without the {sign}, or another with one "
                          f"or two digits behind it")
        written = text.replace(self.sign, ".") if self.sign and "." not in text.replace(self.sign, "") else text
        if not DECIMAL.fullmatch(written):
            raise Problem(f"{key}: expected a number of vehicles")
        vehicles = Fraction(written)
        if vehicles < 0:
            raise Problem(f"{key}: a number of vehicles isn't negative")
        return vehicles


def trips_of_list(path: Path, times: Times) -> Iterator[Trips]:
    """The trips of a CSV file with the columns from, to, start, end and vehicles, each row evenly over its time."""
    table = _table(path)
    names = [name.lower() for name in table.names]
    for column in COLUMNS:
        if names.count(column) != 1:
            many = f"{names.count(column)} columns" if column in names else "no column"
            raise Problem(f"{path}: line {table.head} has {many} {column}; it has {first_few(table.names, MOST_NAMED)}{table.hint}")
    places = [names.index(column) for column in COLUMNS]
    vehicles = Vehicles(row[places[-1]] for _, row in table.rows if len(row) == len(names))
    for line, row in table.rows:
        where = f"{path}: line {line}"
        if len(row) != len(names):
            raise Problem(f"{where} has {len(row)} fields, and {len(names)} are expected")
        source, into, start, end, number = (row[place] for place in places)
        begin, stop = times.checked(_after_start(start, f"{where}, start", times), _after_start(end, f"{where}, end", times),
                                    f"{where}, start", f"{where}, end")
        yield _trips(where, source, into, (begin, stop), vehicles.read(number, f"{where}, vehicles"))


def trips_of_matrix(path: Path, begin: Fraction, end: Fraction) -> Iterator[Trips]:
    """The trips of a matrix of vehicles between two times: a row for each gate, a column for each exit.

    A pair without vehicles has no demand.
    """
    table = _table(path)
    exits = table.names[1:]
    if not exits:
        raise Problem(f"{path}: line {table.head} has no exits, a column for each{table.hint}")
    twice = next((name for name, times in Counter(exits).items() if times > 1), None)
    if twice is not None:
        raise Problem(f"{path}: line {table.head} has the exit {twice} twice")
    vehicles = Vehicles(text for _, row in table.rows for text in row[1:])
    seen: set[str] = set()
    for line, (source, *numbers) in table.rows:
        where = f"{path}: line {line}"
        if len(numbers) != len(exits):
            raise Problem(f"{where} has {len(numbers)} numbers for {len(exits)} exits")
        if source in seen:
            raise Problem(f"{where}: the gate of this row has another one already")
        seen.add(source)
        for into, text in zip(exits, numbers):
            yield _trips(where, source, into, (begin, end), vehicles.read(text, f"{where}, {into}"))


def _table(path: Path) -> Table:
    """The rows of a CSV file that aren't empty, the first of them its names."""
    from ..detectors.table import separator_of, text_of

    texts = text_of(path).split("\n")
    first = next((text for text in texts if text.strip()), "")
    reader = csv.reader(texts, delimiter=separator_of(first))
    try:
        lines = [(reader.line_num, [unguarded(field.strip()) for field in row]) for row in reader]
    except csv.Error as error:
        raise Problem(f"{path}: line {reader.line_num}: {error}") from None
    for line, row in lines:
        check_fields(path, line, len(row))
    rows = [(line, row) for line, row in lines if any(row)]
    if not rows:
        raise Problem(f"{path}: is empty")
    return Table(path, *rows[0], rows[1:])


def _after_start(text: str, key: str, times: Times) -> Fraction:
    """The seconds from the study's start to a clock time."""
    try:
        clock(text, key)
    except Problem:  # which has the text
        raise Problem(f"{key}: expected a clock time such as \"06:30\"") from None
    return times.after_start(text, key)


def _trips(place: str, source: str, into: str, span: Sequence[Fraction], vehicles: Fraction) -> Trips:
    begin, end = span
    return Trips(source, into, [Flow(begin, end, vehicles * HOUR / (end - begin))] if vehicles else [], place)
