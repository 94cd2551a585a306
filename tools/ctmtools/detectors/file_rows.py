"""The rows of one file of detectors: when and of which station they are, and, of those that are taken, their numbers."""

from __future__ import annotations

from dataclasses import dataclass, replace
from pathlib import Path
from typing import Any

import numpy
import pandas

from ..arrays import Numbers
from ..problem import Problem
from ..texts.cells import unguarded
from ..visible import visible
from .clocks import Clocks, clocks_of, moment
from .formats import (HOURLY, LONG, OCCUPANCIES, PEMS, PEMS_FIRST, PEMS_LANE, SECONDS, SHARE, SPEEDS, Column, Format, format_of,
    plain)
from .numbers import by_text, numbers
from .options import Wanted
from .table import Source, counted, named, source_of

MEASURES = ["amount", "speed", "occupancy", "occupied", "density", "observed", "lanes"]


@dataclass
class Part:
    """The rows of a file that are of the wanted station, their stations where a column has them, and their clocks."""

    source: Source
    format: Format
    rows: pandas.DataFrame
    station: pandas.Categorical | None
    clocks: Clocks
    wanted: Wanted

    @property
    def path(self) -> Path:
        """The file."""
        return self.source.path

    @property
    def date_order(self) -> str | None:
        """The order of day and month that the format says, or dates with points, as 04.12.2019, whose day comes first."""
        return "month-first" if self.format.month_first else "day-first" if self.clocks.pointed else None

    def per(self) -> str:
        """Of what the flows are, `interval` or `hour`, by the names of columns or by what is asked."""
        columns = [columns["flow"] for columns in self.format.stations.values() if "flow" in columns]
        found = {self._per(column) for column in columns}
        if len(found) > 1:
            raise Problem(f"{self.path}: some flows are vehicles in the interval, and others vehicles/h")
        return found.pop() if found else "interval"

    def _per(self, column: Column) -> str:
        unit, asked = column.quantity.unit, self.wanted.per
        own = None if unit is None else "hour" if plain(unit) in map(plain, HOURLY) else "interval"
        if own and asked and own != asked:
            raise Problem(f"{self.path}: line {self.source.head}: {column.name} is in {unit}, and per = \"{asked}\" is asked")
        if not own and not asked:
            raise Problem(f"{self.path}: line {self.source.head}: {column.name} may be vehicles in the interval or vehicles/h; "
                          "name it count or flow (vehicles/h), or say per = \"interval\" or \"hour\"")
        return own or asked or ""

    def numbers(self, taken: Numbers) -> pandas.DataFrame:
        """The rows that are taken with their numbers: a row for each station and time, with its line."""
        frames = []
        rows = self.rows if taken.all() else self.rows[taken]
        for name, columns in self.format.stations.items():
            values: dict[str, Any] = dict.fromkeys(MEASURES, numpy.nan)
            for sort, column in columns.items():
                values["amount" if sort == "flow" else sort] = self._column(rows[column.number], column)
            if self.format.lanes:
                values["lanes"] = numpy.sum([(rows[i] != "").to_numpy() for i in self.format.lanes], axis=0, dtype=float)
            frames.append(pandas.DataFrame(
                {**values, "second": self.clocks.second[taken], "again": self.clocks.again[taken],
                 "day": "" if self.clocks.day is None else self.clocks.day[taken],
                 "station": (name or "") if self.station is None else self.station[taken], "line": rows.index}, index=rows.index))
        found = pandas.concat(frames, ignore_index=True)
        found["day"] = found.day.astype("category")
        found["station"] = found.station.astype("category")
        return found

    def _column(self, texts: pandas.Series, column: Column) -> pandas.Series:
        """The numbers of a column: speeds in km/h, occupancies in %, occupied time in s."""
        what = "a count" if column.quantity.sort == "flow" else "a number"
        decimal = self.wanted.decimal or (None if column.quantity.sort == "flow" else ".")
        found = numbers(texts, decimal, self.path, column.name, what)
        factor = self._factor(column)
        if column.quantity.sort == "occupancy" and factor == SHARE:
            self._check_shares(column, found)
        return found if factor == 1 else (found * factor).round(9)

    def _check_shares(self, column: Column, found: pandas.Series) -> None:
        """Refuses shares most of which are above 1; fewer are left to the rules."""
        odd = found > 1
        if odd.sum() > found.notna().sum() / 2:
            line = odd.idxmax()
            raise Problem(f"{self.path}: line {line}, {column.name}: {found[line]:g} is no share, and most of its values aren't; "
                          "are they in %?")

    def _factor(self, column: Column) -> float:
        sort, unit = column.quantity.sort, column.quantity.unit
        if sort == "occupied":
            return SECONDS[unit or "s"]
        if sort not in ("speed", "occupancy"):
            return 1
        known, asked = (SPEEDS, self.wanted.speed_unit) if sort == "speed" else (OCCUPANCIES, self.wanted.occupancy_unit)
        if unit is None and asked is None:
            raise Problem(f"{self.path}: line {self.source.head}: the unit of {column.name} isn't said; name it {column.name} "
                          f"({list(known)[0]}) or another unit, or say {sort}_unit")
        if unit and asked and known[unit] != known[asked]:
            raise Problem(f"{self.path}: line {self.source.head}: {column.name} is in {unit}, and {sort}_unit = \"{asked}\" is asked")
        return known[unit or asked or ""]

    def interval(self) -> int | None:
        """The seconds of an interval that the format says, or the rows by their ends."""
        if self.format.end is None or self.format.interval is not None:
            return self.format.interval
        ends = self.rows[self.format.end.number]
        moments = by_text(ends, moment, f"{self.path}: line {{}}, {self.format.end.name}".format, blanks=True)
        seconds = numpy.array([one.seconds if one else 0 for one in moments])[ends.cat.codes.to_numpy()]
        lasting = (seconds - self.clocks.second) % 86400
        odd = lasting != lasting[0]
        if odd.any():
            raise Problem(f"{self.path}: line {self.rows.index[odd.argmax()]} is of {lasting[odd.argmax()]} s, and line "
                          f"{self.rows.index[0]} of {lasting[0]} s; the intervals are of one length")
        return int(lasting[0])


def part_of(path: str | Path, wanted: Wanted, nothing: str = "has no rows") -> Part:
    """The rows of a file, of the wanted station."""
    source = source_of(path, wanted.separator)
    found = format_of(source, wanted)
    if wanted.station is not None and found.sort not in (LONG, PEMS) and None not in found.stations:
        found = _of_column(source, found, wanted.station)
    rows = source.rows(found.begin, found.columns)
    _check_widths(source, found, rows)
    if rows.empty:
        raise Problem(f"{source.path}: {nothing}")
    station, kept = _stations(source, found, rows, wanted)
    rows = rows if kept.all() else rows[kept]
    _check_short(source, found, rows)
    return Part(source, found, rows, None if station is None else station[kept], clocks_of(source, found, rows, wanted), wanted)


def _of_column(source: Source, found: Format, station: str) -> Format:
    """A wide format with the columns of one station alone."""
    alike = [name for name in found.stations if name and name.casefold() == station.casefold()]
    if not alike:
        raise Problem(f"{source.path}: has no station {station}, it has {named([str(name) for name in found.stations])}")
    name = station if station in alike else alike[0]
    return replace(found, stations={name: found.stations[name]})


def _stations(source: Source, found: Format, rows: pandas.DataFrame,
              wanted: Wanted) -> tuple[pandas.Categorical | None, Numbers]:
    """The station of each row, None where no column has it, and which rows are of the wanted one."""
    every = numpy.ones(len(rows), dtype=bool)
    if found.station is None:
        return None, every
    column = rows[found.station.number]
    texts = [unguarded(visible(text.strip())) for text in column.cat.categories]
    names = list(dict.fromkeys(texts[code] for code in pandas.unique(column.cat.codes)))
    codes = numpy.array([names.index(text) if text in names else -1 for text in texts], dtype=int)[column.cat.codes.to_numpy()]
    station = pandas.Categorical.from_codes(codes, categories=names)
    if wanted.station is None:
        return station, every
    if wanted.station not in names:
        raise Problem(f"{source.path}: has no station {wanted.station}, it has {counted(names)}")
    return station, codes == names.index(wanted.station)


def _check_widths(source: Source, found: Format, rows: pandas.DataFrame) -> None:
    """Refuses a row with a field behind those that the first line names, or in PeMS's format with a part of a lane's fields."""
    lines = rows.index.to_numpy()
    if found.sort == PEMS:
        odd = (source.widths[lines - 1] - len(PEMS_FIRST)) % PEMS_LANE != 0
        if odd.any():
            line = lines[odd.argmax()]
            raise Problem(f"{source.path}: line {line} has {source.widths[line - 1]} fields; {PEMS} has {len(PEMS_FIRST)}, and "
                          f"{PEMS_LANE} for each lane; is the file cut off there?")
        return
    more = source.first_with_more(found.begin, len(source.first))
    if more is not None:
        raise Problem(f"{source.path}: line {more} has {source.widths[more - 1]} fields, and line {source.head} has "
                      f"{len(source.first)}; is a comma of thousands or a decimal comma among them? leave out the first, and "
                      "quote a number with the second")


def _check_short(source: Source, found: Format, rows: pandas.DataFrame) -> None:
    """Refuses a row that ends before its time or its flows do."""
    last = max([found.time.number, *(columns["flow"].number for columns in found.stations.values() if "flow" in columns)])
    short = source.widths[rows.index.to_numpy() - 1] <= last
    if short.any():
        raise Problem(f"{source.path}: line {rows.index[short.argmax()]} has too few columns")
