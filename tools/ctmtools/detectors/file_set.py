"""Several files of detectors as one: by day, by station, or both."""

from __future__ import annotations

import datetime
import glob
import os
import re
from collections.abc import Iterable, Sequence
from dataclasses import replace
from pathlib import Path

import numpy
import pandas

from ..problem import Problem
from ..texts.quantities import DAY
from .clocks import Day, day_text
from .days import Days
from .file_rows import Part, part_of
from .formats import LONG, VEHICLES
from .options import Wanted
from .table import counted

DATE = re.compile(r"(?<!\d)((?:19|20)\d{2})[-_.]?(0[1-9]|1[0-2])[-_.]?(0[1-9]|[12]\d|3[01])(?!\d)")  # in the name of a file


def paths_of(names: str | Path | Iterable[str | Path]) -> list[Path]:
    """The files that names, patterns as `d04_*.txt.gz`, and folders say, those of a pattern or a folder in order."""
    found: list[Path] = []
    for name in [names] if isinstance(names, (str, Path)) else names:
        path = Path(name)
        if os.path.isdir(path):
            inside = sorted(one for one in path.iterdir() if one.is_file() and not one.name.startswith("."))
        elif not os.path.exists(path) and re.search(r"[*?\[]", str(name)):
            inside = [Path(one) for one in sorted(glob.glob(str(name)))]
        else:
            inside = [path]
        if not inside:
            raise Problem(f"{name}: there is no file of it")
        found += inside
    if not found:
        raise Problem("no file of detectors is named")
    twice = next((path for i, path in enumerate(found) if path in found[:i]), None)
    if twice:
        raise Problem(f"{twice}: is named twice")
    return found


class Files:
    """The rows of some files of one format, with the days and stations that they have."""

    def __init__(self, names: str | Path | Iterable[str | Path], wanted: Wanted, nothing: str = "has no rows") -> None:
        paths = paths_of(names)
        self.wanted = wanted
        self.name = str(paths[0]) + (f" and {len(paths) - 1} more" if len(paths) > 1 else "")
        parts = [part_of(path, replace(wanted, station=None) if len(paths) > 1 else wanted, nothing) for path in paths]
        self.parts = [_by_its_name(part, len(paths) > 1) for part in parts]
        other = next((part for part in self.parts if part.format.sort == VEHICLES), self.parts[0])
        mixed = next((part for part in self.parts if VEHICLES in (part.format.sort, other.format.sort) and part.format.sort != other.format.sort), None)
        if mixed:
            raise Problem(f"{mixed.path}: has {mixed.format.sort}, and {other.path} has {other.format.sort}; read them by themselves")
        dated = [part.clocks.day is not None for part in self.parts]
        if any(dated) and not all(dated):
            raise Problem(f"{self.parts[dated.index(False)].path}: has no dates, and other files have some")
        self.dated = all(dated)
        known: dict[str, Day] = {}
        for part in self.parts:
            known |= part.clocks.days
        self.days = Days(self.name, known, wanted.date_order or next((part.date_order for part in self.parts if part.date_order), None))
        self.zoned = any(part.clocks.zoned for part in self.parts)

    @property
    def stations(self) -> list[str]:
        """The stations that the files have, by their names; one without a name where they name none."""
        found: dict[str, None] = {}
        for part in self.parts:
            for name in part.format.stations if part.station is None else part.station.categories:
                found[name or ""] = None
        return sorted(found)

    @property
    def formats(self) -> list[str]:
        """The formats of the files, each once."""
        return list(dict.fromkeys(part.format.sort for part in self.parts))

    def interval(self) -> int | None:
        """The seconds of an interval that the formats say, or None."""
        said = {part.interval() for part in self.parts}
        if len(said) > 1:
            raise Problem(f"{self.name}: the files are of several intervals, "
                          f"{', '.join('unsaid' if one is None else f'{one} s' for one in said)}")
        return said.pop()

    def per(self) -> str:
        """Of what the flows of all files are, `interval` or `hour`."""
        said = {part.per(): part for part in self.parts}
        if len(said) > 1:
            raise Problem(f"{said['interval'].path} has vehicles in the interval, and {said['hour'].path} vehicles/h; read them by "
                          "themselves")
        return next(iter(said))

    def rows(self, days: Sequence[str] | None) -> pandas.DataFrame:
        """The rows of some days, or of all, with their numbers, of the wanted station where one is: sorted, with their files."""
        frames = []
        for i, part in enumerate(self.parts):
            taken = numpy.ones(len(part.rows), dtype=bool)
            if days is not None and part.clocks.day is not None:
                taken &= part.clocks.day.isin(days)
            if taken.any():
                frames.append(part.numbers(taken).assign(file=i))
        order = {"station": self.stations, "day": list(self.days.days) or [""]}
        frames = [frame.assign(**{name: frame[name].cat.set_categories(names) for name, names in order.items()}) for frame in frames]
        found = pandas.concat(frames, ignore_index=True) if len(frames) != 1 else frames[0]
        if self.wanted.station is not None and "" not in self.stations:
            found = found[found.station == self._station(self.wanted.station)].reset_index(drop=True)
        return self._midnight(found)

    def _station(self, name: str) -> str:
        alike = [one for one in self.stations if one.casefold() == name.casefold()]
        if name not in self.stations and len(alike) != 1:
            raise Problem(f"{self.name}: has no station {name}, it has {counted(self.stations)}")
        return name if name in self.stations else alike[0]

    def _midnight(self, frame: pandas.DataFrame) -> pandas.DataFrame:
        """The rows with their moments in seconds; 24:00 of a day whose date is known is midnight of the next."""
        ordinals = {text: self.days.dates[text].toordinal() if text in self.days.dates else i
                    for i, text in enumerate(frame.day.cat.categories)}
        day = frame.day.map(ordinals).astype(int)
        late = (frame.second == DAY) & frame.day.isin(list(self.days.dates))
        if late.any():
            nexts = {text: self._next(date + datetime.timedelta(days=1)) for text, date in self.days.dates.items()}
            new = [text for text in dict.fromkeys(nexts.values()) if text not in frame.day.cat.categories]
            frame["day"] = frame.day.cat.add_categories(new)
            frame.loc[late, "day"] = frame.day[late].map(nexts)
            frame.loc[late, "second"] = 0
            day = day + late
        return frame.assign(moment=day * DAY + frame.second)

    def _next(self, date: datetime.date) -> str:
        known = next((text for text, one in self.days.dates.items() if one == date), None)
        return known or date.isoformat()

    def where(self, row: pandas.Series) -> str:
        """The line of a row, with its file where there are several."""
        return f"line {row['line']}" + (f" of {self.parts[int(row['file'])].path}" if len(self.parts) > 1 else "")

    def place(self, row: pandas.Series) -> str:
        """The file and the line of a row."""
        return f"{self.parts[int(row['file'])].path}: line {row['line']}"


def stem(path: Path) -> str:
    """The name of a file without its endings."""
    return re.sub(r"(?i)\.(csv|txt|tsv|dat|gz)$", "", re.sub(r"(?i)\.gz$", "", path.name))


def _by_its_name(part: Part, several: bool) -> Part:
    """The rows of a file, with what its name says where they don't: of one of several the station, and the date."""
    name = stem(part.path)
    date = DATE.search(name)
    clocks, found = part.clocks, part.format
    if clocks.day is None and several and date:
        one = int(date[1]), int(date[2]), int(date[3])
        day = pandas.Categorical([day_text(one)] * len(part.rows))
        clocks = replace(clocks, day=day, days={day_text(one): one})
    if several and found.sort in (LONG, VEHICLES) and part.station is None:
        station = re.sub(r"^[\s_.-]+|[\s_.-]+$", "", DATE.sub("", name))
        found = replace(found, stations={station: found.stations[None]})
    return replace(part, clocks=clocks, format=found)


