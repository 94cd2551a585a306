"""In which format a file of detectors is, by its first line: what the names of its columns say, and where each quantity stands."""

from __future__ import annotations

import re
from collections.abc import Mapping, Sequence
from dataclasses import dataclass, field

from ..problem import Problem
from ..texts.quantities import MILE
from .options import Wanted
from .table import Source, named

TIMES = ("time", "timestamp", "datetime", "date time", "start", "start time", "begin", "from", "interval start")
ENDS = ("end", "end time", "until", "to", "interval end")
DATES = ("date", "day")
STATIONS = ("station", "station id", "detector", "detector id", "site", "site id", "sensor", "vds", "loop", "id", "place")

# The words of each quantity, and those by which a flow is vehicles in the interval.
QUANTITIES = {"flow": ("flow", "flow rate", "total flow", "volume", "q", "count", "counts", "vehicles"),
              "speed": ("speed", "avg speed", "average speed", "mean speed", "v"),
              "occupancy": ("occupancy", "occ", "avg occupancy", "avg occ", "average occupancy"),
              "occupied": ("occupied", "occupied time", "on time"), "density": ("density", "k"),
              "observed": ("observed", "% observed", "percent observed", "pct observed"), "lanes": ("lanes",)}
COUNTS = ("count", "counts", "vehicles")

# What each unit is called, and what one of it is: of a speed in km/h, of an occupancy in %, of occupied time in s.
HOURLY = ("vehicles/h", "veh/h", "vehicles/hour", "veh/hour", "vph")
INTERVAL = ("vehicles", "veh", "vehicles/interval", "veh/interval")
SPEEDS = {"km/h": 1.0, "kmh": 1.0, "kph": 1.0, "mph": float(MILE), "mi/h": float(MILE), "m/s": 3.6}
SHARE = 100.0  # of a share of 1
OCCUPANCIES = {"%": 1.0, "percent": 1.0, "pct": 1.0, "share": SHARE, "fraction": SHARE, "0-1": SHARE}
SECONDS = {"s": 1.0, "sec": 1.0, "seconds": 1.0, "ms": 0.001}
UNITS: dict[str, tuple[str, ...]] = {
    "flow": (*HOURLY, *INTERVAL), "speed": tuple(SPEEDS), "occupancy": (*OCCUPANCIES, *SECONDS), "occupied": tuple(SECONDS),
    "density": ("vehicles/km", "veh/km"), "observed": ("%",), "lanes": ()}
SIGNS = re.compile(r"[\s_.:/()\[\]]+")
MOST = 1_000  # signs of the name of a column
PEMS = "PeMS's Station 5-Minute"
LONG, WIDE, VEHICLES = "a row a station and time", "a column a station", "a row a vehicle"
PEMS_FIRST = ("timestamp", "station", "district", "freeway", "direction of travel", "lane type", "station length", "samples",
              "% observed", "total flow", "avg occupancy", "avg speed")
PEMS_LANE = 5  # columns of each lane behind these: samples, flow, occupancy, speed, % observed
PEMS_INTERVAL = 300  # s
MOST_LANES = 99
PEMS_TIME = re.compile(r"[0-9]{1,2}/[0-9]{1,2}/[0-9]{4} [0-9]{1,2}:[0-9]{2}(?::[0-9]{2})?")
BEGINS_WITH_TIME = re.compile(r"[0-9]{1,4}[-/.:][0-9]{1,2}.*")


@dataclass(frozen=True)
class Quantity:
    """A quantity by its sort, and the unit that its name says, None where it says none."""

    sort: str
    unit: str | None


def plain(name: str) -> str:
    """A name in small letters, with single spaces between its words."""
    return SIGNS.sub(" ", name.casefold()).strip()


def quantity_of(name: str) -> Quantity | None:
    """The quantity that a whole name says, or None."""
    written = plain(name)
    for sort, words in QUANTITIES.items():
        for word in words:
            if written == word:
                return Quantity(sort, INTERVAL[0] if word in COUNTS else None)
            for unit in UNITS[sort]:
                if written == f"{word} {plain(unit)}":
                    return Quantity("occupied", unit) if sort == "occupancy" and unit in SECONDS else Quantity(sort, unit)
    return None


def station_and_quantity(name: str) -> tuple[str, Quantity | None]:
    """The station that the name of a column begins with, and the quantity behind it, None where it is the station alone."""
    if len(name) > MOST:
        return name, None
    for found in re.finditer(r"[\s_.:]+|(?=[(\[])", name):
        quantity = quantity_of(name[found.end():])
        if found.start() and quantity:
            return name[:found.start()].strip(), quantity
    bare = re.fullmatch(r"(.+?)\s*[(\[]([^()\[\]]+)[)\]]", name.strip())
    for sort in ("flow", "speed"):
        if bare and plain(bare[2]) in map(plain, UNITS[sort]):
            return bare[1], quantity_of(f"{sort} {bare[2]}")
    return name, None


@dataclass(frozen=True)
class Column:
    """A column by its number in the file, its name, and the quantity that it says."""

    number: int
    name: str
    quantity: Quantity


@dataclass(frozen=True)
class Format:
    """Where the quantities of a file stand, by station where a column is of one; and what the format itself says.

    `begin` is the line of the first row. Behind `lanes` stand columns that have a text where a lane is there.
    """

    sort: str
    begin: int
    time: Column
    stations: Mapping[str | None, Mapping[str, Column]]
    date: Column | None = None
    station: Column | None = None
    end: Column | None = None
    lanes: Sequence[int] = field(default_factory=list)
    interval: int | None = None
    month_first: bool = False

    @property
    def columns(self) -> list[int]:
        """The numbers of all columns that are read."""
        own = [column.number for columns in self.stations.values() for column in columns.values()]
        return sorted({*own, *self.lanes, *(one.number for one in (self.time, self.date, self.station, self.end) if one)})


def format_of(source: Source, wanted: Wanted) -> Format:
    """The format of a file, or the problem that it is none: which columns are missing."""
    first = [plain(name) for name in source.first]
    if first and PEMS_TIME.fullmatch(source.first[0]) and wanted.column is None:
        return _pems(source, source.head)
    if first[:2] == ["timestamp", "station"] and "total flow" in first:
        for i, (name, found) in enumerate(zip(PEMS_FIRST, first)):
            if found != name and not (i == 4 and found == "direction"):
                raise Problem(f"{source.path}: line {source.head} is of {PEMS}, and column {i + 1} of that is {name}, found "
                              f"{source.first[i]}")
        return _pems(source, source.head + 1)
    if wanted.column is not None:
        return _chosen(source, wanted)
    if first and BEGINS_WITH_TIME.fullmatch(first[0]):
        raise Problem(f"{source.path}: line {source.head} has a time and no names of columns; without them {PEMS} is read, whose times are "
                      "such as 12/04/2019 06:30:00")
    return _by_names(source, wanted)


def _pems(source: Source, begin: int) -> Format:
    """The format of PeMS, whose raw files have no line of names."""
    width = int(source.widths[source.head - 1])
    if width < len(PEMS_FIRST) or (width - len(PEMS_FIRST)) % PEMS_LANE:
        raise Problem(f"{source.path}: line {source.head} has {width} fields; {PEMS} has {len(PEMS_FIRST)}, {', '.join(PEMS_FIRST)}, and "
                      f"{PEMS_LANE} for each lane")

    widest = int(source.widths.argmax())
    lanes = (int(source.widths[widest]) - len(PEMS_FIRST)) // PEMS_LANE
    if lanes > MOST_LANES:
        raise Problem(f"{source.path}: line {widest + 1} has the fields of {lanes} lanes; a road may have {MOST_LANES}")

    def column(name: str, sort: str, unit: str | None = None) -> Column:
        return Column(PEMS_FIRST.index(name), name, Quantity(sort, unit))

    quantities = [column("total flow", "flow", INTERVAL[0]), column("avg occupancy", "occupancy", "share"),
                  column("avg speed", "speed", "mph"), column("% observed", "observed", "%")]
    return Format(PEMS, begin, column("timestamp", "time"), {None: {one.quantity.sort: one for one in quantities}},
                  station=column("station", "station"), lanes=range(len(PEMS_FIRST) + 1, int(source.widths.max()), PEMS_LANE),
                  interval=PEMS_INTERVAL, month_first=True)


def _by_names(source: Source, wanted: Wanted) -> Format:
    """The format that the names of columns say: long, wide, or a row for each vehicle."""
    time = _column(source, "time", (wanted.time_column,), None) or _column(source, "time", TIMES, None)
    if time is None:
        raise Problem(f"{source.path}: line {source.head} has no column of times ({', '.join(TIMES[:4])}, ..), it has "
                      f"{named(source.first) or 'nothing'}{_hint(source)}")
    date = _column(source, "date", (wanted.date_column, *DATES), time)
    end = _column(source, "end", ENDS, time)
    station = _column(source, "station", (wanted.station_column,), time) or _column(source, "station", STATIONS, time)
    keys = {one.number for one in (time, date, end, station) if one}
    others = [(i, name) for i, name in enumerate(source.first) if i not in keys and name]
    own: dict[str, Column] = {}
    for i, name in others:
        quantity = quantity_of(name)
        if quantity:
            _put(source, own, Column(i, name, quantity))
    if own or station:
        sort = VEHICLES if "occupied" in own and "flow" not in own else LONG
        if sort == LONG and "flow" not in own:
            raise Problem(f"{source.path}: line {source.head} has no column of flows or counts (flow (vehicles/h), count, ..), it has "
                          f"{named(source.first)}")
        return Format(sort, source.head + 1, time, {None: own}, date, station, end)
    if not others:
        raise Problem(f"{source.path}: line {source.head} has no column but {named(source.first)}; flows or counts are missing"
                      f"{_hint(source)}")
    return Format(WIDE, source.head + 1, time, _wide(source, others), date, None, end)


def _wide(source: Source, others: Sequence[tuple[int, str]]) -> dict[str | None, dict[str, Column]]:
    """The columns of each station; one that is named by the station alone has its flows."""
    found: dict[str | None, dict[str, Column]] = {}
    for i, name in others:
        station, quantity = station_and_quantity(name)
        _put(source, found.setdefault(station, {}), Column(i, name, quantity or Quantity("flow", None)))
    return found


def _put(source: Source, columns: dict[str, Column], column: Column) -> None:
    """Adds a column, the only one of its quantity."""
    other = columns.setdefault(column.quantity.sort, column)
    if other is not column:
        raise Problem(f"{source.path}: line {source.head} has two columns of {column.quantity.sort}, {other.name} and {column.name}")


def _chosen(source: Source, wanted: Wanted) -> Format:
    """The format of a table whose columns are named by who reads it: of times, and of counts."""
    time = needed(source, wanted.time_column)
    count = needed(source, wanted.column or "")
    date = _column(source, "date", (wanted.date_column,), time)
    station = needed(source, wanted.station_column) if wanted.station is not None else \
        _column(source, "station", (wanted.station_column,), time)
    quantity = quantity_of(count.name) or station_and_quantity(count.name)[1]
    said = quantity is not None and quantity.sort == "flow" and plain(count.name) not in COUNTS
    unit = quantity.unit if quantity and said else None
    return Format(LONG, source.head + 1, time, {None: {"flow": Column(count.number, count.name, Quantity("flow", unit))}}, date, station)


def needed(source: Source, name: str) -> Column:
    """The column of a name that has to be there, once."""
    written = as_written(source.first, name)
    if written not in source.first:
        raise Problem(f"{source.path}: line {source.head} has no column {name}, it has {named(source.first) or 'nothing'}{_hint(source)}")
    if source.first.count(written) > 1:
        raise Problem(f"{source.path}: line {source.head} has {source.first.count(written)} columns named {written}")
    return Column(source.first.index(written), written, Quantity("", None))


def as_written(names: Sequence[str], name: str) -> str:
    """A name as the file writes it, where that differs by capitals alone."""
    alike = {one for one in names if one.casefold() == name.casefold()}
    return name if name in names or len(alike) != 1 else alike.pop()


def _column(source: Source, sort: str, words: Sequence[str], besides: Column | None) -> Column | None:
    """The column of one of some names, of those the first that the file has; none where there is none."""
    for word in words:
        found = [i for i, name in enumerate(source.first) if plain(name) == plain(word) and (besides is None or i != besides.number)]
        if len(found) > 1:
            return needed(source, source.first[found[0]])
        if found:
            return Column(found[0], source.first[found[0]], Quantity(sort, None))
    return None


def _hint(source: Source) -> str:
    return "; is the separator another?" if len(source.first) == 1 else ""
