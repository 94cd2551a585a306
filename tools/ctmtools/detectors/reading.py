"""Files of detectors as one frame, with what is broken left out, and what was read and left out in lines."""

from __future__ import annotations

import datetime
from collections.abc import Iterable, Sequence
from dataclasses import dataclass, field
from pathlib import Path

import numpy
import pandas

from ..arrays import Wholes
from ..problem import Problem
from ..texts.cells import frame_text
from ..texts.quantities import DAY
from ..units import clock_text
from .days import STILL, holidays_of, hours_of, put_back
from .file_set import Files
from .flows import with_flows
from .options import Wanted
from .rules import Rule, broken
from .table import named, named_days

MEASURES = ["flow", "speed", "occupancy", "density"]
COLUMNS = ["station", "day", "second", *MEASURES, "observed", "lanes", "file", "line"]
SECOND_HOUR = "an hour that comes again, when clocks are put back"


@dataclass
class Read:
    """What files of detectors have: rows in the order of stations and times, and the rows that were left out, with their rules.

    Flows are vehicles/h, speeds km/h, occupancies %, densities vehicles/km; `second` is that after midnight of the day.
    """

    files: Files
    rows: pandas.DataFrame
    left: pandas.DataFrame
    interval: float
    missing: Missing
    lines: list[str] = field(default_factory=list)


def read(names: str | Path | Iterable[str | Path], wanted: Wanted) -> Read:
    """The rows of some files."""
    files = Files(names, wanted)
    days, lines = chosen_days(files)
    if days is not None and len(days) < len(files.days.days):
        lines.append(f"taken: {named(days)}")
    frame, left, interval = kept_rows(files, days)
    first = _read_line(files, [frame, left], interval)
    frame, missing = filled(files, frame, interval)
    found = Read(files, frame, left, interval, missing)
    found.lines = [first, *lines, *left_lines(left, wanted.leave_out, files)]
    if missing.count:
        how = {None: "not filled", "zero": "taken as zero", "interpolate": "interpolated"}[wanted.missing]
        found.lines.append(f"missing: {missing}; {how}")
    if wanted.average is not None:
        found.rows = averaged(frame, wanted.average)
        found.lines.append(f"of each time the {wanted.average} of {frame.day.nunique()} days")
    found.rows = found.rows[COLUMNS].reset_index(drop=True)
    return found


def kept_rows(files: Files, days: list[str] | None) -> tuple[pandas.DataFrame, pandas.DataFrame, float]:
    """The rows of some days that no rule leaves out, those that are left out, with their rules, and the interval."""
    frame, interval = with_flows(files, files.rows(days))
    rule = broken(frame, files.wanted.leave_out)
    rule[frame.again.astype(bool)] = SECOND_HOUR
    gone = rule != ""
    return frame[~gone], frame[gone].assign(rule=rule[gone]), interval


def chosen_days(files: Files) -> tuple[list[str] | None, list[str]]:
    """The days that are asked for, or all that are no holidays, and lines on those left out and on those of 23 or 25 hours."""
    wanted = files.wanted
    if not files.dated:
        if wanted.dates or wanted.holidays or wanted.zone:
            raise Problem(f"{files.name}: has no dates; it has neither a column {wanted.date_column} nor dates in the times")
        return None, []
    dates = list(files.days.dates.values())
    free = files.days.leave_out(holidays_of(wanted.holidays, sorted({date.year for date in dates}))) if wanted.holidays else []
    days = files.days.chosen(wanted.dates or ("all",))
    gone = [text for text in free if text not in days]
    lines = [f"holidays: {named(gone)}, left out"] if gone else []
    return days, lines + hour_lines(files, days)


def hour_lines(files: Files, days: Iterable[str]) -> list[str]:
    """Lines on the days of 23 or 25 hours by the clocks of the zone."""
    zone, lines = files.wanted.zone, []
    if zone is None:
        return []
    for text in days:
        if text not in files.days.dates:
            raise Problem(f"{files.name}: {named_days([text])} may be of two months, so its hours in {zone} aren't known; write the dates as 2019-12-04")
        hours = hours_of(files.days.dates[text], zone)
        if hours != 24:
            lines.append(f"{text} has {hours:g} hours in {zone}")
    return lines


def left_lines(left: pandas.DataFrame, rules: Iterable[Rule], files: Files) -> list[str]:
    """A line for each rule by which rows were left out, with how many and where the first stands, and one for the other rules."""
    lines, none = [], []
    for rule in [*rules, SECOND_HOUR]:
        rows = left[left.rule == (rule.name if isinstance(rule, Rule) else rule)]
        if len(rows):
            first = rows.loc[rows.line[rows.file == rows.file.min()].idxmin()]
            lines.append(f"left out: {len(rows):,} by {rule}, the first in {files.where(first)}")
        elif isinstance(rule, Rule):
            none.append(str(rule))
    return lines + ([f"left out: none by {', '.join(none)}"] if none else [])


def averaged(frame: pandas.DataFrame, how: str) -> pandas.DataFrame:
    """For each station and time the mean or the median over the days that have it."""
    groups = frame.groupby(["station", "second"], observed=True, as_index=False)
    found = groups.agg({**dict.fromkeys([*MEASURES, "observed"], how), "lanes": "max", "file": "first", "line": "first", "day": "nunique"})
    found[MEASURES] = found[MEASURES].round(6)
    return found.rename(columns={"day": "days"}).assign(day=how)


def times_of(found: Read) -> pandas.Series:
    """The local time of each row; those without a known date are of 1 January 1900."""
    dates = {text: pandas.Timestamp(found.files.days.dates.get(text, datetime.date(1900, 1, 1))) for text in found.rows.day.unique()}
    return pandas.to_datetime(found.rows.day.astype(object).map(dates)) + pandas.to_timedelta(found.rows.second, unit="s")


def text_of(found: Read) -> str:
    """The rows as CSV, in the format of a row a station and time, whose columns name their units."""
    rows = found.rows.assign(time=times_of(found).dt.strftime("%Y-%m-%dT%H:%M:%S" if found.files.dated else "%H:%M:%S"))
    if found.files.wanted.average is not None:
        rows["time"] = times_of(found).dt.strftime("%H:%M:%S")
    names = {"station": "station", "time": "time", "flow": "flow (vehicles/h)", "speed": "speed (km/h)", "occupancy": "occupancy (%)",
             "density": "density (vehicles/km)", "lanes": "lanes", "observed": "observed (%)"}
    kept = [name for name in names if name not in COLUMNS or rows[name].notna().any()]
    return frame_text(rows[kept].rename(columns=names), index=False)


def _read_line(files: Files, frames: Sequence[pandas.DataFrame], interval: float) -> str:
    """What was read: stations, days, intervals and rows, and in which format."""
    names, there = (set[str]().union(*(frame[name].unique() for frame in frames)) for name in ("station", "day"))
    stations, rows = len(names), sum(map(len, frames))
    days = [text for text in files.days.days if text in there] if files.dated else []
    per = "vehicles in the interval" if files.per() == "interval" else "vehicles/h"
    span = f", {len(days)} day{'s' * (len(days) != 1)} ({days[0]}{f' to {days[-1]}' * (len(days) > 1)})" if days else ""
    lasting = f"{interval / 60:g} min" if interval >= 60 else f"{interval:g} s"
    return (f"{files.name}: {' and '.join(files.formats)}, {per}; {stations} station{'s' * (stations != 1)}{span}, intervals of "
            f"{lasting}, {rows:,} rows")


@dataclass(frozen=True)
class Missing:
    """How many intervals have no flow, and the first of them, by its station and time."""

    count: int
    first: str

    def __str__(self) -> str:
        return f"{self.count:,} intervals without a flow" + (f", the first {self.first}" if self.count else "")


def filled(files: Files, frame: pandas.DataFrame, interval: float) -> tuple[pandas.DataFrame, Missing]:
    """The rows that have a flow, with those that are missing filled as is asked, and what was missing.

    An interval is missing where another station, or the station itself, has earlier and later ones of that day.
    """
    frame = frame[frame.flow.notna()]
    grid = _grid(files, frame, interval)
    gone = ~numpy.isin(_places(grid), _places(frame))
    first = _at(grid.iloc[gone.argmax()]) if gone.any() else ""
    missing = Missing(int(gone.sum()), first)
    asked = files.wanted.missing
    if asked is None or not gone.any():
        return frame, missing
    if asked == "error":
        raise Problem(f"{files.name}: no flow for {first}; say missing = \"zero\" or \"interpolate\"")
    whole = grid.merge(frame, "left", ["station", "day", "second"])
    whole["moment"] = whole.moment.fillna(_moments(whole))
    if asked == "zero":
        whole["flow"] = whole.flow.fillna(0)
    else:
        keys = [whole.station, whole.day]
        for measure in MEASURES:
            between = whole[measure].groupby(keys, observed=True).transform(
                lambda values: values.interpolate(limit_area="inside") if values.notna().any() else values)
            whole[measure] = whole[measure].where(~gone, between)
        if whole.flow.isna().any():
            raise Problem(f"{files.name}: no flow for {_at(whole.loc[whole.flow.isna().idxmax()])}, and none on one side of it; "
                          "say missing = \"zero\"")
    whole["lanes"] = whole.lanes.groupby(whole.station, observed=True).transform("max")
    return whole.fillna({"line": 0, "file": 0, "interval": interval}), missing


def _grid(files: Files, frame: pandas.DataFrame, interval: float) -> pandas.DataFrame:
    """Each station's intervals of each day, from the first to the last that any station has then.

    A station's intervals may begin some seconds behind those of others, all of its own by as many.
    """
    behind = frame.second % interval
    spans = (frame.second - behind).groupby(frame.day, observed=True).agg(["min", "max"])
    zone, days, seconds = files.wanted.zone, [numpy.empty(0, dtype=int)], [numpy.empty(0, dtype=int)]
    for day, row in spans.iterrows():
        own = numpy.arange(row["min"], row["max"] + 1, interval).astype(int)
        date = files.days.dates.get(str(day))
        if zone and date:
            own = numpy.array([one for one in own if put_back(date, int(one), zone) >= STILL], dtype=int)
        seconds.append(own)
        days.append(numpy.full(len(own), frame.day.cat.categories.get_loc(day)))
    stations, times = frame.station.cat.codes.unique(), numpy.concatenate(seconds)
    late = behind.groupby(frame.station.cat.codes).first()[stations].to_numpy(dtype=int)
    return pandas.DataFrame({
        "station": pandas.Categorical.from_codes(numpy.repeat(stations, len(times)), dtype=frame.station.dtype),
        "day": pandas.Categorical.from_codes(numpy.tile(numpy.concatenate(days), len(stations)), dtype=frame.day.dtype),
        "second": numpy.tile(times, len(stations)) + numpy.repeat(late, len(times))})


def _places(frame: pandas.DataFrame) -> Wholes:
    """A number for each station, day and second, the same in frames of the same stations and days."""
    codes = frame.station.cat.codes.to_numpy(dtype=int) * len(frame.day.cat.categories) + frame.day.cat.codes.to_numpy(dtype=int)
    places: Wholes = codes * (DAY + 1) + frame.second.to_numpy(dtype=int)
    return places


def _moments(whole: pandas.DataFrame) -> pandas.Series:
    """The moments of all rows, by those that are known of their days."""
    midnight = (whole.moment - whole.second).groupby(whole.day, observed=True).transform("max")
    return midnight + whole.second


def _at(row: pandas.Series) -> str:
    """A station and a time as messages say them."""
    return " ".join(text for text in (f"{row.station} on" if row.station and row.day else str(row.station), str(row.day),
                                      clock_text(float(row.second))) if text)
