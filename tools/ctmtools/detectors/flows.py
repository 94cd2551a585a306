"""Rows of detectors as flows in vehicles/h: their interval, vehicles by interval, occupied time as occupancy."""

from __future__ import annotations

import numpy
import pandas

from ..problem import Problem
from ..texts.quantities import DAY, HOUR
from .days import STILL, put_back
from .file_set import Files
from .formats import VEHICLES

DIGITS = 6  # of the decimals of all numbers, so that those of two units are the same


def with_flows(files: Files, frame: pandas.DataFrame) -> tuple[pandas.DataFrame, float]:
    """The rows in the order of stations and times with flows in vehicles/h, and the seconds of their interval."""
    if not files.dated:
        _check_order(files, frame)
    if frame.amount.isna().all() and VEHICLES not in files.formats:
        raise Problem(f"{files.name}: has no flow in any row")
    if VEHICLES in files.formats:
        frame = _of_vehicles(files, frame)
        per, interval = "interval", _asked(files)
    else:
        frame = frame.sort_values(["station", "moment", "again"], kind="stable", ignore_index=True)
        frame = _once(files, _with_hours_again(files, frame))
        per, interval = files.per(), _said(files) or _usual(files, frame)
    _check_grid(files, frame, interval)
    flow = frame.amount * HOUR / interval if per == "interval" else frame.amount
    lanes = frame.lanes.where(frame.lanes > 0).groupby(frame.station, observed=True).transform("max")
    if files.wanted.lanes is not None:
        lanes = lanes.fillna(files.wanted.lanes)
    occupancy = frame.occupancy.fillna(frame.occupied / interval / lanes.fillna(1) * 100)
    frame = frame.assign(flow=flow, occupancy=occupancy, lanes=lanes, interval=interval)
    measures = ["flow", "speed", "occupancy", "density", "observed"]
    frame[measures] = frame[measures].round(DIGITS)
    return frame, interval


def _check_order(files: Files, frame: pandas.DataFrame) -> None:
    """Refuses rows without dates whose times go back, as behind midnight: which day they are of isn't known."""
    rows = frame.sort_values("station", kind="stable", ignore_index=True)
    back = (rows.moment.diff() < 0) & (rows.station == rows.station.shift())
    if back.any():
        row = rows.loc[back.idxmax()]
        before = files.where(rows.loc[back.idxmax() - 1])
        raise Problem(f"{files.place(row)} is of an earlier time than {before}, and no dates say of which day")


def _said(files: Files) -> float:
    """The interval that the files say or that is asked for; 0 where neither is."""
    own, asked = files.interval(), _asked(files)
    if own and asked and own != asked:
        raise Problem(f"{files.name}: is of intervals of {own} s, and an interval of {asked:g} s is asked")
    return own or asked


def _asked(files: Files) -> float:
    """The interval that is asked for; rows of single vehicles say none themselves."""
    if files.wanted.interval is None:
        if VEHICLES in files.formats:
            raise Problem(f"{files.name}: has a row for each vehicle; say interval, the time over which they are counted")
        return 0
    if not 0 < files.wanted.interval <= DAY:
        raise Problem(f"{files.name}: an interval is above 0 and at most a day")
    return float(files.wanted.interval)


def _with_hours_again(files: Files, frame: pandas.DataFrame) -> pandas.DataFrame:
    """The rows, with those marked that are of an hour which the clocks of the zone show a second time."""
    zone = files.wanted.zone
    again = frame.duplicated(["station", "moment", "again"]) if zone else frame.again
    if zone is None or not again.any():
        return frame
    times = frame.loc[again, ["day", "second"]].drop_duplicates().astype({"day": str})
    known = {(text, second) for text, second in times.itertuples(index=False)
             if text in files.days.dates and put_back(files.days.dates[text], second, zone) > STILL}
    pairs = pandas.Series(list(zip(frame.day[again].astype(str), frame.second[again])), index=frame.index[again], dtype=object)
    return frame.assign(again=frame.again | pairs.isin(known).reindex(frame.index, fill_value=False))


def _once(files: Files, frame: pandas.DataFrame) -> pandas.DataFrame:
    """The rows, of which no two are of one station and time, but where rows that stand there again are left out later."""
    again = frame.duplicated(["station", "moment", "again"]) & ~frame.again
    if again.any() and not any(rule.name == "repeated" for rule in files.wanted.leave_out):
        second = frame[again].iloc[0]
        first = frame[(frame.station == second.station) & (frame.moment == second.moment)].iloc[0]
        of = f" of station {second.station}" if second.station else ""
        raise Problem(f"{files.place(second)} has the same time as {files.where(first)}{of}; are there two stations of one name, or "
                      "rows twice, which leave_out = \"repeated\" leaves out, or were the clocks put back, for which say zone?")
    return frame


def _usual(files: Files, frame: pandas.DataFrame) -> float:
    """The time from row to row on which most rows agree, of several the shortest."""
    ways = frame.moment.diff()[frame.station == frame.station.shift()]
    ways = ways[ways > 0]
    if ways.empty:
        raise Problem(f"{files.name}: with one row of a station alone, say interval")
    counts = ways.value_counts()
    return float(min(counts[counts == counts.max()].index))


def _check_grid(files: Files, frame: pandas.DataFrame, interval: float) -> None:
    """Refuses a row that isn't some intervals behind the one before it."""
    ways = frame.moment.diff().where(frame.station == frame.station.shift(), 0)
    odd = ways % interval != 0
    if odd.any():
        row = frame.loc[odd.idxmax()]
        raise Problem(f"{files.place(row)} is {ways[odd.idxmax()]:g} s behind the row before it, which isn't some intervals of "
                      f"{interval:g} s; say interval")


def _of_vehicles(files: Files, frame: pandas.DataFrame) -> pandas.DataFrame:
    """Vehicles counted by interval, from that of the first of a station's day to that of the last: none is 0 there.

    The occupied time is that of the vehicles that come in the interval, and the speed their harmonic mean.
    """
    interval = _asked(files)
    begin = (frame.second // interval * interval).astype(int)
    frame = frame.assign(moment=frame.moment - frame.second + begin, second=begin, amount=1.0, slowness=1 / frame.speed)
    keys = ["station", "day", "moment", "second"]
    counted = frame.groupby([*keys, "again"], observed=True, as_index=False).agg(
        amount=("amount", "sum"), occupied=("occupied", "sum"), slowness=("slowness", "mean"), line=("line", "first"),
        file=("file", "first"), lanes=("lanes", "max"))
    counted = counted.assign(speed=1 / counted.slowness)
    found, again = counted[~counted.again], counted[counted.again]
    spans = found.groupby(["station", "day"], observed=True).agg(first=("moment", "min"), last=("moment", "max"), line=("line", "first"),
                                                                file=("file", "first"), midnight=("second", "min")).reset_index()
    counts = ((spans["last"] - spans["first"]) // interval + 1).astype(int)
    whole = spans.loc[spans.index.repeat(counts), ["station", "day", "first", "line", "file", "midnight"]].reset_index(drop=True)
    ahead = (whole.groupby(["station", "day"], observed=True).cumcount() * interval).astype(int)
    whole = whole.assign(moment=whole["first"] + ahead, second=whole.midnight + ahead)
    columns = ["amount", "occupied", "speed", "lanes"]
    filled = whole[[*keys, "line", "file"]].merge(found[[*keys, *columns]], "left", keys)
    filled[["amount", "occupied"]] = filled[["amount", "occupied"]].fillna(0)
    whole = pandas.concat([filled.assign(again=False), again[[*filled.columns, "again"]]])
    whole = whole.assign(occupancy=numpy.nan, density=numpy.nan, observed=numpy.nan)
    return whole.sort_values(["station", "moment", "again"], kind="stable", ignore_index=True)
