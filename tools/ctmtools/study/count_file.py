"""The rows of files of counts that a demand takes: those of one station, of one day or the mean or median of several."""

from __future__ import annotations

from collections.abc import Sequence
from dataclasses import dataclass
from pathlib import Path

import pandas

from ..detectors.days import holidays_of
from ..detectors.file_set import Files
from ..detectors.formats import VEHICLES
from ..detectors.options import Wanted
from ..detectors.reading import hour_lines, kept_rows, left_lines
from ..detectors.table import counted as counted_stations, named, named_days
from ..problem import Problem
from ..texts.quantities import DAY, HOUR


@dataclass(frozen=True)
class Row:
    """A row: where it stands, its seconds after midnight of the chosen day, and its number, None where there is none."""

    where: str
    seconds: int
    amount: float | None


@dataclass(frozen=True)
class Counted:
    """The rows of files, in rising order, whether they have dates, and whether their amounts are vehicles/h.

    `interval` is that which the files themselves say, None where the rows do, and `lines` say what was taken and left out.
    """

    name: str
    rows: list[Row]
    dated: bool
    hourly: bool
    interval: int | None
    lines: list[str]


def counted(paths: Sequence[Path], wanted: Wanted, passes_midnight: bool) -> Counted:
    """The rows of some files. Where the study passes midnight, the rows of the next day are taken too."""
    files = Files(paths, wanted, "has no rows of counts")
    if wanted.station is None and len(files.stations) > 1:
        raise Problem(f"{files.name}: has {counted_stations(files.stations)}; choose one by station")
    lines = ["the times are taken as they are written, without their zone"] if files.zoned else []
    if not files.dated:
        if wanted.dates or wanted.holidays or wanted.zone:
            raise Problem(f"{files.name}: has no dates; it has neither a column {wanted.date_column} nor dates in the times")
        chosen, behind = None, {}
    else:
        chosen, free = _chosen(files)
        lines += [f"holidays {named(free)} left out"] if free else []
        behind = _behind(files, chosen) if passes_midnight else {}
    frame, hourly, more = _numbers(files, None if chosen is None else [*chosen, *behind])
    if chosen is None:
        rows = _unwound(files.name, _rows(files, frame))
    else:
        lines += hour_lines(files, chosen)
        taken = _of_days(files, frame, chosen, behind)
        rows = _rows(files, taken)
        if len(chosen) > 1:
            fewer = int((taken.days < len(chosen)).sum())
            lines.append(f"{wanted.average} of {len(chosen)} days" + (f", of {fewer} intervals of fewer" if fewer else ""))
    return Counted(files.name, _rising(files.name, rows), files.dated, hourly, files.interval(), lines + more)


def _numbers(files: Files, days: Sequence[str] | None) -> tuple[pandas.DataFrame, bool, list[str]]:
    """The rows of days with their amounts, whether these are vehicles/h, and lines on what is left out of them."""
    if not files.wanted.leave_out and VEHICLES not in files.formats and not files.wanted.zone:
        frame = files.rows(days)
        return frame, files.per() == "hour", []
    frame, left, interval = kept_rows(files, None if days is None else list(days))
    hourly = files.per() == "hour"
    lines = [line for line in left_lines(left, files.wanted.leave_out, files) if "none by" not in line]
    return frame.assign(amount=frame.flow if hourly else frame.flow * interval / HOUR), hourly, lines


def _chosen(files: Files) -> tuple[list[str], list[str]]:
    """The days that are asked for, and the holidays that are left out of them."""
    wanted = files.wanted
    years = sorted({date.year for date in files.days.dates.values()})
    free = files.days.leave_out(holidays_of(wanted.holidays, years)) if wanted.holidays else []
    if not wanted.dates:
        if len(files.days.days) > 1:
            raise Problem(f"{files.name}: has several days, {named_days(list(files.days.days))}; choose one by date, or several by dates")
        return list(files.days.days), []
    chosen = files.days.chosen(wanted.dates)
    if len(chosen) > 1 and wanted.average is None:
        raise Problem(f"{files.name}: {len(chosen)} days are chosen, {named_days(chosen)}; say average = \"mean\" or \"median\"")
    return chosen, [text for text in free if text not in chosen]


def _behind(files: Files, chosen: Sequence[str]) -> dict[str, str]:
    """The day after each chosen one that the files have, and which one it is behind."""
    found: dict[str, str] = {}
    for text in chosen:
        nexts = files.days.behind(text)
        if len(nexts) > 1:
            raise Problem(f"{files.name}: the day after {text} may be {' or '.join(nexts)}; write the dates as 2019-12-04")
        found |= {one: text for one in nexts}
    return found


def _of_days(files: Files, frame: pandas.DataFrame, chosen: Sequence[str], behind: dict[str, str]) -> pandas.DataFrame:
    """The rows of the chosen days, and behind them those of the days after; of several days their mean or median."""
    own = frame[frame.day.isin(list(chosen))]
    after = frame[frame.day.isin(list(behind))]
    both = pandas.concat([own, after.assign(second=after.second + DAY)])
    if len(chosen) == 1:
        return both.sort_values("second", kind="stable")
    twice = both[both.duplicated(["day", "second"])]
    if len(twice):
        raise Problem(f"{files.place(twice.iloc[0])} is of a day and a time that stand there already")
    groups = both.sort_values("second", kind="stable").groupby("second", as_index=False)
    found = groups.agg(amount=("amount", files.wanted.average or "mean"), days=("amount", "count"), line=("line", "first"),
                       file=("file", "first"))
    return found.assign(amount=found.amount.round(6))


def _rows(files: Files, frame: pandas.DataFrame) -> list[Row]:
    where = (f"line {line}" if len(files.parts) == 1 else f"line {line} of {files.parts[int(file)].path}"
             for line, file in zip(frame["line"], frame["file"]))
    return [Row(place, int(second), None if amount != amount else float(amount))
            for place, second, amount in zip(where, frame.second, frame.amount)]


def _unwound(name: str, rows: Sequence[Row]) -> list[Row]:
    """Rows without dates, with a day more behind a midnight that their times pass."""
    found: list[Row] = []
    days = 0
    for row in rows:
        if found and row.seconds + DAY * days <= found[-1].seconds - DAY / 2:
            days += 1
        found.append(Row(row.where, row.seconds + DAY * days, row.amount))
    if found[-1].seconds - found[0].seconds >= DAY:
        later = next(row for row in found if row.seconds - found[0].seconds >= DAY)
        raise Problem(f"{name}: a second day begins in {later.where}, and no dates say which is which; leave one "
                      "in the file, or give it a column of dates")
    return found


def _rising(name: str, rows: list[Row]) -> list[Row]:
    """The rows, whose times rise from one to the next."""
    for before, row in zip(rows, rows[1:]):
        if row.seconds <= before.seconds:
            how = "has the same time as" if row.seconds == before.seconds else "is of an earlier time than"
            raise Problem(f"{name}: {row.where} {how} {before.where}; the times must rise from row to row, and "
                          "of several stations or days one is chosen, by station and station_column, date and "
                          "date_column")
    return rows
