"""Demand from a CSV file of counts: the vehicles that were counted at a place in each interval."""

from __future__ import annotations

import datetime
from collections import Counter
from collections.abc import Iterator, Sequence
from dataclasses import dataclass
from fractions import Fraction
from pathlib import Path
from typing import Any

from ..detectors.days import ORDERS
from ..detectors.options import Wanted
from ..detectors.rules import rules_of
from ..problem import Problem
from ..texts.quantities import DAY, HOUR, duration, file_name, number, shown, word
from .count_file import Row, counted
from .entries import Entries, list_of
from .folder import files_beside
from .plan import Flow
from .scale import rounded_text
from .times import Times

MISSING = ("error", "zero", "interpolate")

Piece = tuple[Fraction, Fraction, Fraction]  # the start, the end and the middle of an interval of a gap
Placed = list[tuple[Fraction, Row]]  # each row with its seconds after the study's start


@dataclass(frozen=True)
class Count:
    """A count: where it stands, its interval in seconds after the study's start, and its vehicles/h."""

    where: str
    start: Fraction
    end: Fraction
    flow: Fraction


def flows_of_counts(table: Entries, times: Times) -> list[Flow]:
    """The flows in vehicles/h that a table of the study takes from files of counts; tools/docs/counts.md has its keys."""
    names = table.take("counts", _files)
    wanted = wanted_of(table)
    found = counted(files_beside(times.path, names, table.key("counts")), wanted, times.passes_midnight)
    asked = Fraction(found.interval) if wanted.interval is None and found.interval is not None else wanted.interval
    interval = _interval(found.name, found.rows, asked, wanted.missing or "error")
    placed = [(row.seconds - times.start, row) for row in found.rows] if found.dated else _on_days(found.rows, interval, times)
    counts = _counts(placed, found.hourly, interval)
    flows, missed = _filled(found.name, counts, interval, wanted.missing or "error", times)
    vehicles = sum(flow.flow * (flow.end - flow.start) for flow in flows) / HOUR
    more = _missed(missed, wanted.missing or "error", times) + "".join(f"; {line}" for line in found.lines)
    what = wanted.column or (f"station {wanted.station}" if wanted.station else "its flows")
    times.remarks.append(f"{table.place}: counts of {_lasting(interval)} from {Path(found.name).name}, {what}, "
                         f"{rounded_text(vehicles)} vehicles in the study's time{more}")
    return flows


def wanted_of(table: Entries) -> Wanted:
    """How a table of the study has files of counts read, and what it takes of them."""
    column = table.take("column", word, None)
    date, dates = table.take("date", _date, None), table.take("dates", _dates, ())
    if date and dates:
        raise Problem(f"{table.key('dates')}: say either date or dates")
    separator = table.take("separator", word, None)
    lanes = table.take("lanes", number, None)
    average, per = _one_of(table, "average", ("mean", "median")), _one_of(table, "per", ("interval", "hour"))
    wanted = Wanted(column, table.take("time", word, "time"), table.take("station", _text, None),
                    table.take("station_column", word, "station"), (date,) if date else dates, table.take("date_column", word, "date"),
                    _one_of(table, "date_order", ORDERS), average, per or ("interval" if column else None), None,
                    _one_of(table, "occupancy_unit", ("%", "share")),
                    table.take("interval", duration, None), _one_of(table, "missing", MISSING), separator,
                    table.take("decimal", word, None), table.take("zone", word, None), None if lanes is None else float(lanes),
                    rules_of(table.take("leave_out", _texts, ()), table.key("leave_out")), table.take("holidays", _dates, ()))
    table.done()
    if separator is not None and len(separator) != 1:
        raise Problem(f"{table.key('separator')}: expected one character")
    return wanted


def _one_of(table: Entries, name: str, words: Sequence[str]) -> str | None:
    """One of some words, None where none is said."""
    value = table.take(name, word, None)
    if value is not None and value not in words:
        raise Problem(f"{table.key(name)}: expected {' or '.join(words)}, found {shown(value)}")
    return value


def _text(value: Any, key: str) -> str:
    return str(value) if isinstance(value, int) and not isinstance(value, bool) else word(value, key)


def _texts(value: Any, key: str) -> tuple[str, ...]:
    return tuple(list_of(word)(value, key)) if isinstance(value, list) else (word(value, key),)


def _files(value: Any, key: str) -> tuple[str, ...]:
    return tuple(list_of(file_name)(value, key)) if isinstance(value, list) else (file_name(value, key),)


def _date(value: Any, key: str) -> str:
    return value.isoformat() if isinstance(value, datetime.date) else word(value, key)


def _dates(value: Any, key: str) -> tuple[str, ...]:
    return tuple(list_of(_date)(value, key)) if isinstance(value, list) else (_date(value, key),)


def _interval(path: str, rows: Sequence[Row], asked: Fraction | None, missing: str) -> Fraction:
    """The seconds of an interval: those that are said, else the way from row to row on which most rows agree.

    A row may be missing, so a way may also be several intervals.
    """
    ways = [(Fraction(behind.seconds - row.seconds), row.where) for row, behind in zip(rows, rows[1:])]
    if asked is None and not ways:
        raise Problem(f"{path}: with one row alone, say interval in the study")
    interval = _usual(ways) if asked is None else asked
    if not 0 < interval <= DAY:
        raise Problem(f"{path}: an interval is above 0 and at most a day, found {_lasting(interval)}")
    least, where = min(ways, key=lambda way: way[0], default=(interval, ""))
    if least < interval:
        raise Problem(f"{path}: from {where} to the next row are {_lasting(least)}, less than the interval of "
                      f"{_lasting(interval)}")
    if asked is None:
        _check_agreement(path, ways, interval, missing)
    return interval


def _usual(ways: Sequence[tuple[Fraction, str]]) -> Fraction:
    """The most frequent way from row to row, of several the shortest."""
    counts = Counter(way for way, _ in ways)
    return min(counts, key=lambda way: (-counts[way], way))


def _check_agreement(path: str, ways: Sequence[tuple[Fraction, str]], interval: Fraction, missing: str) -> None:
    """Refuses rows that don't show the interval: a way that isn't some of it, and where gaps are filled any doubt."""
    where = next(at for way, at in ways if way == interval)
    odd = next(((way, at) for way, at in ways if way % interval), None)
    if odd is None and missing != "error":
        longer = [(way, at) for way, at in ways if way > interval]
        again = next((one for one, two in zip(ways, ways[1:]) if one[0] == two[0] > interval), None)
        odd = again or (longer[0] if len(longer) * 2 > len(ways) else None)
    if odd:
        raise Problem(f"{path}: the rows don't agree on the interval: {_lasting(interval)} from {where} on, "
                      f"{_lasting(odd[0])} from {odd[1]} on; say interval in the study")


def _on_days(rows: Sequence[Row], interval: Fraction, times: Times) -> Placed:
    """Rows that have no dates, each with its seconds after the study's start, in order.

    They are put on the day on which they cover most of the study, and what of it they don't cover there is taken from
    the days beside it, but never further than a day after the study's start.
    """
    def covered(shift: int) -> Fraction:
        starts = [row.seconds - times.start + shift for row in rows]
        shares = (min(start + interval, times.duration) - max(start, Fraction(0)) for start in starts)
        return sum((max(Fraction(0), share) for share in shares), Fraction(0))

    chosen, *others = sorted((0, -DAY, DAY), key=covered, reverse=True)
    first, last = (row.seconds - times.start + chosen for row in (rows[0], rows[-1]))
    placed = [(row.seconds - times.start + chosen, row) for row in rows]
    for start, row in ((row.seconds - times.start + other, row) for other in others for row in rows):
        beside = start + interval <= first or start >= last + interval
        if beside and start + interval > 0 and start < min(times.duration, Fraction(DAY)):
            placed.append((start, row))
    return sorted(placed, key=lambda pair: pair[0])


def _counts(placed: Placed, hourly: bool, interval: Fraction) -> list[Count]:
    """The counts in order; a row without a number is missing."""
    found = []
    for start, row in placed:
        if row.amount is not None:
            amount = Fraction(repr(row.amount))
            found.append(Count(row.where, start, start + interval, amount if hourly else amount * HOUR / interval))
    return found


def _filled(path: str, counts: Sequence[Count], interval: Fraction, missing: str,
            times: Times) -> tuple[list[Flow], list[Fraction]]:
    """The flows of the study's time, and the starts of the missing intervals, which are filled as `missing` says."""
    flows: list[Flow] = []
    missed: list[Fraction] = []
    before: Count | None = None
    for count in [*counts, None]:
        begin = max(before.end, Fraction(0)) if before else Fraction(0)
        end = min(count.start, times.duration) if count else times.duration
        if begin < end:
            pieces = _pieces(before.end if before else begin, count.start if count else end, interval)
            gap = [(max(start, Fraction(0)), min(stop, times.duration), middle) for start, stop, middle in pieces
                   if stop > 0 and start < times.duration]
            missed += [start for start, _, _ in gap]
            flows += _filling(path, before, count, gap, missing, times)
        if count and count.end > 0 and count.start < times.duration:
            flows.append(Flow(max(count.start, Fraction(0)), min(count.end, times.duration), count.flow))
        before = count
    return flows, missed


def _pieces(begin: Fraction, end: Fraction, interval: Fraction) -> Iterator[Piece]:
    """A gap in intervals: the start, the end and the middle of each."""
    while begin < end:
        stop = min(begin + interval, end)
        yield begin, stop, (begin + stop) / 2
        begin = stop


def _filling(path: str, before: Count | None, behind: Count | None, gap: Sequence[Piece], missing: str,
             times: Times) -> list[Flow]:
    """What a gap between two counts is filled with, or the problem that there is one."""
    if missing == "zero":
        return []
    if missing == "interpolate" and before and behind:
        first, last = (before.start + before.end) / 2, (behind.start + behind.end) / 2
        slope = (behind.flow - before.flow) / (last - first)
        return [Flow(start, stop, before.flow + slope * (middle - first)) for start, stop, middle in gap]
    where = f"behind {before.where}" if before else "before the first"
    why, advice = "", 'say missing = "zero" or "interpolate"'
    if not before or not behind:
        why = ": the counts end there" if before else ": the counts begin later"
        advice = 'say missing = "zero", or model the time that they cover'
    raise Problem(f"{path}: no count for {_clock(gap[0][0], times)}, {where}{why}; {advice}")


def _missed(missed: Sequence[Fraction], missing: str, times: Times) -> str:
    if not missed:
        return ""
    what = "taken as zero" if missing == "zero" else "interpolated"
    return f"; {len(missed)} missing, from {_clock(missed[0], times)} on, {what}"


def _clock(time: Fraction, times: Times) -> str:
    """The clock time at which an interval begins: 00:00, where one that ends would end at 24:00."""
    return times.clock(time - DAY if times.start + time == DAY else time)


def _lasting(seconds: Fraction) -> str:
    """A length of time in minutes, or in seconds where it isn't whole minutes."""
    return f"{rounded_text(seconds)} s" if seconds % 60 else f"{rounded_text(seconds / 60)} min"
