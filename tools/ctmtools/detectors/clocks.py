"""When the rows of a file are of: times and days as the file writes them, and their seconds after midnight."""

from __future__ import annotations

import datetime
import re
import zoneinfo
from dataclasses import dataclass
from typing import TypeGuard

import numpy
import pandas

from ..arrays import Flags, Wholes
from ..problem import Problem
from .formats import Format
from .numbers import by_text
from .options import Wanted
from .table import Source

DATE = r"(?P<date>[0-9]{1,4}[-/.][0-9]{1,2}[-/.][0-9]{1,4})"
CLOCK = r"(?P<hour>[0-9]{1,2}):(?P<minute>[0-5][0-9])(?::(?P<second>[0-5][0-9])(?:[.,]0*)?)?"
HALF = r"(?P<half>[AaPp]\.?[Mm]\.?)"
# A date's numbers in the order in which they are written, since which is the month may not be known; or, of a date in
# another form, its text.
Day = tuple[int, int, int] | str
TIME = re.compile(rf"(?:{DATE}(?:[T ]\s*))?{CLOCK}(?:\s*{HALF})?(?:\s*(?P<zone>Z|[+-][0-9]{{2}}:?[0-9]{{2}}))?\s*")
DAY_ALONE = re.compile(DATE + r"(?:[T ]00:00(?::00)?)?")


@dataclass(frozen=True)
class Moment:
    """A time of a file: its day where one is written, its seconds after midnight, and its zone where one is written."""

    day: Day | None
    seconds: int
    zone: str | None


def moment(text: str, key: str) -> Moment:
    """The moment that a text spells."""
    found = TIME.fullmatch(text.strip())
    hour = _hour(found) if found else None
    if not found or hour is None:
        raise Problem(f"{key}: expected a time such as 06:30, 6:30 AM, 2019-12-04T06:30 or 04/12/2019 06:30:00")
    seconds = hour * 3600 + int(found["minute"]) * 60 + int(found["second"] or 0)
    return Moment(day(found["date"], key) if found["date"] else None, seconds, found["zone"])


def _hour(found: re.Match[str]) -> int | None:
    """The hour, 0 to 24, of a clock time that may be of half a day; None where there is no such hour."""
    hour = int(found["hour"])
    if not found["half"]:
        return hour if hour < 24 or hour == 24 and not int(found["minute"]) + int(found["second"] or 0) else None
    return hour % 12 + (12 if found["half"][0] in "pP" else 0) if 1 <= hour <= 12 else None


def day(text: str, key: str) -> Day:
    """The day that a text spells."""
    text = text.strip()
    if not text:
        raise Problem(f"{key}: expected a date such as 2019-12-04 or 04/12/2019, found nothing")
    found = DAY_ALONE.fullmatch(text)
    if not found:
        return text
    one, two, three = map(int, re.split("[-/.]", found["date"]))
    return one, two, three


def day_text(written: Day) -> str:
    """A day as messages show it."""
    if isinstance(written, str):
        return written
    return "{:04d}-{:02d}-{:02d}".format(*written) if written[0] > 31 else "{:02d}/{:02d}/{:02d}".format(*written)


def follows(first: Day, second: Day) -> bool:
    """Whether a day is the next one after another, read in one of the orders that its numbers may have."""
    if isinstance(first, str) or isinstance(second, str):
        return False
    return any((later - earlier).days == 1 for earlier, later in zip(readings(first), readings(second))
               if earlier and later)


def readings(numbers: tuple[int, int, int]) -> list[datetime.date | None]:
    """The dates that the numbers are by year, month, day; by day, month, year; and by month, day, year."""
    one, two, three = numbers
    year = three if three > 99 else three + 2000
    return [_date(one, two, three) if one > 31 else None, _date(year, two, one), _date(year, one, two)]


def _date(year: int, month: int, number: int) -> datetime.date | None:
    try:
        return datetime.date(year, month, number)
    except ValueError:
        return None


@dataclass(frozen=True)
class Clocks:
    """Of each row its day, of which `days` has the meaning, its seconds, and whether it is of an hour that comes again.

    Where the file has no dates there are no days. `zoned` is a zone that the times have and that nobody asked for.
    """

    day: pandas.Categorical | None
    second: Wholes
    again: Flags
    days: dict[str, Day]
    zoned: bool
    pointed: bool  # whether the dates have points between their numbers


def zone_of(name: str) -> zoneinfo.ZoneInfo:
    """The time zone of a name as Europe/Berlin."""
    try:
        return zoneinfo.ZoneInfo(name)
    except (zoneinfo.ZoneInfoNotFoundError, ValueError, OSError):
        raise Problem(f"zone: expected a time zone such as \"America/Los_Angeles\", found \"{name}\"") from None


def clocks_of(source: Source, found: Format, rows: pandas.DataFrame, wanted: Wanted) -> Clocks:
    """The days and the seconds of rows."""
    times = rows[found.time.number]
    moments = by_text(times, moment, lambda line: f"{source.path}: line {line}, {found.time.name}", blanks=True)
    used = [one for one in moments if one is not None]
    zones = sorted({one.zone for one in used if one.zone})
    if wanted.zone and zones:
        moments, folds = _local(source, found, times, moments, zone_of(wanted.zone))
    else:
        folds = [False] * len(moments)
        if len(zones) > 1:
            raise Problem(f"{source.path}: the times are of several zones, {', '.join(zones)}; say zone, that of the road, as "
                          "\"America/Los_Angeles\"")
    codes = times.cat.codes.to_numpy()
    second = numpy.array([one.seconds if one else 0 for one in moments], dtype=int)
    again = numpy.array(folds, dtype=bool)
    days = _days(source, found, rows, moments)
    known = {day_text(one): one for one in days[0] if one is not None} if days else {}
    label = None
    if days:
        texts = list(known)
        place = {text: i for i, text in enumerate(texts)}
        codes_of = numpy.array([-1 if one is None else place[day_text(one)] for one in days[0]], dtype=int)
        label = pandas.Categorical.from_codes(codes_of[days[1]], categories=texts)
    return Clocks(label, second[codes] if len(second) else second, again[codes] if len(again) else again, known,
                  bool(zones) and not wanted.zone, _pointed(rows[(found.date or found.time).number]))


def _pointed(texts: pandas.Series) -> bool:
    return any(re.match(r"\s*[0-9]{1,2}\.[0-9]{1,2}\.[0-9]", text) for text in texts.cat.categories)


def _days(source: Source, found: Format, rows: pandas.DataFrame,
          moments: list[Moment | None]) -> tuple[list[Day | None], Wholes] | None:
    """Days, and which of them each row has: by a column of dates, or by the times; None where the file has no dates."""
    if found.date is not None:
        dates = rows[found.date.number]
        key = f"{source.path}: line {{}}, {found.date.name}"
        return by_text(dates, day, key.format, blanks=True), dates.cat.codes.to_numpy()
    codes = rows[found.time.number].cat.codes.to_numpy()
    bare = numpy.array([one is not None and one.day is None for one in moments], dtype=bool)[codes]
    if bare.all():
        return None
    if bare.any():
        raise Problem(f"{source.path}: line {rows.index[bare.argmax()]} has a time without a date, and others have one")
    return [one.day if one else None for one in moments], codes


def _has_year(one: Day | None) -> TypeGuard[tuple[int, int, int]]:
    """Whether a day begins with its year."""
    return isinstance(one, tuple) and one[0] > 31


def _local(source: Source, found: Format, times: pandas.Series, moments: list[Moment | None],
           zone: zoneinfo.ZoneInfo) -> tuple[list[Moment | None], list[bool]]:
    """Moments with an offset as the clocks of a zone show them, and which are of an hour that comes a second time."""
    local: list[Moment | None] = []
    folds = []
    for one, text in zip(moments, times.cat.categories):
        if one is None:
            local.append(None)
            folds.append(False)
            continue
        line = times.index[(times == text).to_numpy().argmax()] if one.zone is None or not _has_year(one.day) else 0
        if one.zone is None:
            raise Problem(f"{source.path}: line {line}, {found.time.name}: has no zone, and others have one")
        if not _has_year(one.day):
            raise Problem(f"{source.path}: line {line}, {found.time.name}: a time with a zone has a date such as 2019-12-04")
        offset = re.fullmatch(r"([+-])([0-9]{2}):?([0-9]{2})", "+00:00" if one.zone == "Z" else one.zone)
        assert offset
        ahead = datetime.timedelta(hours=int(offset[2]), minutes=int(offset[3])) * (-1 if offset[1] == "-" else 1)
        try:
            midnight = datetime.datetime(*one.day, tzinfo=datetime.timezone(ahead))
        except ValueError:
            raise Problem(f"{source.path}: line {times.index[(times == text).to_numpy().argmax()]}, {found.time.name}: is of no date") from None
        shown = (midnight + datetime.timedelta(seconds=one.seconds)).astimezone(zone)
        seconds = shown.hour * 3600 + shown.minute * 60 + shown.second
        local.append(Moment((shown.year, shown.month, shown.day), seconds, None))
        folds.append(bool(shown.fold))
    return local, folds
