"""The days of files of detectors: which dates they are, which are chosen, and how many hours they have."""

from __future__ import annotations

import datetime
from collections.abc import Iterable, Mapping, Sequence

from ..problem import Problem
from .clocks import Day, day, day_text, follows, readings, zone_of
from .table import named_days

WEEKDAYS = ("monday", "tuesday", "wednesday", "thursday", "friday", "saturday", "sunday")
SORTS = {"all": range(7), "weekdays": range(5), "weekends": range(5, 7),
         **{name: range(i, i + 1) for i, name in enumerate(WEEKDAYS)}}
STILL = datetime.timedelta(0)
ORDERS = ("day-first", "month-first")  # of the day and the month, where the year isn't first


def dates_of(days: Iterable[Day], order: str | None = None) -> dict[Day, datetime.date]:
    """The dates of days by an order of day and month; without one by the only order in which all of them are dates."""
    numbers = [one for one in days if not isinstance(one, str)]
    found = {sort: [readings(one)[i] for one in numbers] for i, sort in enumerate(("year-first", *ORDERS))}
    whole = [dates for sort, dates in found.items() if dates and None not in dates and sort in (order or sort, "year-first")]
    if not whole or any(dates != whole[0] for dates in whole[1:]):
        return {}
    return {one: date for one, date in zip(numbers, whole[0]) if date}


class Days:
    """The days of some files, each by the text that messages have of it."""

    def __init__(self, name: object, days: Mapping[str, Day], order: str | None = None) -> None:
        dates = dates_of(days.values(), order)
        self.name = name
        self.days = dict(sorted(days.items(), key=lambda pair: dates[pair[1]])) if len(dates) == len(days) else days
        self.dates = {text: dates[one] for text, one in days.items() if one in dates}
        self.free: set[str] = set()  # those that are holidays

    def leave_out(self, holidays: Sequence[datetime.date]) -> list[str]:
        """The days that are holidays; they aren't chosen by a word."""
        self._need_dates("holidays")
        self.free = {text for text, date in self.dates.items() if date in holidays}
        return [text for text in self.days if text in self.free]

    def chosen(self, words: Sequence[str]) -> list[str]:
        """The days that words choose, in the order of the files: dates as the files write them, or sorts of days."""
        found: list[str] = []
        for word in words:
            found += self._of_sort(word) if word.casefold() in SORTS else [self.named(word)]
        chosen = [text for text in self.days if text in found]
        if not chosen:
            raise Problem(f"{self.name}: no day of it is of {', '.join(words)}; it has {named_days(list(self.days))}")
        return chosen

    def _of_sort(self, word: str) -> list[str]:
        if word.casefold() == "all":
            return [text for text in self.days if text not in self.free]
        self._need_dates(word)
        return [text for text, date in self.dates.items() if date.weekday() in SORTS[word.casefold()] and text not in self.free]

    def named(self, word: str) -> str:
        """The day that a text says: as the files write it, or as 2019-12-04 where their dates are known."""
        one = day(word, "date")
        text = day_text(one)
        if text in self.days:
            return text
        read = dates_of([one])
        same = [text for text, date in self.dates.items() if date == read.get(one)]
        if not same:
            raise Problem(f"{self.name}: has no {text}, it has {named_days(list(self.days))}; write date as the file does")
        return same[0]

    def behind(self, text: str) -> list[str]:
        """The days that may be the next one after a day, of which the dates may not be known."""
        if text in self.dates:
            return [other for other, date in self.dates.items() if date - self.dates[text] == datetime.timedelta(days=1)]
        return [other for other, one in self.days.items() if follows(self.days[text], one)]

    def _need_dates(self, what: str) -> None:
        unknown = next((text for text in self.days if text not in self.dates), None)
        if unknown:
            raise Problem(f"{self.name}: {named_days([unknown])} may be of two months, or is no date, and so it isn't known which days are of "
                          f"{what}; write the dates as 2019-12-04, or say date_order")


def hours_of(date: datetime.date, zone: str) -> float:
    """How many hours a date has by the clocks of a zone."""
    clocks = zone_of(zone)
    begin, end = (datetime.datetime.combine(one, datetime.time(), clocks).astimezone(datetime.timezone.utc)
                  for one in (date, date + datetime.timedelta(days=1)))
    return (end - begin).total_seconds() / 3600


def put_back(date: datetime.date, second: int, zone: str) -> datetime.timedelta:
    """By how much the clocks of a zone are put back at a time of a date: above 0 they show it twice, below 0 never."""
    time = datetime.datetime.combine(date, datetime.time()) + datetime.timedelta(seconds=second)
    first, other = (time.replace(tzinfo=zone_of(zone), fold=fold).utcoffset() for fold in (0, 1))
    return (first or STILL) - (other or STILL)


def holidays_of(words: Sequence[str], years: Iterable[int]) -> list[datetime.date]:
    """Dates such as 2019-12-25, and for a country or a part of one, as US or US-CA, those of Python's package `holidays`."""
    found: list[datetime.date] = []
    for word in words:
        try:
            found.append(datetime.date.fromisoformat(word))
            continue
        except ValueError:
            pass
        found += _of_country(word, list(years))
    return found


def _of_country(word: str, years: Sequence[int]) -> list[datetime.date]:
    import holidays

    country, _, part = word.partition("-")
    try:
        known = holidays.CountryHoliday(country, years=list(years), **({"state": part} if part else {}))
    except (KeyError, NotImplementedError, AttributeError, ValueError):
        raise Problem(f"holidays: expected a date such as 2019-12-25, or a country that the package holidays knows, as US or "
                      f"US-CA, found \"{word}\"") from None
    if part and part not in (getattr(known, "PROVINCES", None) or getattr(known, "STATES", None) or [part]):
        raise Problem(f"holidays: {country} has no part {part}")
    return sorted(known)
