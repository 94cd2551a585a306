"""Times and days as exports of detectors write them, read as the calendar and the clock have them."""

import pytest

from ctmtools.detectors.days import Days
from ctmtools.problem import Problem
from ctmtools.detectors.clocks import Moment, day, day_text, follows, moment

HOUR, MINUTE = 3600, 60


@pytest.mark.parametrize("text, wanted", [
    ("06:30", Moment(None, 6 * HOUR + 30 * MINUTE, None)), (" 6:30:05 ", Moment(None, 6 * HOUR + 30 * MINUTE + 5, None)),
    ("00:00", Moment(None, 0, None)), ("23:59:59", Moment(None, 24 * HOUR - 1, None)), ("24:00", Moment(None, 24 * HOUR, None)),
    # Half a day has the hours 12, 1, 2 and so on to 11.
    ("12:00 AM", Moment(None, 0, None)), ("12:30 a.m.", Moment(None, 30 * MINUTE, None)), ("1:00 am", Moment(None, HOUR, None)),
    ("11:59 AM", Moment(None, 12 * HOUR - MINUTE, None)), ("12:00 PM", Moment(None, 12 * HOUR, None)),
    ("1:15pm", Moment(None, 13 * HOUR + 15 * MINUTE, None)), ("11:00 P.M.", Moment(None, 23 * HOUR, None)),
    ("2019-12-04T06:30", Moment((2019, 12, 4), 6 * HOUR + 30 * MINUTE, None)),
    ("2019-12-04 06:30:00.000Z", Moment((2019, 12, 4), 6 * HOUR + 30 * MINUTE, "Z")),
    ("04/12/2019 06:30:00,0 +01:00", Moment((4, 12, 2019), 6 * HOUR + 30 * MINUTE, "+01:00")),
    ("4.12.19 6:30 PM -0500", Moment((4, 12, 19), 18 * HOUR + 30 * MINUTE, "-0500"))])
def test_moments(text, wanted):
    assert moment(text, "line 2") == wanted


@pytest.mark.parametrize("text", ["24:01", "24:00:01", "24:01:01", "25:00", "06:60", "06:30:60", "0:30 AM", "13:00 PM", "6.30", "06:30:00.5", ""])
def test_no_moments(text):
    with pytest.raises(Problem, match="line 2: expected a time such as"):
        moment(text, "line 2")


@pytest.mark.parametrize("text, wanted, shown", [
    ("2019-12-04", (2019, 12, 4), "2019-12-04"), ("4/12/2019", (4, 12, 2019), "04/12/2019"), ("31.1.19", (31, 1, 19), "31/01/19"),
    ("32-1-1", (32, 1, 1), "0032-01-01"), (" 2019-12-04T00:00:00 ", (2019, 12, 4), "2019-12-04"), ("4 Dec 2019", "4 Dec 2019", "4 Dec 2019"),
    ("2019-12-04T06:00", "2019-12-04T06:00", "2019-12-04T06:00")])
def test_days(text, wanted, shown):
    assert day(text, "line 2") == wanted and day_text(wanted) == shown


def test_no_day():
    with pytest.raises(Problem, match="line 2: expected a date such as 2019-12-04 or 04/12/2019, found nothing"):
        day("  ", "line 2")


@pytest.mark.parametrize("earlier, later, wanted", [
    ((2019, 12, 31), (2020, 1, 1), True), ((2020, 2, 28), (2020, 2, 29), True), ((2019, 2, 28), (2019, 2, 29), False),
    ((2019, 12, 4), (2019, 12, 6), False), ((2019, 12, 4), (2019, 12, 4), False), ((2019, 12, 4), (2019, 12, 3), False),
    # The next day where the day stands before the month, or behind it.
    ((31, 12, 2019), (1, 1, 2020), True), ((12, 31, 19), (1, 1, 20), True), ((4, 12, 2019), (4, 13, 2019), True), ((4, 12, 2019), (5, 12, 2019), True),
    # Two digits are of a year from 2000 on, and 2000 has a 29th of February, as 1900 hasn't.
    ((28, 2, 0), (29, 2, 0), True), ((28, 2, 1900), (29, 2, 1900), False),
    ((31, 12, 99), (1, 1, 100), False), ((30, 4, 19), (31, 4, 19), False), ("4 Dec", "5 Dec", False), ((4, 12, 2019), "5 Dec", False)])
def test_the_next_day(earlier, later, wanted):
    assert follows(earlier, later) == wanted


@pytest.mark.parametrize("days, order, wanted", [
    # 3 and 4 December are next to each other, 12 March and 12 April are not.
    ({"03/12/2019": (3, 12, 2019), "04/12/2019": (4, 12, 2019)}, None, ["04/12/2019"]),
    ({"03/12/2019": (3, 12, 2019), "04/12/2019": (4, 12, 2019)}, "day-first", ["04/12/2019"]),
    ({"03/12/2019": (3, 12, 2019), "04/12/2019": (4, 12, 2019)}, "month-first", []),
    ({"03/12/2019": (3, 12, 2019), "03/13/2019": (3, 13, 2019)}, None, ["03/13/2019"])])
def test_the_day_behind_another(days, order, wanted):
    assert Days("files", days, order).behind("03/12/2019") == wanted
