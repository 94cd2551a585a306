"""Counts at the edges of a study, of a day and of what is missing, worked out on paper."""

import pytest

from ctmtools.detectors.numbers import number as _number
from ctmtools.problem import Problem

from .corridor import HEAD
from .test_counts import FLOWS, QUARTERS, counted, demands, problem

NIGHT = HEAD.replace("06:00", "23:30")
LATE = HEAD.replace("06:00", "23:00")


def test_a_single_station_needs_no_choice(tmp_path):
    rows = "station,time,n\n" + "".join(f"A7,{row}\n" for row in QUARTERS.splitlines()[1:])
    assert demands(counted(tmp_path, rows)) == FLOWS and demands(counted(tmp_path, rows, 'station = "A7"')) == FLOWS


def test_several_stations(tmp_path):
    rows = "station,time,n\n" + "".join(f"s{i},06:00,1\n" for i in range(6))
    assert "has 6 stations, which `ctm-tools detectors` prints; choose one by station" in problem(tmp_path, rows)


def test_columns_that_differ_by_capitals_alone(tmp_path):
    rows = QUARTERS.replace("time,n", "time,N")
    assert demands(counted(tmp_path, rows)) == FLOWS
    both = "time,N,n\n" + "".join(f"{row[:5]},7,{row[6:]}\n" for row in QUARTERS.splitlines()[1:])
    assert demands(counted(tmp_path, both)) == FLOWS
    neither = both.replace("N,n", "N,N")
    assert "line 1 has 2 columns named N" in problem(tmp_path, neither)


def test_dates_in_a_column_beside_times_without_one(tmp_path):
    rows = "date,time,n\n" + "".join(f"2019-12-04,{row}\n" for row in QUARTERS.splitlines()[1:])
    assert demands(counted(tmp_path, rows)) == FLOWS and demands(counted(tmp_path, rows, "date = 2019-12-04")) == FLOWS
    dated = QUARTERS.replace("06:", "2019-12-04 06:")
    assert demands(counted(tmp_path, dated)) == FLOWS and demands(counted(tmp_path, dated, 'date = "2019-12-04"')) == FLOWS


def test_counts_from_before_the_start_to_behind_the_end(tmp_path):
    # A count that begins before the study or ends behind it counts for its part of it.
    made = counted(tmp_path, "time,n\n05:50,90\n06:20,180\n06:50,270\n", 'interval = "30 min"')
    assert demands(made) == [["0", "120", "0.5"], ["120", "300", "1"], ["300", "360", "1.5"]]
    assert made.remarks == ["gates.g.demand: counts of 30 min from counts.csv, n, 330 vehicles in the study's time"]
    hours = counted(tmp_path, "time,n\n05:00,7\n06:00,360\n07:00,7\n", 'per = "hour"')
    assert demands(hours) == [["0", "360", "1"]] and "counts of 60 min" in hours.remarks[0]


@pytest.mark.parametrize("interval", ["90 s", "10 s", "2 min"])
def test_the_length_of_an_interval_is_told(tmp_path, interval):
    made = counted(tmp_path, "time,n\n06:00,1\n", f'interval = "{interval}", missing = "zero"')
    assert f"counts of {interval} from" in made.remarks[0]


def test_an_interval_of_a_day_and_more(tmp_path):
    assert demands(counted(tmp_path, "time,n\n00:00,8640\n", 'interval = "24 h"')) == [["0", "360", "1"]]
    assert "an interval is above 0 and at most a day, found 1,441 min" in problem(tmp_path, "time,n\n00:00,8640\n", 'interval = "1441 min"')


def test_a_gap_before_the_first_count_is_no_gap_to_interpolate(tmp_path):
    late = "time,n\n06:15,180\n06:30,270\n06:45,360\n"
    for missing in ("error", "interpolate"):
        told = problem(tmp_path, late, f'missing = "{missing}"')
        assert told.endswith('no count for 06:00, before the first: the counts begin later; say missing = "zero", or model the time that they cover')
    made = counted(tmp_path, late, 'missing = "zero"')
    assert demands(made) == FLOWS[1:] and made.remarks[0].endswith("; 1 missing, from 06:00 on, taken as zero")
    within = problem(tmp_path, QUARTERS.replace("06:15,180\n", ""))
    assert within.endswith('no count for 06:15, behind line 2; say missing = "zero" or "interpolate"')


def test_a_gap_at_midnight_is_told_as_00_00(tmp_path):
    rows = "time,n\n23:00,90\n23:30,90\n00:30,90\n"
    told = problem(tmp_path, rows, 'interval = "30 min"', head=LATE, end="01:00")
    assert "no count for 00:00, behind line 3" in told
    made = counted(tmp_path, rows, 'interval = "30 min", missing = "interpolate"', head=LATE, end="01:00")
    assert made.remarks[0].endswith("; 1 missing, from 00:00 on, interpolated") and [row[2] for row in demands(made)] == ["0.5"] * 4


def test_a_row_of_the_next_day_does_not_reach_into_a_study_of_one(tmp_path):
    # The study ends at 24:00, and a row at 00:00 is of the day's beginning.
    day = "time,n\n" + "".join(f"{hour:02d}:00,{3600 if hour else 7200}\n" for hour in range(24))
    made = counted(tmp_path, day, head=LATE, end="24:00")
    assert demands(made) == [["0", "360", "10"]]


@pytest.mark.parametrize("text, decimal, wanted", [
    ("90", None, 90), (" 90 ", None, 90), ("90.5", None, 90.5), ("90,5", ",", 90.5), (".5", None, 0.5), ("5.", None, 5), ("+7", None, 7), ("1e3", None, 1000),
    ("1.5E-1", None, 0.15), ("1.000", ".", 1), ("12.50", None, 12.5), ("1234.567", None, 1234.567), ("0.125", None, 0.125), ("0", None, 0)])
def test_numbers_of_counts(text, decimal, wanted):
    assert float(_number(text, decimal, "line 2")) == wanted


@pytest.mark.parametrize("text, decimal, told", [
    ("1.000", None, 'may have decimals, or be a number of thousands'), ("90,5", None, 'expected a count; say decimal = "," in the study'),
    ("90.5", ",", 'expected a count'), ("1,000", None, 'expected a count; write it without the comma of thousands'),
    ("1.000.000", None, 'expected a count; write it without the point of thousands'), ("-1", None, 'a count isn\'t negative'),
    ("x", None, 'expected a count'), ("1.2.3", None, 'expected a count'), ("0.000", None, None), ("12.345", None, "may have decimals, or be")])
def test_numbers_that_are_none(text, decimal, told):
    if told is None:
        assert _number(text, decimal, "line 2") == 0
        return
    with pytest.raises(Problem) as found:
        _number(text, decimal, "line 2")
    assert told in str(found.value) and str(found.value).startswith("line 2: ")


def test_counts_of_a_day_serve_no_more_than_a_day(tmp_path):
    day = "time,n\n" + "".join(f"{hour:02d}:00,3600\n" for hour in range(24))
    hours = HEAD.replace('end = "{end}"', 'duration = "{end}"')
    assert demands(counted(tmp_path, day, head=hours, end="24 h"))[-1][1] == "8640"
    told = problem(tmp_path, day, head=hours, end="25 h")
    assert "no count for 06:00 +1 day, behind line 7: the counts end there" in told
