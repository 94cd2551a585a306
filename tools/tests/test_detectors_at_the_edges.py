"""Files of detectors that are odd in one way each: what is read of them, or how they are refused."""

import time
from itertools import product

import numpy
import pandas
import pytest

from ctmtools import Problem, read_detectors
from ctmtools.detectors.reading import _places
from ctmtools.detectors.table import named_days

HEAD = "station,time,count\n"
ROW = "a,2019-12-04 06:00,30\n"
MOST_SECONDS = 3  # of processor time


def written(folder, **files):
    """Files by their names without an ending."""
    for name, text in files.items():
        (folder / f"{name}.csv").write_text(text)
    return [folder / f"{name}.csv" for name in files]


def refusal(path, *words, **terms):
    with pytest.raises(Problem) as found:
        read_detectors(path, *words, **terms)
    return str(found.value)


def test_rows_of_vehicles_are_not_read_beside_counts(tmp_path):
    paths = written(tmp_path, a="time,occupied (s)\n2019-12-04 06:00:10,1\n2019-12-04 06:06:00,1\n",
                    b="time,count\n2019-12-04 06:00,30\n2019-12-04 06:05,40\n")
    for files in (paths, paths[::-1]):
        assert "b.csv: has a row a station and time, and" in refusal(files, interval="5 min") and "a row a vehicle" in refusal(files, interval="5 min")


def test_lanes_that_are_asked_for_are_of_the_stations_that_say_none(tmp_path):
    path, = written(tmp_path, c="station,time,count,lanes\na,2019-12-04 06:00,300,2\na,2019-12-04 06:05,300,\n"
                                "b,2019-12-04 06:00,300,\nb,2019-12-04 06:05,300,0\n")
    found = read_detectors(path, lanes=5)
    assert found.lanes.tolist() == [2, 2, 5, 5]
    # 300 in 5 min are 3,600 vehicles/h: more than 1,000 in each of two lanes, and not of five.
    assert read_detectors(path, lanes=5, leave_out=["capacity=1000"]).station.tolist() == ["b", "b"]
    assert "the files don't say it of station b; say lanes" in refusal(path, leave_out=["capacity"])


def pems(station, minute, flow, lane=True):
    return f"12/04/2019 06:{minute:02d}:00,{station},4,80,E,ML,.5,10,100,{flow},{'0.05' if flow else ''},{'60' if flow else ''}," + \
        (f"10,{flow},0.05,60,100" if lane else ",,,,0")


def test_a_station_of_pems_that_is_dead_needs_no_lanes(tmp_path):
    path, = written(tmp_path, p="\n".join(pems(*one) for minute in (0, 5, 10) for one in ((1, minute, 100), (2, minute, "", False))) + "\n")
    found = read_detectors(path, leave_out=["all"])
    assert found.station.tolist() == ["1"] * 3 and set(found.lanes) == {1} and found.attrs["left_out"].empty


def test_an_interval_that_is_asked_for_is_that_of_the_file(tmp_path):
    path, = written(tmp_path, p="\n".join(pems(1, minute, 100) for minute in (0, 5, 10)) + "\n")
    assert "is of intervals of 300 s, and an interval of 600 s is asked" in refusal(path, interval="10 min")
    assert read_detectors(path, interval="5 min").flow.tolist() == [1200] * 3


@pytest.mark.parametrize("missing, flow", [("zero", 0), ("interpolate", 48)])
def test_stations_whose_clocks_differ_keep_their_rows_where_gaps_are_filled(tmp_path, missing, flow):
    """Station b is two minutes behind, and has no row at 06:07."""
    path, = written(tmp_path, c=HEAD + "".join(f"{station},2019-12-04 06:{minute:02d},{count}\n" for station, minute, count in (
        ("a", 0, 1), ("a", 5, 2), ("a", 10, 3), ("b", 2, 3), ("b", 12, 5))))
    assert "missing: 1 intervals without a flow, the first b on 2019-12-04 06:07; not filled" in read_detectors(path).attrs["told"]
    found = read_detectors(path, missing=missing)
    assert found[["station", "flow"]].values.tolist() == [["a", 12], ["a", 24], ["a", 36], ["b", 36], ["b", flow], ["b", 60]]
    assert found.time.dt.minute.tolist() == [0, 5, 10, 2, 7, 12]


def test_each_station_day_and_second_has_a_number_of_its_own():
    rows = pandas.DataFrame(product("abc", "de", (0, 86400)), columns=["station", "day", "second"])
    assert len(set(_places(rows.astype({"station": "category", "day": "category"})))) == 12


def test_a_day_is_whole_by_the_flows_that_a_station_has(tmp_path):
    """Of 24 hours station a has three with a flow; three stations whose clocks differ have all of theirs."""
    hours = range(24)
    path, = written(tmp_path, c=HEAD + "".join(f"a,2019-12-04 {hour:02d}:00,{hour if hour < 3 else ''}\n" for hour in hours) + "".join(
        f"{station},2019-12-04 {hour:02d}:{minute},{hour}\n" for hour in hours for station, minute in (("b", "00"), ("c", "10"), ("d", "20"))))
    found = read_detectors(path, leave_out=["day"])
    assert found.station.value_counts().to_dict() == {"b": 24, "c": 24, "d": 24} and set(found.attrs["left_out"].station) == {"a"}
    assert len(found.attrs["left_out"]) == 3


def test_vehicles_of_an_hour_that_comes_again_are_not_counted_twice(tmp_path):
    text = "station,time,occupied (s)\n" + "".join(f"a,2019-10-27T{time},1\n" for time in (
        "02:30+02:00", "02:31+02:00", "02:30:20+01:00", "03:06+01:00"))
    path, = written(tmp_path, v=text)
    found = read_detectors(path, interval="30 min", zone="Europe/Berlin")
    assert found.flow.tolist() == [4, 2] and found.time.dt.strftime("%H:%M").tolist() == ["02:30", "03:00"]
    assert found.attrs["left_out"][["flow", "line"]].values.tolist() == [[2, 4]]
    assert any(line.startswith("left out: 1 by an hour that comes again") for line in found.attrs["told"])


def test_holidays_of_a_country_need_dates_that_are_known(tmp_path):
    path, = written(tmp_path, h=HEAD + "".join(f"a,0{number}/07/2019 0{hour}:00,{hour}\n" for number in (4, 5) for hour in range(3)))
    assert "04/07/2019 may be of two months" in refusal(path, holidays=["US"])
    # The fourth of July is one; 7 April and 7 May are none.
    assert read_detectors(path, holidays=["US"], date_order="day-first").time.dt.day.unique().tolist() == [5]
    assert len(read_detectors(path, holidays=["US"], date_order="month-first")) == 6


def test_a_holiday_that_is_named_is_taken_and_not_told_as_left_out(tmp_path):
    path, = written(tmp_path, h=HEAD + "".join(f"a,2019-12-{number} 0{hour}:00,{hour}\n" for number in (24, 25, 26) for hour in range(3)))
    found = read_detectors(path, dates=["2019-12-24", "2019-12-25"], holidays=["2019-12-25", "2019-12-26"])
    assert found.time.dt.day.unique().tolist() == [24, 25] and found.attrs["told"][1:] == ["holidays: 2019-12-26, left out",
                                                                                          "taken: 2019-12-24, 2019-12-25"]


@pytest.mark.parametrize("shares, wanted", [(("0.05", "12", "15"), "line 3, occ (share): 12 is no share, and most of its values aren't; are they in %?"),
                                            (("", "12", ""), "line 3, occ (share): 12 is no share"),
                                            (("0.05", "0.06", "12"), None), (("0.05", "0.06", "0.07", "12", "15"), None),
                                            (("1", "1.0", ""), None)])
def test_per_cent_that_are_called_shares_are_refused(tmp_path, shares, wanted):
    path, = written(tmp_path, o="time,count,occ (share)\n" + "".join(f"2019-12-04 06:0{i},5,{share}\n" for i, share in enumerate(shares)))
    if wanted:
        assert wanted in refusal(path)
    else:
        assert len(read_detectors(path)) == len(shares)


def test_files_without_dates_are_of_those_of_their_names(tmp_path):
    paths = written(tmp_path, **{f"A7-1_2019-{day}": "time,count\n06:00,5\n06:05,6\n" for day in ("11-30", "12-01")})
    times = read_detectors(paths).time.dt.strftime("%Y-%m-%d %H:%M").tolist()
    assert times == [f"2019-{day} 06:0{minute}" for day in ("11-30", "12-01") for minute in (0, 5)]


@pytest.mark.parametrize("days, told", [
    (["2019-12-04", "x", "y"], "2019-12-04, 2 texts that are no date"), (["2019-12-04"], "2019-12-04"), (["x"], "1 text that")])
def test_days_are_told_by_their_dates_and_other_texts_by_their_number(days, told):
    assert named_days(days).startswith(told)


def test_rows_at_the_limits_of_the_rules_are_kept(tmp_path):
    """A row with 75 % observed, 100 % occupied, 200 km/h and 3,000 vehicles/h in a lane, and eight that are the same on end."""
    same = "".join(f"a,2019-12-04 06:{minute:02d},600,90,10,100,1\n" for minute in range(5, 45, 5))
    path, = written(tmp_path, r="station,time,flow (veh/h),speed (km/h),occupancy (%),observed (%),lanes\n"
                                f"a,2019-12-04 06:00,3000,200,100,75,1\n{same}a,2019-12-04 06:45,660,90,10,100,1\n")
    assert len(read_detectors(path, leave_out=["all"])) == 10
    assert len(read_detectors(path, leave_out=["constant=7"])) == 2


@pytest.mark.parametrize("count, wanted", [("0", 0), ("007", 7), ("12.50", 12.5), ("123456789", 123456789), (".5", 0.5), ("3.", 3), ("1e2", 100), (" 4 ", 4),
                                           ("+4", 4), ("999999999.75", 999999999.75)])
def test_numbers_are_read_as_they_are_written(tmp_path, count, wanted):
    path, = written(tmp_path, n=HEAD + f"a,2019-12-04 06:00,1\na,2019-12-04 07:00,{count}\n")
    assert read_detectors(path).flow.tolist() == [1, wanted]


@pytest.mark.parametrize("terms, counts, wanted", [
    ({}, ("1.234", "5"), 'may have decimals, or be a number of thousands'), ({"decimal": ","}, ('"1,5"', "1.5"), 'expected a count'),
    ({}, ("4", "1234567890"), 'line 3, count: expected a count'), ({}, ("٣", "4"), 'line 2, count: expected a count'),
    ({}, ("5", "0x10"), 'line 3, count: expected a count'), ({}, ("1_0", "x"), 'line 2, count: expected a count'),
    ({}, ("inf", "4"), 'line 2, count: expected a count')])
def test_numbers_about_which_there_is_doubt_are_refused(tmp_path, terms, counts, wanted):
    path, = written(tmp_path, n=HEAD + "".join(f"a,2019-12-04 0{6 + i}:00,{count}\n" for i, count in enumerate(counts)))
    assert wanted in refusal(path, **terms)


def test_a_decimal_comma_is_read_where_it_is_said(tmp_path):
    path, = written(tmp_path, n=HEAD.replace(",", ";") + "a;2019-12-04 06:00;1,5\na;2019-12-04 07:00;2\n")
    assert read_detectors(path, decimal=",").flow.tolist() == [1.5, 2]


@pytest.mark.parametrize("separator", [";;", "", "\n", "§"])
def test_a_separator_is_one_character_of_ascii(tmp_path, separator):
    path, = written(tmp_path, s=HEAD + "a,2019-12-04 06:00,1\n")
    assert "a separator is one character of ASCII" in refusal(path, separator=separator)


def test_fields_are_counted_line_by_line(tmp_path):
    from ctmtools.detectors.table import _widths
    assert _widths("a,b\n\nä,ö,ü\n", ",").tolist() == [2, 1, 3, 1] and _widths("", ",").tolist() == [1]
    assert _widths("a|b|c", "|").dtype == numpy.int64


@pytest.mark.parametrize("text, line, fields", [
    (HEAD + ROW + "," * 100_000 + "\n", 3, "100,001"), ("time" + ",n" * 10_000 + "\n", 1, "10,001"),
    ("12/04/2019 00:00:00,400001" + "," * 100_000 + "\n", 1, "100,002"),
], ids=["row", "head", "pems"])
def test_a_row_of_too_many_fields_is_refused_before_columns_are_made(tmp_path, text, line, fields):
    path, = written(tmp_path, n=text)
    began = time.process_time()
    assert refusal(path) == f"{path}: line {line} has {fields} fields; a row may have 10,000"
    assert time.process_time() - began < MOST_SECONDS


def test_fields_behind_the_columns_cost_nothing_while_they_are_blank(tmp_path):
    later = "".join(ROW.replace("06:00", f"{hour:02}:{minute:02}") for hour in range(7, 24) for minute in range(60))
    path, = written(tmp_path, n=HEAD + ROW.strip() + "," * 9990 + "\n" + later)
    began = time.process_time()
    assert len(read_detectors(path, interval="1 min")) == 1 + 17 * 60
    assert time.process_time() - began < MOST_SECONDS


def test_a_text_behind_the_columns_is_refused_in_a_row_without_others(tmp_path):
    path, = written(tmp_path, n=HEAD + ROW + ",,,\n,,,7\n")
    assert "line 4 has 4 fields, and line 1 has 3" in refusal(path)


def test_of_pems_no_more_lanes_are_read_than_roads_have(tmp_path):
    row = "12/04/2019 06:0{}:00,400001,4,1,N,ML,0.5,10,100,50,0.05,65" + ",10,50,0.05,65,100" * 2
    path, = written(tmp_path, p=row.format(0) + "\n" + row.format(5) + "," * 5 * 98 + "\n")
    assert refusal(path) == f"{path}: line 2 has the fields of 100 lanes; a road may have 99"


def test_a_first_line_that_is_a_field_without_an_end_is_refused(tmp_path):
    path, = written(tmp_path, n="time," + "n" * 140_000 + "\n")
    assert refusal(path) == f"{path}: line 1: field larger than field limit (131072)"
