"""Demand from files of counts: gaps, intervals, times as exports of detectors write them, stations and days."""

import pytest

from ctmtools import Problem

from .corridor import HEAD, corridor

QUARTERS = "time,n\n06:00,90\n06:15,180\n06:30,270\n06:45,360\n"
FLOWS = [["0", "90", "1"], ["90", "180", "2"], ["180", "270", "3"], ["270", "360", "4"]]


def counted(tmp_path, content, terms="", **named):
    (tmp_path / "counts.csv").write_text(content)
    return corridor(tmp_path, demand=f'{{ counts = "counts.csv", column = "n"{terms and ", " + terms} }}', **named)


def demands(made):
    return [line.split(",")[2:] for line in made.text.splitlines() if line.startswith("demand,")]


def problem(tmp_path, content, terms="", **named):
    with pytest.raises(Problem) as found:
        counted(tmp_path, content, terms, **named)
    return str(found.value).replace(str(tmp_path), "")


def test_the_interval_is_told(tmp_path):
    made = counted(tmp_path, QUARTERS)
    assert demands(made) == FLOWS
    assert made.remarks == ["gates.g.demand: counts of 15 min from counts.csv, n, 900 vehicles in the study's time"]


MISSING = QUARTERS.replace("06:30,270\n", "")


@pytest.mark.parametrize("gap", [MISSING, QUARTERS.replace("06:30,270", "06:30,")], ids=["no row", "no number"])
def test_a_gap_is_refused_with_its_time(tmp_path, gap):
    assert "/counts.csv: no count for 06:30, behind line 3; say missing" in problem(tmp_path, gap)
    assert demands(counted(tmp_path, gap, 'missing = "zero"')) == [*FLOWS[:2], FLOWS[3]]
    made = counted(tmp_path, gap, 'missing = "interpolate"')
    assert demands(made) == FLOWS
    assert made.remarks[0].endswith("; 1 missing, from 06:30 on, interpolated")


def test_a_long_gap_is_interpolated_interval_by_interval(tmp_path):
    made = counted(tmp_path, "time,n\n05:45,20\n06:00,90\n06:45,360\n", 'missing = "interpolate"')
    assert demands(made) == FLOWS and "2 missing, from 06:15 on, interpolated" in made.remarks[0]


def test_a_gap_at_the_start_of_the_study_is_interpolated_from_counts_before_it(tmp_path):
    made = counted(tmp_path, "time,n\n05:45,0\n06:15,180\n06:30,270\n06:45,360\n", 'missing = "interpolate"')
    assert demands(made) == FLOWS


@pytest.mark.parametrize("missing", ["error", "interpolate"])
def test_counts_that_end_before_the_study_are_refused(tmp_path, missing):
    told = problem(tmp_path, QUARTERS, f'missing = "{missing}"', end="07:30")
    assert "no count for 07:00, behind line 5: the counts end there" in told
    assert demands(counted(tmp_path, QUARTERS, 'missing = "zero"', end="07:30")) == FLOWS


def test_counts_that_begin_after_the_study_are_refused(tmp_path):
    assert "no count for 06:00, before the first" in problem(tmp_path, QUARTERS.replace("06:00,90\n", ""))


def test_two_columns_of_one_name_are_refused(tmp_path):
    rows = "time,n,n\n06:00,90,7\n06:15,180,7\n06:30,270,7\n06:45,360,7\n"
    assert "line 1 has 2 columns named n" in problem(tmp_path, rows)


def test_commas_of_thousands_are_told(tmp_path):
    rows = QUARTERS.replace("360", '"1,000"')
    assert 'expected a count; write it without the comma of thousands' in problem(tmp_path, rows)


def test_a_count_that_may_be_one_or_a_thousand_is_refused(tmp_path):
    rows = QUARTERS.replace("360", "1.000")
    assert 'line 5, n: may have decimals, or be a number of thousands; write it without the point, or say decimal = "."' in \
        problem(tmp_path, rows)
    # With a decimal sign that is said it is one in 15 min, 4 vehicles/h, or a mistake.
    assert demands(counted(tmp_path, rows, 'decimal = "."')) == [*FLOWS[:3], ["270", "360", "0.011111"]]
    assert "write it without the point of thousands" in problem(tmp_path, rows, 'decimal = ","')
    assert "write it without the point of thousands" in problem(tmp_path, QUARTERS.replace("360", "1.000.000"))
    comma = rows.replace(",", ";").replace("1.000", "360,000")
    assert demands(counted(tmp_path, comma, 'separator = ";", decimal = ","')) == FLOWS
    assert demands(counted(tmp_path, QUARTERS.replace("360", "360.0"))) == FLOWS


def test_columns_in_capitals_are_known(tmp_path):
    rows = TWO_DAYS.replace("time,n", "Date,TIME,N").replace("2019 ", "2019,")
    assert "has several days, 04/12/2019, 05/12/2019; choose one by date" in problem(tmp_path, rows)
    assert demands(counted(tmp_path, rows, 'date = "04/12/2019"')) == FLOWS
    stations = "Station,Time,n\n" + "".join(f"a,{row}\n" for row in QUARTERS.splitlines()[1:])
    assert demands(counted(tmp_path, stations, 'station = "a"')) == FLOWS
    assert "has no station b" in problem(tmp_path, stations, 'station = "b"')


def test_rows_that_dont_agree_on_the_interval_are_refused(tmp_path):
    rows = "time,n\n06:00,1\n06:15,1\n06:35,1\n06:45,1\n"
    assert "don't agree on the interval: 10 min from line 4 on, 15 min from line 2 on; say interval" in problem(tmp_path, rows)
    assert "from line 4 to the next row are 10 min, less than the interval of 15 min" in problem(tmp_path, rows,
                                                                                                 'interval = "15 min"')
    assert "no count for 06:10, behind line 2" in problem(tmp_path, rows, 'interval = "10 min"')


DAY_OF_QUARTERS = "time,n\n" + "".join(f"{hour:02d}:{minute:02d},100\n" for hour in range(6, 10) for minute in (0, 15, 30, 45))


@pytest.mark.parametrize("missing", ["error", "zero", "interpolate"])
@pytest.mark.parametrize("odd, told", [("07:50", "from line 9 to the next row are 5 min, less than the interval of 15 min"),
                                       ("07:37", "from line 8 to the next row are 7 min, less than the interval of 15 min")])
def test_an_odd_row_among_quarters_is_refused(tmp_path, missing, odd, told):
    rows = sorted([*DAY_OF_QUARTERS.splitlines()[1:], f"{odd},100"])
    assert told in problem(tmp_path, "time,n\n" + "\n".join(rows), f'missing = "{missing}"', end="10:00")


@pytest.mark.parametrize("missing", ["zero", "interpolate"])
def test_hours_among_quarters_are_no_gaps(tmp_path, missing):
    # By day there is a count each quarter of an hour, and by night one of the whole hour.
    rows = DAY_OF_QUARTERS + "10:00,400\n11:00,400\n12:00,400\n"
    told = problem(tmp_path, rows, f'missing = "{missing}"')
    assert "the rows don't agree on the interval: 15 min from line 2 on, 1 h from line 18 on; say interval" in told.replace("60 min", "1 h")
    mixed = "time,n\n06:00,90\n06:15,180\n06:20,9\n06:30,270\n"
    assert "the rows don't agree on the interval" in problem(tmp_path, mixed, f'missing = "{missing}"')


def test_a_row_with_more_fields_than_the_head_is_refused(tmp_path):
    for head in ("time,n", "time,n,", "time,n,,"):
        rows = QUARTERS.replace("time,n", head).replace("06:30,270", "06:30,1,050")
        assert "line 4 has 3 fields, and line 1 has 2; is a comma of thousands or a decimal comma among them?" in problem(tmp_path, rows)
    assert demands(counted(tmp_path, QUARTERS.replace("\n", ",\n"))) == FLOWS
    assert demands(counted(tmp_path, QUARTERS.replace("270", "270, ,"))) == FLOWS
    indexed = "".join(f"{i or ''},{row}\n" for i, row in enumerate(QUARTERS.splitlines()))
    assert demands(counted(tmp_path, indexed)) == FLOWS


def test_a_row_of_too_many_fields_is_refused(tmp_path):
    assert "line 6 has 10,001 fields; a row may have 10,000" in problem(tmp_path, QUARTERS + "07:00" + "," * 10_000 + "\n")


def test_a_missing_row_doesnt_stretch_its_neighbour(tmp_path):
    assert "no count for 06:15" in problem(tmp_path, "time,n\n06:00,5\n06:30,5\n06:45,5\n")


@pytest.mark.parametrize("first, last", [
    ("04/12/2019 06:00:00", "04/12/2019 06:45:00"), ("2019-12-04T06:00", "2019-12-04T06:45"),
    ("2019-12-04 06:00:00.000", "2019-12-04 06:45:00.000"), ("6:00 AM", "6:45 am"), ("12/4/2019 6:00 AM", "12/4/2019 6:45 AM"),
    ("04.12.2019 06:00", "4.12.2019 06:45"), ("6:00", "6:45")])
def test_times_as_exports_have_them(tmp_path, first, last):
    rows = f"time,n\n{first},90\n" + "".join(f"{last.replace('45', minute)},{count}\n"
                                             for minute, count in (("15", 180), ("30", 270), ("45", 360)))
    assert demands(counted(tmp_path, rows)) == FLOWS


def test_noon_and_midnight_in_halves_of_the_day(tmp_path):
    rows = "time,n\n12:00 AM,360\n6:00 AM,720\n12:00 PM,1080\n6:00 PM,1440\n"
    wide = HEAD.replace("06:00", "00:00")
    made = counted(tmp_path, rows, head=wide, end="24:00")
    assert [row[:2] for row in demands(made)] == [["0", "2160"], ["2160", "4320"], ["4320", "6480"], ["6480", "8640"]]
    assert "expected a time such as 06:30" in problem(tmp_path, QUARTERS.replace("06:15", "13:15 PM"))


def test_a_zone_is_told(tmp_path):
    rows = QUARTERS.replace(",", "+01:00,").replace("time+01:00", "time").replace("06:", "2019-12-04T06:")
    made = counted(tmp_path, rows)
    assert demands(made) == FLOWS and made.remarks[0].endswith("taken as they are written, without their zone")
    assert "several zones, +01:00, +02:00" in problem(tmp_path, rows.replace("30+01", "30+02"))


TWO_DAYS = "time,n\n" + "".join(f"{day} {row[:5]},{int(row[6:]) * factor}\n" for day, factor in (("04/12/2019", 1),
                                                                                                 ("05/12/2019", 7))
                                for row in QUARTERS.splitlines()[1:])


def test_of_several_days_one_is_chosen(tmp_path):
    assert "has several days, 04/12/2019, 05/12/2019; choose one by date" in problem(tmp_path, TWO_DAYS)
    assert demands(counted(tmp_path, TWO_DAYS, 'date = "04/12/2019"')) == FLOWS
    told = problem(tmp_path, TWO_DAYS, 'date = "2019-12-04"')
    assert "has no 2019-12-04, it has 04/12/2019, 05/12/2019; write date as the file does" in told


def test_days_in_a_column_of_their_own(tmp_path):
    rows = TWO_DAYS.replace("time,", "Day,time,").replace("2019 ", "2019,")
    assert "line 6 is of an earlier time than line 5" in problem(tmp_path, rows)
    assert "several days" in problem(tmp_path, rows, 'date_column = "Day"')
    assert demands(counted(tmp_path, rows, 'date_column = "Day", date = "4/12/2019"')) == FLOWS
    iso = rows.replace("Day", "date").replace("04/12/2019", "2019-12-04").replace("05/12/2019", "2019-12-05")
    assert demands(counted(tmp_path, iso, "date = 2019-12-04")) == FLOWS
    named = rows.replace("Day", "date").replace("04/12/2019", "Wed 4 Dec").replace("05/12/2019", "Thu 5 Dec")
    assert demands(counted(tmp_path, named, 'date = "Wed 4 Dec"')) == FLOWS


def test_a_day_of_a_file_without_dates_is_refused(tmp_path):
    assert "has no dates" in problem(tmp_path, QUARTERS, 'date = "2019-12-04"')


def test_several_days_without_dates_are_refused(tmp_path):
    day = "".join(f"{hour:02d}:00,5\n" for hour in range(24))
    assert "a second day begins in line 26, and no dates" in problem(tmp_path, "time,n\n" + 2 * day)


def test_a_station_is_chosen_from_a_column(tmp_path):
    rows = "station,time,n\n" + "".join(f"{name},{row[:5]},{int(row[6:]) * factor}\n" for row in QUARTERS.splitlines()[1:]
                                        for name, factor in (("A7-1", 5), ("A7-2", 1)))
    assert "has 2 stations, which `ctm-tools detectors` prints; choose one by station" in problem(tmp_path, rows)
    assert demands(counted(tmp_path, rows, 'station = "A7-2"')) == FLOWS
    assert "has no station A7-3, it has 2 stations, which `ctm-tools detectors` prints" in problem(tmp_path, rows, 'station = "A7-3"')
    other = rows.replace("station", "site").replace("A7-1", "1").replace("A7-2", "2")
    assert "line 3 has the same time as line 2" in problem(tmp_path, other)
    assert demands(counted(tmp_path, other, 'station = 2, station_column = "site"')) == FLOWS


NIGHT = HEAD.replace("06:00", "23:30")


def test_a_study_that_passes_midnight_takes_the_next_day_too(tmp_path):
    rows = "time,n\n" + "".join(f"{day} {clock},{count}\n" for day, clock, count in (
        ("30/11/2019", "23:45", 9000), ("01/12/2019", "00:00", 9000), ("01/12/2019", "23:30", 90),
        ("01/12/2019", "23:45", 180), ("02/12/2019", "00:00", 270), ("02/12/2019", "00:15", 360),
        ("02/12/2019", "23:30", 9000)))
    terms = 'date = "01/12/2019", interval = "15 min"'
    assert demands(counted(tmp_path, rows, terms, head=NIGHT, end="00:30")) == FLOWS
    gone = rows.replace("02/12/2019", "03/12/2019")
    assert "no count for 00:00, behind line 5: the counts end" in problem(tmp_path, gone, terms, head=NIGHT, end="00:30")


def test_a_day_without_dates_serves_a_study_that_passes_midnight(tmp_path):
    rows = "time,n\n00:00,270\n00:15,360\n" + "".join(
        f"{minutes // 60:02d}:{minutes % 60:02d},{count}\n" for minutes, count in
        [*((quarter * 15, 0) for quarter in range(2, 94)), (23 * 60 + 30, 90), (23 * 60 + 45, 180)])
    assert demands(counted(tmp_path, rows, head=NIGHT, end="00:30")) == FLOWS
    night = "time,n\n23:30,90\n23:45,180\n00:00,270\n00:15,360\n"
    assert demands(counted(tmp_path, night, head=NIGHT, end="00:30")) == FLOWS


def test_a_night_that_is_mostly_of_the_next_day_begins_with_the_last_rows_of_a_day_without_dates(tmp_path):
    rows = "time,n\n00:00,180\n00:15,270\n00:30,360\n" + "".join(
        f"{minutes // 60:02d}:{minutes % 60:02d},0\n" for minutes in range(45, 23 * 60 + 45, 15)) + "23:45,90\n"
    assert demands(counted(tmp_path, rows, head=HEAD.replace("06:00", "23:45"), end="00:45")) == FLOWS


@pytest.mark.parametrize("terms, wanted", [
    ('missing = "none"', 'gates.g.demand.missing: expected error or zero or interpolate, found "none"'),
    ('per = "day"', "gates.g.demand.per: expected interval or hour"), ('separator = ";;"', "expected one character"),
    ('separator = ";"', "line 1 has no column time, it has time,n; is the separator another?"),
    ("date = 5", "gates.g.demand.date: expected a text"), ('interval = "0 s"', "an interval is above 0")])
def test_mistakes_in_the_keys(tmp_path, terms, wanted):
    assert wanted in problem(tmp_path, QUARTERS, terms)


@pytest.mark.parametrize("content, wanted", [
    (QUARTERS.replace("270", "27o"), 'line 4, n: expected a count'),
    (QUARTERS.replace("270", "-1"), "line 4, n: a count isn't negative"), ("time,n\n", "has no rows of counts"),
    ("time,n\n06:00,5\n", "with one row alone, say interval"), (QUARTERS.replace(",270", ""), "line 4 has too few columns"),
    (QUARTERS.replace("06:30", "06:20").replace("06:15", "06:25"), "line 4 is of an earlier time than line 3"),
    (QUARTERS.replace("06:30", "2019-12-04 06:30"), "line 2 has a time without a date, and others have one")])
def test_mistakes_in_the_file(tmp_path, content, wanted):
    assert wanted in problem(tmp_path, content)
