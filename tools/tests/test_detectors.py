"""Files of detectors: the same data in each format, faults that were planted, days, hours, holidays and what is missing."""

import datetime
import gzip
import json

import pandas
import pytest

import ctmtools
from ctmtools import Problem, allow_files, build, read_detectors, read_study
from ctmtools.calibration.observed import read_observed
from ctmtools.detectors.options import wanted_by
from ctmtools.detectors.days import STILL, hours_of, put_back
from ctmtools.detectors.formats import Quantity, quantity_of, station_and_quantity

from .corridor import corridor
from .detector_formats import DAYS, STATIONS, clock, counts, made, pems, rows, write_all
from .test_counts import demands

FORMATS = ("pems", "pems by day, packed", "counts", "hourly", "utf-16", "wide", "loops", "by station")


@pytest.fixture(scope="module")
def formats(tmp_path_factory):
    return write_all(tmp_path_factory.mktemp("formats"))


def problem(call, *words, **terms):
    with pytest.raises(Problem) as found:
        call(*words, **terms)
    return str(found.value)


@pytest.mark.parametrize("name", FORMATS)
def test_each_format_gives_the_same_rows(formats, name):
    files, terms = formats[name]
    found = read_detectors(files, **terms).sort_values(["station", "time"])
    wanted = [(station, datetime.datetime.combine(day, datetime.time()) + datetime.timedelta(seconds=second), count * 12.0,
               round(mph * 1.609344, 6), share / 100) for day, second, station, count, mph, share in rows()]
    assert list(found[["station", "time", "flow", "speed", "occupancy"]].itertuples(index=False, name=None)) == sorted(wanted)
    assert len(found) == 1728 and found.attrs["interval_s"] == 300 and (found.flow[found.station == "101"].iloc[0]) == 720


@pytest.mark.parametrize("name", FORMATS)
def test_each_format_gives_the_same_study(formats, tmp_path, monkeypatch, name):
    files, terms = formats[name]
    monkeypatch.setattr("ctmtools.study.folder._allowed", {})
    allow_files(*(path.parent for path in files))
    said = "".join(f', {key} = "{value}"' for key, value in terms.items())
    text = f'{{ counts = {json.dumps([str(path) for path in files])}, station = "102", date = "2019-12-04"{said} }}'
    # A step is 10 s, so an interval has 30 steps.
    wanted = [[str(30 * i), str(30 * (i + 1)), made("102", DAYS[1], 6 * 3600 + 300 * i)[0] / 30] for i in range(12)]
    found = [[begin, end, pytest.approx(float(flow), abs=1e-6)] for begin, end, flow in demands(corridor(tmp_path, demand=text))]
    assert found == wanted


@pytest.mark.parametrize("name", FORMATS)
def test_each_format_gives_the_same_calibration(formats, tmp_path, name):
    files, terms = formats[name]
    corridor(tmp_path)
    seen = read_observed(files, wanted_by(dates=("2019-12-04",), **terms), {"101": "m.0.5", "103": "m.1"}, read_study(tmp_path / "study.toml").scenario)
    wanted = []
    for station, place in (("101", "m.0.5"), ("103", "m.1")):
        for second in range(6 * 3600, 7 * 3600, 300):
            count, mph, _ = made(station, DAYS[1], second)
            wanted.append((place, second, second + 300, count * 12.0, round(mph * 1.609344, 6)))
    assert list(seen.rows.itertuples(index=False, name=None)) == wanted
    assert seen.lines[-1] == "compared: 24 rows of 2 stations within the study's time"


@pytest.mark.parametrize("name", FORMATS)
def test_each_format_gives_the_same_diagram(formats, name):
    files, terms = formats[name]
    first, _ = formats["pems"]
    own = {key: ctmtools.diagram(one, 2, station="101", dates=["2019-12-03"], **said) for key, one, said in
           (("this", files, terms), ("pems", first, {}))}
    assert own["this"] == own["pems"] and own["this"].rows == 288


def test_what_was_read_is_told(formats):
    told = read_detectors(formats["pems"][0]).attrs["told"]
    assert told[0].endswith("pems.txt: PeMS's Station 5-Minute, vehicles in the interval; 3 stations, 2 days (12/03/2019 to 12/04/2019), "
                            "intervals of 5 min, 1,728 rows")
    assert len(told) == 1


def test_lanes_are_those_with_values(formats):
    assert set(read_detectors(formats["pems"][0]).lanes) == {2}


@pytest.mark.parametrize("average, wanted", [("mean", lambda one, two, three: (one + two + three) / 3), ("median", lambda *three: sorted(three)[1])])
def test_a_study_takes_the_mean_or_the_median_of_days(tmp_path, average, wanted):
    days = {"2019-12-03": (90, 180, 270, 360), "2019-12-04": (96, 150, 300, 330), "2019-12-05": (60, 120, 240, 90)}
    text = "time,n\n" + "".join(f"{day} 06:{15 * i:02d},{count}\n" for day, counts in days.items() for i, count in enumerate(counts))
    (tmp_path / "c.csv").write_text(text)
    terms = '{ counts = "c.csv", column = "n", dates = "all"'
    assert "3 days are chosen, 2019-12-03, 2019-12-04, 2019-12-05; say average" in problem(corridor, tmp_path, demand=terms + " }")
    made_of = corridor(tmp_path, demand=f'{terms}, average = "{average}" }}')
    assert [float(row[2]) for row in demands(made_of)] == pytest.approx([wanted(*three) / 90 for three in zip(*days.values())], abs=1e-6)
    assert made_of.remarks[0].endswith(f"; {average} of 3 days")
    two = corridor(tmp_path, demand=f'{terms.replace(chr(34) + "all" + chr(34), "[2019-12-03, 2019-12-05]")}, average = "mean" }}')
    assert [float(row[2]) for row in demands(two)] == pytest.approx([75 / 90, 150 / 90, 255 / 90, 225 / 90], abs=1e-6)


PLANTED = {"occupancy": (10, {10: "1.0100"}), "no-occupancy": (20, {10: "0.0000"}), "no-flow": (30, {9: "0", 10: "0.0100"}),
           "observed": (40, {8: "74"}), "no-speed": (50, {11: "0.0"}), "capacity": (60, {9: "501"}), "speed": (70, {11: "125.0"})}


def planted(station="102"):
    """The file of PeMS with each fault in a row of a station, and 9 rows that are the same; and the rows by their lines."""
    lines = pems().splitlines()
    places = {}
    for rule, (slot, fields) in PLANTED.items():
        place = 3 * slot + STATIONS.index(station)
        row = lines[place].split(",")
        for i, text in fields.items():
            row[i] = text
        lines[place] = ",".join(row)
        places.setdefault(rule, []).append(place + 1)
    same = [3 * slot + STATIONS.index(station) for slot in range(100, 109)]
    for place in same:
        lines[place] = ",".join([lines[place].split(",")[0], *lines[same[0]].split(",")[1:]])
    places["constant"] = [place + 1 for place in same]
    return "\n".join(lines) + "\n", places


def test_planted_faults_are_left_out_and_nothing_else(tmp_path):
    text, places = planted()
    (tmp_path / "p.txt").write_text(text)
    found = read_detectors(tmp_path / "p.txt", leave_out=["all"])
    left = found.attrs["left_out"]
    assert {rule: sorted(rows.line) for rule, rows in left.groupby("rule")} == places
    gone = sum(map(len, places.values()))
    assert len(found) == 1728 - gone and not set(found.line) & {line for lines in places.values() for line in lines}
    told = found.attrs["told"]
    assert f"left out: 1 by observed (less than 75 % observed), the first in line {places['observed'][0]}" in told
    assert f"left out: 9 by constant (the same in more than 8 rows on end), the first in line {places['constant'][0]}" in told
    assert f"missing: {gone} intervals without a flow, the first 102 on 12/03/2019 00:50; not filled" in told


@pytest.mark.parametrize("rule", [*PLANTED, "constant"])
def test_a_rule_by_itself_takes_its_rows(tmp_path, rule):
    text, places = planted()
    (tmp_path / "p.txt").write_text(text)
    left = read_detectors(tmp_path / "p.txt", leave_out=[rule]).attrs["left_out"]
    # Both the row without a flow and that without an occupancy have one of them; 501 vehicles in 5 min are 6,012 an hour on 2 lanes.
    assert sorted(left.line) == places[rule] and set(left.rule) == {rule}
    nine = 9 if rule == "constant" else None
    if nine:
        assert read_detectors(tmp_path / "p.txt", leave_out=["constant=9"]).attrs["left_out"].empty


def test_a_day_of_which_too_little_is_left_is_left_out(tmp_path):
    lines = pems().splitlines()
    for i in range(len(lines)):
        row = lines[i].split(",")
        if row[1] == "103" and i < 3 * 150:  # 150 of 288 rows of the first day
            row[8] = "20"
            lines[i] = ",".join(row)
    (tmp_path / "p.txt").write_text("\n".join(lines) + "\n")
    left = read_detectors(tmp_path / "p.txt", leave_out=["observed", "day"]).attrs["left_out"]
    assert left.rule.value_counts().to_dict() == {"observed": 150, "day": 138} and set(left.day) == {"12/03/2019"}
    assert read_detectors(tmp_path / "p.txt", leave_out=["observed", "day=47"]).attrs["left_out"].rule.value_counts().to_dict() == {"observed": 150}


def test_rows_that_stand_twice(tmp_path):
    text = counts()
    (tmp_path / "c.csv").write_text(text + text.splitlines()[5] + "\n")
    told = problem(read_detectors, tmp_path / "c.csv")
    assert "line 1730 has the same time as line 6 of station 102; are there two stations of one name, or rows twice" in told
    assert len(read_detectors(tmp_path / "c.csv", leave_out=["repeated"])) == 1728


def holes(tmp_path, terms="", left=(6, 30)):
    """Counts of a quarter of an hour by 5 min of two days, where the one at a time is missing."""
    text = "station,time,count\n" + "".join(f"a,2019-12-0{day} 06:{minute:02d},{minute + day}\n" for day in (3, 4) for minute in range(0, 60, 5)
                                            if (6, minute) != left or day == 4)
    (tmp_path / "h.csv").write_text(text)
    return tmp_path / "h.csv"


def test_missing_intervals_are_told_refused_or_filled(tmp_path):
    path = holes(tmp_path)
    assert "missing: 1 intervals without a flow, the first a on 2019-12-03 06:30; not filled" in read_detectors(path).attrs["told"]
    assert "no flow for a on 2019-12-03 06:30; say missing" in problem(read_detectors, path, missing="error")
    for missing, flow in (("zero", 0), ("interpolate", 33 * 12)):
        found = read_detectors(path, missing=missing)
        assert len(found) == 24 and found.flow[found.time == "2019-12-03 06:30"].tolist() == [flow]
    other = holes(tmp_path, left=(6, 0))
    assert "no flow for a on 2019-12-03" not in "".join(read_detectors(other).attrs["told"][:1])


def test_a_mean_of_days_is_of_those_that_have_the_time(tmp_path):
    found = read_detectors(holes(tmp_path), average="mean")
    assert found.flow.tolist()[5:8] == [(25 + 3.5) * 12, (30 + 4) * 12, (35 + 3.5) * 12]


def day_of(date, zone_hours, extra=""):
    """Hourly counts of a local day with the hours that it has."""
    return "station,time,count\n" + "".join(f"a,{date} {hour:02d}:00,{100 + hour}\n" for hour in zone_hours) + extra


@pytest.mark.parametrize("date, hours", [("2019-03-10", 23), ("2019-11-03", 25), ("2019-12-04", 24)])
def test_how_many_hours_a_day_has(date, hours):
    assert hours_of(datetime.date.fromisoformat(date), "America/Los_Angeles") == hours


def test_hours_that_are_skipped_and_that_come_again():
    spring, autumn = datetime.date(2019, 3, 10), datetime.date(2019, 11, 3)
    skipped = [hour for hour in range(24) if put_back(spring, hour * 3600, "America/Los_Angeles") < STILL]
    again = [hour for hour in range(24) if put_back(autumn, hour * 3600, "America/Los_Angeles") > STILL]
    assert (skipped, again) == ([2], [1])


def test_days_of_23_and_25_hours_are_told(tmp_path):
    spring, autumn = [0, 1, *range(3, 24)], [0, 1, 1, *range(2, 24)]
    (tmp_path / "s.csv").write_text(day_of("2019-03-10", spring))
    told = read_detectors(tmp_path / "s.csv", zone="America/Los_Angeles").attrs["told"]
    assert told[1:] == ["2019-03-10 has 23 hours in America/Los_Angeles"]
    assert "missing: 1 intervals" in read_detectors(tmp_path / "s.csv").attrs["told"][1]
    (tmp_path / "a.csv").write_text(day_of("2019-11-03", autumn))
    assert "or were the clocks put back, for which say zone?" in problem(read_detectors, tmp_path / "a.csv")
    found = read_detectors(tmp_path / "a.csv", zone="America/Los_Angeles")
    assert len(found) == 24 and "2019-11-03 has 25 hours in America/Los_Angeles" in found.attrs["told"]
    assert any(line.startswith("left out: 1 by an hour that comes again") for line in found.attrs["told"])
    twice = day_of("2019-11-03", [*range(10), 9, *range(10, 24)])
    (tmp_path / "t.csv").write_text(twice)
    assert "has the same time as" in problem(read_detectors, tmp_path / "t.csv", zone="America/Los_Angeles")


def test_times_with_an_offset_are_shown_by_the_clocks_of_the_road(tmp_path):
    # 05:30 UTC is 06:30 in Berlin in December.
    (tmp_path / "z.csv").write_text("station,time,count\n" + "".join(f"a,2019-12-04T05:{m:02d}:00Z,{m}\n" for m in range(0, 60, 5)))
    found = read_detectors(tmp_path / "z.csv", zone="Europe/Berlin")
    assert found.time.iloc[0] == pandas.Timestamp("2019-12-04 06:00") and len(found) == 12
    # 05:30 by clocks 8 hours behind is 14:30 in Berlin.
    (tmp_path / "z.csv").write_text("station,time,count\na,2019-12-04T05:30-08:00,1\na,2019-12-04T05:35-08:00,1\n")
    assert read_detectors(tmp_path / "z.csv", zone="Europe/Berlin").time.iloc[0] == pandas.Timestamp("2019-12-04 14:30")
    (tmp_path / "z.csv").write_text("station,time,count\na,2019-10-27T02:30+02:00,1\na,2019-10-27T02:30+01:00,2\na,2019-10-27T03:30+01:00,3\n")
    assert "several zones, +01:00, +02:00" in problem(read_detectors, tmp_path / "z.csv")
    found = read_detectors(tmp_path / "z.csv", zone="Europe/Berlin")
    assert found.flow.tolist() == [1, 3] and any("1 by an hour that comes again" in line for line in found.attrs["told"])
    assert "expected a time zone" in problem(read_detectors, tmp_path / "z.csv", zone="Berlin")


def week(tmp_path):
    """Hourly counts of two weeks from Monday 16 December 2019 on, of as many vehicles as the day of the month."""
    text = "station,time,count\n" + "".join(f"a,2019-12-{day} {hour:02d}:00,{day}\n" for day in range(16, 30) for hour in range(24))
    (tmp_path / "w.csv").write_text(text)
    return tmp_path / "w.csv"


@pytest.mark.parametrize("words, days", [
    (["weekdays"], [16, 17, 18, 19, 20, 23, 24, 25, 26, 27]), (["weekends"], [21, 22, 28, 29]), (["tuesday", "Thursday"], [17, 19, 24, 26]),
    (["2019-12-18"], [18]), (["all"], list(range(16, 30)))])
def test_sorts_of_days(tmp_path, words, days):
    assert sorted(set(read_detectors(week(tmp_path), dates=words).flow)) == days


def test_holidays_by_a_list_and_by_a_country(tmp_path):
    path = week(tmp_path)
    found = read_detectors(path, dates=["weekdays"], holidays=["2019-12-25", "2019-12-26"])
    assert set(found.flow) == {16, 17, 18, 19, 20, 23, 24, 27} and "holidays: 2019-12-25, 2019-12-26, left out" in found.attrs["told"]
    assert set(read_detectors(path, dates=["weekdays"], holidays=["US"]).flow) == {16, 17, 18, 19, 20, 23, 24, 26, 27}
    assert set(read_detectors(path, dates=["weekdays"], holidays=["DE-BY"]).flow) == {16, 17, 18, 19, 20, 23, 24, 27}
    for wrong in ("XX", "US-QQ", "2019-13-01"):
        assert "holidays: " in problem(read_detectors, path, holidays=[wrong])


def test_vehicles_one_by_one_are_counted_by_interval(tmp_path):
    (tmp_path / "v.csv").write_text("station,time,occupied (ms),speed (km/h)\n" + "".join(
        f"a,2019-12-04 {clock},{ms},{speed}\n" for clock, ms, speed in (("06:00:10", 300, 60), ("06:04:59", 600, 30), ("06:10:00", 900, 50))))
    assert "has a row for each vehicle; say interval" in problem(read_detectors, tmp_path / "v.csv")
    found = read_detectors(tmp_path / "v.csv", interval="5 min")
    # 0.9 s of 300 s, nothing, and again; the harmonic mean of 60 and 30 is 40.
    assert found[["flow", "occupancy"]].values.tolist() == [[24, 0.3], [0, 0], [12, 0.3]] and found.speed.tolist()[::2] == [40, 50]


def test_a_density_by_occupancy_needs_a_length(tmp_path):
    text = "time,count,occupancy (%)\n" + "".join(f"2019-12-04 06:{5 * i:02d},{10 + i},{5 + 4 * i}\n" for i in range(12))
    (tmp_path / "o.csv").write_text(text)
    assert "of occupancies say --vehicle-length" in problem(ctmtools.diagram, tmp_path / "o.csv")
    from ctmtools.calibration.diagram import read_states
    states = read_states(tmp_path / "o.csv", wanted=wanted_by(), length=6.25)
    assert states.density.tolist()[:2] == pytest.approx([8, 14.4]) and states.flow.tolist()[:2] == [120, 132]


@pytest.mark.parametrize("name, wanted", [
    ("Flow [veh/h]", Quantity("flow", "veh/h")), ("flow_vph", Quantity("flow", "vph")), ("count", Quantity("flow", "vehicles")), ("Volume", Quantity("flow", None)),
    ("speed_mph", Quantity("speed", "mph")), ("Avg Speed (km/h)", Quantity("speed", "km/h")), ("occupancy (s)", Quantity("occupied", "s")), ("% Observed", Quantity("observed", None)),
    ("occ_pct", Quantity("occupancy", "pct")), ("A7-12", None)])
def test_what_the_name_of_a_column_says(name, wanted):
    assert quantity_of(name) == wanted


@pytest.mark.parametrize("name, wanted", [
    ("A7-12", ("A7-12", None)), ("A7-12 count", ("A7-12", Quantity("flow", "vehicles"))), ("A7 12: speed (mph)", ("A7 12", Quantity("speed", "mph"))),
    ("north (veh/h)", ("north", Quantity("flow", "veh/h"))), ("north_flow_vph", ("north", Quantity("flow", "vph")))])
def test_the_station_in_the_name_of_a_column(name, wanted):
    assert station_and_quantity(name) == wanted


HEAD = "station,time,count\n"


def test_rows_from_second_to_second(tmp_path):
    (tmp_path / "d.csv").write_text(HEAD + "a,06:00:00,1\na,06:00:01,0\n")
    assert read_detectors(tmp_path / "d.csv").flow.tolist() == [3600, 0]


@pytest.mark.parametrize("content, told", [
    ("", "is empty"), (HEAD, "has no rows"), ("\n\n", "no column of times"), ("a,b\n1,2\n", "line 1 has no column of times (time, timestamp, datetime, date time, ..), it has a, b"),
    ("station,time,speed (mph)\na,06:00,5\n", "line 1 has no column of flows or counts (flow (vehicles/h), count, ..), it has station, time, speed (mph)"),
    ("station,time,flow\na,06:00,5\na,06:05,5\n", "line 1: flow may be vehicles in the interval or vehicles/h; name it count or flow (vehicles/h), or say per"),
    ("time,n,s\n06:00,5,6\n06:05,5,6\n", "line 1: n may be vehicles in the interval or vehicles/h"),
    ("station,time,count,speed\na,06:00,5,50\na,06:05,5,50\n", "line 1: the unit of speed isn't said; name it speed (km/h) or another unit, or say speed_unit"),
    ("station,time,count,flow (veh/h)\na,06:00,5,60\n", "line 1 has two columns of flow, count and flow (veh/h)"),
    ("time,a flow (veh/h),b count\n06:00,60,5\n06:05,60,5\n", "some flows are vehicles in the interval, and others vehicles/h"),
    (HEAD + "a,06:00,5\na,06:05,x\n", 'line 3, count: expected a count'), (HEAD + "a,06:00,5\na,soon,5\n", 'line 3, time: expected a time such as'),
    (HEAD + "a,06:00,5\na,,5\n", 'line 3, time: expected a time such as'),
    (HEAD + "a,06:00:01,5\na,06:00:00,5\n", "is of an earlier time than"),
    ("station,time,end,count\na,06:00,06:05,5\na,06:05,06:15,5\n", "line 3 is of 600 s, and line 2 of 300 s; the intervals are of one length"),
    (HEAD + "a,06:00,5\na,06:05\n", "line 3 has too few columns"), (HEAD + "a,06:00,5\na,06:05,5,7\n", "line 3 has 4 fields, and line 1 has 3"),
    (HEAD + "a,06:00,5\na,06:05,-5\n", "line 3, count: a count isn't negative"),
    (HEAD + "a,06:00,5\na,06:05,5\na,06:10,5\na,06:12,5\n", "line 5 is 120 s behind the row before it, which isn't some intervals of 300 s"),
    (HEAD + "a,06:00,5\n", "with one row of a station alone, say interval"), (HEAD + '"a\n",06:00,5\n', "a field in quotes goes over several lines"),
    ("12/04/2019 00:00:00,1,2,3\n", "line 1 has 4 fields; PeMS's Station 5-Minute has 12, timestamp, station"),
    ("2019-12-04 00:00,1,2\n", "line 1 has a time and no names of columns"), (pems()[:-30], "is the file cut off there?"),
    ("Timestamp,Station,District,Freeway,Direction of Travel,Lane Type,Station Length,Samples,% Observed,Total Flow,Avg Speed\n1\n",
     "column 11 of that is avg occupancy, found Avg Speed")])
def test_files_that_are_refused(tmp_path, content, told):
    (tmp_path / "d.csv").write_text(content)
    assert told in problem(read_detectors, tmp_path / "d.csv") and "d.csv" in problem(read_detectors, tmp_path / "d.csv")


@pytest.mark.parametrize("content, told", [
    (gzip.compress(counts().encode())[:-20], "is packed by gzip, and isn't whole"), (b"PK\x03\x04rest", "is a zip archive or a workbook"),
    ("time,n\n".encode("utf-16")[:-1], "begins as UTF-16, and isn't whole"), (b"station,time,count\na,06:00,\0\n5", "line 2 has a zero byte")],
    ids=["cut off by gzip", "zip", "cut off in UTF-16", "zero byte"])
def test_files_that_are_no_text(tmp_path, content, told):
    (tmp_path / "d.csv").write_bytes(content)
    assert told in problem(read_detectors, tmp_path / "d.csv")


def test_names_with_other_letters_and_no_mark_of_utf_16(tmp_path):
    text = "station,time,count\n" + "".join(f"Köln,2019-12-04 06:{5 * i:02d},{i}\n" for i in range(12))
    for encoding in ("utf-8", "utf-8-sig", "cp1252", "utf-16", "utf-16-le"):
        (tmp_path / "k.csv").write_bytes(text.encode(encoding))
        assert set(read_detectors(tmp_path / "k.csv").station) == {"Köln"}


def test_midnight_as_24_00_is_of_the_next_day(tmp_path):
    (tmp_path / "m.csv").write_text(HEAD + "a,2019-12-03 23:00,1\na,2019-12-03 24:00,2\na,2019-12-04 01:00,3\n")
    assert read_detectors(tmp_path / "m.csv").time.tolist() == [pandas.Timestamp("2019-12-03 23:00"), pandas.Timestamp("2019-12-04"), pandas.Timestamp("2019-12-04 01:00")]


@pytest.mark.parametrize("terms, told", [
    ({"leave_out": ["broken"]}, '--leave-out: expected all or repeated, observed'), ({"leave_out": ["observed=x"]}, "expected observed=NUMBER"),
    ({"leave_out": ["observed=-0.5"]}, "expected observed=NUMBER"),
    ({"leave_out": ["no-flow=3"]}, "expected no-flow, found"), ({"station": "9"}, "has no station 9, it has 3 stations, which"),
    ({"dates": ["2019-12-09"]}, "has no 2019-12-09, it has 2019-12-03, 2019-12-04"), ({"dates": ["sunday"]}, "no day of it is of sunday"),
    ({"per": "hour"}, 'count is in vehicles, and per = "hour" is asked'), ({"interval": "7 min"}, "isn't some intervals of 420 s"),
    ({"leave_out": ["capacity"]}, "the rule capacity needs the number of lanes")])
def test_what_can_not_be_asked(formats, terms, told):
    assert told in problem(read_detectors, formats["counts"][0], **terms)


def test_dates_that_may_be_of_two_months_have_no_weekdays(tmp_path):
    (tmp_path / "d.csv").write_text(HEAD + "".join(f"a,0{day}/12/2019 06:0{i},1\n" for day in (3, 4) for i in (0, 5)))
    assert "03/12/2019 may be of two months" in problem(read_detectors, tmp_path / "d.csv", dates=["weekdays"])
    assert len(read_detectors(tmp_path / "d.csv", dates=["03/12/2019"])) == 2
    # 3 December 2019 was a Tuesday, and 12 March 2019 too; 4 December was a Wednesday and 12 April a Friday.
    assert read_detectors(tmp_path / "d.csv", dates=["wednesday"], date_order="day-first").time.dt.day.tolist() == [4, 4]
    assert read_detectors(tmp_path / "d.csv", dates=["friday"], date_order="month-first").time.dt.month.tolist() == [4, 4]


def test_dates_with_points_begin_with_their_day(tmp_path):
    (tmp_path / "d.csv").write_text(HEAD + "".join(f"a,0{day}.12.2019 06:0{i},1\n" for day in (3, 4) for i in (0, 5)))
    assert read_detectors(tmp_path / "d.csv", dates=["wednesday"]).time.dt.day.tolist() == [4, 4]


@pytest.mark.parametrize("direction, told", [("Direction of Travel", ""), ("Direction", ""), ("Way", "column 5 of that is direction of travel, found Way")])
def test_a_pems_file_with_a_line_of_names(formats, tmp_path, direction, told):
    first = (f"Timestamp,Station,District,Freeway,{direction},Lane Type,Station Length,Samples,% Observed,Total Flow,Avg Occupancy,Avg Speed" +
             "".join(f",Lane {i} Samples,Lane {i} Flow,Lane {i} Avg Occ,Lane {i} Avg Speed,Lane {i} Observed" for i in range(1, 9)))
    (tmp_path / "named.txt").write_text(f"{first}\n{pems()}")
    if told:
        assert told in problem(read_detectors, tmp_path / "named.txt", station="101")
    else:
        named, bare = (read_detectors(path, station="101") for path in (tmp_path / "named.txt", formats["pems"][0]))
        assert (named.line - 1).tolist() == bare.line.tolist()
        assert named[["time", "flow", "speed"]].to_numpy().tolist() == bare[["time", "flow", "speed"]].to_numpy().tolist()


def test_dates_of_pems_begin_with_their_month(formats):
    chosen = read_detectors(formats["pems"][0], station="101", dates=["wednesday"])
    assert set(zip(chosen.time.dt.month, chosen.time.dt.day)) == {(12, 4)}


def test_the_command(tool, formats, tmp_path):
    path = formats["counts"][0][0]
    status, out, err = tool("detectors", path, "--station", "102", "--dates", "2019-12-04", "-o", "kept.csv")
    assert status == 0 and "1 station, 1 day (2019-12-04), intervals of 5 min, 288 rows" in out and "taken: 2019-12-04" in out
    again = read_detectors(tmp_path / "kept.csv")
    first = read_detectors(path, station="102", dates=["2019-12-04"])
    columns = ["station", "time", "flow", "speed", "occupancy"]
    assert again[columns].values.tolist() == first[columns].values.tolist()
    status, out, err = tool("detectors", path, "-o", path)
    assert status == 2 and "isn't what this command makes" in err
    status, out, err = tool("detectors", path, "-o", path, "--force")
    assert status == 2 and "is one of the files that are read" in err
    status, out, err = tool("detectors", tmp_path / "none.csv", "-o", "new.csv")
    assert status == 2 and "no such file" in err and err.count("\n") == 1 and not (tmp_path / "new.csv").exists()


def test_a_study_leaves_out_and_tells(tmp_path):
    text, places = planted()
    (tmp_path / "p.txt").write_text(text)
    terms = '{ counts = "p.txt", station = "102", date = "2019-12-03", leave_out = "all", missing = "interpolate" }'
    made_of = corridor(tmp_path, demand=terms, end="07:00")
    assert "left out: 1 by speed (above 200 km/h), the first in line 212" in made_of.remarks[0]
    # Line 212 is of 05:50, before the study; the rows from 08:20 on are behind it.
    assert "interpolated" not in made_of.remarks[0] and len(demands(made_of)) == 12


def test_folders_and_patterns(formats, tmp_path):
    folder = formats["pems by day, packed"][0][0].parent
    whole = read_detectors(formats["pems"][0])
    for names in (folder, folder / "d04_*.txt.gz", [folder / "d04_*.txt.gz"]):
        assert read_detectors(names).flow.tolist() == whole.flow.tolist()
    assert "there is no file of it" in problem(read_detectors, folder / "d05_*.gz")
    first = formats["pems"][0][0]
    assert "is named twice" in problem(read_detectors, [first, first])


def test_the_next_day_of_a_study_that_passes_midnight(formats, tmp_path, monkeypatch):
    from .corridor import HEAD as STUDY_HEAD
    path = formats["pems"][0][0]
    monkeypatch.setattr("ctmtools.study.folder._allowed", {})
    allow_files(path.parent)
    made_of = corridor(tmp_path, demand=f'{{ counts = "{path}", station = "101", date = "12/03/2019" }}', end="00:30",
                       head=STUDY_HEAD.replace("06:00", "23:30"))
    wanted = [made("101", DAYS[0], 84600 + 300 * i)[0] for i in range(6)] + [made("101", DAYS[1], 300 * i)[0] for i in range(6)]
    assert [float(row[2]) for row in demands(made_of)] == pytest.approx([count / 30 for count in wanted], abs=1e-6)
    assert clock(84600) == "23:30" and build(read_study(tmp_path / "study.toml")).text == made_of.text


def test_a_sweep_knows_each_file_of_counts_of_gates_and_of_trips(tmp_path):
    from ctmtools.many_runs.task import Task, fingerprint
    from ctmtools.plans.searching import moved_to

    values = {"gates": {"g": {"demand": {"counts": "c-*.csv"}}}, "trips": [{"demand": {"counts": ["t.csv"]}}]}
    marks = set()
    for name, content in (("c-1.csv", "1"), ("c-2.csv", "2"), ("t.csv", "3"), ("t.csv", "4"), ("other.csv", "5")):
        (tmp_path / name).write_text(content)
        marks.add(fingerprint(Task(values, str(tmp_path / "s.toml"), {}, "")))
    assert len(marks) == 4  # another file changes nothing
    moved = moved_to(values, tmp_path / "s.toml", tmp_path / "kept/best.toml")
    assert moved["gates"]["g"]["demand"]["counts"] == "../c-*.csv" and moved["trips"][0]["demand"]["counts"] == ["../t.csv"]


DATED = "".join(f"a,2019-12-04 06:{5 * i:02d},{i}\n" for i in range(6))


@pytest.mark.parametrize("content, terms", [
    (HEAD + DATED, {}), ((HEAD + DATED).replace("\n", "\r\n"), {}), ((HEAD + DATED).replace("\n", "\r"), {}), ("\ufeff" + HEAD + DATED, {}),
    ((HEAD + DATED).replace(",", ";"), {}), ((HEAD + DATED).replace(",", "\t"), {}), ((HEAD + DATED).replace(",", "|"), {"separator": "|"}),
    (HEAD + "".join(reversed(DATED.splitlines(True))), {}), ("\n" + HEAD + "\n" + DATED.replace("\n", "\n\n"), {}), ((HEAD + DATED).replace("\n", ",\n"), {}),
    ((HEAD + DATED).replace("a,", '"a",'), {}), (HEAD + DATED.replace("2019-12-04", "04.12.2019"), {}), (HEAD.upper() + DATED, {}),
    (HEAD + DATED.replace(",3\n", ",3.0\n"), {}), (HEAD.replace("count", "flow (veh/h)") + "".join(
        f"a,2019-12-04 06:{5 * i:02d},{12 * i}\n" for i in range(6)), {})])
def test_one_table_in_many_spellings(tmp_path, content, terms):
    (tmp_path / "d.csv").write_bytes(content.encode())
    found = read_detectors(tmp_path / "d.csv", **terms)
    assert found.flow.tolist() == [0, 12, 24, 36, 48, 60] and set(found.station) == {"a"} and found.time.iloc[5] == pandas.Timestamp("2019-12-04 06:25")


@pytest.mark.parametrize("content, terms, told", [
    (HEAD + DATED + HEAD, {}, 'line 8, time: expected a time such as'), (HEAD + DATED + DATED, {}, "line 8 has the same time as line 2 of station a"),
    ((HEAD + DATED).replace(",", ";").replace(";3\n", ";3,5\n"), {}, 'line 5, count: expected a count; say decimal = ","'),
    (HEAD + DATED.replace(",3\n", ",1e400\n"), {}, 'line 5, count: expected a count'), (HEAD + DATED, {"separator": ";;"}, "a separator is one character"),
    (HEAD + "a,2019-12-31T06:00Z,1\na,31.12.2019 06:05Z,1\n", {"zone": "Europe/Berlin"}, "line 3, time: a time with a zone has a date such as 2019-12-04"),
    (HEAD + "a,2019-02-30T06:00Z,1\n", {"zone": "Europe/Berlin"}, "line 2, time: is of no date"), (HEAD + "a,2019-12-04 06:00,\n", {"interval": "5 min"}, "has no flow in any row"),
    (HEAD + "a,23:55,1\na,00:00,2\n", {}, "line 3 is of an earlier time than line 2, and no dates say of which day"), ("\ufeff", {}, "no column of times"),
    (HEAD + DATED.replace("2019-12-04 ", ""), {"dates": ["weekdays"]}, "has no dates"), (HEAD + DATED, {"interval": "0 s"}, "an interval is above 0")])
def test_what_an_adversary_tries(tmp_path, content, terms, told):
    (tmp_path / "d.csv").write_bytes(content.encode())
    assert told in problem(read_detectors, tmp_path / "d.csv", **terms)


@pytest.mark.parametrize("places, wanted", [({"101": "m.0.5", "103": "m.1"}, "101, 103"), ({}, "a station")])
def test_a_calibration_shorter_than_an_interval_is_refused(formats, tmp_path, places, wanted):
    corridor(tmp_path, end="06:04")
    told = problem(read_observed, formats["counts"][0], wanted_by(dates=("2019-12-03",)), places, read_study(tmp_path / "study.toml").scenario)
    assert told.endswith(f"has no row of {wanted} within the study's time")


def test_a_calibration_past_midnight_is_refused(formats, tmp_path):
    from .corridor import HEAD as STUDY_HEAD
    corridor(tmp_path, head=STUDY_HEAD.replace("06:00", "23:30"), end="00:30")
    told = problem(read_observed, formats["counts"][0], wanted_by(dates=("2019-12-03",)), {"101": "m.0.5"}, read_study(tmp_path / "study.toml").scenario)
    assert "the study passes midnight" in told
