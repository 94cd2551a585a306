"""The date of a study: the times of frames, tables and exports are of it, and what commands print stays as it is."""

import datetime
import json

import pandas
import pytest

from ctmtools import Problem, Study, read_report, run
from ctmtools.units import read_units

KEYS = {"title": "Late", "step": 10, "start": "23:55", "duration": "10 min",
        "lane": {"free_flow_speed": 90, "wave_speed": 18, "jam_density": 144, "saturation_flow": 2160},
        "roads": {"m": {"length": 0.5, "lanes": 1}}, "gates": {"g": {"into": "m", "demand": 720}}, "exits": {"x": {"from": "m"}}}


@pytest.mark.parametrize("date", ["2024-02-28", datetime.date(2024, 2, 28)])
def test_the_times_of_frames_are_of_the_date_and_the_day_behind_it(plain, date, tmp_path):
    report = run(Study(KEYS, date=date), output=tmp_path / "late.report")
    for one in (report, read_report(tmp_path / "late.report")):
        times = one.states().time
        assert times.iloc[0] == pandas.Timestamp("2024-02-28 23:55") and times.iloc[-1] == pandas.Timestamp("2024-02-29 00:05")
    assert read_units(tmp_path / "late.units.json").date == "2024-02-28"
    assert report.units.stamps([0, 30]) == ["2024-02-28 23:55:00", "2024-02-29 00:00:00"]


def test_without_a_date_they_are_of_1900_and_those_before_midnight_have_none(plain):
    report = run(Study(KEYS))
    assert report.states().time.iloc[0] == pandas.Timestamp("1900-01-01 23:55")
    assert report.units.stamps([0]) == ["23:55:00"] and report.units.stamps([0, 30])[1] == "1900-01-02 00:00:00"


def test_tables_and_exports_have_it_and_the_page_of_a_run_has_not(plain, tool, tmp_path):
    told = []
    for name, more in (("dated", {"date": datetime.date(2024, 2, 28)}), ("plain", {})):
        (tmp_path / f"{name}.toml").write_text(Study(KEYS, **more).to_toml())
        told.append(tool("run", f"{name}.toml")[1].replace(name, "NAME"))
    assert told[0] == told[1]
    assert tool("table", "dated.report")[1].splitlines()[1].startswith("2024-02-28 23:55:00,")
    assert tool("export", "geojson", "dated.report", "--every", "5 min")[0] == 0
    features = json.loads((tmp_path / "dated.geojson").read_text())["features"]
    assert features[1]["properties"]["begin"] == "2024-02-29T00:00:00"


@pytest.mark.parametrize("date", ["28.2.2024", 20240228, "2023-02-29", datetime.datetime(2024, 2, 28, 6)])
def test_what_is_no_date_is_refused(date):
    with pytest.raises(Problem, match='^the study: date: expected a date such as "2024-05-14", found '):
        Study(KEYS, date=date)


def test_units_whose_date_is_none_are_refused(tmp_path):
    (tmp_path / "a.units.json").write_text('{"date": "May"}')
    with pytest.raises(Problem, match="a.units.json: date: expected a date such as 2024-05-14$"):
        read_units(tmp_path / "a.units.json")
