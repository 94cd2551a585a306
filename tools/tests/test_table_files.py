"""Tables as workbooks and as Parquet: the figures of the CSV, with the units in the heads of the columns."""

import csv
import datetime
import io
import json
import sys
import zipfile
from importlib.util import find_spec

import openpyxl
import pandas
import plain_model
import pytest

from ctmtools import build, read_report, read_study, states
from ctmtools.exports import table_file
from ctmtools.runs.outputs import write_network

from .examples import save_report
from .test_names_from_outside import study
from .test_report import NIGHT

HEAD = ["time", "cell", "vehicles", "flow (vehicles/h)", "density (vehicles/km)", "speed (km/h)", "step", "road", "from_km", "to_km",
        "lanes"]  # a name that is its unit stands there once


def rows_of(path):
    """The rows of a workbook's one sheet, by another reader's way than that of the writer."""
    (sheet,) = openpyxl.load_workbook(path).worksheets
    return [list(row) for row in sheet.iter_rows(values_only=True)]


def test_a_workbook_has_the_figures_of_the_csv(tool, reports):
    status, out, err = tool("table", reports("arterial-0"), "--cell", "c04", "-o", "t.xlsx")
    assert status == 0 and out == "t.xlsx: 421 rows; vehicles in vehicles, flow in vehicles/h, density in vehicles/km, speed in km/h\n"
    assert tool("table", reports("arterial-0"), "--cell", "c04", "-o", "t.csv")[0] == 0
    head, *rows = rows_of("t.xlsx")
    lines = list(csv.reader(open("t.csv")))[1:]
    assert head == HEAD and len(rows) == len(lines) == 421
    assert rows[60][:2] == [datetime.timedelta(hours=7, minutes=10), "c04"]
    for row, line in zip(rows, lines):
        assert [format(value, ".9g") if isinstance(value, float) else "" if value is None else str(value) for value in row[1:]] == line[1:]
    assert rows[-1][3:6] == [None] * 3  # nothing is known behind the last record


def test_times_past_midnight_count_on(tool, tmp_path):
    (tmp_path / "night.toml").write_text(NIGHT.format("20 min"))
    assert tool("table", save_report(tmp_path, tmp_path / "night"), "-o", "t.XLSX")[0] == 0
    rows = rows_of(tmp_path / "t.XLSX")[1:]
    assert (rows[0][0], rows[-1][0]) == (datetime.timedelta(hours=23, minutes=50), datetime.timedelta(hours=24, minutes=10))
    cell = openpyxl.load_workbook(tmp_path / "t.XLSX").active["A2"]
    assert cell.number_format == "[hh]:mm:ss" and openpyxl.load_workbook(tmp_path / "t.XLSX").active.freeze_panes == "A2"


def test_times_of_a_date_are_dates():
    frame = pandas.DataFrame({"time": pandas.to_datetime(["2024-03-01 06:00", None])})
    frame.attrs["units"] = {}
    assert rows_of(io.BytesIO(table_file.table_bytes(frame, "t.xlsx")))[1:] == [[datetime.datetime(2024, 3, 1, 6)]]


@pytest.mark.parametrize("words, head", [
    (["--totals"], ["cell", "vehicles", "entered (vehicles)", "left (vehicles)", "delay (vehicle-hours)", "road", "from_km", "to_km",
                    "lanes"]),
    (["--by", "road"], ["time", "step", "road", "left (vehicles)", "flow (vehicles/h)", "density (vehicles/km in a lane)", "level",
                        "speed (km/h)", "delay (vehicle-hours)", "delay_each (s)", "queue (km)"])])
def test_all_tables_have_their_units_in_the_head(tool, reports, words, head):
    assert tool("table", reports("arterial-0"), *words, "-o", "t.xlsx")[0] == 0 and rows_of("t.xlsx")[0] == head


@pytest.mark.parametrize("name", ['=HYPERLINK("http://x","y")', "+1+cmd|' /C calc'!A0", "-2+3", "@SUM(1)", "#N/A"])
def test_no_name_is_run(tool, tmp_path, name):
    (tmp_path / "s.toml").write_text(study(name), encoding="utf-8")
    built = build(read_study("s.toml"))
    write_network(built, tmp_path / "s.csv")
    (tmp_path / "s.report").write_bytes(plain_model.report(built.text.encode(), 1))
    assert tool("table", "s.report", "-o", "t.xlsx")[0] == 0
    named = [cell for row in openpyxl.load_workbook("t.xlsx").active.iter_rows() for cell in row if cell.value == name]
    assert named and all((cell.data_type, cell.quotePrefix) == ("s", True) for cell in named)
    sheet = zipfile.ZipFile("t.xlsx").read("xl/worksheets/sheet1.xml").decode()
    assert "<f>" not in sheet and 't="e"' not in sheet


def test_a_table_without_units(tool, tmp_path):
    path, network = tmp_path / "bare.report", b"ctm,1\nsteps,4\ngate,g,9,0\nroad,a,60,9,1,5,0\nexit,x,9\nlink,g,a\nlink,a,x\ndemand,g,0,1,2\n"
    path.with_suffix(".csv").write_bytes(network)
    path.write_bytes(plain_model.report(network, 1))
    assert tool("table", path, "-o", "t.xlsx")[0] == 0
    head, *rows = rows_of("t.xlsx")
    assert head == ["time", "cell", "vehicles", "flow (vehicles in a step)", "density (vehicles in a cell)", "speed (cells in a step)", "step"]
    assert rows[0] == [0, "g", 0, 0, None, None, 0] and rows[4][:3] == [1, "a", 0]
    assert tool("table", path, "--by", "road", "-o", "t.xlsx")[0] == 0 and rows_of("t.xlsx")[1][6] is None


def test_more_rows_than_a_sheet_has_are_refused(tool, reports, monkeypatch, tmp_path):
    monkeypatch.setattr(table_file, "MOST_ROWS", 420)
    status, out, err = tool("table", reports("arterial-0"), "--cell", "c04", "-o", "t.xlsx")
    assert (status, out) == (2, "") and not (tmp_path / "t.xlsx").exists()
    assert err == ("ctm-tools: t.xlsx: the table has 421 rows, and a sheet has room for 420; take fewer by --cell, --by road or --interval, "
                   "or write .csv\n")


@pytest.mark.parametrize("words", [["--separator", ";"], ["--decimal", ","]])
def test_separators_are_of_csv(tool, words):
    status, out, err = tool("table", "none.report", "-o", "t.xlsx", *words)
    assert (status, out) == (2, "") and "--separator and --decimal are of CSV, and t.xlsx is none" in err


@pytest.mark.parametrize("package, name, told", [
    ("openpyxl", "t.xlsx", "the Python package openpyxl is missing; Debian has it as python3-openpyxl: apt install python3-openpyxl"),
    ("pyarrow", "t.parquet", "t.parquet: the Python package pyarrow, which writes Parquet, is missing; Debian 12 hasn't it, pip has; a file "
                             ".xlsx or .csv does without it")])
def test_a_package_that_is_missing_is_told(tool, reports, monkeypatch, tmp_path, package, name, told):
    monkeypatch.setitem(sys.modules, package, None)
    assert tool("table", reports("arterial-0"), "--cell", "c04", "-o", name) == (2, "", f"ctm-tools: {told}\n")
    assert not (tmp_path / name).exists()


# In the full check no case may be skipped, and Debian 12 hasn't the package: where it isn't there, this is none.
if find_spec("pyarrow"):
    def test_parquet_has_the_frame_with_its_units(tool, reports):
        from pyarrow.parquet import read_schema

        path = reports("arterial-0")
        assert tool("table", path, "-o", "t.parquet")[0] == 0
        pandas.testing.assert_frame_equal(pandas.read_parquet("t.parquet"), states(read_report(path)))
        schema = read_schema("t.parquet")
        assert schema.field("flow").metadata == {b"unit": b"vehicles/h"} and schema.field("cell").metadata is None
        assert json.loads(schema.metadata[b"PANDAS_ATTRS"])["units"]["speed"] == "km/h"
