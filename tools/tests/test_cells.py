"""Cells of CSV that a spreadsheet would run: written as text, in each file that the tools write, and read back as what they were."""

import csv
import io
import os

import pandas
import pytest

from ctmtools import Problem
from ctmtools.assignment.ways_file import WayRow, rows_in, ways_text
from ctmtools.texts.cells import frame_text, guarded, unguarded
from ctmtools.detectors.table import source_of
from ctmtools.files.writing import write
from ctmtools.imports.osm_map import Place, table
from ctmtools.many_runs.kept_rows import KeptValues
from ctmtools.sweeps.sweeping import BEHIND, SweptRows

RUN = ["=1+1", "=cmd|' /C calc'!A0", "+1+1", "-1+cmd", "-", "-m01", "@SUM(A1)", " =1", "\uff1d1+1", "'=1", "''=1", "-1e5x"]
PLAIN = ["m01", "a-b", "'m", "''", "", "5", "-5", "+5.5", "-1.5e-3", "-.5", "O'Hare", "1=1"]
STARTS = "=+-@\t\r\n\uff1d\uff0b\uff0d\uff20"


@pytest.mark.parametrize("text", [*RUN, *PLAIN])
def test_what_is_written_begins_no_formula_and_is_read_back(text):
    written = guarded(text)
    assert unguarded(written) == text
    assert written == text if text in PLAIN else not written.lstrip().startswith(tuple(STARTS))
    assert guarded(written) != written or text in PLAIN  # so that what looks guarded is read back as itself too


def test_numbers_stay_numbers():
    assert [guarded(value) for value in (-5, -1.5, None, True, "-5")] == [-5, -1.5, None, True, "-5"]
    frame = pandas.DataFrame({"-a": ["=1", "b", None], "n": [-1.5, 2, float("nan")]}, index=pandas.Index(["-m", "n", "o"], name="cell"))
    assert frame_text(frame) == "cell,'-a,n\n'-m,'=1,-1.5\nn,b,2.0\no,,\n"
    twofold = pandas.DataFrame({"n": [1, 2]}, index=pandas.MultiIndex.from_tuples([("-a", "b"), ("c", "=d")], names=["p", "q"]))
    assert frame_text(twofold) == "p,q,n\n'-a,b,1\nc,'=d,2\n"


def test_an_ordinary_frame_is_written_as_pandas_does():
    frame = pandas.DataFrame({"cell": pandas.Categorical(["m1", "m2", "m1"]), "n": [1.5, -2, 3], "k": [1, 2, 3]})
    assert frame_text(frame, index=False, float_format="%.6f") == frame.to_csv(index=False, float_format="%.6f")


def cells_of(text):
    """The cells of a table of CSV."""
    return {cell for row in csv.reader(io.StringIO(text)) for cell in row}


def is_safe(text):
    """Whether no cell of a table begins a formula but numbers."""
    return all(not cell or cell[0] not in STARTS or cell.lstrip("+-").replace(".", "").isdigit() for cell in cells_of(text))


def test_rows_that_are_kept(tmp_path):
    kept = KeptValues(tmp_path / "kept.csv", "mark", ("of", "point", "value"))
    for text in RUN:
        kept.put(text, text)
    kept.kept.file.close()
    assert is_safe((tmp_path / "kept.csv").read_text())
    assert KeptValues(tmp_path / "kept.csv", "mark", ("of", "point", "value")).values == {text: text for text in RUN}


def test_rows_of_a_sweep(tmp_path):
    path = tmp_path / "r.csv"
    marks = [f"{i:016d}" for i in range(len(RUN))]
    results = SweptRows(path, ["roads.m.cells"], marks)
    measured = {**dict.fromkeys(BEHIND[:-3], 1.0), "rounded": "=r", "error": ""}
    for text, mark in zip(RUN, marks):
        results.put({"roads.m.cells": text}, measured, mark)
    results.kept.file.close()
    again = SweptRows(path, ["roads.m.cells"], marks)
    again.kept.file.close()
    assert is_safe(path.read_text()) and {row["rounded"] for row in again.rows.values()} == {"=r"}
    assert sorted(row["roads.m.cells"].strip("'\"") for row in again.rows.values()) == sorted(text.strip("'\"") for text in RUN)


def test_ways_and_places(tmp_path):
    rows = [WayRow("-g", "=x", "06:00:00", 1, 2.0, 3.0, ("-a", "b")), WayRow("g", "x", "06:00:00", 1, 2.0, 3.0, ())]
    text = ways_text(rows)
    assert is_safe(text) and rows_in(text.encode(), tmp_path) == rows
    assert is_safe(table([Place("gate", "=1+1", (-1.5, 2), "-x"), Place("gate", "@a", (11.5, -2), "+x")]))


def test_stations_of_detectors(tool, tmp_path):
    (tmp_path / "d.csv").write_text("time,station,flow (vehicles/h)\n" + "".join(f"06:0{i},-A1,60\n" for i in range(9)))
    assert tool("detectors", "d.csv", "-o", "e.csv")[0] == 0
    text = (tmp_path / "e.csv").read_text()
    assert is_safe(text) and "'-A1" in text
    assert "-A1  " in tool("detectors", "e.csv")[1] and "'-A1" not in tool("detectors", "e.csv")[1]
    (tmp_path / "w.csv").write_text("time,'-A1,'=b\n06:00,1,2\n")
    assert source_of(tmp_path / "w.csv").first == ["time", "-A1", "=b"]


def test_each_table_goes_through_it():
    """No module writes CSV by itself."""
    from ctmtools.texts import cells
    from ctmtools.files import writing as files
    from ctmtools.program import calls as program
    from ctmtools.many_runs import kept_rows

    own = {module.__file__ for module in (cells, files, kept_rows)}
    package = program.TOP / "tools" / "ctmtools"
    found = {str(path) for path in package.rglob("*.py") if "to_csv(" in path.read_text() or "csv.writer(" in path.read_text()
             or "DictWriter(" in path.read_text()}
    assert found - {str(package / "calibration" / "fitting.py")} == own  # there it is of a checksum


@pytest.fixture
def others(tmp_path):
    """A file of some text, and a link to it that another user has put into a folder."""
    if os.geteuid():
        pytest.skip("only root can give a link to another user")
    (tmp_path / "file").write_text("kept")
    (tmp_path / "link").symlink_to("file")
    os.lchown(tmp_path / "link", 65534, 65534)
    return tmp_path


def test_an_output_does_not_follow_another_s_link(others, tmp_path):
    (others / "twice").symlink_to("link")
    (others / "none").symlink_to("nothing")
    os.lchown(others / "none", 65534, 65534)
    for name in ("link", "twice", "none"):
        with pytest.raises(Problem, match="is a link of another user"):
            write(others / name, "new")
    assert (others / "file").read_text() == "kept" and not (others / "nothing").exists()


def test_an_output_follows_a_link_of_the_user(tmp_path):
    (tmp_path / "file").write_text("old")
    (tmp_path / "link").symlink_to("file")
    (tmp_path / "twice").symlink_to(tmp_path / "link")
    write(tmp_path / "twice", "new")
    assert (tmp_path / "file").read_text() == "new" and (tmp_path / "link").is_symlink()


def test_a_link_in_a_circle_is_told(tmp_path):
    (tmp_path / "a").symlink_to("b")
    (tmp_path / "b").symlink_to("a")
    with pytest.raises(Problem):
        write(tmp_path / "a", "new")
