"""What `import ctmtools` gives: the commands as functions, and every name with its annotations."""

import ast
import inspect
import os
import shutil
import subprocess
import sys
from pathlib import Path

import matplotlib.figure
import numpy
import pandas
import pytest

import ctmtools
from ctmtools import (Problem, build, calibrate, choose, import_gmns, import_sumo, meter, optimise, page, plot, queues_of,
                      read_network, read_report, read_study, run, sweep, totals)

from .examples import EXAMPLES, TOOLS

STUDY = EXAMPLES / "arterial-0.toml"


def test_build():
    built = build(str(STUDY))
    assert built.text == build(read_study(STUDY)).text and built.units.step == 10
    assert "signal,c04,12,0,0,6" in built.text  # a cycle of 120 s in steps of 10 s, green for 60 s from the start on


def test_run_of_a_study_and_of_a_network(plain, tmp_path, monkeypatch):
    monkeypatch.chdir(tmp_path)
    for source in (STUDY, str(STUDY), read_study(STUDY)):
        report = run(source)
        assert totals(report).delay.sum() == pytest.approx(33) and report.title == "A street with five signals"
    network = run(EXAMPLES / "arterial-0.csv", every=7)
    assert network.total.delay == pytest.approx(33 * 360) and list(network.times[:2]) == [0, 7]
    assert not os.listdir(tmp_path)


def test_a_run_that_is_kept(plain, tmp_path):
    kept = tmp_path / "street.report"
    report = run(STUDY, output=kept)
    assert sorted(os.listdir(tmp_path)) == ["street.csv", "street.report", "street.units.json"]
    pandas.testing.assert_frame_equal(queues_of(report), queues_of(read_report(kept)))
    assert len(read_network(tmp_path / "street.csv").cells) == 22
    again = run(read_study(STUDY), output=tmp_path / "again.report")
    assert again.total.delay == report.total.delay and (tmp_path / "again.csv").exists()


def test_plot(reports, tmp_path):
    path = reports("arterial-0")
    drawn = plot(path, "delay")
    assert isinstance(drawn, matplotlib.figure.Figure)
    plot(read_report(path), "time-space", output=tmp_path / "street.svg", road="c", begin="07:30", until="08:00")
    assert "vehicles/km" in (tmp_path / "street.svg").read_text()
    with pytest.raises(Problem, match="ends with .png"):
        plot(path, "delay", output=tmp_path / "street.doc")


def test_sweep(plain, tmp_path, monkeypatch):
    monkeypatch.chdir(tmp_path)
    found = sweep(STUDY, {"signals.offset": [0, 40], "demand": numpy.arange(0.9, 1.05, 0.1)}, jobs=1)
    frame = found.rows
    assert found.keys == ("signals.offset", "demand") and len(found) == 4 and found.best["signals.offset"] == 40
    assert "<table" in found._repr_html_() and found != sweep(STUDY, {"demand": [1]}, jobs=1)
    assert list(frame.columns[:3]) == ["signals.offset", "demand", "delay_vehicle_hours"]
    assert frame["demand"].tolist()[0] == 0.9 and sorted(frame["signals.offset"]) == [0, 0, 40, 40]
    whole = frame[(frame.demand == 1) & (frame["signals.offset"] == 40)].iloc[0]
    assert whole.delay_vehicle_hours == pytest.approx(6.75) and not frame.error.any() and not os.listdir(tmp_path)
    kept = sweep(STUDY, {"signals.offset": "0:40:40"}, output=tmp_path / "kept", jobs=2).rows
    assert kept.delay_vehicle_hours.tolist() == pytest.approx([6.75, 33])
    assert len((tmp_path / "kept" / "results.csv").read_text().splitlines()) == 3
    with pytest.raises(Problem, match="has no values"):
        sweep(STUDY, {"demand": []})


def test_the_delay_by_its_name(plain):
    report = run(STUDY)
    assert report.delay_vehicle_hours == pytest.approx(33) == pytest.approx(report.total.delay / 360)
    with pytest.raises(Problem, match="11880 vehicle-steps"):
        run(EXAMPLES / "arterial-0.csv").delay_vehicle_hours


def test_choose_and_optimise(program, tmp_path, monkeypatch):
    monkeypatch.chdir(tmp_path)
    rows = choose(STUDY, {"signals.offset": [0, 40, 80]}).rows
    assert rows["signals.offset"].tolist()[0] == 40 and rows.delay_vehicle_hours.tolist()[0] == pytest.approx(6.75)
    found = optimise(STUDY, generations=1, population=6)
    assert found.before == pytest.approx(33) and found.after <= found.before and "[[signals]]" in found.text
    assert found.best["delay_vehicle_hours"] == found.after and found.rows.delay_vehicle_hours.max() >= found.before
    assert len(found.rows) >= 6 and len(found.keys) == 5
    assert not os.listdir(tmp_path)
    choose(STUDY, {"signals.offset": [0, 40]}, output="kept")
    optimise(STUDY, "found", generations=1, population=6)
    assert os.listdir("kept") == ["plans.csv"] and sorted(os.listdir("found")) == ["best.toml", "tried.csv"]
    assert run("found/best.toml").delay_vehicle_hours == pytest.approx(found.after)


def test_meter(program, tmp_path):
    done = meter(EXAMPLES / "feedback.toml", tmp_path / "m.report")
    assert done.report.delay_vehicle_hours < done.without.delay_vehicle_hours
    assert list(done.rates.columns) == ["time", "step", "ramp", "occupancy", "rate"]
    assert sorted(os.listdir(tmp_path)) == ["m.csv", "m.report", "m.units.json"]
    with pytest.raises(Problem, match=r"has no \[\[meters\]\]"):
        meter(STUDY)


def test_calibrate(program, tmp_path):
    # A run with a demand of 0.9 passes the detector at km 1 with 0.9 · 1,080 vehicles/h from 07:00 on.
    (tmp_path / "seen.csv").write_text("place,start,end,flow\nc.1,07:20,07:50,972\n")
    found = calibrate(STUDY, tmp_path / "seen.csv", {"demand": (0.7, 1.1)}, runs=20, first=4)
    low, high = found.as_well["demand"]
    assert found.values["demand"] == pytest.approx(0.9, abs=0.02) and low <= found.values["demand"] <= high
    assert found.best == {**found.values, "distance": found.distance} and found.rows.demand.is_unique and len(found) == found.runs - 1


def test_imports_and_the_page(program, tmp_path, report):
    study = import_gmns(gmns_road(tmp_path), tmp_path / "made.toml", until="30 min")
    assert study.path == tmp_path / "made.toml" and len(study.roads) == 1
    with pytest.raises(Problem, match="No such option: --untl"):
        import_gmns(tmp_path, tmp_path / "made.toml", untl="30 min")
    with pytest.raises(Problem, match="no such file"):
        import_sumo(tmp_path / "none.net.xml", tmp_path / "made.toml")
    text = page(report("bottleneck"), output=tmp_path / "b.html")
    assert (tmp_path / "b.html").read_text() == text and "A lane drop" in text


def test_a_page_with_a_map_behind_as_the_command_makes_it(tool, program, tmp_path):
    text = STUDY.read_text().replace("[roads.c]\n", "[roads.c]\npoints = [[389.0, 5819.0], [393.0, 5819.0]]\n")
    assert "points" in text
    (tmp_path / "s.toml").write_text(text)
    assert tool("run", "s.toml")[0] == 0 and tool("report", "s.report", "--map-behind", "--crs", "EPSG:25833")[0] == 0
    made = page(tmp_path / "s.report", map_behind=True, crs="EPSG:25833")
    assert made == (tmp_path / "s.html").read_text() and "tile.openstreetmap.org" in made
    assert "tile.openstreetmap.org" not in page(tmp_path / "s.report")
    with pytest.raises(Problem, match="^a page needs a report$"):
        page()


@pytest.mark.parametrize("low, high", [(1.1, 0.7), (1, 1), (float("nan"), 1), (0, float("inf"))])
def test_a_calibration_needs_a_range(tmp_path, low, high):
    (tmp_path / "seen.csv").write_text("place,start,end,flow\nc.1,07:20,07:50,972\n")
    with pytest.raises(Problem, match="--vary demand=.*: expected KEY=LOW:HIGH, the lower one first"):
        calibrate(STUDY, tmp_path / "seen.csv", {"demand": (low, high)})


def gmns_road(folder):
    """A folder in GMNS with a single road."""
    (folder / "node.csv").write_text("node_id,x_coord,y_coord\n1,0,0\n2,1000,0\n")
    (folder / "link.csv").write_text("link_id,from_node_id,to_node_id,length,lanes,free_speed,directed\na,1,2,1,2,50,1\n")
    (folder / "demand.csv").write_text("link_id,start,end,flow\na,0,900,600\n")
    return folder


def test_the_public_names_are_those_that_a_type_checker_sees():
    tree = ast.parse(Path(ctmtools.__file__).read_text())
    block, = (node for node in tree.body if isinstance(node, ast.If))
    assert sorted(alias.asname for node in block.body for alias in node.names) == ctmtools.__all__
    assert {f"{node.module}.{alias.name}" for node in block.body for alias in node.names} == \
        {f"{home}.{name}" for name, home in ctmtools.HOMES.items()}


def test_every_public_function_says_what_it_does():
    for name in ctmtools.__all__:
        assert getattr(ctmtools, name).__doc__
        if inspect.isfunction(getattr(ctmtools, name)):
            assert "return" in getattr(ctmtools, name).__annotations__


def test_the_annotations_hold():
    from mypy import api

    told, faults, status = api.run(["--strict", "--config-file", str(TOOLS / "pyproject.toml"), "--cache-dir", os.devnull,
                                    str(TOOLS / "ctmtools")])
    assert status == 0, told + faults


def test_no_test_patches_the_path_of_modules():
    patched = [path.name for path in (TOOLS / "tests").glob("*.py") if "sys" ".path" in path.read_text()]
    assert not patched


def test_the_installed_command(tmp_path):
    shutil.copytree(TOOLS, tmp_path / "tools", ignore=shutil.ignore_patterns("*.egg-info"))
    made = subprocess.run([sys.executable, "-m", "venv", "--system-site-packages", tmp_path / "venv"])
    assert made.returncode == 0
    pip = subprocess.run([tmp_path / "venv/bin/pip", "install", "-q", "--no-index", "--no-build-isolation", "-e",
                          tmp_path / "tools"],
                         capture_output=True, text=True)
    assert pip.returncode == 0, pip.stderr
    ended = subprocess.run([tmp_path / "venv/bin/ctm-tools", "--help"], capture_output=True, text=True, cwd=tmp_path)
    assert ended.returncode == 0 and "sweep" in ended.stdout
