"""Files of detectors: which columns are needed, intervals behind midnight, and what is told of the fit of each."""

import numpy
import pandas
import pytest

from ctmtools import Problem
from ctmtools.calibration import fitting
from ctmtools.calibration.diagram import read_states
from ctmtools.calibration.fitting import Calibration, Fitted, around, range_of
from ctmtools.calibration.observed import modelled, read_observed

from .corridor import HEAD, corridor
from .plain_reports import reported


@pytest.mark.parametrize("text, told", [
    ("density,speed\n" + 9 * "1,2\n", "needs the columns flow and density, or flow and speed; it has density, speed"),
    ("flow,lane\n" + 9 * "1,2\n", "it has flow, lane"), ("flow,density\n" + 7 * "1,2\n" + "0,1\n1,0\n,\n", "has 7 rows with a flow and a density")])
def test_files_that_are_refused(tmp_path, text, told):
    (tmp_path / "d.csv").write_text(text)
    with pytest.raises(Problem) as found:
        read_states(tmp_path / "d.csv")
    assert told in str(found.value)


def test_states_of_a_lane(tmp_path):
    (tmp_path / "d.csv").write_text(" Flow ,Density\n" + 8 * "3000,60\n" + "x,5\n")
    found = read_states(tmp_path / "d.csv", lanes=2)
    assert found.values.tolist() == 8 * [[1500, 30]]
    (tmp_path / "d.csv").write_text("flow,speed\n" + 8 * "3000,60\n" + "900,0\n")
    assert read_states(tmp_path / "d.csv", lanes=3).values.tolist() == 8 * [[1000, pytest.approx(1000 / 60)]]


def test_intervals_behind_midnight_are_of_the_next_day(tmp_path):
    made = corridor(tmp_path, demand='[["23:30", "00:00", 720], ["00:00", "00:30", 1440]]', end="00:30",
                    head=HEAD.replace("06:00", "23:30"))
    (tmp_path / "d.csv").write_text("place,start,end,flow\nm.0.5,23:40,23:50,700\nm.0.5,00:10,00:20,1400\nm.0.5,23:50,24:00,700\n")
    found = modelled(reported(made), read_observed(tmp_path / "d.csv"))
    assert found.flow.tolist() == pytest.approx([720, 1440, 720]) and found.speed.tolist() == pytest.approx(3 * [90])
    (tmp_path / "d.csv").write_text("place,start,end,flow\nm.0.5,01:00,01:10,700\n")
    with pytest.raises(Problem, match="a row that isn't within the study's time"):
        modelled(reported(made), read_observed(tmp_path / "d.csv"))


def test_an_interval_takes_the_records_within_it(tmp_path):
    report = reported(corridor(tmp_path, demand='[["06:00", "06:01", 720]]'))
    (tmp_path / "d.csv").write_text("place,start,end,flow\nm.0.25,06:00:20,06:01:20,1\nm.0.25,06:00,06:00:20,1\nm.0.25,06:01:20,06:02,1\n")
    found = modelled(report, read_observed(tmp_path / "d.csv"))
    # 2 in each of the steps 2 to 7 leave m1, and none before and after.
    assert found.flow.tolist() == [720, 0, 0] and found.speed[0] == pytest.approx(90) and numpy.isnan(found.speed[1])


def test_an_interval_takes_the_records_of_its_own_seconds(tmp_path):
    made = corridor(tmp_path, demand='[["06:00", "06:01", 720]]', end="06:03", head=HEAD.replace("step = 10", "step = 1"))
    spans = ("06:00:02,06:01:02", "06:00,06:00:02", "06:01:02,06:02")
    (tmp_path / "d.csv").write_text("place,start,end,flow\n" + "".join(f"m.0.025,{span},1\n" for span in spans))
    # 0.2 in each of the steps 2 to 61 leave the first cell, of 25 m.
    assert modelled(reported(made), read_observed(tmp_path / "d.csv")).flow.tolist() == pytest.approx([720, 0, 0])


@pytest.mark.parametrize("count, each", [(1, 1), (3, 1), (4, 2), (8, 2), (9, 3)])
def test_a_grid_of_two_keys_has_a_square_of_points(count, each):
    grid = around(2, count)
    assert len(grid) == each ** 2 and grid[0] == (0.5 / each, 0.5 / each) and grid[-1] == ((each - 0.5) / each, (each - 0.5) / each)


def test_what_is_told_of_each_detector(tool, tmp_path, monkeypatch):
    def fitted(*_, **__):
        model = pandas.DataFrame({"flow": [50.0, 110.0], "speed": [80.0, 60.0]})
        return Fitted(pandas.DataFrame(), values={"lane.wave_speed": 17.5, "demand": 0.9}, distance=0.25, before=0.5, modelled=model, runs=7,
                      as_well={"lane.wave_speed": (15, 20), "demand": (0.9, 0.9)})
    monkeypatch.setattr("ctmtools.commands.calibrate.fitted", fitted)
    corridor(tmp_path)
    (tmp_path / "d.csv").write_text("place,start,end,flow,speed\nm.0.5,06:00,06:10,150,77\nm.1,06:00,06:10,110,\n")
    status, out, err = tool("calibrate", "study.toml", "--observed", "d.csv", "--vary", "lane.wave_speed=10:20", "--vary", "demand=0.5:1")
    assert status == 0, err
    assert out.splitlines() == ["lane.wave_speed = 17.5  # 15 to 20 do as well", "demand = 0.9", "", "Distance 0.2500, with the study as it stands 0.5000; 7 runs", "",
                                "  detector  rows  GEH, mean  GEH below 5  RMSE flow, vehicles/h  RMSE speed, km/h",
                                "  m.0.5        1      10.00           0%                    100                 3",
                                "  m.1          1       0.00         100%                      0                 -", "", "study-calibration.png"]


def calibration(tmp_path, **terms):
    """The runs of a corridor whose waves are varied, before the first of them."""
    corridor(tmp_path)
    (tmp_path / "d.csv").write_text("place,start,end,flow\nm.0.5,06:00,06:10,150\n")
    return Calibration(tmp_path / "study.toml", read_observed(tmp_path / "d.csv"), [range_of("lane.wave_speed=10:20")], **terms)


@pytest.mark.parametrize("part, value", [(0, 10), (0.12345, 11.23), (0.5, 15), (1, 20)])
def test_values_of_four_digits_are_tried(tmp_path, part, value):
    assert calibration(tmp_path).point_of((part,)) == (value,)


def test_a_run_beside_others_has_one_worker(tmp_path, monkeypatch):
    calls = []
    (tmp_path / "ctm").touch()
    monkeypatch.setattr("ctmtools.many_runs.task.run", lambda *words, **named: calls.append((*words, named)) or ("text", "report"))
    monkeypatch.setattr(fitting, "modelled", lambda report, observed: report)
    monkeypatch.setattr(fitting, "program_path", lambda: tmp_path / "ctm")
    assert fitting.tried(calibration(tmp_path)._trial((17.5,))) == {"model": "report"}
    (content, _, units, every, workers, named), = calls
    # 17.5 by 90 km/h are 7 by 36.
    assert b"road,m1,72,12,7,36,0" in content and (units.step, every, workers, named["program"]) == (10, None, 1, str(tmp_path / "ctm"))


# A single run, as each of a search that goes down, is made here whatever there is beside.
@pytest.mark.parametrize("count, jobs, address, wanted", [
    (2, 1, None, ("here",)), (3, 2, None, ("beside", 2)), (2, 4, None, ("beside", 2)), (1, 2, None, ("here",)),
    (2, 2, "tcp://a:1", ("cluster", "tcp://a:1")), (1, 1, "tcp://a:1", ("here",))])
def test_who_does_the_runs(tmp_path, monkeypatch, count, jobs, address, wanted):
    for name in ("here", "beside", "cluster"):
        monkeypatch.setattr(f"ctmtools.many_runs.workers.{name}", lambda trials, *words, name=name: (name, *words[:-1]))
    assert calibration(tmp_path, jobs=jobs, dask=address)._done(["trial"] * count) == wanted
