"""Ramp meters with feedback: their rates worked out on paper, and what a metered run is."""

import csv
from types import SimpleNamespace

import pandas
import pytest

from ctmtools import Problem, read_report
from ctmtools.commands import meter as of_meters
from ctmtools.moments.moment import Runner, rows_of
from ctmtools.moments.metering import alinea, gauge_of, meter
from ctmtools.study.plan import Meter

from .corridor import corridor
from .examples import EXAMPLES

# A gate joins a road of one lane at km 0.5; from km 0.75 on 4 vehicles pass in a step. On both come 3 vehicles in a step, for
# 18 steps. The detector's cell is m3.
DEMAND = '[["06:00", "06:03", 1080]]'
RAMP = f"""[gates.r]
demand = {DEMAND}
capacity = 2160
[[on_ramps]]
road = "m"
at = 0.5
ramp = "r"
priorities = [1, 1]
[[closures]]
road = "m"
from = 0.75
to = 1
capacity = 1440
"""
METER = """[[meters]]
ramp = "r"
occupancy = 20
"""


def small(folder, parts=RAMP):
    return corridor(folder, parts, lanes=1, demand=DEMAND)


def test_the_law():
    assert alinea(900, 70, 16, 20, 240, 1800) == 620 and alinea(900, 70, 16, 14, 240, 1800) == 1040
    assert alinea(300, 70, 16, 20, 240, 1800) == 240 and alinea(1700, 70, 16, 10, 240, 1800) == 1800


def test_of_roads_and_gates_those_six_are_told_whose_delay_changes_most(monkeypatch):
    places = {f"r{number}": [f"c{number}"] for number in range(1, 9)}
    monkeypatch.setattr(of_meters, "roads_and_gates", lambda _: places)
    without, metered = (SimpleNamespace(units=SimpleNamespace(hours=float), cells=SimpleNamespace(wait=pandas.Series(
        {f"c{number}": float(factor * number) for number in range(1, 9)}))) for factor in (1, 3))
    # The delay of the first rises by 2, that of the second by 4, and so on.
    assert [line.split()[0] for line in of_meters._places(without, metered)][1:] == ["r8", "r7", "r6", "r5", "r4", "r3"]


def test_the_rates_of_a_small_case(tmp_path, program):
    built = small(tmp_path)
    gauge = gauge_of(Meter("r", occupancy=20), built.network, built.units)
    assert (gauge.cell, gauge.detector, gauge.least, gauge.most) == ("r", "m3", 240, 2160)
    done = meter(built, [gauge], Runner("small"))
    # m3 holds 0, 0, 3, 3, 6, 8 in the first six steps, 20 in all. From step 6 on 4 leave in each, and (36 - n)/5 come, so it
    # holds 9.6, 10.88, 11.904, 12.7232, 13.37856 and 13.902848. Its room is 36.
    seen = [20 / 6 / 36, 72.388608 / 6 / 36]
    rates = done.rates
    assert rates.step.tolist() == list(range(0, 360, 6)) and rates.occupancy[1:3].tolist() == pytest.approx([100 * o for o in seen])
    assert rates.rate[:3].tolist() == pytest.approx([2160, 2160, 2160 + 70 * (20 - 100 * seen[1])])
    assert done.built.text.endswith("\n") and "limit,r,0,6,6\nlimit,r,6,12,6\nlimit,r,12,18,3.372425\n" in done.built.text
    # What was found from moment to moment is the run of the network with all rates in it.
    runner = Runner("small")
    content = done.built.text.encode()
    assert [row[1:5] for row in done.moment.rows] == rows_of(runner.whole(content))


def test_a_rate_never_opens_what_the_study_closes(tmp_path, program):
    built = small(tmp_path, RAMP.replace("capacity = 2160\n", 'capacity = 2160\nlimits = [["06:00:20", "06:00:40", 360]]\n', 1))
    done = meter(built, [gauge_of(Meter("r", occupancy=20), built.network, built.units)], Runner("small"))
    assert "limit,r,0,2,6\nlimit,r,2,4,1\nlimit,r,4,6,6\n" in done.built.text


def test_a_detector_at_a_kilometre_and_a_time(tmp_path, program):
    built = small(tmp_path)
    terms = Meter("r", road="m", at=1, start=120, end=300, least=100)
    gauge = gauge_of(terms, built.network, built.units)
    # The cell carries most at 6 of 36 vehicles.
    assert (gauge.detector, gauge.begin, gauge.end) == ("m4", 12, 30) and gauge.wanted == pytest.approx(100 / 6)
    done = meter(built, [gauge], Runner("small"))
    assert done.rates.step.tolist() == [12, 18, 24] and "limit,r,12,18,6" in done.built.text and "limit,r,30" not in done.built.text


@pytest.mark.parametrize("terms, told", [
    ({"ramp": "q"}, "there is no road and no gate q"), ({"ramp": "g"}, "leads into no merge"),
    ({"ramp": "r", "occupancy": 100}, "above 0 and below 100"), ({"ramp": "r", "least": 3000}, "above the most, 2160"),
    ({"ramp": "r", "road": "q", "at": 1}, "there is no road q"), ({"ramp": "r", "road": "m", "at": 2}, "beyond road m")])
def test_a_meter_that_can_not_be(tmp_path, terms, told):
    built = small(tmp_path)
    with pytest.raises(Problem, match=told):
        gauge_of(Meter(**terms), built.network, built.units)


def test_the_command_and_a_study_with_meters(tool, program, tmp_path):
    small(tmp_path, RAMP + METER)
    status, out, err = tool("meter", "study.toml", "--rates", "rates.csv", "--value-of-time", "10")
    assert status == 0, err
    rows = list(csv.DictReader((tmp_path / "rates.csv").open()))
    assert [row["time"] for row in rows[:3]] == ["06:00:00", "06:01:00", "06:02:00"] and rows[2]["rate"] == "1214.07"
    report = read_report(tmp_path / "study-metered.report")
    assert not list(tmp_path.glob("*.png"))
    assert report.recorded and report.title.endswith(", metered") and report.network.limits.cell.tolist().count("r") == 60
    # All of them are held up by the same 4 vehicles a step, wherever they wait.
    assert "The meters don't lower the delay" in out and "isn't metered" not in out
    assert "a meter with feedback is run by `ctm-tools meter` alone; ramp r isn't metered here" in tool("build", "study.toml")[1]
    other = tool("meter", "study.toml", "--occupancy", "30", "--interval", "2 min", "--gain", "35", "--rates", "rates.csv")
    rows = list(csv.DictReader((tmp_path / "rates.csv").open()))
    assert other[0] == 0 and [row["step"] for row in rows] == [str(step) for step in range(0, 360, 12)]


def test_mistakes_in_the_words(tool, program, tmp_path):
    small(tmp_path)
    assert "has no [[meters]]; say a ramp with --ramp" in tool("meter", "study.toml")[2]
    assert "leads into no merge" in tool("meter", "study.toml", "--ramp", "g")[2]
    small(tmp_path, RAMP + METER)
    assert "the study says its [[meters]]" in tool("meter", "study.toml", "--ramp", "r")[2]
    with pytest.raises(Problem, match="has both road and at"):
        small(tmp_path, RAMP + METER + "at = 0.5\n")
    small(tmp_path, RAMP + 2 * METER)
    assert "meters[2].ramp: r has a meter already" in tool("meter", "study.toml")[2]
    small(tmp_path, RAMP + METER + METER.replace("occupancy = 20", "interval = 30"))
    assert "all meters of a study have one interval" in tool("meter", "study.toml")[2]


def test_the_example_gains_by_its_meter(tool, program):
    status, out, err = tool("meter", EXAMPLES / "feedback.toml")
    assert status == 0 and "The meters lower the delay by " in out
