"""Who gives way in sweeps, plans and searches, at ramps and over medians, and what is told where limits don't settle."""

from fractions import Fraction

import pandas
import pytest

from ctmtools import read_study
from ctmtools.runs.running import run, settled_by_runs
from ctmtools.yielding import settling

from .examples import EXAMPLES
from .test_yield import CROSSING, LANE, PERMITTED, SIDE, TWO_LANES, flow, roundabout, settle, write

STOP = EXAMPLES / "village-stop.toml"
PAPER = {"1": 0.0, "1.2": 59.13, "1.5": 216.5}  # vehicle-hours by the traffic, examples/README.md


@pytest.mark.parametrize("command, file", [("sweep", "rows/table.csv"), ("choose", "rows.csv")])
def test_sweeps_and_choices_have_the_delays_of_paper(tool, recording_program, command, file):
    where = ("-o", "rows" if command == "sweep" else file)
    status, out, err = tool(command, STOP, "--vary", "demand=1,1.2,1.5", *where)
    assert status == 0 and "doesn't give way" not in out, err
    frame = pandas.read_csv(file)
    found = dict(zip(frame.demand.map("{:g}".format), frame.delay_vehicle_hours))
    assert found == pytest.approx(PAPER, rel=0.006, abs=0.01)


def test_a_search_for_greens_judges_plans_in_which_left_turns_give_way(tmp_path, tool, recording_program):
    write(tmp_path, CROSSING.format(more=PERMITTED.replace("SNEAKERS", "2")))
    status, out, err = tool("optimise", "study.toml", "--signals", "--generations", "1", "--population", "5", "-o", "found")
    best = float(next(line for line in out.splitlines() if "delay (vehicle-hours)" in line).split()[-1].replace(",", ""))
    report = run_of(read_study("found/best.toml").scenario)
    assert status == 0 and best == pytest.approx(report.delay_vehicle_hours, abs=0.01), err


def run_of(study):
    """The report of a study with what passes in it settled."""
    built = settled_by_runs(study).built
    return run(built.text.encode(), "study", built.units, 1, network=built.network)[1]


def test_what_does_not_settle_is_told_with_its_movement(tmp_path, recording_program, monkeypatch):
    monkeypatch.setattr(settling, "MOST_RUNS", 2)
    found = settled_by_runs(read_study(write(tmp_path, roundabout(800))).scenario)
    told = [line for line in found.built.warnings if "isn't settled" in line]
    assert not found.is_settled and "isn't settled after 2 runs" in found.doubt
    assert len(told) == 4 and told[0].startswith("merges[1], arm0: after 2 runs what passes isn't settled")


def test_a_ramp_gives_way_to_the_road_that_it_joins(tmp_path, recording_program):
    text = LANE + """[roads]
road = { length = 1, lanes = 1 }
ramp = { length = 0.3, lanes = 1 }
[gates]
main = { into = "road", demand = 900 }
on = { into = "ramp", demand = 600 }
[exits]
out = { from = "road" }
[[on_ramps]]
road = "road"
at = 0.5
ramp = "ramp"
priorities = [1, 1]
yields_to = "road"
"""
    found, report = settle(tmp_path, text)
    # What passes on the road before the ramp counts, and not what has joined it: 340.0 by the formula at 900.
    assert found.is_settled and flow(report, report.units.roads["ramp"][-1], 20, 60) == pytest.approx(340.0, rel=0.005)


@pytest.mark.parametrize("median, capacity", [("", 223.8), (', median = 1, first = [["n", "x"]]', 351.5)])
def test_a_median_lets_more_pass(tmp_path, recording_program, median, capacity):
    # With 400 and 600 in the way, at once: 1,000·exp(-7.1/3.6)/(1 - exp(-3.5/3.6)) = 139.15/0.62177 = 223.8. In stages of a
    # critical gap of 6.1 s pass 630.4 and 491.2, so y = 406.6/267.4 = 1.5206, and with a median of one vehicle
    # 0.91279/(1.5206² - 1)·(1.5206·0.5206·491.2 + 0.5206·223.8) = 0.69559·505.4 = 351.5.
    more = f'''yields = [{{ movement = ["e", "y"], yields_to = [["n", "x"], ["s", "y"]], kind = "minor-left"{median} }}]'''
    found, _ = settle(tmp_path, TWO_LANES.format(more=more))
    one, = found.study.yields
    assert float(one.capacities[-1].flow) == pytest.approx(capacity, rel=0.001)


def test_a_settled_network_says_what_its_run_makes_of_it(tmp_path, recording_program):
    found = settled_by_runs(read_study(write(tmp_path, SIDE.format(main=600, low=300, high=600))).scenario)
    again = settled_by_runs(found.study)
    assert again.built.text == found.built.text
    report = run(found.built.text.encode(), "study", found.built.units, 1, network=found.built.network)[1]
    assert flow(report, report.units.roads["side"][-1], 40, 60) == pytest.approx(float(found.study.yields[0].capacities[-1].flow))
    assert found.study.yields[0].gaps.critical == Fraction(31, 5)
