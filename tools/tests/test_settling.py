"""The runs that settle what passes of those who give way: what is recorded of them, and how far limits go from one to the next."""

import re

import numpy
import pytest

from ctmtools import read_study
from ctmtools.report.reading import Amounts, Report, Sums
from ctmtools.report.records import Records
from ctmtools.runs.running import run
from ctmtools.study.network_text import build
from ctmtools.yielding import settling
from ctmtools.yielding.settling import Settled, settled

from .test_yield import CROSSING, PERMITTED, SIDE, write

# A step of 7 s, a signal whose cycle has 9 of them, and beside it a side street: intervals of 45 and of 43 steps.
ODD = CROSSING.replace("step = 2", "step = 7").format(more=PERMITTED.replace("cycle = 60", "cycle = 63").replace(
    "green = 30", "green = 28").replace("green = 20", "green = 21").replace("SNEAKERS", "2")) + """
[roads.before]
length = 0.2
lanes = 1
[roads.side]
length = 0.2
lanes = 1
[roads.behind]
length = 0.2
lanes = 1
[gates.main]
into = "before"
demand = 600
[gates.village]
into = "side"
demand = 600
[exits.out]
from = "behind"
[[merges]]
from = ["before", "side"]
into = "behind"
priorities = [1, 1]
yields_to = "before"
"""


def settle(tmp_path):
    """What is settled of the study, and the recorded steps of each of its reports."""
    recorded = []

    def run_built(built, every):
        reports = {steps: run(built.text.encode(), "study", built.units, steps, network=built.network)[1] for steps in every}
        recorded.extend(list(report.times) for report in reports.values())
        return reports
    return settled(read_study(write(tmp_path, ODD)).scenario, run_built), recorded


def test_runs_are_recorded_at_the_ends_of_intervals_alone(tmp_path, recording_program, monkeypatch):
    found, recorded = settle(tmp_path)
    # An hour has 514 steps. What divides 43 and 45 is a step, so one record for both would be 515.
    assert found.is_settled and found.runs > 1 and len(recorded) == 2 * found.runs
    assert recorded[0] == [*range(0, 514, 43), 514] and recorded[1] == [*range(0, 514, 45), 514]
    monkeypatch.setattr(settling, "recorded_every", lambda ones, least: {one.width: 1 for one in ones})
    each, recorded = settle(tmp_path)
    assert each.built.text == found.built.text and len(recorded[0]) == 515


def test_intervals_that_others_divide_need_no_records_of_their_own():
    class One:
        def __init__(self, width):
            self.width = width

    ones = [One(width) for width in (150, 300, 180, 450, 150)]
    assert settling.recorded_every(ones, 1) == {150: 150, 180: 180, 300: 150, 450: 150}
    # A network so large that the program records no finer than every 160 steps.
    assert settling.recorded_every(ones, 160) == {150: 160, 180: 180, 300: 160, 450: 160}


def side_report(built, main):
    """A report in which so many vehicles/h leave the road with priority all the time."""
    steps, units = built.network.steps, built.units
    names = list(built.network.kinds)
    gone = numpy.array([main * steps * units.step / 3600 * (cell == units.roads["before"][-1]) for cell in names])
    amounts, left = Amounts(n=0 * gone, come=gone, gone=gone, wait=0 * gone), [0 * gone, gone]
    return Report(steps, names, amounts, Sums(0, 0, 0, 0), Records.of_vehicles([0, steps], left, left), units)


def settle_by(tmp_path, flows):
    """What is settled of a side street whose runs have such flows with priority, the last of them ever after.

    Beside it are the limits of each run but the first in vehicles/h, and the runs that the bar was told of.
    """
    limits, counted = [], []

    def run_built(built, every):
        found = re.findall(f"^limit,{built.units.roads['side'][-1]},0,1800,(.*)$", built.text, re.MULTILINE)
        limits.extend(float(amount) * 1800 for amount in found)
        main = flows[min(len(counted), len(flows) - 1)]
        return {steps: side_report(built, main) for steps in every}
    study = read_study(write(tmp_path, SIDE.format(main=600, low=300, high=300))).scenario
    return settled(study, run_built, lambda runs, text: counted.append(runs)), limits, counted


def test_limits_go_half_way_from_the_third_run_on_until_they_move_by_a_hundredth(tmp_path):
    # Past 300 vehicles/h pass 744.3 by Harders and past 600 504.6: the first limit is all the way at 744.3, and 239.7 are halved from
    # run to run. At 508.3 it would move by 3.7, less than a hundredth; at 512.1 by 7.5, more than that.
    found, limits, counted = settle_by(tmp_path, [300, 600])
    assert limits == pytest.approx([744.3, 624.4, 564.5, 534.6, 519.6, 512.1, 508.3], abs=0.1)
    assert found.is_settled and found.runs == 8 and found.moved == pytest.approx(0.0074, abs=1e-4)
    assert counted == [1] * 8 + [12]  # the bar has 20 runs, and ends full


def test_limits_that_swing_go_less_than_half_way_and_end_after_20_runs(tmp_path):
    # Past 300 vehicles/h pass 744.3, past 900 340.0. They move by 0.543, 0.373 and 0.471, which is more than 0.8 of that before: from
    # there on by a quarter, to 643.2 - 303.2/4 and on by 176.9/4.
    found, limits, counted = settle_by(tmp_path, [300, 900] * 10)
    assert limits[:5] == pytest.approx([744.3, 542.1, 643.2, 567.4, 611.6], abs=0.1)
    assert found.runs == 20 and not found.is_settled and counted == [1] * 20 + [0]
    assert any("merges[1], side: after 20 runs what passes isn't settled" in line for line in found.built.warnings)


@pytest.mark.parametrize("moved, doubt", [(0.01, ""), (0.011, "what gaps let pass isn't settled after 20 runs, a capacity changes by 1.1%")])
def test_a_limit_that_would_move_by_just_a_hundredth_is_settled(tmp_path, moved, doubt):
    study = read_study(write(tmp_path, SIDE.format(main=600, low=300, high=300))).scenario
    found = Settled(study, build(study), 20, moved)
    assert (found.is_settled, found.doubt) == (not doubt, doubt)
