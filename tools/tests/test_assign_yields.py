"""Trips that choose their ways where some give way: the limits of each round, and the network that comes out."""

import csv

import pytest

from ctmtools import read_study
from ctmtools.assignment.assigning import Assignment
from ctmtools.program.calls import ask

# From the village a side street leads onto a road, where it gives way to 600 vehicles/h, and so does a bypass that takes 60 s more.
STUDY = """step = 5
start = "07:00"
end = "08:00"
yield_interval = "5 min"
[lane]
free_flow_speed = 36
wave_speed = 18
jam_density = 160
saturation_flow = 1800
[routing]
interval = "5 min"
[roads]
first = { length = 0.1, lanes = 1 }
before = { length = 0.2, lanes = 1 }
side = { length = 1, lanes = 1 }
bypass = { length = 1.65, lanes = 1 }
behind = { length = 0.05, lanes = 1 }
last = { length = 0.1, lanes = 2 }
[gates]
main = { into = "before" }
village = { into = "first" }
[exits]
out = { from = "last" }
[[diverges]]
from = "first"
into = ["side", "bypass"]
[[merges]]
from = ["before", "side"]
into = "behind"
priorities = [1, 1]
yields_to = "before"
[[merges]]
from = ["behind", "bypass"]
into = "last"
priorities = [1, 1]
[[trips]]
from = "main"
to = "out"
demand = 600
[[trips]]
from = "village"
to = "out"
demand = 900
"""


def test_drivers_leave_a_side_street_that_passes_less_than_they_are(tmp_path, tool, recording_program):
    (tmp_path / "study.toml").write_text(STUDY)
    status, out, err = tool("assign", "study.toml", "--iterations", "30")
    assert status == 0, err
    assert "merges[1], side: " in out and "vehicles/h may pass through gaps" in out and "doesn't give way" not in out
    with open("study.assigned.ways.csv") as file:
        rows = list(csv.DictReader(line for line in file if not line.startswith("#")))
    side = [float(row["vehicles"]) for row in rows if "side" in row["roads"] and "07:20:00" <= row["start"] < "07:50:00"]
    # Past 600 vehicles/h come 504.6 by Harders, 600·exp(-600·6.2/3600)/(1 - exp(-600·3.3/3600)). Once its queue takes 60 s as many
    # set out for the side street as pass it, 42 in five minutes; the other 33 take the bypass.
    assert len(side) == 6 and sum(side) / 6 == pytest.approx(504.6 / 12, rel=0.05)
    again = ask(("run", "--every", "1"), (tmp_path / "study.assigned.csv").read_bytes())
    assert again.out == (tmp_path / "study.assigned.report").read_bytes()
    # What is written is what a run of the study makes of it.
    report = (tmp_path / "study.assigned.report").read_bytes()
    tool("run", "study.assigned.toml", "-o", "again.report")
    assert (tmp_path / "again.report").read_bytes() == report


def test_a_round_is_settled_once_what_passes_is(tmp_path, recording_program):
    (tmp_path / "study.toml").write_text(STUDY)
    assignment = Assignment(read_study(tmp_path / "study.toml").scenario)
    assignment.start()
    first, second = assignment.rounds(1.0, 2)  # with a gap of 1 the first round would do
    assert first.limits > 0.5 and not first.settled(1.0) and second.limits < first.limits
