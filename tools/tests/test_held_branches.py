"""Queues before diverges one branch of which is free: what they cost, by hand, and that `run` and `assign` tell it."""

import pytest

from ctmtools import read_report

FORK = """title = "A fork"
step = 6
start = "07:00"
end = "08:00"
[lane]
free_flow_speed = 50
wave_speed = 18
jam_density = 150
saturation_flow = 1800
[roads]
a = { length = 4, lanes = 1 }
b = { length = 0.2, lanes = 1 }
c = { length = 0.2, lanes = 1 }
[gates.come]
into = "a"
demand = [["07:00", "07:30", 1500]]
[exits]
x = { from = "b" }
y = { from = "c" }
[[diverges]]
from = "a"
into = ["b", "c"]
shares = [1, 1]
[[closures]]
road = "b"
capacity = LEFT
"""


@pytest.mark.parametrize("left, told", [(600, True), (900, False)])
def test_what_is_waited_for_one_branch_while_the_other_is_free(tool, tmp_path, recording_program, left, told):
    (tmp_path / "s.toml").write_text(FORK.replace("LEFT", str(left)))
    # Half of 1,500 drive to b, which lets 600 through, so 1,200 pass in all. For 30 min 300 an hour come to wait, 150, who pass in
    # 150/1,200 h: (0.5 + 0.125)·150/2 = 46.9 vehicle-hours.
    status, out, _ = tool("run", "s.toml")
    lines = [line for line in out.splitlines() if "is free: vehicles bound for that one wait too" in line]
    assert status == 0 and bool(lines) == told
    if told:
        before, hours = lines[0].split(" vehicle-hours ")[0].rsplit(" ", 1)
        assert before == "Before a48 (a km 4.00)" and float(hours) == pytest.approx(46.9, rel=0.02)
        assert "are waited for b1 while c1 is free" in lines[0]
        assert read_report("s.report").delay_vehicle_hours == pytest.approx(46.9, rel=0.02)


@pytest.mark.parametrize("change", [("shares = [1, 1]", "shares = [1, 0]"), ("road = \"b\"", "road = \"a\"")])
def test_a_queue_that_no_diverge_makes_is_not_told_so(tool, tmp_path, recording_program, change):
    (tmp_path / "s.toml").write_text(FORK.replace("LEFT", "600").replace(*change))
    out = tool("run", "s.toml")[1]
    told = "is free: vehicles bound for that one wait too" in out
    # Where nobody drives to c they wait for b, of whom some might.
    assert told == (change[0] == "shares = [1, 1]")
