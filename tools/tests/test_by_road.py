"""Reports by road and span of time: flow, density, level of service, speed, delay, queues and costs, worked out on paper."""

import csv

import numpy
import pytest

from ctmtools import Problem
from ctmtools.plots.pictures import picture
from ctmtools.plots.time_space import _values
from ctmtools.report.by_road import by_road, level, network_states

from .corridor import corridor
from .plain_reports import at_a_light, reported


@pytest.mark.parametrize("a_mile, wanted", [(0, "A"), (11, "A"), (11.1, "B"), (18, "B"), (26, "C"), (35, "D"), (45, "E"), (45.1, "F"),
                                            (float("nan"), "")])
def test_levels_of_service(a_mile, wanted):
    assert level(a_mile / 1.609344) == wanted


def test_a_road_at_free_flow(tmp_path):
    report = reported(corridor(tmp_path, demand='[["06:00", "06:30", 1440]]'))
    frame = by_road(report, 900)
    assert frame.road.tolist() == ["m", "gate g"] * 4
    row = frame[frame.road == "m"].iloc[1]
    # 4 vehicles in each step and cell: 16 vehicles/km, 8 in each of both lanes, which are 12.9 a mile.
    assert (row.step, row.left, row.flow, row.density, row.level) == (90, 360, 1440, 8, "B")
    assert (row.speed, row.delay, row.delay_each, row.queue) == (pytest.approx(90), 0, 0, 0)
    first, last = frame[frame.road == "m"].iloc[0], frame[frame.road == "m"].iloc[3]
    # From the road's end 4 go out in each step from the fifth one after 06:00:10 on, 85 of 90.
    assert first.left == 4 * 85 and last.left == 0 and numpy.isnan(last.delay_each) and last.level == "A"
    gate = frame[frame.road == "gate g"].iloc[1]
    assert gate.left == 360 and numpy.isnan(gate.density) and gate.level == "" and gate.queue == 0


def test_the_delay_of_a_lane_drop_and_what_it_costs(report):
    read = report("bottleneck")
    frame = by_road(read, 900, value_of_time=12)
    road = frame[frame.road == "m"]
    assert road.delay.sum() == pytest.approx(461.25, abs=0.1) and road.cost.sum() == pytest.approx(12 * 461.25, abs=1)
    # At 08:00 13 cells of 250 m stand in the queue; at no time more.
    assert road.queue.max() == pytest.approx(3.25)
    whole = by_road(read)
    assert whole.delay_each.iloc[0] == pytest.approx(461.25 * 3600 / 12900, abs=0.05)


def test_a_ramp_is_told_with_what_waits_before_it(report):
    frame = by_road(report("interchange"), value_of_time=10, by="ramp").set_index("ramp")
    # Of the ramp's 2,080 vehicles those who come from 06:30 on wait for 180 vehicle-hours, on the ramp and before it.
    ramp = frame.loc["ramp to a2 (a km 0.50)"]
    came = 360 * 0.5 + 1800 * 0.5 + 360 * (2 + 53 / 60 + 20 / 3600)
    assert (ramp.left, ramp.delay, ramp.cost) == pytest.approx((came, 180, 1800), rel=1e-3)
    assert ramp.delay_each == pytest.approx(180 * 3600 / came, rel=1e-3) and 0 < ramp.queue <= 0.5
    assert len(frame) == 1  # the motorway parts before the ramp joins it


def test_a_gate_that_joins_a_road_is_a_ramp(report):
    frame = by_road(report("meter"), by="ramp")
    assert frame.ramp.tolist() == ["north to m30 (m km 4.50)", "town to ramp2 (ramp km 0.30)"]


def test_the_states_of_a_network(tmp_path):
    report = reported(corridor(tmp_path, demand='[["06:00", "06:30", 1440]]'))
    states = network_states(report, 900)
    assert states.density[1] == pytest.approx(8) and states.flow[1] == pytest.approx(720) and states.flow[3] == 0


def test_without_units_there_are_gates_alone():
    frame = by_road(at_a_light(0, 3, 7))
    assert frame.road.tolist() == ["gate g"] and frame.left.tolist() == [3] and frame.level.tolist() == [""]
    with pytest.raises(Problem, match="has no cost"):
        by_road(at_a_light(0), value_of_time=5)
    # Of 40 steps a vehicle stands in the cell for one, one for six and one for two.
    states = network_states(at_a_light(0, 3, 7))
    assert states.flow.tolist() == pytest.approx([3 / 40]) and states.density.tolist() == pytest.approx([9 / 40])


def test_spans_shorter_than_the_records_are_refused(tmp_path):
    with pytest.raises(Problem, match="--interval: is less than the time from record to record"):
        by_road(reported(corridor(tmp_path), every=6), 30)


def test_what_a_time_space_diagram_shades(tmp_path):
    report = reported(corridor(tmp_path, demand=1440))
    cells, lengths = ["m1", "m2"], numpy.array([0.25, 0.25])
    shown = {of: _values(report, cells, lengths, of) for of in ("density", "speed", "flow")}
    # Two lanes have room for 288 vehicles/km and pass 4,320 vehicles/h.
    assert {of: most for of, (_, most) in shown.items()} == pytest.approx({"density": 288, "speed": 90, "flow": 4320})
    assert {of: values[1, 200] for of, (values, _) in shown.items()} == pytest.approx({"density": 16, "speed": 90, "flow": 1440})
    with pytest.raises(Problem, match="--of delay: expected density, speed, flow"):
        picture(report, "time-space", of="delay")


def test_the_commands(tool, reports, tmp_path):
    path = reports("interchange")
    status, out, err = tool("table", path, "--by", "road", "--interval", "30 min", "--value-of-time", "20", "-o", "roads.csv")
    rows = list(csv.DictReader((tmp_path / "roads.csv").open()))
    assert status == 0 and list(rows[0]) == ["time", "step", "road", "left", "flow", "density", "level", "speed", "delay",
                                             "delay_each", "queue", "cost"]
    assert rows[0]["time"].endswith(":00:00") and out.startswith(f"roads.csv: {len(rows)} rows")
    assert "go with --by road and --by ramp" in tool("table", path, "--interval", "30 min")[2]
    assert tool("table", path, "--by", "ramp")[1].startswith("time,step,ramp,left,")
    assert "--cell with --by cell" in tool("table", path, "--by", "road", "--cell", "m1")[2]
    for words in (["time-space", path, "--of", "speed"], ["time-space", path, "--of", "flow"], ["mfd", path, "--interval", "10 min"]):
        assert tool("plot", *words, "-o", "p.png")[0] == 0 and (tmp_path / "p.png").stat().st_size > 10_000
