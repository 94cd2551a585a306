"""Approaches and movements: capacity, control delay, level of service and queues by the Highway Capacity Manual's formulas by hand."""

import csv
import json
import re
from math import sqrt
from types import SimpleNamespace

import openpyxl
import pytest

from ctmtools import Problem
from ctmtools.approaches.by_approach import by_approach, level
from ctmtools.approaches.capacity import Passing
from ctmtools.report.by_road import by_road
from ctmtools.report.travel import road_times
from ctmtools.runs.running import opened
from ctmtools.units import read_units, units_text

from .test_fixed_greens import APART, APPROACH, STOP_LINE, TOGETHER
from .test_yield import CROSSING, PERMITTED, SIDE, recorded, write

TWO_WAYS = APPROACH.format(lanes=1, table="[1, 1, 1]", more=TOGETHER)


def of(tmp_path, text):
    """The report of a study's run, of which each step is recorded."""
    return recorded(opened(write(tmp_path, text)).built)


def random_part(flow, capacity, factor=4):
    """The second term of the control delay, of a quarter of an hour, in s: 225·(x - 1 + sqrt((x - 1)² + 4·factor/4·x/(c/4)))."""
    x = flow / capacity
    return 225 * (x - 1 + sqrt((x - 1) ** 2 + factor * x / (capacity * 0.25)))


@pytest.mark.parametrize("delay, control, ratio, wanted", [
    (10, "signal", 0, "A"), (10.1, "signal", 0, "B"), (20, "permitted", 0, "B"), (35, "signal", 0, "C"), (55, "signal", 0, "D"),
    (80, "signal", 0, "E"), (80.1, "signal", 0, "F"), (12, "signal", 1.01, "F"), (10, "stop", 0, "A"), (15, "stop", 0, "B"),
    (25, "roundabout", 0, "C"), (35, "stop", 0, "D"), (50, "stop", 0, "E"), (50.1, "stop", 0, "F"), (3, "", 0, ""),
    (float("nan"), "signal", 0, "")])
def test_levels_of_service_by_control_delay(delay, control, ratio, wanted):
    assert level(delay, control, ratio) == wanted


def test_flows_are_counted_by_quarters_of_an_hour_where_no_interval_is_said():
    units = SimpleNamespace(step=10.0, at_random=SimpleNamespace(interval=0), cycles={})
    report = SimpleNamespace(units=units, steps=200, need_network=lambda: SimpleNamespace(cycles={}))
    assert Passing(report, SimpleNamespace(line=""), "c").bounds.tolist() == [0, 90, 180, 200]


def test_a_stop_line_has_the_delay_of_the_manual(tmp_path, recording_program):
    # 450 vehicles/h of 900, red 30 s of 60: d1 = 0.5·60·(1 - 0.5)²/(1 - 0.5·0.5) = 10.0 s, and at random 1.983 s by
    # `test_fixed_greens`, together 12.0 s, level B. The first 30 s red hold 450/120 = 3.75 vehicles at the stop line; those come to
    # its queue that drive 5.0 s less, so 3.99 stand in it, on 150 vehicles/km 26.6 m; at the end of red the back moves at 3.2 km/h.
    frame = by_approach(of(tmp_path, STOP_LINE.format(demand=450, more="")), 900)
    assert frame.approach.tolist() == ["street km 0.25"] * 4 and frame.lanes.tolist() == [1] * 4
    row = frame.iloc[2]
    assert row.demand == pytest.approx(450, abs=0.1) and row.capacity == pytest.approx(900, abs=0.1) and row.ratio == pytest.approx(0.5, abs=0.001)
    assert row.delay_even == pytest.approx(10.0, abs=0.5) and row.delay_random == pytest.approx(1.983, abs=0.02)
    assert row.delay_each == pytest.approx(row.delay_even + row.delay_random) and row.level == "B"
    assert row.delay == pytest.approx(450 / 4 * row.delay_each / 3600, rel=0.01)
    # By Little's law 450 vehicles/h that lose 12 s each are 1.5 vehicles in the mean, 10 m.
    assert row.queue == pytest.approx(450 * row.delay_each / 3600 / 0.15, rel=0.02)
    assert 3.75 / 0.15 <= row.longest_queue <= 4.85 / 0.15


def test_above_capacity_the_run_has_the_queue_and_the_level_is_f(tmp_path, recording_program):
    # 1,080 vehicles/h of 900 from 07:00 on: 180 an hour too many, which wait at the end, 180/0.15 = 1,200 m and what red holds more.
    frame = by_approach(of(tmp_path, STOP_LINE.format(demand=1080, more="")))
    row, = frame.itertuples()
    assert row.ratio == pytest.approx(1.2, abs=0.001) and row.level == "F" and row.longest_queue == pytest.approx(1250, abs=60)


def test_who_gives_way_has_the_queue_and_delay_of_the_manual(tmp_path, recording_program):
    # 200 vehicles/h of what is let: 3600/c + 225·(x - 1 + sqrt((x - 1)² + 8x/(c/4))) + 5 s, and of the queue the 95th percentile
    # 225·(x - 1 + sqrt((x - 1)² + (3600/c)·x/(150/4)))·c/900 vehicles.
    report = of(tmp_path, SIDE.format(main=600, low=200, high=200))
    row = by_approach(report, 1800).iloc[1]
    c = row.capacity
    x = 200 / c
    assert row.approach == "side" and row.ratio == pytest.approx(x, rel=0.01) and 300 < c < 1200
    assert row.delay_even == pytest.approx(0, abs=0.01)
    assert row.delay_random == pytest.approx(3600 / c + random_part(200, c, 8) + 5, rel=0.01)
    longest = 900 * 0.25 * (x - 1 + sqrt((x - 1) ** 2 + 3600 / c * x / (150 * 0.25))) * c / 900
    assert row.longest_queue == pytest.approx(longest / 0.15, rel=0.02) and row.queue > 0


def test_movements_share_the_delay_of_their_lane_and_add_up(tmp_path, recording_program):
    # From the south 400 vehicles/h, 1 : 6 : 1, share a lane of 1,800 in 30 s of 60: 900, by movement 112.5, 675 and 112.5.
    report = of(tmp_path, TWO_WAYS)
    frame = by_approach(report, by="movement")
    south = frame[frame.approach == "s"].set_index("movement")
    assert south.capacity.tolist() == pytest.approx([112.5, 675, 112.5], abs=0.5)
    assert south.demand.tolist() == pytest.approx([50, 300, 50], abs=0.5)
    assert south.ratio.tolist() == pytest.approx([400 / 900] * 3, abs=0.002)
    # d1 = 0.5·60·0.25/(1 - 400/1800) = 9.64 s; d2 = 225·(-0.5556 + sqrt(0.3086 + 4·0.4444/225)) = 1.59 s.
    assert south.delay_even.tolist() == pytest.approx([9.64] * 3, abs=0.6) and set(south.level) == {"B"}
    assert south.delay_random.tolist() == pytest.approx([random_part(400, 900)] * 3, abs=0.05)
    whole = by_approach(report).set_index("approach")
    assert whole.delay["s"] == pytest.approx(south.delay.sum()) and whole.demand["s"] == pytest.approx(400, abs=1)
    # All delay of the run stands before the stop lines, at one approach or the other.
    even = (whole.delay_even * whole.left).sum() / 3600
    assert even == pytest.approx(report.delay_vehicle_hours, rel=1e-6)


def test_who_stands_behind_a_permitted_left_turn_has_the_capacity_of_their_lane(tmp_path, recording_program):
    # Half of 300 turn left, 2.5 in a cycle of 60 s, of whom the first comes after 30·exp(-0.860·2.5^0.629) - 2 = 4.494 s. From 8.57 s on,
    # when the 400 who come towards them are gone, 1,286.0 pass, and 1.5 at the end: (4.494·1,800 + 21.43·1,286.0)/60 + 90 = 684.1.
    text = CROSSING.format(more=PERMITTED.replace("SNEAKERS", "2"))
    for old, new in (("shares = [[1, 0], [0, 1], [1, 1]]", "shares = [[1, 0], [1, 1], [1, 1]]"), ("demand = 600", "demand = 300"),
                     ("x = { length = 0.2, lanes = 1", "x = { length = 0.2, lanes = 2")):
        assert old in text
        text = text.replace(old, new)
    frame = by_approach(of(tmp_path, text), 900, by="movement")
    south = frame[(frame.approach == "s") & (frame.step == frame.step.unique()[2])].set_index("movement")
    assert south.capacity[["x", "y"]].tolist() == pytest.approx([342.05] * 2, rel=0.02)
    assert south.ratio[["x", "y"]].tolist() == pytest.approx([300 / 684.1] * 2, rel=0.02)
    # 225·(-0.56147 + sqrt(0.31525 + 4·0.43853/171.03)) = 2.04 s.
    assert south.delay_random[["x", "y"]].tolist() == pytest.approx([2.04] * 2, rel=0.05)


def test_a_movement_with_a_green_of_its_own_has_its_own_delay(tmp_path, recording_program):
    # The west movement, 50 of 400, has 20 s of 60 on a lane of its own: 600; the others, 350, 20 s on the other lane.
    frame = by_approach(of(tmp_path, APPROACH.format(lanes=2, table="[1, 1, 1]", more=APART)), by="movement")
    south = frame[frame.approach == "s"].set_index("movement")
    assert south.capacity["west"] == pytest.approx(600, abs=1) and south.lanes["west"] == 1
    assert south.ratio["ahead"] == pytest.approx(350 / 600, abs=0.01) == south.ratio["east"]
    assert south.ratio["west"] == pytest.approx(50 / 600, abs=0.01)
    assert south.delay_each["ahead"] > south.delay_each["west"]


def test_the_delay_before_a_stop_line_is_that_of_its_road(tmp_path, recording_program):
    # A signal of each movement's own stands behind the cells of the junction, in which its vehicles wait.
    report = of(tmp_path, APPROACH.format(lanes=2, table="[1, 1, 1]", more=APART))
    frame = by_road(report).set_index("road")
    assert list(frame.index) == ["s", "n", "east", "ahead", "west", "gate gs", "gate gn"]
    assert frame.delay.sum() == pytest.approx(report.delay_vehicle_hours)
    assert frame.delay["s"] > 0.8 and frame.delay["n"] > 0.5
    # Who comes in the last minute is still on its way.
    assert frame.left["s"] == pytest.approx(400 * 59 / 60, abs=2)
    assert {time.road for time in road_times(report)} == {"s", "n", "east", "ahead", "west"}


def test_vehicles_that_a_pocket_cannot_hold(tmp_path, recording_program):
    report = of(tmp_path, STOP_LINE.format(demand=1080, more=""))
    assert "over_pocket" not in by_approach(report)
    line, = report.units.approaches
    pocket = line.movements[0].__class__(**{**vars(line.movements[0]), "room": 10.0})
    report.units.approaches = [line.__class__(line.name, line.road, line.last, [pocket])]
    row, = by_approach(report).itertuples()
    assert row.over_pocket == pytest.approx(row.longest_queue * 0.15 - 10)
    assert units_text(report.units).count('"room": 10.0') == 1


def test_approaches_are_kept_with_the_units(tmp_path):
    units = opened(write(tmp_path, TWO_WAYS)).built.units
    path = tmp_path / "made.units.json"
    path.write_text(units_text(units))
    assert read_units(path).approaches == units.approaches and read_units(path).within == units.within
    assert units.within["s-west1"] == units.within["s-fork1.1"] == "s" and units.within["n-west1"] == "n"


def test_who_waits_at_a_red_light_alone_has_no_permitted_green(tmp_path):
    approach, = opened(write(tmp_path, STOP_LINE.format(demand=450, more=""))).built.units.approaches
    assert [one.control for one in approach.movements] == ["signal"]


def test_a_network_without_units_has_no_approaches():
    from .plain_reports import at_a_light

    with pytest.raises(Problem, match="the units aren't known, so approaches have no delay in s"):
        by_approach(at_a_light(3))


def test_the_tables_pictures_and_comparisons_of_approaches(tmp_path, tool, recording_program):
    name = write(tmp_path, STOP_LINE.format(demand=450, more=""))
    longer = tmp_path / "longer.toml"
    longer.write_text(STOP_LINE.format(demand=450, more="").replace("green = 30", "green = 40"))
    one, two = tmp_path / "one.report", tmp_path / "two.report"
    for study, report in ((name, one), (longer, two)):
        assert tool("run", study, "-o", report)[0] == 0
    for by in ("approach", "movement"):
        for suffix in ("csv", "xlsx"):
            assert tool("table", one, "--by", by, "--interval", "15 min", "-o", tmp_path / f"{by}.{suffix}")[0] == 0
    rows = list(csv.DictReader((tmp_path / "movement.csv").open()))
    assert len(rows) == 4 and rows[2]["movement"] == "ahead" and rows[2]["level"] == "B" and float(rows[2]["ratio"]) == 0.5
    head = [cell.value for cell in next(openpyxl.load_workbook(tmp_path / "approach.xlsx").active.rows)]
    assert head[3:6] == ["demand (vehicles/h)", "left (vehicles)", "capacity (vehicles/h)"] and "longest_queue (m)" in head
    # With 40 s of green 1,200 may pass, of which 450 are 0.375, and d1 = 0.5·60·(1/3)²/(1 - 0.25) = 4.4 s, 5.6 s less.
    told = tool("compare", one, two, "--by", "approach", "-o", tmp_path / "both.csv")[1]
    assert re.search(r"street km 0.25 +1\d\.\d +\d\.\d +-[5-7]\.\d +B A +0\.50 +0\.3[78]", told)
    both, = csv.DictReader((tmp_path / "both.csv").open())
    assert both["level_first"] == "B" and both["level_second"] == "A" and float(both["delay_each_rise"]) < -5
    assert tool("export", "geojson", one, "--by", "approach", "--every", "15 min", "-o", tmp_path / "a.geojson")[0] == 0
    made = json.loads((tmp_path / "a.geojson").read_text())
    assert made["units"]["delay_each"] == "s" and len(made["features"]) == 4
    assert made["features"][2]["geometry"]["type"] == "Point" and made["features"][2]["properties"]["level"] == "B"
