"""Speed limits by time: the records of a study, and what runs with them tell, worked on paper.

The corridor has four cells of 250 m and steps of 10 s; a lane drives 90 km/h, so that 60 km/h are 2/3 of its own. Of two lanes
12 vehicles pass in a step. 1,080 vehicles/h are 3 in a step: 3 in a cell at 90 km/h, and 4.5 at 60.
"""

import csv

import numpy
import plain_model
import pytest

from ctmtools import Problem, build, read_study
from ctmtools.assignment.assigning import Assignment
from ctmtools.exports.geojson import features
from ctmtools.moments.agreement import difference
from ctmtools.moments.metering import critical, gauge_of
from ctmtools.moments.moment import Runner
from ctmtools.network_file.faults import first_fault
from ctmtools.network_file.kinds import NUMBERS
from ctmtools.network_file.naming import Naming
from ctmtools.network_file.network import network_of
from ctmtools.network_file.pace import pace_of
from ctmtools.network_file.records import read_records
from ctmtools.plots import roadside, time_space, travel
from ctmtools.pages.networks import speed_limits
from ctmtools.program.calls import ask
from ctmtools.report.comparability import other_lanes_and_speeds
from ctmtools.report.queues import queues_in, standing
from ctmtools.report.states import states
from ctmtools.report.summary import page
from ctmtools.report.travel import road_times, travel_times
from ctmtools.runs.running import opened
from ctmtools.study.plan import Meter
from ctmtools.units import Units

from .corridor import corridor, corridor_text
from .plain_reports import reported
from .test_actuated import settled_greens, write
from .trips import TWO_WAYS

LIMIT = '[[speed_limits]]\nroad = "m"\nspeed = {}\n'
SIXTY = LIMIT.format(60)
PART = SIXTY + 'from = 0.5\nto = 0.75\nstart = "06:10"\nend = "06:40"\n'


def built(folder, text):
    """The built network of a study's text."""
    (folder / "study.toml").write_text(text)
    return build(read_study(folder / "study.toml"))


def speeds(made):
    return [line.split(",")[1:] for line in made.text.splitlines() if line.startswith("speed,")]


def form(made):
    return next(line for line in made.text.splitlines() if line.startswith("ctm,"))


def test_a_limit_makes_records_of_its_cells_and_its_time(tmp_path):
    made = corridor(tmp_path, PART)
    assert speeds(made) == [["m3", "60", "240", "2", "3"]] and form(made) == "ctm,3"
    assert "# speed,cell,from,to,NUM,DEN" in made.text and not made.warnings
    assert made.units.cells["m3"]["free_flow_kmh"] == 90


def test_of_several_limits_the_least_holds(tmp_path):
    made = corridor(tmp_path, SIXTY + PART.replace("60\n", "45\n") + LIMIT.format(30) + 'from = 0.75\nstart = "06:20"\n')
    assert [row for row in speeds(made) if row[0] == "m3"] == [["m3", "0", "60", "2", "3"], ["m3", "60", "240", "1", "2"],
                                                               ["m3", "240", "360", "2", "3"]]
    assert [row for row in speeds(made) if row[0] == "m4"] == [["m4", "0", "120", "2", "3"], ["m4", "120", "360", "1", "3"]]


def test_limits_that_follow_each_other_are_one_record(tmp_path):
    made = corridor(tmp_path, SIXTY + 'end = "06:30"\nto = 0.25\n' + SIXTY + 'start = "06:30"\nto = 0.25\n')
    assert speeds(made) == [["m1", "0", "360", "2", "3"]]


def test_a_speed_is_taken_in_other_units_too(tmp_path):
    assert speeds(corridor(tmp_path, LIMIT.format('"12.5 m/s"') + "to = 0.25\n")) == [["m1", "0", "360", "1", "2"]]  # 45 km/h


def test_only_the_faster_sections_of_a_road_are_limited(tmp_path):
    made = built(tmp_path, corridor_text(SIXTY).replace("length = 1\n", "length = 1\nsections = [{ from = 0.5, free_flow_speed = 45 }]\n"))
    assert [row[0] for row in speeds(made)] == ["m1", "m2"] and not made.warnings


def test_a_road_at_its_limit_passes_less_for_long(tmp_path):
    # 60 km/h, waves of 18 and 144 vehicles/km: 60·18/78·144 = 1,993.8 in a lane.
    assert corridor(tmp_path, PART).remarks == [
        "speed_limits[1]: at 60 km/h road m from km 0.5 to 0.75 passes 3,987.69 vehicles/h for long, by its wave speed and jam "
        "density, in place of 4,320"]
    assert "at 60 km/h road m from km 0 to 1 passes 3,987.69 vehicles/h" in corridor(tmp_path, SIXTY).remarks[0]
    assert built(tmp_path, corridor_text(SIXTY).replace("saturation_flow = 2160", "saturation_flow = 1800")).remarks == []


@pytest.mark.parametrize("speed", [90, 100, 89.99])
def test_a_limit_that_is_no_lower_makes_no_record_and_is_told(tmp_path, speed):
    made = corridor(tmp_path, LIMIT.format(speed))
    assert speeds(made) == [] and form(made) == "ctm,1" and not made.remarks
    assert made.warnings == [f"speed_limits[1]: road m has 90 km/h there itself, so a limit of {speed} km/h does nothing"]


def test_what_is_rounded_by_more_than_a_thousandth_is_told(tmp_path):
    made = corridor(tmp_path, LIMIT.format(0.06) + "to = 0.25\n")  # 1/1,500 of 90 km/h, of which 1/1,000 is the nearest
    assert speeds(made) == [["m1", "0", "360", "1", "1000"]]
    assert [str(note) for note in made.rounding.differing] == ["speed_limits[1] on road m from km 0: 0.06 km/h asked, 0.09 km/h modelled"]
    assert not corridor(tmp_path, LIMIT.format(37)).rounding.differing


@pytest.mark.parametrize("limit, told", [
    (LIMIT.format(0), "speed_limits[1].speed: must be above 0; a closure lets no vehicle through"),
    (LIMIT.format(0.04), "speed_limits[1].speed: is less than a thousandth of the free-flow speed"),
    (SIXTY.replace('"m"', '"n"'), "speed_limits[1]: there is no road n"),
    (SIXTY + "to = 2\n", "speed_limits[1].to: km 2 is beyond road m, which has 1 km"),
    ('[[speed_limits]]\nroad = "m"\n', "speed_limits[1].speed: is missing")])
def test_what_is_refused(tmp_path, limit, told):
    with pytest.raises(Problem) as problem:
        corridor(tmp_path, limit)
    assert told in str(problem.value)


def test_driving_at_a_limit_is_delay_and_no_queue(tmp_path):
    read = reported(corridor(tmp_path, SIXTY, demand=1080))
    assert read.vehicles.loc[300, ["m1", "m2", "m3", "m4"]].tolist() == pytest.approx([4.5] * 4, abs=1e-4)
    frame = states(read)
    row = frame[(frame.step == 300) & (frame.cell == "m3")]
    assert row.speed.item() == pytest.approx(60, abs=0.01) and row.speed_limit.item() == pytest.approx(60)
    assert frame.attrs["units"]["speed_limit"] == "km/h" and frame[frame.cell == "g"].speed_limit.isna().all()
    assert not standing(read).to_numpy().any() and queues_in(read) == []
    # Each who has left a cell has lost half a step there.
    assert read.slowed.sum() == pytest.approx(read.cells.gone[["m1", "m2", "m3", "m4"]].sum() / 2, abs=0.01)
    assert read.cells.wait[["m1", "m2", "m3", "m4"]].sum() == pytest.approx(read.slowed.sum(), rel=1e-4)
    hours = read.units.hours(read.slowed.sum())
    assert f"          {hours:,.2f} of these by driving at the speed limits, and not in queues" in list(page(read))


def test_the_limit_of_a_time_in_a_table_and_for_a_map(tmp_path):
    read = reported(corridor(tmp_path, PART, demand=1080))
    own = states(read)[lambda frame: frame.cell == "m3"].set_index("step").speed_limit
    assert own[60] == pytest.approx(60) and own[239] == pytest.approx(60) and own[[59, 240]].isna().all()
    spans = [row["properties"]["speed_limit"] for row in features(read, 1200) if row["properties"]["cell"] == "m3"]
    assert spans == [75, 60, None]  # the mean of 10 min at 90 and 10 at 60 km/h
    assert "speed_limit" not in states(reported(corridor(tmp_path)))


def test_without_a_limit_the_page_has_no_such_line(tmp_path):
    assert not any("speed limits" in line for line in page(reported(corridor(tmp_path, demand=1080))))


def test_a_queue_within_a_limit_stands_where_traffic_is_slower_than_80_percent_of_it(tmp_path):
    """From 06:10 to 06:20 m3 passes 2 of the 3 that come, so 60 wait at 06:20, and as fewer drive on in up to three cells, 3 in
    place of 4.5, as many more."""
    closed = '[[closures]]\nroad = "m"\nfrom = 0.5\nto = 0.75\nstart = "06:10"\nend = "06:20"\ncapacity = 720\n'
    read = reported(corridor(tmp_path, SIXTY + closed, demand=1080, end="07:00"))
    queue, = queues_in(read)
    assert read.units.clock(queue.start, True)[:5] == "06:10" and 60 <= queue.most <= 64.5
    # 60 steps in which 0 to 60 wait, and then 6 more pass in each than come: 3,987.69/360 - 3 = 8.077 at most.
    assert queue.delay == pytest.approx(60 * 60 / 2 + 60 * 60 / 8.077 / 2, rel=0.05)
    assert read.cells.wait.sum() == pytest.approx(queue.delay + read.slowed.sum(), rel=0.06)


def test_the_travel_time_at_free_flow_is_at_the_limits_in_force(tmp_path):
    """Four cells take 4 steps at 90 km/h and 6 at 60; who is in m3 when the limit begins at step 60 takes 1.5 steps from then on."""
    read = reported(corridor(tmp_path, SIXTY + 'start = "06:10"\nend = "06:40"\n', demand=1080, end="07:00"))
    frame = travel_times(read, ["m1", "m2", "m3", "m4"], 600)
    assert frame.free.tolist()[0] < 45 / 60 and frame.free.tolist()[1:3] == pytest.approx([1, 1]) and frame.free.tolist()[4:] == pytest.approx([40 / 60] * 2)
    assert frame["mean"].tolist()[1:3] == pytest.approx([1, 1], abs=0.02)
    assert frame.delay.tolist()[1:3] == pytest.approx([0, 0], abs=0.02)
    assert road_times(read)[0].free == pytest.approx(5, abs=0.1)  # half of them at 60 km/h
    network = read.need_network()
    # Two cells, of the third half, and the rest at 2/3: 58 + 2.5 is 60.5, where half a cell is left of two.
    assert network.left_freely(["m1", "m2", "m3", "m4"], numpy.array([10.0, 58, 57.5, 70, 239, 300])) == pytest.approx(
        [14, 60 + 2 * 1.5, 60 + 1.5 * 1.5, 76, 240 + 10 / 3, 304])


@pytest.mark.parametrize("speeds, entered, left", [
    ([(10, 20, 0.5)], 0, 1), ([(10, 20, 0.5)], 9.5, 11), ([(10, 20, 0.5)], 19, 20.5), ([(10, 20, 0.5)], 25, 26),
    ([(0, 99, 0.25), (10, 20, 0.5)], 12, 14), ([(0, 99, 0.25)], 30, 34), ([(0, 99, 0.25)], 28, 32), ([(5, 9, 0.5), (5, 9, 1.0)], 6, 7)])
def test_pace(speeds, entered, left):
    """A run of 30 steps; behind it the speed stays."""
    assert pace_of(speeds, 30).left(numpy.array([float(entered)])) == pytest.approx([left])


def test_the_speed_between_two_records_is_the_mean():
    pace = pace_of([(10, 20, 0.5)], 30)
    assert pace.mean(numpy.array([0, 5, 15, 25, 30])) == pytest.approx([1, 0.75, 0.75, 1]) and list(pace.slower()) == [(10, 20, 0.5)]


def test_the_frame_of_speeds_has_the_last_record_of_the_file():
    text = "ctm,3\nsteps,9\ngate,g,9,0\nroad,a,60,9,1,5,0\nexit,x,9\nlink,g,a\nlink,a,x\nspeed,a,0,9,1,2\nspeed,a,3,6,3,5\n"
    assert list(network_of(text.encode()).paces["a"].slower()) == [(0, 3, 0.5), (3, 6, 0.6), (6, 9, 0.5)]


def test_a_picture_and_a_page_show_the_limits(tmp_path):
    read = reported(corridor(tmp_path, PART, demand=1080))
    axes = time_space.draw(read).axes[0]
    assert "60 km/h" in [text.get_text() for text in axes.texts]
    box, = [patch.get_bbox() for patch in axes.patches if patch.get_hatch() == "..."]
    assert (box.y0, box.y1) == (0.5, 0.75)
    assert "speed limit" in [text.get_text() for legend in axes.figure.legends for text in legend.get_texts()]
    assert speed_limits(read) == [{"begin": 22200, "end": 24000, "speed": 60, "cells": [3]}]
    labels = [line.get_label() for line in travel.draw(read, road="m").axes[0].lines]
    assert "at free flow, by the speed limits in force" in labels
    assert not roadside.draw_speed_limits(axes, reported(corridor(tmp_path)), ["m1"], [0, 0.25])


def test_reports_of_other_limits_are_told_apart(tmp_path):
    with_it, without = reported(corridor(tmp_path, PART)), reported(corridor(tmp_path))
    assert list(other_lanes_and_speeds(without, with_it)) == [
        "1 cell has other speed limits in A and in B, as m3: none in A, 60 km/h from 06:10 to 06:40 in B"]
    assert list(other_lanes_and_speeds(with_it, with_it)) == []


NET = """ctm,3
steps,60
gate,g,5,0
road,a,12,3,1,5,0
road,b,12,3,1,5,0
exit,x,4
link,g,a
link,a,b
link,b,x
demand,g,0,60,2
speed,a,10,20,3,5
"""


@pytest.mark.parametrize("new, step, told", [
    ("speed,a,10,20,6,10", None, None), ("speed,a,10,20,3,5\nspeed,a,40,60,1,2", None, None), ("speed,a,10,15,3,5\nspeed,a,15,20,3,5", None, None),
    ("speed,a,10,20,1,2", 10, "the speed limit of the road a is 1/2 of its own, and 3/5 of its own in the saved one"),
    ("speed,a,10,30,3,5", 20, "is 3/5 of its own, and its own in the saved one"), ("speed,a,12,20,3,5", 10, "is its own, and 3/5 of its own"),
    ("speed,a,10,20,3,5\nspeed,b,39,60,2,4", 39, "the speed limit of the road b is 1/2 of its own, and its own in the saved one")])
def test_where_two_networks_differ_in_speeds_below_step_40(new, step, told):
    other = network_of(NET.replace("speed,a,10,20,3,5", new).encode())
    found = difference(network_of(NET.encode()), other, 40, Naming(other))
    assert (found and found.step) == step and (told is None or told in found.told)


def test_a_difference_in_the_units_of_a_study():
    units = Units(step=10, start=0, cells={"a": {"road": "m", "from_km": 0, "to_km": 0.25, "lanes": 1, "free_flow_kmh": 90}})
    other = network_of(NET.replace("3,5\n", "1,2\n").encode())
    assert difference(network_of(NET.encode()), other, 40, Naming(other, units)).told == \
        "the speed limit of road m from km 0 to 0.25 is 45 km/h, and 54 km/h in the saved one"


def assigned(folder, limit):
    (folder / "s.toml").write_text(TWO_WAYS + limit)
    made = Assignment(read_study(folder / "s.toml").scenario)
    made.start()
    return made


def test_first_ways_are_those_at_the_speed_limits(tmp_path):
    """The short way has 60 steps, 48 of them on a road that takes 96 at 45 km/h; the long one has 90."""
    limit = '[[speed_limits]]\nroad = "short"\nspeed = 45\n'
    for text, road, steps in (("", "short01", 60), (limit, "long01", 90)):
        legs = assigned(tmp_path, text).legs
        way, = legs.free_ways("home", "work", 5)
        assert road in legs.cells(way) and sum(map(legs.steps, way)) == steps
    # For half of the run, two hours, it takes by the mean speed, 3/4 of its own, 64 steps.
    legs = assigned(tmp_path, limit + 'end = "08:00"\n').legs
    assert sum(map(legs.steps, legs.free_ways("home", "work", 5)[0])) == 60 + 16


def test_who_drives_while_a_limit_holds_takes_longer(tmp_path):
    """From step 120 to 300 the 48 steps of the short road are 72. A gate and 4 cells lie before it."""
    made = assigned(tmp_path, '[[speed_limits]]\nroad = "short"\nspeed = 60\nstart = "07:20"\nend = "07:50"\n')
    way = made.legs.free_ways("home", "work", 5)[0]
    moments = begins = numpy.array([[10.0, 91, 130, 276, 310]])
    for leg in way:
        moments = made.passing.through(numpy.array([leg]), moments)
    # Who sets out at 91 has driven 24 cells at 120, and the other 24 take 36; at 276 it is 12.67 cells at the limit, in 19 steps.
    assert (moments - begins)[0] == pytest.approx([60, 72, 84, 12 + 19 + 48 - 38 / 3, 60], abs=0.6)


@pytest.mark.parametrize("part, wanted", [(1, 100 / 6), (2 / 3, 100 * 36 / (1 + 10 / 3) / 36), (1 / 3, 100 / (1 + 5 / 3))])
def test_a_meter_aims_at_the_capacity_at_the_limit(tmp_path, part, wanted):
    """A lane of 36 with waves of a fifth of its speed: n·u = (36 - n)/5, and at its own speed 6."""
    network = corridor(tmp_path, lanes=1).network
    assert critical(network.cells.loc["m1"], part) == pytest.approx(wanted)


def test_a_meter_s_set_point_goes_by_the_interval(tmp_path):
    ramp = '[gates.r]\ncapacity = 2160\n[[on_ramps]]\nroad = "m"\nat = 0.5\nramp = "r"\npriorities = [1, 1]\n'
    made = corridor(tmp_path, ramp + PART.replace("from = 0.5\nto = 0.75\n", ""), lanes=1)
    gauge = gauge_of(Meter("r"), made.network, made.units)
    assert gauge.detector == "m3" and gauge.wanted == pytest.approx(100 / 6)
    assert [gauge.limited(*span) for span in ((0, 6), (60, 66), (57, 63), (240, 246))] == pytest.approx(
        [100 / 6, 300 / 13, 100 / (1 + 25 / 6), 100 / 6])  # 2/3 of its speed, and in the mean of both 5/6
    assert gauge_of(Meter("r", occupancy=20), made.network, made.units).limited is None


def test_a_sweep_varies_a_limit(tool, tmp_path, plain):
    """1,080 vehicles lose 5 s in each of four cells at 60 km/h, 6 vehicle-hours, but for those who are there at the end."""
    (tmp_path / "s.toml").write_text(corridor_text(SIXTY, demand=1080))
    status, out, err = tool("sweep", "s.toml", "--vary", "speed_limits.speed=60,90", "-j", "1")
    assert status == 0, err
    with open("s.sweep/results.csv") as file:
        delays = {row["speed_limits.speed"]: float(row["delay_vehicle_hours"]) for row in csv.DictReader(file)}
    assert delays["60"] - delays["90"] == pytest.approx(6, abs=0.1)


def test_the_program_runs_them_as_the_plain_recurrences_do(tmp_path, speed_program):
    for parts in (SIXTY, PART + '[[closures]]\nroad = "m"\nfrom = 0.75\nto = 1\nlanes = 1.5\n'):
        text = corridor(tmp_path, parts, demand=3000).text.encode()
        assert ask(("run", "--every", "7"), text).out == plain_model.report(text, 7)
        runner = Runner("s", 2)
        assert runner.report(runner.moment(text, 100)) == plain_model.report(text)
    assert ask(("check",), NET.encode()).out == b"network3,4,3,60,0,0,1,0,1\n"


SPOILT = ["speed,g,0,1,1,2", "speed,x,0,1,1,2", "speed,q,0,1,1,2", "speed,a,0,1,2,1", "speed,a,5,5,1,2", "speed,a,0,1,1", "speed,a,0,1,0,1",
          "speed,a,0,1,1,1001", "speed,a,0,100001,1,2", "speed,a,0,1,x,2"]


@pytest.mark.parametrize("record", SPOILT)
def test_the_program_finds_the_same_fault(record, speed_program):
    for form in "123":
        content = NET.replace("ctm,3", f"ctm,{form}").replace("speed,a,10,20,3,5", record).encode()
        fault = first_fault(read_records(content))
        assert ask(("check",), content).line == f"ctm: network: record {fault.record} code {NUMBERS[fault.code]} {fault.code}"


def test_choose_takes_the_limit_with_the_least_delay(tool, tmp_path, speed_program):
    (tmp_path / "s.toml").write_text(corridor_text(SIXTY, demand=1080))
    status, out, err = tool("choose", "s.toml", "--vary", "speed_limits.speed=45,60,90")
    assert status == 0 and "90" in out, err


def test_greens_that_follow_traffic_don_t_wait_for_who_drives_at_a_limit(tmp_path, speed_program):
    """At 30 of 36 km/h a lane passes 30·18/48·160 = 1,800 vehicles/h as before, so the greens on paper are as without a limit."""
    path = write(tmp_path, more='[[speed_limits]]\nroad = "a"\nspeed = 30\n[[speed_limits]]\nroad = "b"\nspeed = 30\n')
    *greens, cycle = settled_greens(opened(path))
    assert greens == pytest.approx([11.2, 8.8], abs=1.2) and cycle == pytest.approx(28, abs=2.4)
