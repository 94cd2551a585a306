"""Assignments of studies at the edges of what they may be: nobody, few, for long, with queues at the start; and what is told."""

from fractions import Fraction
from types import SimpleNamespace

import numpy
import pytest

from ctmtools import Problem, assign, read_report
from ctmtools.assignment import courses
from ctmtools.assignment.assigning import Round
from ctmtools.assignment.messages import MOST_ROWS, not_settled, pair_lines, settled_lines
from ctmtools.assignment.passing import _queued
from ctmtools.assignment.task import measures
from ctmtools.assignment.times import Gap
from ctmtools.assignment.ways_file import WayRow, read_ways
from ctmtools.plots.assignment import draw_gap
from ctmtools.study.plan import Routing
from ctmtools.study.reading import read_scenario, read_values
from ctmtools.units import Units

from .test_assign import assigned
from .trips import HEAD, TWO_PAIRS, TWO_WAYS

HOUR = '[["07:00", "08:00", 3000]]'
CLOSED = '[[closures]]\nroad = "short"\nfrom = 5\nto = 6\nlanes = 2\nstart = "07:20"\nend = "07:50"\n'


@pytest.mark.parametrize("demand", ["[]", "0", "0.000001", '[["07:00", "07:30", 0]]'])
def test_trips_of_nobody_are_refused(tool, tmp_path, demand):
    (tmp_path / "s.toml").write_text(TWO_WAYS.replace(HOUR, demand))
    status, _, err = tool("assign", "s.toml")
    assert status == 2 and "s.toml: trips: no vehicle departs" in err and err.count("\n") == 1
    assert [path.name for path in tmp_path.iterdir()] == ["s.toml"]


def test_a_pair_of_hardly_anybody_stands_beside_others(tmp_path, recording_program):
    few = TWO_PAIRS.replace('demand = [["07:00", "07:10", 300], ["07:10", "07:20", 900]]', "demand = 0.000001")
    (tmp_path / "s.toml").write_text(few)
    assign(tmp_path / "s.toml", tmp_path / "open.toml")
    frame = assign(tmp_path / "s.toml", earlier=tmp_path / "open.toml", informed=0.5).rows
    assert frame.vehicles.sum() == pytest.approx(200, abs=1e-4)


def test_an_interval_of_choice_may_be_longer_than_the_run(tmp_path, recording_program):
    made, rounds = assigned(tmp_path, TWO_WAYS.replace('interval = "5 min"', 'interval = "10 h"'), 1e-9, 1)
    # The time of all drivers is their delay and a step in each cell that they leave.
    report = made.report
    assert rounds[-1].gap.all_ == pytest.approx(report.total.delay + report.cells.gone.sum(), rel=0.005)


@pytest.mark.parametrize("at_once", [courses.MOST_MOMENTS, 1])
def test_who_sets_out_waits_for_those_who_stand_there_at_the_start(tmp_path, recording_program, monkeypatch, at_once):
    monkeypatch.setattr(courses, "MOST_MOMENTS", at_once)
    made, _ = assigned(tmp_path, TWO_PAIRS.replace("lanes = 1, sections", "lanes = 1, first_density = 60, sections"))
    # 435 vehicles stand on 7.25 km, 15 pass in a minute and 20 come: who sets out at t leaves at (435 + 20 t) / 15 min.
    assert made.times[0][0, :2] / 6 == pytest.approx([(435 + 20 * t) / 15 - t for t in (2.5, 7.5)], abs=0.05)


def test_an_interval_of_choice_lasts_five_minutes_and_all_are_informed_where_nothing_else_is_said(tmp_path):
    (tmp_path / "s.toml").write_text(TWO_WAYS.replace('interval = "5 min"\n', ""))
    assert read_scenario(tmp_path / "s.toml").routing == Routing(ways=8, interval=Fraction(5 * 60), informed=Fraction(1))


def test_an_interval_of_choice_has_whole_steps_and_is_told(tool, tmp_path, recording_program):
    (tmp_path / "s.toml").write_text(TWO_WAYS.replace("step = 10", "step = 7").replace('"5 min"', '"4 min"'))
    status, out, err = tool("assign", "s.toml", "--iterations", "1")
    assert status == 0 and "routing.interval: 240 s asked, 238 s modelled" in out, err


def test_ways_that_find_no_room_are_told(tool, tmp_path, recording_program):
    (tmp_path / "s.toml").write_text(TWO_WAYS.replace("ways = 8", "ways = 1"))
    status, out, err = tool("assign", "s.toml")
    assert status == 0 and "1 pairs have as many routes as routing.ways says, and quicker ones were found, as from home to work" in out, err


# The short way passes 1,000 vehicles/h by its fixed green of half a cycle, and more by one that lasts as long as who come need it.
FOLLOWED = TWO_WAYS.replace("09:00", "08:10").replace(HOUR, '[["07:00", "07:25", 1500]]') + """
[[signals]]
road = "short"
cycle = 60
green = 30
actuated = { least = 10, most = 300, gap = 10 }
"""


def test_gap_and_times_are_those_of_the_run_of_the_written_study(tool, tmp_path, recording_program):
    (tmp_path / "s.toml").write_text(FOLLOWED)
    status, out, err = tool("assign", "s.toml", "--iterations", "1")
    assert status == 0 and "greens that follow traffic are worked out in the run of the written study alone" in out, err
    # All take the short way. By the fixed green 500 too many come for 25 min, and who waits longer than 5 min would gain by the long
    # way. Three of four come that pass in the green, so it lasts until its queue is gone, and nobody waits longer than the red, 30 s.
    assert float(out.split("the last round ")[1].split(" and ")[1].split(";")[0]) > 0.1 and "has 0 vehicle" not in out
    assert "and a gap of 0.00000, the last round" in out
    rows = read_ways(tmp_path / "s.assigned.ways.csv")
    assert all(10 <= row.minutes < 10.7 for row in rows) and sum(row.vehicles for row in rows) == pytest.approx(625, abs=0.001)


@pytest.mark.parametrize("yields, actuated, delay, gap, wanted", [
    (True, False, 12, 0.01, "The run of the written study works out anew what gaps let pass; it has 12 vehicle-hours of delay "
     "and a gap of 0.01000, the last round 10 and 0.01000."),
    (True, False, 10, 0.02, "The run of the written study works out anew what gaps let pass; it has 10 vehicle-hours of delay "
     "and a gap of 0.02000, the last round 10 and 0.01000."),
    (False, True, 12, 0.01, "warning: greens that follow traffic"), (True, True, 12, 0.01, "warning: greens that follow traffic"),
    (True, True, 10, 0.01, ""), (False, False, 12, 0.01, "")])
def test_another_delay_or_gap_of_the_written_study_is_told_with_its_cause(yields, actuated, delay, gap, wanted):
    last, final = (Round(3, Gap(100 + 100 * part, 100, 500), 0.0, hours, 0.0) for part, hours in ((0.01, 10.0), (gap, float(delay))))
    told = "".join(settled_lines(SimpleNamespace(yields=yields, actuated=actuated), last, final))
    assert told.strip().startswith(wanted) and bool(told) == bool(wanted)


# Two streets that come together, at a junction out of which one way leads.
TOGETHER = HEAD.format(title="Together", end="07:20") + """
[roads]
p = { length = 1, lanes = 1 }
q = { length = 1, lanes = 1 }
b = { length = 1, lanes = 2 }
[gates]
g = { into = "p" }
h = { into = "q" }
[exits.x]
from = "b"
[[junctions]]
from = ["p", "q"]
into = ["b"]
[[trips]]
from = "g"
to = "x"
demand = [["07:00", "07:10", 600]]
[[trips]]
from = "h"
to = "x"
demand = [["07:00", "07:10", 300]]
"""


def test_a_junction_at_which_nobody_parts_keeps_its_one_way(tool, tmp_path, recording_program):
    (tmp_path / "s.toml").write_text(TOGETHER)
    status, _, err = tool("assign", "s.toml")
    assert status == 0, err
    assert read_values("s.assigned.toml")["junctions"][0]["shares"] == [[1], [1]]
    assert read_report("s.assigned.report").total.left == pytest.approx(150, abs=0.01)  # 100 and 50


@pytest.fixture(scope="module")
def opened(recording_program, tmp_path_factory):
    """An assignment of two ways, of which all take the short one."""
    made = tmp_path_factory.mktemp("opened")
    (made / "s.toml").write_text(TWO_WAYS.replace("3000]]", "1800]]"))
    assign(made / "s.toml", made / "open.toml")
    return made / "open.toml"


@pytest.mark.parametrize("after", ["08:00", "08:30", "12:00"])
def test_a_time_after_which_nobody_sets_out_is_refused(opened, tmp_path, after):
    (tmp_path / "s.toml").write_text(TWO_WAYS.replace("3000]]", "1800]]") + CLOSED)
    with pytest.raises(Problem, match="s.toml: --after: no driver departs in an interval of choice that begins then or later"):
        assign(tmp_path / "s.toml", earlier=opened, informed=1, after=after)


@pytest.mark.parametrize("informed, roads", [(0, {"short"}), (1, {"short", "long"})])
def test_the_study_says_who_is_informed_where_the_call_does_not(opened, tmp_path, informed, roads):
    text = TWO_WAYS.replace("3000]]", "1800]]").replace("ways = 8", f"ways = 8\ninformed = {informed}")
    (tmp_path / "s.toml").write_text(text + CLOSED)
    frame = assign(tmp_path / "s.toml", earlier=opened, iterations=3).rows
    assert {own[1] for own in frame.roads} == roads


@pytest.mark.parametrize("output, told", [("s.toml", "s.toml: is the study that is assigned"),
                                          ("od.toml", "od.csv: stands there and wasn't made by ctm-tools"),
                                          ("od.csv", "od.csv: a study's name ends with .toml"),
                                          ("none/x.toml", "none/x.toml: there is no folder none")])
def test_nothing_that_a_user_made_is_written_over(tool, tmp_path, recording_program, output, told):
    (tmp_path / "s.toml").write_text(TWO_PAIRS)
    (tmp_path / "od.csv").write_text("from,to,start,end,vehicles\n")
    status, out, err = tool("assign", "s.toml", "-o", output)
    assert status == 2 and told in err and out == ""
    with pytest.raises(Problem, match=told):
        assign("s.toml", output)
    assert (tmp_path / "s.toml").read_text() == TWO_PAIRS and sorted(path.name for path in tmp_path.iterdir()) == ["od.csv", "s.toml"]


@pytest.mark.parametrize("change, told", [
    (lambda text: text.replace('"5 min"', '"10 min"'), "who depart at 07:05:00, at which no interval of choice begins here"),
    (lambda text: text.replace("08:00", "08:10"), "has no driver from home to work who departs at 08:00:00"),
    (lambda text: text.replace("short", "other"), "the earlier assignment's routes from home to work.roads: there is no road short")])
def test_an_earlier_assignment_of_other_trips_or_roads_is_refused(opened, tmp_path, change, told):
    (tmp_path / "s.toml").write_text(change(TWO_WAYS.replace("3000]]", "1800]]")))
    with pytest.raises(Problem, match=told):
        assign(tmp_path / "s.toml", earlier=opened, informed=1)


def test_who_has_a_way_keeps_it_beside_given_routes(opened, tmp_path):
    route = '[[routes]]\nfrom = "home"\nto = "work"\nroads = ["long"]\n'
    for share, kept, mean in (("", "short", 10), ("share = 1\n", "long", 15)):  # what a study says of its drivers holds
        (tmp_path / "s.toml").write_text(TWO_WAYS.replace("3000]]", "1800]]") + route + share)
        found = assign(tmp_path / "s.toml", earlier=opened, informed=0)
        assert {roads[1] for roads in found.rows.roads} == {kept} and found.figures["mean_minutes"] == pytest.approx(mean, abs=0.01)


def test_more_drivers_than_before_part_as_they_did(opened, tmp_path):
    (tmp_path / "s.toml").write_text(TWO_WAYS.replace("3000]]", "1900]]"))
    frame = assign(tmp_path / "s.toml", tmp_path / "more.toml", earlier=opened, informed=0).rows
    assert frame.vehicles.sum() == pytest.approx(1900)
    assert {row.roads for row in read_ways(tmp_path / "more.ways.csv")} == {("a", "short", "b")}


@pytest.mark.parametrize("words, told", [
    (("-o", "open.toml"), "open.toml: is the assignment whose routes the drivers have; name another file with -o"),
    (("--informed", "0,1", "-o", "od.csv"), "od.csv: stands there and isn't a table of several shares; name another file with -o"),
    (("--informed", "0,1", "-o", "none/t.csv"), "none/t.csv: there is no folder none"),
    (("--informed", "1", "--dask", "localhost:8786"), "--dask: a cluster makes several assignments")])
def test_a_place_or_a_cluster_that_cannot_be_is_refused_before_the_rounds(tool, opened, tmp_path, words, told):
    kept = {path.name: path.read_bytes() for path in opened.parent.iterdir()} | {"od.csv": b"from,to\n"}
    for name, content in kept.items():
        (tmp_path / name).write_bytes(content)
    status, out, err = tool("assign", "s.toml", "--from", "open.toml", *words)
    assert status == 2 and told in err and out == "" and err.count("\n") == 1
    assert {path.name: path.read_bytes() for path in tmp_path.iterdir()} == kept


def test_a_table_of_several_shares_is_written_over_an_earlier_one(tool, opened, tmp_path):
    (tmp_path / "s.toml").write_text(TWO_WAYS.replace("3000]]", "1800]]"))
    for parts in ("0,1", "0,0.5,1"):
        status, _, err = tool("assign", "s.toml", "--from", opened, "--informed", parts, "-o", "t.csv", "--iterations", "1")
        assert status == 0, err
    assert len((tmp_path / "t.csv").read_text().splitlines()) == 4


@pytest.mark.parametrize("column, value", [(2, "xx"), (2, "07:00 + "), (3, "one"), (4, "nan"), (4, "-1"), (4, "1e400"), (5, "inf"), (6, None),
                                           pytest.param(0, "x" * 140_000, id="a long field")])
def test_a_row_of_ways_that_assign_did_not_write_is_refused(opened, tmp_path, column, value):
    (tmp_path / "open.toml").write_bytes(opened.read_bytes())
    (tmp_path / "s.toml").write_text(TWO_WAYS.replace("3000]]", "1800]]"))
    head, first, *others = (opened.parent / "open.ways.csv").read_text().splitlines()
    fields = first.split(",")
    fields[column:column + 1] = [] if value is None else [value]
    (tmp_path / "open.ways.csv").write_text("\n".join([head, ",".join(fields), *others]))
    with pytest.raises(Problem, match="open.ways.csv: line 2 isn't one that `ctm-tools assign` writes"):
        assign(tmp_path / "s.toml", earlier=tmp_path / "open.toml", informed=1)


def test_a_queue_that_is_left_goes_on_as_at_the_end_of_a_run_of_few_records():
    # 10 leave in each minute, so the 30th leaves a minute after the end; a queue of which nobody leaves waits for a run more.
    for gone, left in (((0, 10, 20), 180), ((0, 0, 0), 240)):
        assert _queued(numpy.array([0.0, 60, 120]), numpy.array([[30.0]]), numpy.array([gone], dtype=float)) == pytest.approx(left, abs=0.1)


def test_times_on_the_ways_are_in_hours_of_all_and_minutes_of_each():
    own = SimpleNamespace(departures=SimpleNamespace(vehicles=numpy.array([[15.0, 5.0]])),
                          report=SimpleNamespace(units=Units(step=5), sums=SimpleNamespace(left=18, inside=2)))
    found = measures(own, Round(3, Gap(0, 0, 720_000), 0, 7, 0))
    # 720,000 vehicle-steps of 5 s are 1,000 vehicle-hours, of 20 vehicles.
    assert (found["travel_vehicle_hours"], found["mean_minutes"], found["delay_vehicle_hours"]) == pytest.approx((1000, 3000, 7), rel=1e-6)
    assert (found["rounds"], found["left_vehicles"], found["inside_vehicles"]) == (3, 18, 2)


@pytest.mark.parametrize("gap, moved, limits, told", [
    (0.02, 0, 0, "the gap is 0.0200, above 0.01;"), (0, 0.02, 0, "2.00% of what comes to branches still moves between them, above 0.01;"),
    (0, 0.01, 0, "1.00% of what comes to branches still moves between them, above 0.01;"),
    (0, 0, 0.2, "what gaps let pass still changes by 20.0%;")])
def test_what_has_not_settled_is_told_with_what_it_is_above(gap, moved, limits, told):
    own = SimpleNamespace(choices=[], departures=SimpleNamespace(by_interval=[]), times=[], crowded=set(),
                          report=SimpleNamespace(sums=SimpleNamespace(inside=0)))
    line, = not_settled(own, [Round(2, Gap(100 + 100 * gap, 100, 500), moved, 0, 0, limits)], 0.01)
    assert line.startswith(f"warning: after 2 rounds {told} it still falls") and Round(2, Gap(100, 100, 500), 0, 0, 0).settled(0.01)


def test_the_picture_of_the_rounds_has_the_gap_above_and_the_delay_below():
    rounds = [Round(number, Gap(100 + more, 100, 0), 0, delay, 0) for number, more, delay in ((1, 10, 7), (2, 1, 5))]
    upper, lower = draw_gap(rounds, "s").axes
    drawn = [[line.get_xydata().tolist() for line in axes.lines] for axes in (upper, lower)]
    assert drawn == [[[[1, pytest.approx(0.1)], [2, pytest.approx(0.01)]]], [[[1, 7], [2, 5]]]]
    assert upper.get_title(loc="left").startswith("s: time of drivers beyond the best routes") and lower.get_title(loc="left") == ""


def test_ways_beyond_those_that_are_told_are_counted():
    rows = [WayRow("a", "b", "07:00:00", number, 1.0, 3.0, (f"r{number}",)) for number in range(1, MOST_ROWS + 4)]
    lines = list(pair_lines(rows))
    assert lines[-1] == "  and 3 more routes" and sum(line.startswith("  a ") for line in lines) == MOST_ROWS
    assert not list(pair_lines(rows[:MOST_ROWS]))[-1].endswith("more routes")


def test_of_the_roads_of_a_way_sixty_letters_are_told():
    rows = [WayRow("a", "b", "07:00:00", number, 5.0, 3.0, (letters,)) for number, letters in ((1, 60 * "x"), (2, 61 * "y"))]
    assert [line.split()[-1] for line in list(pair_lines(rows))[-2:]] == [60 * "x", 58 * "y" + ".."]
