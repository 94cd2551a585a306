"""Pockets at a junction: what they hold up and what they don't, by hand, and the roads of which they are made."""

import numpy
import pytest

from ctmtools import Problem, build, read_study
from ctmtools.runs.running import opened
from ctmtools.study.pocket_roads import cut_at
from ctmtools.yielding.conflicts import SharedLanes, longest_queue

from .plain_reports import reported

# Cells of 10 m with room for 1.5 vehicles in a lane, which pass 0.5 in a step. 720 vehicles/h come, 0.2 in a step, and a quarter turn left.
STUDY = """step = 1
start = "06:00"
duration = {lasting}
lane = {{ free_flow_speed = 36, wave_speed = 18, jam_density = 150, saturation_flow = 1800 }}
[roads]
south = {{ length = "300 m", lanes = {lanes}{more} }}
left = {{ length = "100 m", lanes = 1 }}
ahead = {{ length = "100 m", lanes = 1 }}
right = {{ length = "100 m", lanes = 1 }}
[gates]
in = {{ into = "south", demand = 720 }}
[exits]
out-left = {{ from = "left"{limit} }}
out-ahead = {{ from = "ahead" }}
out-right = {{ from = "right" }}
[[junctions]]
from = ["south"]
into = ["left", "ahead", "right"]
shares = [{shares}]
{pockets}
"""
LEFT = 'pockets = [{ movements = [["south", "left"]], length = "60 m" }]\n'
APART = 'cycle = 60\nphases = [{ green = 30, into = ["ahead", "right"] }, { green = 10, into = ["left"] }]\n'


def study(tmp_path, pockets, shares="[2, 5, 1]", lasting=900, lanes=1, more="", limit=""):
    path = tmp_path / "study.toml"
    path.write_text(STUDY.format(pockets=pockets, shares=shares, lasting=lasting, lanes=lanes, more=more, limit=limit))
    return path


def records(made, kind):
    return [line.split(",")[1:] for line in made.text.splitlines() if line.startswith(kind + ",")]


@pytest.mark.parametrize("pockets, passed", [(LEFT, 76.5), ("", 49.5)])
def test_a_full_pocket_holds_up_those_beside_it(tmp_path, pockets, passed):
    report = reported(build(read_study(study(tmp_path, pockets, "[1, 2, 1]", limit=", capacity = 0"))))
    others = report.left["ahead10"] + report.left["right10"]
    # Nobody leaves to the left: its road of 10 cells and the cell of its movement hold 16.5, six cells of the pocket 9 more. For each
    # who finds room there three drive elsewhere, 49.5 or 76.5 in all, and then nobody does.
    assert others.iloc[-1] == pytest.approx(passed, abs=0.1)
    # Until then none of these waits: the first leaves after 43 steps, of the gate, 30 cells before the junction, one in it and 10 behind it.
    free = 0.15 * (300 - 42)
    assert others.loc[300] == pytest.approx(free, abs=0.2)


def test_queues_that_find_room_wait_apart(tmp_path):
    waited = {}
    for pockets in (LEFT, ""):
        report = reported(build(read_study(study(tmp_path, APART + pockets, "[1, 2, 1]", 1800))))
        waited[pockets] = report.sums.delay / 3600
    # By the formula of even queues r²/(2·C·(1 - q/s)) those ahead and to the right wait 30²/(120·0.7) = 10.7 s, and those to the left 50²/(120·0.9) = 23.1 s:
    # of 360 vehicles 270 and 90, 1.38 vehicle-hours, less what those of the last cycle still have to wait.
    assert waited[LEFT] == pytest.approx(1.38, rel=0.03)
    assert waited[""] > 10 * waited[LEFT]


def test_the_roads_of_two_pockets(tmp_path):
    two = ('pockets = [{ movements = [["south", "right"]], length = "40 m", lanes = 2 },\n'
           '  { movements = [["south", "left"]], length = "90 m" }]\n')
    made = build(read_study(study(tmp_path, two, lanes=2)))
    roads = {road: len(cells) for road, cells in made.units.roads.items()}
    # The road parts 90 m before its end, and the lanes beside the first pocket 40 m before it.
    assert {name: roads[name] for name in roads if name.startswith("south")} == {
        "south": 21, "south-pocket2": 9, "south-lanes1": 5, "south-pocket1": 4, "south-lanes2": 4,
        "south-left": 1, "south-ahead": 1, "south-right": 1}
    lanes = {name: made.units.cells[cells[0]]["lanes"] for name, cells in made.units.roads.items()}
    assert [lanes[name] for name in ("south-pocket1", "south-pocket2", "south-lanes1", "south-lanes2")] == [2, 1, 2, 2]
    # Of eight two turn left, and of the other six one turns right.
    assert records(made, "diverge") == [["south21", "south-pocket2.1", "south-lanes1.1", "1", "3"],
                                        ["south-lanes1.5", "south-pocket1.1", "south-lanes2.1", "1", "5"]]
    assert ["south-lanes2.4", "south-ahead1"] in records(made, "link")


def test_lanes_of_all_movements_begin_behind_the_first_cell(tmp_path):
    groups = 'pockets = [{ movements = [["south", "left"]] }, { movements = [["south", "ahead"], ["south", "right"]], lanes = 2 }]\n'
    made = build(read_study(study(tmp_path, groups, lanes=3)))
    assert [len(made.units.roads[name]) for name in ("south", "south-pocket1", "south-pocket2")] == [1, 29, 29]
    # Those ahead and to the right part at the stop line, from their two lanes.
    assert ["south-pocket2.29", "south-ahead1", "south-right1", "5", "1"] in records(made, "diverge")
    assert made.units.cells["south-pocket2.01"]["lanes"] == 2


def test_shares_by_time_and_points_follow_the_pocket(tmp_path):
    turns = LEFT + 'turns = [{ start = "06:05", shares = [[1, 0, 0]] }, { start = "06:10", shares = [[1, 1, 1]] }]\n'
    made = build(read_study(study(tmp_path, turns, more=", points = [[0, 0], [0, 0.3]]")))
    assert [row for row in records(made, "turn") if row[0] == "south24"] == [["south24", "300", "900", "1000", "1"], ["south24", "600", "900", "1", "2"]]
    assert made.units.points["south"] == [[0, 0], [0, pytest.approx(0.24)]]
    assert made.units.points["south-pocket1"] == [[0, pytest.approx(0.24)], [0, 0.3]]


def test_who_gives_way_out_of_a_pocket_passes_as_from_a_lane_of_its_own(tmp_path, recording_program):
    path = tmp_path / "study.toml"
    text = STUDY.format(pockets="{pockets}", shares="[1, 0, 1]", lasting=900, lanes=1, more="", limit="").replace(
        'from = ["south"]', 'from = ["south", "east"]').replace("shares = [[1, 0, 1]]", "shares = [[1, 0, 1], [1, 1, 0]]").replace(
        "[gates]", 'east = { length = "100 m", lanes = 1 }\n[gates]\nfrom-east = { into = "east", demand = 800 }')
    yields = ('yields = [{ movement = ["south", "right"], yields_to = [["east", "ahead"]], kind = "minor-right" },\n'
              '  { movement = ["south", "left"], yields_to = [["east", "ahead"], ["east", "left"]], kind = "minor-left" }]\n')
    found = {}
    for pocket in ("", LEFT):
        path.write_text(text.replace("{pockets}", yields + pocket))
        prepared = opened(path)
        found[pocket] = {one.road: float(one.capacities[-1].flow) for one in prepared.settled.study.yields}
    # 400 and 800 vehicles/h have priority. By Harders 400·exp(-400·6.2/3600)/(1 - exp(-400·3.3/3600)) = 654 and
    # 800·exp(-800·7.1/3600)/(1 - exp(-800·3.5/3600)) = 306 pass. In one lane of both each passes 1/(1/654 + 1/306) = 208.
    assert found[LEFT] == {"south-right": pytest.approx(654, rel=0.02), "south-left": pytest.approx(306, rel=0.02)}
    assert list(found[""].values()) == [pytest.approx(208, rel=0.02)] * 2


@pytest.mark.parametrize("pockets, told", [
    ('pockets = [{ movements = [["south", "left"]], length = 60 }]\n',
     "junctions[1].pockets[1].length: 60,000 m leave less than a cell, 10 m, of south, which has 300 m; a number without a unit is in km"),
    ('pockets = [{ movements = [["south", "left"]], lanes = 0 }]\n', "junctions[1].pockets[1].lanes: expected a whole number, 1 or more, found 0"),
    ('pockets = [{ movements = [["south", "left"]], length = 0 }]\n', "junctions[1].pockets[1].length: must be above 0"),
    ('pockets = [{ movements = [] }]\n', "junctions[1].pockets[1].movements: expected movements of one approach"),
    ('pockets = [{ lanes = 1 }]\n', "junctions[1].pockets[1].movements: expected movements of one approach"),
    ('pockets = [{ movements = [["south", "left"], ["south", "ahead"], ["south", "right"]] }]\n',
     "junctions[1].pockets[1]: all vehicles of south drive into this pocket, so it separates none; remove it"),
    (LEFT.replace("}]", '}, { movements = [["south", "left"]] }]'),
     "junctions[1].pockets[2].movements: south to left stands in two pockets, and each movement has one"),
    ('pockets = [{ movements = [["in", "left"]] }]\n', "junctions[1].pockets[1].movements[1]: in isn't of this junction, which has south")])
def test_what_a_pocket_cannot_be(tmp_path, pockets, told):
    with pytest.raises(Problem) as found:
        read_study(study(tmp_path, pockets))
    assert told in str(found.value)


def test_a_pocket_of_a_gate_is_refused(tmp_path):
    path = study(tmp_path, LEFT.replace("south", "in"))
    path.write_text(path.read_text().replace('from = ["south"]', 'from = ["in"]').replace('in = { into = "south", demand = 720 }', "in = { demand = 720 }"))
    with pytest.raises(Problem, match="pockets\\[1\\]: in is a gate, and a pocket is of a road; lead the gate into one"):
        read_study(path)


@pytest.mark.parametrize("part, before, behind", [
    (0.5, [[0, 0], [3, 0], [3, 1]], [[3, 1], [3, 5]]), (0.375, [[0, 0], [3, 0], [3, 0]], [[3, 0], [3, 5]]),
    (0.25, [[0, 0], [2, 0]], [[2, 0], [3, 0], [3, 5]])])
def test_a_line_cut_where_a_part_of_it_is_reached(part, before, behind):
    assert cut_at([[0, 0], [3, 0], [3, 5]], part) == (before, behind)


def test_fewer_than_two_points_are_no_line():
    assert cut_at([[1.0, 2.0]], 0.5) == ([], [])


@pytest.mark.parametrize("room, left, right", [
    # In lanes of their own 556 of those to the right and 223 of those to the left pass, 779 in all, and in one lane 1/(0.5/556 + 0.5/223)
    # = 318. By the manual 100 of each would have queues of 100/3600·(12.9 and 34.0) = 0.36 and 0.94, so room for two is enough; for one it
    # is half of the way, 549. Each movement has half of that, and no more than from a lane of its own.
    (0, 159, 159), (1, 223, 274), (2, 223, 389)])
def test_a_flare_passes_as_its_room_lets(room, left, right):
    flows, passing = ({"l": numpy.array([100.0]), "r": numpy.array([100.0])}, {"l": numpy.array([223.0]), "r": numpy.array([556.0])})
    lanes = SharedLanes(1, ["l", "r"], 1800.0, room)
    assert lanes.flared("l", flows, passing) * passing["l"] == pytest.approx(left, abs=1)
    assert lanes.flared("r", flows, passing) * passing["r"] == pytest.approx(right, abs=1)


def test_the_queues_that_a_flare_has_to_hold():
    assert longest_queue(numpy.array([100.0, 100.0]), numpy.array([223.0, 556.0])).tolist() == [2, 1]


def test_a_flare_passes_more_out_of_a_side_street(tmp_path, recording_program):
    path = tmp_path / "study.toml"
    text = STUDY.format(pockets="FLARE", shares="[1, 0, 1]", lasting=900, lanes=1, more="", limit="").replace(
        'from = ["south"]', 'from = ["south", "east"]').replace("shares = [[1, 0, 1]]", "shares = [[1, 0, 1], [0, 1, 0]]").replace(
        "[gates]", 'east = { length = "100 m", lanes = 1 }\n[gates]\nfrom-east = { into = "east", demand = 700 }').replace("demand = 720", "demand = 200")
    yields = ('yields = [{ movement = ["south", "right"], yields_to = [["east", "ahead"]], kind = "minor-right" },\n'
              '  { movement = ["south", "left"], yields_to = [["east", "ahead"]], kind = "minor-left" }]\n')
    passed = []
    for flare in ("", 'flares = [{ from = "south", vehicles = 1 }]\n'):
        path.write_text(text.replace("FLARE", yields + flare))
        passed.append(sum(float(one.capacities[-1].flow) for one in opened(path).settled.study.yields))
    # 700·exp(-700·6.2/3600)/(1 - exp(-700·3.3/3600)) = 443 and 700·exp(-700·7.1/3600)/(1 - exp(-700·3.5/3600)) = 357: in one lane 395. By the
    # manual those to the left would wait 10.1 + 3.9 + 5 s each in a lane of their own, so 0.53 of them at once, and need room for 1.53, 2:
    # room for one is half of the way to 800, 598.
    assert passed[0] == pytest.approx(395, rel=0.02) and passed[1] == pytest.approx(598, rel=0.02)


@pytest.mark.parametrize("flares, told", [
    ('flares = [{ from = "north", vehicles = 1 }]\n', "junctions[1].flares[1].from: north isn't of this junction, which has south"),
    (APART + 'flares = [{ from = "south", vehicles = 1 }]\n', "junctions[1].flares[1]: a flare is of an approach without a signal"),
    ('flares = [{ from = "south", vehicles = 0 }]\n', "junctions[1].flares[1].vehicles: expected a whole number, 1 or more")])
def test_what_a_flare_cannot_be(tmp_path, flares, told):
    with pytest.raises(Problem) as found:
        read_study(study(tmp_path, flares))
    assert told in str(found.value)
