"""Who gives way: the keys of a study, the limits that runs settle at, and the cases of docs/VALIDATION.md on paper."""

from fractions import Fraction
from functools import partial
from math import exp
from types import SimpleNamespace

import numpy
import pytest

from ctmtools import Problem, read_study
from ctmtools.program.calls import ask
from ctmtools.report.queues import queues_in
from ctmtools.runs.running import run, settled_by_runs
from ctmtools.study.network_text import Builder
from ctmtools.yielding.conflicts import SharedLanes, flow_of
from ctmtools.yielding.yielding import Yielding

from .examples import EXAMPLES
from .validation_tables import PAGE, figures_of, number, rows_under

LANE = """step = 2
start = "07:00"
end = "08:00"
[lane]
free_flow_speed = 50
wave_speed = 18
jam_density = 150
saturation_flow = 1800
"""
SIDE = LANE + """[roads]
before = {{ length = 0.2, lanes = 1 }}
behind = {{ length = 0.2, lanes = 1 }}
side = {{ length = 0.5, lanes = 1 }}
[gates]
main = {{ into = "before", demand = {main} }}
village = {{ into = "side", demand = [["07:00", "07:30", {low}], ["07:30", "08:00", {high}]] }}
[exits]
out = {{ from = "behind" }}
[[merges]]
from = ["before", "side"]
into = "behind"
priorities = [1, 1]
yields_to = "before"
"""
CROSSING = LANE + """[roads]
n = {{ length = 0.2, lanes = 1 }}
s = {{ length = 0.2, lanes = 1 }}
e = {{ length = 0.2, lanes = 1 }}
x = {{ length = 0.2, lanes = 1 }}
y = {{ length = 0.2, lanes = 1 }}
[gates]
gn = {{ into = "n", demand = 400 }}
gs = {{ into = "s", demand = 600 }}
ge = {{ into = "e", demand = 100 }}
[exits]
ox = {{ from = "x" }}
oy = {{ from = "y" }}
[[junctions]]
from = ["n", "s", "e"]
into = ["x", "y"]
shares = [[1, 0], [0, 1], [1, 1]]
{more}
"""


def write(tmp_path, text):
    path = tmp_path / "study.toml"
    path.write_text(text)
    return path


def settle(tmp_path, text):
    """What is settled of a study's text, and the report of its network with each step recorded."""
    found = settled_by_runs(read_study(write(tmp_path, text)).scenario)
    return found, recorded(found.built)


def recorded(built):
    return run(built.text.encode(), "study", built.units, 1, network=built.network)[1]


def flow(report, cell, begin, end):
    """The vehicles/h that leave a cell from a minute to another."""
    return flow_of(report, cell, [begin * 30, end * 30])[0]


FEW, MANY = 0.96, 1.04  # of what passes, until 07:30 and from then on
SIDE_STREETS = rows_under("Priority, vehicles/h | Passes by the formula | By the program | The queue begins | Waiting at 08:00 on paper | "
                          "By the program")


@pytest.mark.parametrize("priority, formula, passes, begins, paper, waits", SIDE_STREETS)
def test_a_side_street_passes_what_its_formula_lets_and_queues_from_there_on(tmp_path, recording_program, priority, formula, passes, begins,
                                                                             paper, waits):
    main, capacity = int(number(priority)), number(formula)
    assert formula == f"{main * exp(-6.2 * main / 3600) / (1 - exp(-3.3 * main / 3600)):.1f}"
    low, high = round(capacity * FEW), round(capacity * MANY)
    found, report = settle(tmp_path, SIDE.format(main=main, low=low, high=high))
    assert found.is_settled and found.runs <= 3
    last = report.units.roads["side"][-1]
    # Below capacity nobody waits beyond the time of the first vehicle, above it the street passes its capacity.
    assert flow(report, last, 10, 30) == pytest.approx(low, rel=0.005)
    assert flow(report, last, 40, 60) == pytest.approx(capacity, rel=0.005)
    side = report.units.roads["side"]
    held = report.vehicles[side].sum(axis=1)
    assert held[900] == pytest.approx(low * 36 / 3600, rel=0.01)
    # From 07:30:36 on what comes beyond the capacity waits: 4 % of it for 29.4 minutes.
    queued = held[1800] - high * 36 / 3600
    assert paper == f"{(high - capacity) * 29.4 / 60:.1f}"
    assert queued == pytest.approx(number(paper), rel=0.06, abs=0.3)
    assert f"{queued + report.vehicles.village[1800]:.1f}" == waits
    assert (f"{flow(report, last, 40, 60):.1f}", report.units.clock(queues_in(report)[0].start, True)) == (passes, begins)


def test_the_network_that_is_settled_at_is_run_again_byte_for_byte(tmp_path, tool, recording_program):
    write(tmp_path, SIDE.format(main=600, low=300, high=600))
    status, out, _ = tool("run", "study.toml")
    assert status == 0 and "merges[1], side: 505 to 5" in out and "settled after 2 runs" in out
    again = ask(("run", "--every", "1"), (tmp_path / "study.csv").read_bytes())
    assert again.out == (tmp_path / "study.report").read_bytes()


def roundabout(demand):
    """Four arms alike, of whose drivers half leave at each exit: as many circulate past an entry as come in at it."""
    text = LANE.replace("speed = 50", "speed = 30") + "[roads]\n"
    for i in range(4):
        text += f"arm{i} = {{ length = 0.3, lanes = 1 }}\nring{i} = {{ length = 0.05, lanes = 1 }}\n"
        text += f"past{i} = {{ length = 0.05, lanes = 1 }}\n"
    for i in range(4):
        text += f"[gates.g{i}]\ninto = \"arm{i}\"\ndemand = {demand}\n[exits.o{i}]\n"
        text += f"[[merges]]\nfrom = [\"past{i}\", \"arm{i}\"]\ninto = \"ring{i}\"\npriorities = [1, 1]\n"
        text += f"yields_to = \"past{i}\"\nkind = \"roundabout\"\n"
        text += f"[[diverges]]\nfrom = \"ring{i}\"\ninto = [\"past{(i + 1) % 4}\", \"o{i}\"]\nshares = [1, 1]\n"
    return text


def test_four_arms_of_a_roundabout_alike_pass_what_they_do_by_hand(tmp_path, recording_program):
    # e = 1,380·exp(-0.00102·e) has the root 685.7, so of 800 vehicles/h that many come in at each arm.
    [root], [told] = figures_of("roundabout of four arms alike")
    assert root == f"{1380 * exp(-0.00102 * number(root)):.1f}" == "685.7"
    found, report = settle(tmp_path, roundabout(800))
    assert found.is_settled
    passed = [flow(report, report.units.roads[f"arm{i}"][-1], 20, 60) for i in range(4)]
    assert passed == pytest.approx([685.7] * 4, rel=0.01)
    assert f"{passed[0]:.1f}" == told and f"With 800 vehicles/h at each arm the program settles after {found.runs} runs at {told}" in PAGE
    assert max(passed) - min(passed) < 0.01


def test_a_roundabout_below_its_capacity_holds_nobody_up(tmp_path, recording_program):
    _, report = settle(tmp_path, roundabout(600))
    assert report.total.delay == pytest.approx(0, abs=0.5)


PERMITTED = """cycle = 60
phases = [{ from = ["n", "s"], green = 30, permitted = [["s", "y"]] }, { from = ["e"], start = 35, green = 20 }]
yields = [{ movement = ["s", "y"], yields_to = [["n", "x"]], sneakers = SNEAKERS }]
"""


@pytest.mark.parametrize("sneakers, capacity", [(0, 357.3), (2, 477.3)])
def test_a_permitted_left_turn_passes_what_it_does_by_hand(tmp_path, recording_program, sneakers, capacity):
    # The queue towards it is gone after 8.57 s of its green; in the other 21.43 s pass 1,000.3 vehicles/h, and 2 at its end.
    found, report = settle(tmp_path, CROSSING.format(more=PERMITTED.replace("SNEAKERS", str(sneakers))))
    assert found.is_settled
    passes = flow(report, "s-y1", 20, 60)
    assert passes == pytest.approx(capacity, rel=0.01)
    if sneakers:
        assert figures_of("permitted left turn") == [[str(capacity)], [f"{passes:.1f}"]]


@pytest.mark.parametrize("sneakers", ["0", "2"])
def test_a_left_turn_is_alone_in_the_phase_in_which_it_is_not_permitted(tmp_path, recording_program, sneakers):
    more = PERMITTED.replace("SNEAKERS", sneakers).replace('{ from = ["e"], start = 35', '{ from = ["s"], start = 30, green = 5 }, '
                                                      '{ from = ["e"], start = 35')
    _, report = settle(tmp_path, CROSSING.format(more=more))
    # In 6 s more at 1,800 vehicles/h 3 pass, 180 in an hour. Nobody turns late where the green goes on.
    assert flow(report, "s-y1", 20, 60) == pytest.approx(357.3 + 180, rel=0.01)


@pytest.mark.parametrize("changes, capacity", [
    # Two lanes of 800 are gone as soon as one of 400. Past 800 turn 800·exp(-1)/(1 - exp(-0.55556)) = 690.5 in 21.43 s of 60, and 2.
    ([('n = { length = 0.2, lanes = 1', 'n = { length = 0.2, lanes = 2'), ('x = { length = 0.2, lanes = 1', 'x = { length = 0.2, lanes = 2'),
      ('into = "n", demand = 400', 'into = "n", demand = 800')], 366.6),
    # Of 600 who come towards it a third turn right. They needn't be heeded, but stand in the queue, of 600·30/(1,800 - 600) = 15 s.
    ([("shares = [[1, 0],", "shares = [[2, 1],"), ('into = "n", demand = 400', 'into = "n", demand = 600')], 1000.3 / 4 + 120),
    # Greens that begin 20 s later let as many turn.
    ([("cycle = 60", "cycle = 60\noffset = 20")], 477.3)])
def test_what_comes_towards_a_permitted_left_turn_clears_as_it_stands(tmp_path, recording_program, changes, capacity):
    text = CROSSING.format(more=PERMITTED.replace("SNEAKERS", "2"))
    for old, new in changes:
        assert old in text
        text = text.replace(old, new)
    found, report = settle(tmp_path, text)
    assert found.is_settled and flow(report, "s-y1", 20, 60) == pytest.approx(capacity, rel=0.01)


def test_a_left_turn_out_of_a_side_street_waits_for_a_right_of_way_that_waits_itself(tmp_path, recording_program):
    more = """yields = [{ movement = ["s", "y"], yields_to = [["n", "x"]], kind = "major-left" },
      { movement = ["e", "y"], yields_to = [["s", "y"]], kind = "minor-right" }]"""
    found, _ = settle(tmp_path, TWO_LANES.format(more=more))
    right = next(one for one in found.study.yields if one.road == "e-y").capacities[-1]
    # Of the 1,169.5 who may turn left by 400·0.63412/0.21689, 600 do; beside them 504.6 might leave the side street.
    assert float(right.flow) == pytest.approx(504.6 * (1 - 600 / 1169.5), rel=0.01)


TWO_LANES = CROSSING.replace("e = {{ length = 0.2, lanes = 1", "e = {{ length = 0.2, lanes = 2")  # one for each turn
OUT_OF_E = 'yields = [{ movement = ["e", "y"], yields_to = [["n", "x"], OTHER], KEYS }]'


@pytest.mark.parametrize("part, capacity", [("", 297.7), (", 0.5", 442.7), (", 2", 132.2)])
def test_a_part_of_a_flow_counts_as_the_study_says(tmp_path, recording_program, part, capacity):
    # Of 600 vehicles/h beside 400 count all, half or twice as many: past 1,000, 700 and 1,600 by Harders with 6.2 and 3.3 s.
    more = OUT_OF_E.replace("OTHER", f'["s", "y"{part}]').replace("KEYS", 'kind = "minor-right"')
    found, _ = settle(tmp_path, TWO_LANES.format(more=more))
    assert last_limits(found) == {"e-y": pytest.approx(capacity, rel=0.003)}
    # Half of a lane's vehicles turn the other way at 1,800 vehicles/h, so of 1/(0.5/c + 0.5/1,800) half give way.
    found, _ = settle(tmp_path, CROSSING.format(more=more))
    assert last_limits(found) == {"e-y": pytest.approx(0.5 / (0.5 / capacity + 0.5 / 1800), rel=0.003)}


BOTH_OUT_OF_E = """yields = [{ movement = ["e", "y"], yields_to = [["s", "y"]], kind = "minor-right" },
    { movement = ["e", "x"], yields_to = [["n", "x"], ["s", "y"]], kind = "minor-left", legs = 3 }]"""


def of_side_street(demand, text=CROSSING):
    return text.format(more=BOTH_OUT_OF_E).replace('into = "e", demand = 100', f'into = "e", demand = {demand}')


def test_two_movements_of_one_lane_share_its_capacity(tmp_path, recording_program):
    # Past 600 turn right 600·exp(-600·6.2/3600)/(1 - exp(-600·3.3/3600)) = 504.6, and past 1,000 left 1,000·exp(-1,000·6.4/3600)/
    # (1 - exp(-1,000·3.5/3600)) = 169.013/0.621759 = 271.8. Half of a lane each, they pass 500/(250/504.6 + 250/271.8) = 353.3.
    found, report = settle(tmp_path, of_side_street(500))
    assert found.is_settled and last_limits(found) == {"e-y": pytest.approx(176.65, rel=0.005), "e-x": pytest.approx(176.65, rel=0.005)}
    assert flow(report, "e-x1", 20, 60) + flow(report, "e-y1", 20, 60) == pytest.approx(353.3, rel=0.005)
    # From lanes of their own 500 pass: 250 of 271.8 and of 504.6.
    found, report = settle(tmp_path, of_side_street(500, TWO_LANES))
    assert flow(report, "e-x1", 20, 60) + flow(report, "e-y1", 20, 60) == pytest.approx(500, rel=0.005)


def test_who_shares_a_lane_loses_what_its_lane_does_by_coming_at_random(tmp_path, recording_program):
    # x = 300/353.3 = 0.84914: 3600/353.3 + 225·(-0.15086 + sqrt(0.022759 + 8·0.84914/88.325)) + 5 = 10.19 + 37.09 + 5 = 52.28 s each.
    found, report = settle(tmp_path, of_side_street(300))
    assert report.delay_vehicle_hours == pytest.approx(0, abs=0.1)
    assert [loss.hours * 3600 / loss.vehicles for loss in found.waits] == pytest.approx([52.3, 52.3], rel=0.03)


def test_who_drives_through_waits_behind_a_permitted_left_turn_of_his_lane(tmp_path, recording_program):
    text = CROSSING.format(more=PERMITTED.replace("SNEAKERS", "2"))
    for old, new in (("shares = [[1, 0], [0, 1], [1, 1]]", "shares = [[1, 0], [1, 1], [1, 1]]"), ("demand = 600", "demand = 800"),
                     ("x = { length = 0.2, lanes = 1", "x = { length = 0.2, lanes = 2")):
        assert old in text
        text = text.replace(old, new)
    found, report = settle(tmp_path, text)
    # Half of them turn left, 4.82 in a cycle, of whom the first comes after 30·exp(-0.860·4.82^0.629) - 2 = 0.97 s at 1,800. From 8.57
    # s on pass 1,800/(1 + 0.5·(1,800/1,000.3 - 1)) = 1,286.0, and 1.5 at the end: (0.97·1,800 + 21.43·1,286.0)/60 + 90 = 578.4.
    assert found.is_settled
    assert flow(report, "s-x1", 20, 60) + flow(report, "s-y1", 20, 60) == pytest.approx(578.4, rel=0.02)


APPROACH = LANE + """[roads]
s = {{ length = 0.2, lanes = {lanes} }}
n = {{ length = 0.2, lanes = 1 }}
east = {{ length = 0.2, lanes = 2 }}
ahead = {{ length = 0.2, lanes = 2 }}
west = {{ length = 0.2, lanes = 2 }}
[gates]
gs = {{ into = "s", demand = 400 }}
gn = {{ into = "n", demand = 400 }}
[exits]
oe = {{ from = "east" }}
oa = {{ from = "ahead" }}
ow = {{ from = "west" }}
[[junctions]]
from = ["s", "n"]
into = ["east", "ahead", "west"]
shares = [[1, 6, 1], [0, 0, 1]]
lanes = [{table}, [0, 0, 1]]
cycle = 60
phases = [{{ green = 30, permitted = [["s", "west"]] }}]
yields = [{{ movement = ["s", "west"], yields_to = [["n", "west"]] }}]
"""
POCKETS = LANE + """[roads]
n = { length = 0.2, lanes = 2 }
s = { length = 0.2, lanes = 2 }
[gates]
gn = { into = "n", demand = 600 }
gs = { into = "s", demand = 1000 }
[exits]
a = { from = "oa" }
b = { from = "ob" }
c = { from = "oc" }
d = { from = "od" }
[roads.oa]
length = 0.2
lanes = 1
[roads.ob]
length = 0.2
lanes = 1
[roads.oc]
length = 0.2
lanes = 1
[roads.od]
length = 0.2
lanes = 1
[[junctions]]
from = ["n", "s"]
into = ["oa", "ob", "oc", "od"]
shares = [[5, 0, 1, 0], [0, 1, 0, 1]]
cycle = 80
phases = [{ green = 40, permitted = [["n", "oc"], ["s", "ob"]] }]
yields = [{ movement = ["n", "oc"], yields_to = [["s", "od"]] }, { movement = ["s", "ob"], yields_to = [["n", "oa"]] }]
"""


def test_a_permitted_left_turn_faces_the_lane_ahead_and_not_the_pocket_beside_it(tmp_path, recording_program):
    # Of 600 who come 500 drive through, from one lane: their queue clears in 500·40/(1,800 - 500) = 15.38 s. In the other 24.62 s of 80
    # turn 500·exp(-0.625)/(1 - exp(-0.34722)) = 912.3, so 280.7, and 2 in each cycle's end, 90.
    found, report = settle(tmp_path, POCKETS)
    assert found.is_settled and flow(report, "s-ob1", 20, 60) == pytest.approx(370.7, rel=0.01)


def test_what_passes_is_that_of_the_flow_in_the_same_interval(tmp_path, recording_program):
    text = SIDE.format(main='[["07:00", "07:30", 300], ["07:30", "08:00", 900]]', low=100, high=100)
    found, _ = settle(tmp_path, text.replace("step = 2", 'step = 2\nyield_interval = "10 min"'))
    limits = {float(one.start): float(one.flow) for one in found.study.yields[0].capacities}
    # In the interval from 07:30 on who comes first needs 15 s to the merge, so of 10 min 15 s have 300 and the others 900 an hour.
    assert sorted(limits)[1:] == [start for start in range(600, 3600, 600) if start in limits] and 1800 in limits
    assert limits[1800] == pytest.approx(346.9, rel=0.01) and limits[600] == pytest.approx(744.3, rel=0.003)


@pytest.mark.parametrize("keys, critical, follow_up, gives_way", [
    ('kind = "minor-left"', "7.1", "3.5", False), ('kind = "minor-left", legs = 3', "6.4", "3.5", False),
    ('kind = "minor-left", priority_lanes = 4, legs = 3', "6.8", "3.5", False), ('kind = "minor-right", legs = 3', "6.2", "3.3", False),
    ('kind = "minor-right", priority_lanes = 6', "7.1", "3.9", False), ('kind = "minor-through"', "6.5", "4", False),
    ('kind = "major-left", priority_lanes = 6', "5.3", "3.1", True), ('kind = "major-left", control = "stop"', "4.1", "2.2", False),
    ('kind = "minor-right", control = "give_way"', "6.2", "3.3", True), ('kind = "roundabout"', "4.976", "2.609", True),
    ('critical_gap = "5 s", follow_up = "3 s"', "5", "3", True), ('kind = "minor-left", follow_up = "3 s"', "7.1", "3", False)])
def test_the_keys_of_a_study_say_the_gaps(tmp_path, keys, critical, follow_up, gives_way):
    more = OUT_OF_E.replace("OTHER", '["s", "y"]').replace("KEYS", keys)
    one, = read_study(write(tmp_path, CROSSING.format(more=more))).scenario.yields
    assert (one.gaps.critical, one.gaps.follow_up, one.gaps.give_way) == (Fraction(critical), Fraction(follow_up), gives_way)


def test_a_median_before_six_lanes_has_no_usual_gap(tmp_path):
    keys = 'kind = "minor-left", priority_lanes = 6, median = 1, first = [["n", "x"]]'
    more = OUT_OF_E.replace("OTHER", '["s", "y"]').replace("KEYS", keys)
    with pytest.raises(Problem, match=r"yields\[1\].stage_gap: is missing"):
        read_study(write(tmp_path, CROSSING.format(more=more)))
    one, = read_study(write(tmp_path, CROSSING.format(more=more.replace("median", 'stage_gap = "7 s", median')))).scenario.yields
    assert one.stage.critical == 7


@pytest.mark.parametrize("more, why", [
    ('yields = [{ movement = ["s", "y"], yields_to = [["n", "x"]] }]', "yields[1].kind: is missing"),
    ('yields = [{ movement = ["s", "y"], yields_to = [["n", "y"]], kind = "major-left" }]', "no vehicle drives from n to y"),
    ('yields = [{ movement = ["s", "y"], yields_to = [], kind = "major-left" }]', "expected other movements"),
    ('yields = [{ movement = ["s", "y"], yields_to = [["n", "x"]], kind = "left" }]', "expected one of major-left"),
    ('yields = [{ movement = ["s", "y"], yields_to = [["n", "x"]], kind = "minor-left", control = "halt" }]',
     "expected stop or give_way, found halt"),
    ('yields = [{ movement = ["s", "y"], yields_to = [["n", "x"]], kind = "minor-left", median = 1 }]', "yields[1].first"),
    (PERMITTED.replace(', permitted = [["s", "y"]]', "").replace("SNEAKERS", "2"), "is permitted in no phase"),
    (PERMITTED.split("yields")[0], "gives way to none")])
def test_what_a_study_cant_mean_is_refused_with_its_place(tmp_path, more, why):
    with pytest.raises(Problem) as refused:
        read_study(write(tmp_path, CROSSING.format(more=more)))
    assert why in str(refused.value) and "junctions[1]" in str(refused.value)


def test_of_many_who_do_not_give_way_eight_are_told_and_how_many_more_there_are():
    study = SimpleNamespace(meters=[], actuated=[], yields=[SimpleNamespace(name=f"y{number}", capacities=None) for number in range(10)])
    told = list(Builder._left_out(SimpleNamespace(study=study)))
    assert len(told) == 9 and told[7].startswith("y7: ") and told[8] == "and 2 more that don't give way in this network"


def test_build_tells_that_nobody_gives_way_yet(tmp_path, tool):
    write(tmp_path, SIDE.format(main=600, low=300, high=600))
    status, out, _ = tool("build", "study.toml")
    assert status == 0 and "warning: merges[1], side: doesn't give way in this network; `ctm-tools run`" in out


@pytest.mark.parametrize("name, traffic, delay", [
    ("stop", 1, 0), ("stop", 1.2, 59.1), ("stop", 1.5, 216.5), ("roundabout", 1.3, 0), ("roundabout", 1.5, 65.5),
    ("signal", 1, 5.39), ("signal", 1.5, 10.24)])
def test_the_village_has_the_delay_of_paper(name, traffic, delay, recording_program):
    study = read_study(EXAMPLES / f"village-{name}.toml").scenario
    for gate in study.gates.values():
        for row in gate.demand:
            row.flow *= Fraction(traffic).limit_denominator(10)
    report = recorded(settled_by_runs(study).built)
    assert report.delay_vehicle_hours == pytest.approx(delay, rel=0.006, abs=0.01)


RANKS = LANE + """[roads]
a = {{ length = 0.2, lanes = 1 }}
b = {{ length = 0.2, lanes = 1 }}
c = {{ length = 0.2, lanes = 1 }}
d = {{ length = 0.2, lanes = 1 }}
[gates]
ga = {{ into = "a", demand = {flows[0]} }}
gb = {{ into = "b", demand = {flows[1]} }}
gc = {{ into = "c", demand = {flows[2]} }}
gd = {{ into = "d", demand = {flows[3]} }}
[exits.w]
[exits.x]
[exits.y]
[exits.z]
[[junctions]]
from = ["a", "b", "c", "d"]
into = ["w", "x", "y", "z"]
shares = [[1, 0, 0, 0], [0, 1, 0, 0], [0, 0, 1, 0], [0, 0, 0, 1]]
yields = [{yields}]
"""
OF_RANKS = ('{ movement = ["b", "x"], kind = "major-left", yields_to = [["a", "w"]] }, '
            '{ movement = ["c", "y"], kind = "minor-through", yields_to = [["a", "w"], ["b", "x"]] }, '
            '{ movement = ["d", "z"], kind = "minor-left", yields_to = [["a", "w"], ["b", "x"], ["c", "y"]] }')


def last_limits(found):
    return {one.road: float(one.capacities[-1].flow) for one in found.study.yields}


def test_each_rank_is_held_up_by_those_above_it_as_much_as_they_are_themselves(tmp_path, recording_program):
    found = settled_by_runs(read_study(write(tmp_path, RANKS.format(flows=[300, 100, 100, 100], yields=OF_RANKS))).scenario)
    # Past 300, 400 and 500 the gaps let pass 1,272.8, 541.4 and 484.5. Rank 2 waits with 100/1,272.8, so of rank 3 pass 541.4·0.92143 =
    # 498.9, and of rank 4 484.5·0.92143·(1 - 100/498.9) = 356.9; with 541.4 in its place it would be 364.0.
    assert last_limits(found) == {"b-x": pytest.approx(1272.8, rel=0.003), "c-y": pytest.approx(498.9, rel=0.003),
                                  "d-z": pytest.approx(356.9, rel=0.003)}


EACH_OTHER = ('{ movement = ["a", "w"], kind = "minor-through", yields_to = [["b", "x"]] }, '
              '{ movement = ["b", "x"], kind = "minor-through", yields_to = [["a", "w"]] }')


def test_two_full_streets_that_give_way_to_each_other_share_what_there_is(tmp_path, recording_program):
    found = settled_by_runs(read_study(write(tmp_path, RANKS.format(flows=[1500, 1500, 0, 0], yields=EACH_OTHER))).scenario)
    # c(r) - r = r by Harders with 6.5 and 4.0 s, so exp(-6.5·r/3600) = 2·(1 - exp(-4·r/3600)): 0.5755 = 0.5765 at r = 306, and 305.7.
    assert found.is_settled and last_limits(found) == {"a-w": pytest.approx(305.7, rel=0.02), "b-x": pytest.approx(305.7, rel=0.02)}


@pytest.mark.parametrize("flows", [[0, 0, 0, 0], [1800, 1800, 1800, 1800], [0, 900, 900, 900]])
def test_no_traffic_and_too_much_of_it_settle(tmp_path, recording_program, flows):
    found = settled_by_runs(read_study(write(tmp_path, RANKS.format(flows=flows, yields=OF_RANKS))).scenario)
    assert found.is_settled and all(0 <= float(each.flow) <= 1800 for one in found.study.yields for each in one.capacities)


@pytest.mark.parametrize("step", [1, 3, 5])
def test_what_passes_is_the_same_by_other_steps(tmp_path, recording_program, step):
    text = SIDE.format(main=600, low=400, high=600).replace("step = 2", f"step = {step}")
    found = settled_by_runs(read_study(write(tmp_path, text)).scenario)
    assert last_limits(found) == {"side": pytest.approx(504.6, rel=0.005)}


@pytest.mark.parametrize("more, moved", [(0.9, 0), (2, 0.02)])
def test_a_move_is_that_of_the_steps_in_which_one_gives_way(more, moved):
    own = SimpleNamespace(green=SimpleNamespace(permitted=numpy.array([True, True, False])), rates=numpy.array([[100.0, 100, 900]]))
    assert Yielding.move(own, own.rates + numpy.array([more, more, 500])) == pytest.approx(moved)


@pytest.mark.parametrize("green, chance", [(None, 0.75), ((0, 30), 1.0)])
def test_those_with_priority_who_wait_themselves_hold_up_others_where_there_is_no_signal(monkeypatch, green, chance):
    monkeypatch.setattr("ctmtools.yielding.yielding.own_flow", lambda *_: numpy.array([100.0]))
    left = SimpleNamespace(cell="left", bounds=numpy.array([0, 60]), of="left", unimpeded=lambda *_: numpy.ones((1, 1)), shared=None)
    left.waiting = partial(Yielding.waiting, left)
    own = SimpleNamespace(bounds=numpy.array([0, 60]), green=green, units=SimpleNamespace(roads={}),
                          of=SimpleNamespace(streams=[SimpleNamespace(road="left", at=None)]))
    # Of those who turn left with priority 100 come where 400 may pass.
    assert Yielding.unimpeded(own, None, {"left": left}, {"left": numpy.array([[400.0]])}).tolist() == [[chance]]


def test_behind_a_left_turn_that_waits_stand_those_who_share_its_lane(monkeypatch):
    monkeypatch.setattr("ctmtools.yielding.yielding.own_flow", lambda *_: numpy.array([100.0]))
    lane = SimpleNamespace(freely=lambda *_: numpy.array([0.5]))
    # 100 of 400 turn left, and 900 of 1,800 drive through: 0.25/(1 - 0.5) of the time one of them waits at the head.
    own = SimpleNamespace(of="left", bounds=None, shared=lane)
    assert Yielding.waiting(own, None, numpy.array([400.0]), {}) == pytest.approx([0.5])


@pytest.mark.parametrize("lanes, parts", [(1, (0.25, 0.75)), (2, (0.5, 1))])
def test_each_has_a_lane_for_its_part_of_the_sum_of_v_over_c(lanes, parts):
    # 1 of 2 at 600 and 1 of 2 at 200: 0.5/600 to 0.5/200 is 1 to 3; of two lanes the second has no more than one.
    shares = {"right": numpy.array([0.5]), "left": numpy.array([0.5])}
    shared = SharedLanes(lanes, list(shares), 1800)
    passing = {"right": numpy.array([600.0]), "left": numpy.array([200.0])}
    assert [shared.part(cell, shares, passing)[0] for cell in shares] == pytest.approx(parts)


@pytest.mark.parametrize("lanes, table, wanted", [
    (1, "[1, 1, 1]", (1, 3)), (2, "[1, 1, 1]", None), (3, "[1, 1, 1]", None), (2, "[1, 2, 1]", (2, 3)), (3, "[1, 2, 1]", None)])
def test_who_gives_way_shares_lanes_where_those_beside_it_need_them(tmp_path, lanes, table, wanted):
    # Of two lanes those who turn west have one, and the others share the second, but where two lanes lead ahead.
    one, = read_study(write(tmp_path, APPROACH.format(lanes=lanes, table=table))).scenario.yields
    assert (one.shared and (one.shared.count, len(one.shared.roads))) == wanted


@pytest.mark.parametrize("lanes, wanted", [(1, (1, 3)), (2, (2, 3)), (3, None)])
def test_three_who_give_way_share_two_lanes(tmp_path, lanes, wanted):
    yields = ", ".join(f'{{ movement = ["s", "{way}"], yields_to = [["n", "west"]], kind = "minor-right" }}' for way in ("east", "ahead", "west"))
    text = APPROACH.format(lanes=lanes, table="[1, 1, 1]").split("cycle")[0] + f"yields = [{yields}]\n"
    found = {one.shared and (one.shared.count, len(one.shared.roads)) for one in read_study(write(tmp_path, text)).scenario.yields}
    assert found == {wanted}
