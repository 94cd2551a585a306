"""Arrivals at random: what is drawn, by its mean, and the delay of a side street and of a fixed green beside the manual's formulas."""

import pandas
import pytest

from ctmtools import build, draw, read_study, run
from ctmtools.approaches.by_approach import by_approach
from ctmtools.network_file.network import network_of
from ctmtools.runs.arrivals import Draw, at_random, lanes_giving_way
from ctmtools.runs.running import opened
from ctmtools.uncertainty.seeds import parts_of, seed_lines, seeded
from ctmtools.yielding.gaps import at_signal, at_stop, harders

from .corridor import corridor
from .plain_reports import reported

NETWORK = b"""ctm,1
steps,3600
gate,g,9,0
gate,h,9,0
road,a,60,0.5,1,5,0
road,b,60,0.5,1,5,0
exit,x,9
exit,y,9
link,g,a
link,a,x
link,h,b
link,b,y
limit,a,0,3600,0.1
demand,g,0,1800,0.15
demand,g,900,1800,0.15
demand,h,0,3600,0.2
"""
STUDY = """step = 2
start = "06:00"
duration = 3600
lane = { free_flow_speed = 50, wave_speed = 18, jam_density = 150, saturation_flow = 1800 }
[roads]
side = { length = "280 m", lanes = 1 }
main = { length = "30 m", lanes = 1 }
away = { length = "30 m", lanes = 1 }
along = { length = "30 m", lanes = 1 }
[gates]
in-side = { into = "side", demand = 150 }
in-main = { into = "main", demand = 600 }
[exits]
x = { from = "away" }
y = { from = "along" }
[[junctions]]
from = ["side", "main"]
into = ["away", "along"]
shares = [[1, 0], [0, 1]]
"""
STOP = 'yields = [{ movement = ["side", "away"], yields_to = [["main", "along"]], kind = "minor-through" }]\n'
LIGHT = 'cycle = 60\nphases = [{ from = ["side"], green = 10 }, { from = ["main"], green = 40 }]\n'


def demands(network, gate):
    """The vehicles that come to a gate by the steps from and to of each record."""
    return [(begin, end, count) for _, (name, begin, end, count) in network.numbered("demand") if name == gate]


def test_whole_vehicles_come_with_the_mean_of_the_demand():
    drawn = [at_random(network_of(NETWORK), [], Draw(1, number)) for number in range(1, 21)]
    rows = [demands(network, "g") for network in drawn]
    assert all(count == int(count) > 0 and end <= 1800 for row in rows for _, end, count in row)
    # Where both overlap they add up: 900·0.15 + 900·0.3 = 405 vehicles come in the mean, 20·405 = 8,100 in all, with a deviation of 90.
    assert sum((end - begin) * count for row in rows for begin, end, count in row) == pytest.approx(8100, abs=270)


def test_a_draw_is_by_its_seed_its_number_and_the_names():
    network = network_of(NETWORK)
    other = network_of(NETWORK.replace(b"demand,h,0,3600,0.2\n", b""))
    draw = Draw(1, 2)
    assert at_random(network, [], draw).content == at_random(network, [], draw).content
    assert demands(at_random(network, [], draw), "g") == demands(at_random(other, [], draw), "g")
    assert len({at_random(network, [], one).content for one in (Draw(1, 1), draw, Draw(2, 1))}) == 3


def test_gaps_pass_whole_vehicles_as_many_as_the_limit_in_the_mean():
    drawn = at_random(network_of(NETWORK), [["a"]], Draw(1, 1))
    assert "a" not in drawn.limits_of
    closed = sum(end - begin for _, (cell, begin, end, *_) in drawn.numbered("speed") if cell == "a")
    # 0.1 in each of 3,600 steps are 360 vehicles, each of which takes two steps of 0.5; the deviation is 19 vehicles, 38 steps.
    assert 3600 - closed == pytest.approx(720, abs=114)


def test_the_movements_of_a_lane_have_their_gaps_together():
    text = NETWORK.replace(b"limit,a,0,3600,0.1\n", b"limit,a,0,3600,0.1\nlimit,b,0,3600,0.3\n")
    drawn = at_random(network_of(text), [["a", "b"]], Draw(1, 1))
    spans = {cell: [(begin, end) for _, (name, begin, end, *_) in drawn.numbered("speed") if name == cell] for cell in "ab"}
    assert spans["a"] == spans["b"]
    # Of a lane's 0.5 a fourth is of the one.
    assert drawn.limits_of == {"a": [(0, 3600, 0.125)], "b": [(0, 3600, 0.375)]}


@pytest.mark.parametrize("control, by_hand", [
    # 417 vehicles/h pass by Harders, and of a delay of 18.4 s 5 s are for slowing down and starting, which the model doesn't have.
    (STOP, at_stop(150, harders(600, 6.5, 4.0), 1.0) - 5),
    # 1,800·10/60 = 300 pass. In even cycles each waits 50²/(120·(1 - 150/1800)) = 22.7 s, and by coming at random 3.0 s more.
    (LIGHT, 50 ** 2 / (120 * (1 - 150 / 1800)) + at_signal(150, 300, 1.0))])
def test_delay_below_capacity_is_that_of_the_manual(tmp_path, recording_program, control, by_hand):
    (tmp_path / "study.toml").write_text(STUDY + control)
    frame = seeded(opened(tmp_path / "study.toml"), 4)
    assert frame[frame.road == "side"].delay_each.mean() == pytest.approx(by_hand, rel=0.2)


def test_an_approach_has_its_gate_its_pockets_and_its_movements_once(tmp_path, recording_program):
    pocket = 'pockets = [{ movements = [["side", "away"]], length = "60 m" }]\n'
    text = STUDY.replace("[[1, 0], [0, 1]]", "[[1, 1], [0, 1]]").replace("duration = 3600", "duration = 600").replace("150\n", "1200\n")
    (tmp_path / "study.toml").write_text(text + LIGHT + pocket)
    report = run(tmp_path / "study.toml")
    found = parts_of(report).set_index("road")
    # All who wait do so before the stop lines, those who find no room on the road in its gate.
    assert list(found.index) == ["side", "main", "away", "along"] and found.delay[["away", "along"]].max() == 0
    assert found.delay.sum() == pytest.approx(report.delay_vehicle_hours) and found.delay.side > found.delay.main > 0


def test_what_the_manual_adds_for_random_arrivals_is_left_out_where_they_are_drawn(tmp_path, recording_program):
    (tmp_path / "study.toml").write_text(STUDY.replace("duration = 3600", "duration = 900") + LIGHT)
    report = run(tmp_path / "study.toml")
    even, drawn = by_approach(report).set_index("approach"), by_approach(report, drawn=True).set_index("approach")
    assert even.delay_random.side > 1 and (drawn.delay_random == 0).all()
    assert (drawn.delay_each == even.delay_even).all() and (drawn.longest_queue <= even.longest_queue).all()
    found = parts_of(report).set_index("road").delay_each.side, drawn.delay_each.side
    assert found == pytest.approx((even.delay_even.side,) * 2)


def test_who_gives_way_at_a_signal_has_no_gaps_drawn(tmp_path):
    (tmp_path / "study.toml").write_text(STUDY + LIGHT)
    made = build(read_study(tmp_path / "study.toml"))
    assert lanes_giving_way(read_study(tmp_path / "study.toml").scenario.yields, made.units) == []


def test_queues_are_told_in_metres_and_the_delay_of_all_in_hundredths(tmp_path):
    # In two minutes 28 more vehicles come to a lane than it passes: they wait in a cell of 250 m before it, with room for 72.
    report = reported(corridor(tmp_path, "[[roads.m.sections]]\nfrom = 0.5\nlanes = 1\n", demand='[["06:00", "06:02", 3000]]'))
    frame = parts_of(report).assign(draw=1)
    assert frame.set_index("road").queue.m == 250
    frame.attrs["delays"] = [0.25]
    assert "Arrivals at random, 1 draws: 0.25 vehicle-hours of delay, with even arrivals " in list(seed_lines(frame, report))[1]


def test_run_tells_means_and_intervals(tool, tmp_path, recording_program):
    (tmp_path / "study.toml").write_text(STUDY.replace("duration = 3600", "duration = 600") + STOP)
    called = ("run", tmp_path / "study.toml", "-o", tmp_path / "s.report", "--seeds", "2")
    status, out, _ = tool(*called)
    assert status == 0 and "Arrivals at random, 2 draws: " in out and "  side " in out
    status, _, told = tool(*called, "--every", "0")
    assert status == 2 and "--seeds: goes with records" in told


ARRIVALS = '[[uncertain]]\narrivals = "random"\n'


def test_draws_have_the_arrivals_and_gaps_of_a_run_with_seeds(tmp_path, recording_program):
    (tmp_path / "study.toml").write_text(STUDY.replace("duration = 3600", "duration = 900") + STOP + ARRIVALS)
    seeds, found = seeded(opened(tmp_path / "study.toml"), 2), draw(tmp_path / "study.toml", runs=2, jobs=1)
    assert found.delays("study").tolist() == pytest.approx(seeds.attrs["delays"])
    # As it stands they come evenly, and nobody waits; and at free flow gaps hold nobody up.
    assert found.as_it_stands("study", "delay") == pytest.approx(0, abs=0.01) and found.delays("study").min() > 0.05
    assert set(found.free["study"].values()) == {10 * 2 / 60, 2 / 60, 13 * 2 / 60}


def test_arrivals_are_drawn_beside_what_varies_the_same_in_each_plan(tool, tmp_path, recording_program):
    text = STUDY.replace("duration = 3600", "duration = 600") + LIGHT + ARRIVALS
    (tmp_path / "a.toml").write_text(text)
    (tmp_path / "b.toml").write_text(text)
    status, out, err = tool("draw", "a.toml", "b.toml", "--runs", "2", "-j", "1")
    assert status == 0 and ": 2 draws, seed 1, arrivals at random\n" in out, err
    rows = pandas.read_csv("a.draw/draws.csv").set_index(["plan", "draw"]).delay_vehicle_hours
    assert rows["a"].tolist() == rows["b"].tolist() and rows.nunique() == 2
    (tmp_path / "a.toml").write_text(text + '[[uncertain]]\nkey = "demand"\nfactor = "uniform"\nleast = 0.1\nmost = 0.2\n')
    few = draw("a.toml", runs=1, jobs=1).rows
    assert 0.1 < few.demand[0] < 0.2 and few.left_vehicles[0] == int(few.left_vehicles[0]) < 40
