"""Drivers who choose their way, where it is known on paper which they take: docs/VALIDATION.md has the working."""

from dataclasses import replace
from pathlib import Path

import numpy
import pytest

from ctmtools import read_report
from ctmtools.assignment.assigning import Assignment, recorded_every
from ctmtools.assignment.choices import Choice, Departures
from ctmtools.assignment.forks import Fork, Rounded
from ctmtools.assignment.times import Pace, gap_of, swap
from ctmtools.assignment.messages import not_settled
from ctmtools.assignment.ways_file import read_ways
from ctmtools.study.reading import read_scenario, read_values

from .grids import grid_study
from .trips import TWO_PAIRS, TWO_WAYS, eight_ways
from .validation_tables import PAGE, figures_of


def assigned(folder, text, gap=0.01, rounds=50):
    """An assignment of a study of this text, and its rounds."""
    path = Path(folder) / "study.toml"
    path.write_text(text)
    made = Assignment(read_scenario(path))
    made.start()
    return made, list(made.rounds(gap, rounds))


def shares_of(made):
    """The part that goes into the first branch of the first diverge, in each step."""
    first, second = made.parts[0][:2]
    return numpy.repeat(first / (first + second), numpy.diff(made.bounds).astype(int))


@pytest.fixture(scope="module")
def two_ways(recording_program, tmp_path_factory):
    return assigned(tmp_path_factory.mktemp("two"), TWO_WAYS, 0.002)


def test_all_take_the_short_way_until_its_queue_costs_as_much(two_ways):
    made, _ = two_ways
    (choice,), (vehicles,) = made.choices, made.departures.by_interval
    short = next(place for place, way in enumerate(choice.ways) if "short01" in made.legs.cells(way))
    taken = choice.parts[short] * vehicles
    # 3,000 vehicles/h come, 2,000 pass: 5 min of queue after 10 min, two intervals of 5 min; then 2,000 of 3,000 go on so.
    assert taken[:2] == pytest.approx([250, 250]) and taken[2] < 200
    begins = 5 * next(place for place, vehicles in enumerate(taken) if vehicles < 249)
    assert figures_of("two routes") == [["07:10"], [f"07:{begins:02}"]]
    assert taken[2:].sum() == pytest.approx(2000 * 50 / 60, rel=0.03)
    assert f"Then {taken[2:].sum():,.0f} of 2,500 drivers do in place of 1,667" in PAGE
    times = made.times[0][:, 3:9] * 10 / 60
    assert times == pytest.approx(made.times[0][1 - short, 0] * 10 / 60, abs=0.35)


def test_the_delay_of_two_ways_is_the_one_on_paper(two_ways):
    made, rounds = two_ways
    # Waiting: 0 to 166.7 in 10 min, so for 50 min, and back to 0 in 5 min: 9,583 vehicle-minutes.
    paper = (166.67 * 5 + 166.67 * 50 + 166.67 * 2.5) / 60
    assert rounds[-1].delay == pytest.approx(paper, rel=0.02)
    assert figures_of("delay") == [[f"{paper:.1f}"], [f"{rounds[-1].delay:.1f}"]]
    assert f"a relative gap below 0.002, which {len(rounds)} rounds reach" in PAGE
    assert rounds[-1].settled(0.002)
    assert made.report.total.left == pytest.approx(3000, abs=1)


def test_the_gap_is_what_those_who_choose_need_beyond_the_best_ways():
    bounds = numpy.array([0.0, 1.0])
    departures = Departures([("a", "x"), ("b", "x")], bounds, numpy.array([[40.0], [10.0]]), 1, 1, 1.0)
    free, given = (Choice(gate, "x", numpy.array([0.5]), 2, [(0,), (1,)]) for gate in "ab")
    free.chosen[:], free.kept[:], given.chosen[:] = [[0.9], [0.1]], [[0.0], [1.0]], [[0.0], [1.0]]
    given.kept, given.given = given.chosen, True
    found = gap_of([free, given], departures, [numpy.array([[10.0], [12.0]])] * 2)
    # 20 choose, 18 of them the way of 10 steps and 2 that of 12; 20 keep that of 12, and 10 have no choice.
    assert (found.taken, found.least, found.all_) == pytest.approx((204, 200, 204 + 240 + 120))
    assert found.relative == pytest.approx(0.02)


@pytest.mark.parametrize("count, told", [(1, "it still falls, so more rounds help"), (7, "it no longer falls")])
def test_it_is_told_that_an_assignment_did_not_settle_and_why(count, told, two_ways):
    made, rounds = two_ways
    alike = [replace(rounds[-1], number=number) for number in range(1, count + 1)]
    line, = not_settled(made, alike, 1e-9)
    assert line.startswith(f"warning: after {count} rounds the gap is {rounds[-1].gap.relative:.4f}, above 1e-09; {told}")
    assert "; most of it is of drivers from home to work who depart at 07:" in line


def test_rounding_is_told_where_it_moves_a_share_by_more_than_a_thousandth():
    fork = Fork("diverges[1]", 0, (0, 1), (0, 1), ("m",))
    found = Rounded()
    found.note(fork, numpy.array([[1.0, 25.0], [9999.0, 75.0]]), numpy.array([[100, 250_000], [999_900, 750_000]]))
    # 1 in 4 stays. 1 in 10,000 becomes 1 in 1,001, the least share: of 10,000 vehicles 9.99 in place of 1.
    assert (found.intervals, found.of, found.where) == (1, 2, "diverges[1]")
    assert (found.greatest, found.vehicles) == pytest.approx((1 / 1001 - 1 / 10_000, 10_000 / 1001 - 1))


def test_the_study_that_is_written_has_the_report_of_the_last_round(tool, two_ways, tmp_path, recording_program):
    (tmp_path / "two.toml").write_text(TWO_WAYS)
    status, out, err = tool("assign", "two.toml", "--gap", "0.2")
    assert status == 0, err
    report = read_report("two.assigned.report")
    delay = float(out.split("of which the delay is ")[1].split()[0])
    assert report.units.hours(report.total.delay) == pytest.approx(delay, rel=1e-3)
    rows = read_ways(Path("two.assigned.ways.csv"))
    assert sum(row.vehicles for row in rows) == pytest.approx(3000, abs=1e-3)
    assert {row.roads for row in rows} == {("a", "short", "b"), ("a", "long", "b")}
    for name in ("two.assigned.gap.png", "two.assigned.ways.png"):
        assert (tmp_path / name).read_bytes().startswith(b"\x89PNG")
    assert "trips" not in read_values("two.assigned.toml")
    assert tool("run", "two.assigned.toml", "-o", "again.report")[0] == 0
    assert (tmp_path / "again.report").read_bytes() == (tmp_path / "two.assigned.report").read_bytes()
    status, out, err = tool("sweep", "two.assigned.toml", "--vary", "demand=0.5", "-j", "1")
    assert status == 0 and " 1,500 " in out, err  # half of the trips, by the same shares


def test_one_way_for_each_pair_is_the_study_with_demand_by_gate(tool, tmp_path, recording_program):
    roads = TWO_PAIRS.split("[[trips]]")[0]
    trips = "".join(f'[[trips]]\nfrom = "g"\nto = "{exit_}"\ndemand = {flow}\n' for exit_, flow in (("x", 600), ("y", 300)))
    (tmp_path / "trips.toml").write_text(roads + trips)
    by_hand = roads.replace('into = ["x", "y"]', 'into = ["x", "y"]\nshares = [2, 1]').replace(
        'into = "m"', 'into = "m"\ndemand = 900').split("[routing]")
    (tmp_path / "hand.toml").write_text(by_hand[0] + "[roads]" + by_hand[1].split("[roads]")[1])
    assert tool("assign", "trips.toml")[0] == 0
    assert tool("run", "hand.toml")[0] == 0
    assert (tmp_path / "trips.assigned.report").read_bytes() == (tmp_path / "hand.report").read_bytes()


def test_two_pairs_leave_a_queue_as_they_came_into_it(tmp_path, recording_program):
    made, rounds = assigned(tmp_path, TWO_PAIRS, 0.002)
    # 1,200 vehicles/h come and 900 pass, so who came in the first 10 min passes in 13 min 20 s, from 07:05 on: 3 of 4 to x,
    # until 07:18:20, step 110; then 1 of 4.
    shares = shares_of(made)
    assert shares[30:110] == pytest.approx(0.75, abs=0.003) and shares[110:180] == pytest.approx(0.25, abs=0.001)
    assert shares[90:120].mean() == pytest.approx((200 * 0.75 + 100 * 0.25) / 300, abs=0.0002)
    assert rounds[-1].settled(0.002) and rounds[-1].gap.relative == 0
    assert made.report.cells.come[["x", "y"]].tolist() == pytest.approx([200, 200], abs=1)
    # 150 and 50 vehicles of the first 10 min, 50 and 150 of the others, all of whom come to a branch.
    assert made.counts[list(made.forks[0].branches)].sum(axis=1) == pytest.approx([200, 200])


def test_who_queues_waits_as_long_as_on_paper(tmp_path, recording_program):
    made, _ = assigned(tmp_path, TWO_PAIRS, 0.002)
    # 20 vehicles come in a minute and 15 pass, so who sets out at t min leaves at 5 + 20 t / 15.
    for times in made.times:
        assert times[0] / 6 == pytest.approx([5 + t / 3 for t in (2.5, 7.5, 12.5, 17.5)], abs=0.002)


@pytest.mark.parametrize("begin, end", [("07:00", "08:00"), ("07:01:20", "07:53:10")])
def test_where_nobody_waits_the_first_and_the_last_drivers_take_a_step_in_each_cell(begin, end, tmp_path, recording_program):
    made, _ = assigned(tmp_path, TWO_WAYS.replace('"07:00", "08:00", 3000', f'"{begin}", "{end}", 1800'))
    for way, steps in zip(made.choices[0].ways, made.times[0]):
        assert steps == pytest.approx(len(made.legs.cells(way)), abs=1e-9)  # 60 on the short way, 10 min


@pytest.mark.parametrize("steps, cells, width, wanted", [
    (720, 1388, 30, 1), (720, 1389, 30, 5), (720, 1389, 120, 12), (720, 20_000, 6, 4), (1000, 100_000, 30, 26)])
def test_runs_are_recorded_step_by_step_where_that_are_few_values(steps, cells, width, wanted):
    # 720 times 1,388 is just below 1,000,000; of 20,000 cells and 720 steps the program records 200, of 100,000 cells 40.
    assert recorded_every(steps, cells, width) == wanted


CLOSED = """[[closures]]
road = "long"
from = {begin}
lanes = 2
"""


@pytest.mark.parametrize("begin", [0, 5])
def test_closing_a_road_that_nobody_uses_changes_nothing(begin, tmp_path, recording_program):
    text = TWO_WAYS.replace("3000]]", "1800]]")
    (open_, _), (closed, _) = (assigned(tmp_path, one) for one in (text, text + CLOSED.format(begin=begin)))
    assert closed.text == open_.text and closed.let_through == {"closures[1]": 4}
    assert closed.report.total.left == pytest.approx(1800, abs=1)


def test_eight_ways_that_are_alike_are_taken_alike(tmp_path, recording_program):
    made, rounds = assigned(tmp_path, eight_ways(), 0.001)
    assert len(made.choices[0].ways) == 8 and rounds[-1].gap.relative < 0.001
    assert made.choices[0].parts == pytest.approx(numpy.full(made.choices[0].parts.shape, 0.125), abs=1e-9)
    assert made.report.total.left == pytest.approx(1800, abs=1)


def near_the_best(made):
    """Whether each way that at least 5 vehicles take in an interval takes at most 5 % longer than its pair's best."""
    return all(numpy.all(steps <= numpy.where(choice.parts * vehicles >= 5, 1.05 * steps.min(axis=0), numpy.inf))
               for choice, steps, vehicles in zip(made.choices, made.times, made.departures.by_interval))


@pytest.mark.parametrize("seed", range(1, 21))
def test_a_made_grid_comes_to_rest_within_50_rounds(seed, tmp_path, recording_program):
    (tmp_path / "grid.toml").write_text(grid_study(seed, demand=(100, 300)))
    made = Assignment(read_scenario(tmp_path / "grid.toml"))
    made.start()
    assert any(done.settled(0.02) and near_the_best(made) for done in made.rounds(1e-9, 50))
    assert made.report.total.left == pytest.approx(made.departures.vehicles.sum(), abs=1)


def test_a_round_that_jumps_is_taken_back_and_the_next_goes_half_as_far():
    pace = Pace()
    assert pace.next(0.5) == 1 and pace.next(0.2) == pytest.approx(1 / 1.02) and pace.most == 1
    assert pace.back(0.2) == pytest.approx(1 / 2.04) == pace.most
    # A way that takes ten times as long as the best would lose all of its drivers at once; now it loses half of them.
    choice = Choice("a", "x", numpy.array([1.0]), 2, [(0,), (1,)])
    choice.chosen = numpy.array([[0.8], [0.2]])
    departures = Departures([("a", "x")], numpy.array([0.0, 1.0]), numpy.array([[100.0]]), 1, 1, 1.0)
    assert swap([choice], departures, [numpy.array([[100.0], [10.0]])], 0.5, 0.5) == pytest.approx(40)
    assert choice.chosen.ravel().tolist() == pytest.approx([0.4, 0.6])


def test_the_best_round_is_what_is_left(recording_program, tmp_path):
    made, rounds = assigned(tmp_path, TWO_WAYS, 1e-12, 4)
    assert made.best.gap.relative == min(done.gap.relative for done in rounds)
    assert gap_of(made.choices, made.departures, made.times).relative == made.best.gap.relative
    assert made.report.units.hours(made.report.sums.delay) == made.best.delay
