"""The parts of an assignment one by one, with numbers small enough for paper."""

from types import SimpleNamespace

import numpy
import pytest

from ctmtools import assign
from ctmtools.assignment.assigning import Assignment, Round
from ctmtools.assignment.choices import Choice, Departures, departures_of
from ctmtools.assignment.diversion import divert
from ctmtools.assignment.forks import Fork, Rounded, pairs_of, parts_of
from ctmtools.assignment.courses import moved, share_bounds
from ctmtools.assignment.passing import Passing, _finer
from ctmtools.assignment.searching import Search
from ctmtools.assignment.assigned_study import SharedNetwork
from ctmtools.assignment.times import Gap, Pace, swap, times_of
from ctmtools.assignment.ways_file import WayRow
from ctmtools.assignment.writing import Places, written
from ctmtools.network_file.kinds import record_of
from ctmtools.study.reading import read_scenario, read_values

from .grids import grid_study
from .test_assign import assigned
from .trips import TWO_PAIRS, TWO_WAYS

HOUR = '[["07:00", "08:00", 3000]]'
CLOSED = '[[closures]]\nroad = "short"\nfrom = 5\nto = 6\nlanes = 2\nstart = "07:20"\nend = "07:50"\n'
CLOCKS = [f"07:{minute:02d}:00" for minute in range(0, 60, 5)]


def begun(folder, text):
    """An assignment of a study of this text before its first round."""
    (folder / "s.toml").write_text(text)
    made = Assignment(read_scenario(folder / "s.toml"))
    made.start()
    return made


def choice_of(chosen, informed=1.0):
    """A pair's choice in one interval, with a way for each of these parts."""
    choice = Choice("g", "x", numpy.array([informed]), 9, [(number,) for number in range(len(chosen))])
    choice.chosen[:, 0] = chosen
    return choice


def one_pair(vehicles):
    """A pair that sets out in one interval of as many spans as there are numbers."""
    return Departures([("g", "x")], numpy.arange(len(vehicles) + 1.0), numpy.array([vehicles], float), len(vehicles),
                      len(vehicles), float(len(vehicles)))


def test_ways_are_sought_for_the_middle_of_the_time_in_which_drivers_set_out(tmp_path):
    study = begun(tmp_path, TWO_WAYS.replace('"08:00", 3000', '"07:12", 3000')).study
    departures = departures_of(study, 720)
    # 30 steps an interval; the last of three ends with the trips, at step 72.
    assert [departures.middle(number) for number in range(departures.intervals)] == [15, 45, 66]
    assert departures.by_interval.tolist() == [pytest.approx([250, 250, 100])]
    early = begun(tmp_path, TWO_WAYS.replace('"08:00", 3000', '"07:04", 3000')).study
    assert departures_of(early, 720).by_interval.tolist() == [pytest.approx([200])]


def test_the_quickest_way_changes_with_the_time_of_setting_out(tmp_path):
    made = begun(tmp_path, TWO_WAYS + CLOSED)
    # 24 steps behind the gate, 4 min, lies the last cell before the closed one. So who sets out from 07:16 on waits in it until 07:50,
    # and until 07:41 that is for more than the 5 min of the long way. The middles are 07:02:30, 07:07:30 and so on.
    middles = [15 + 30 * number for number in range(12)]
    (found,) = Search(made.passing, 720).ways([("work", [("home", middle) for middle in middles])])
    by_long = ["long01" in made.legs.cells(way) for way in found]
    assert by_long == [False] * 3 + [True] * 5 + [False] * 4
    (choice,), (times,) = made.choices, made.times
    short = next(place for place, way in enumerate(choice.ways) if "short01" in made.legs.cells(way))
    # At free flow 10 min and 15 min, and the wait from 4 min behind the middle until 07:50.
    assert times[1 - short] / 6 == pytest.approx([15] * 12)
    assert times[short, 4:9] / 6 == pytest.approx([10 + 50 - (22.5 + 5 * number + 4) for number in range(5)])
    assert choice.parts[short].tolist() == [1] * 3 + [0] * 5 + [1] * 4


def test_who_is_in_a_closed_stretch_or_comes_to_it_waits_until_it_opens(tmp_path):
    made = begun(tmp_path, TWO_WAYS + CLOSED)
    way = next(way for way in made.choices[0].ways if "short01" in made.legs.cells(way))
    moments = begins = numpy.array([[91.0, 92, 95, 96, 275, 276]])
    for leg in way:
        moments = made.passing.through(numpy.array([leg]), moments)
    # Closed from step 120 to 300. Who set out at step 91 has left the four closed cells then, who set out from 92 to 95 is in them, and
    # the next is before them: these wait for 180 steps. The step of 299 takes in nobody, and that of 300 who comes to it then.
    assert (moments - begins)[0] == pytest.approx([60, 240, 240, 240, 61, 60])


def test_behind_the_run_it_takes_as_long_as_at_its_end():
    legs = SimpleNamespace(legs=[SimpleNamespace(chains=[0])])
    passing = Passing(legs, numpy.array([0.0, 10, 20]), numpy.array([[5.0, 15, 30]]))
    assert passing.through(numpy.array([0]), numpy.array([[0.0, 15, 20, 30, 60, 80]])).tolist() == [[5, 22.5, 30, 40, 70, 90]]


def test_between_records_there_are_moments_for_about_800_but_none_within_a_step():
    # Of 101 records each tenth step 8 parts of each are 800, and of 11 the most are a step each.
    assert _finer(numpy.arange(0.0, 1001, 10)).tolist() == [1.25 * number for number in range(801)]
    assert _finer(numpy.arange(0.0, 101, 10)).tolist() == list(range(101))


def test_the_time_of_an_interval_is_the_mean_over_those_who_set_out():
    # Who sets out at its bounds takes 10, 11 and 14 steps; one vehicle takes 10.5 on the average and three take 12.5.
    courses = SimpleNamespace(departures=one_pair([1, 3]), pairs=numpy.array([0]), arrived=numpy.array([[10.0, 12.0, 16.0]]))
    assert times_of(courses)[0] == pytest.approx(numpy.array([[(10.5 + 3 * 12.5) / 4]]))


@pytest.mark.parametrize("chosen, steps, pace, wanted, changed", [
    # Half of six times the tenth that the second way takes longer: 0.3 of its drivers, who are half of the 40, of whom half choose.
    ([0.5, 0.5], [10, 11], 0.5, [0.65, 0.35], 3),
    ([0.2, 0.8], [10, 20], 1, [1, 0], 16),  # no more than all
    ([0.2, 0.4, 0.4], [10, 10, 12.5], 0.2, [0.26, 0.46, 0.28], 2.4),  # 0.3 of them, alike to both that are best
    ([0.9991, 0.0009], [10, 10.01], 0.01, [1, 0], 0.018),  # the last one of a thousand moves too
    ([0.7, 0.3], [10, 10], 1, [0.7, 0.3], 0)])
def test_drivers_move_by_what_their_way_takes_longer(chosen, steps, pace, wanted, changed):
    choice = choice_of(chosen, 0.5)
    found = swap([choice], one_pair([40]), [numpy.array(steps, float)[:, None]], pace)
    assert choice.chosen[:, 0] == pytest.approx(wanted) and found == pytest.approx(changed)


def test_the_pace_slows_in_earnest_where_the_gap_grew():
    pace = Pace()
    assert [pace.next(gap) for gap in (0.5, 0.4, 0.6, 0.6)] == pytest.approx([1, 1 / 1.02, 1 / 1.52, 1 / 2.02])


def test_what_moves_between_branches_is_counted_once_and_by_intervals_of_choice():
    bounds = numpy.array([0.0, 1.0, 2.0, 3.0, 4.0])  # two spans in each of two intervals
    before = numpy.array([[4.0, 4.0, 6.0, 0.0], [1.0, 1.0, 2.0, 2.0]])
    # Of 20 two go to the other branch in the first interval, and in the second one the spans alone change.
    after = numpy.array([[3.0, 3.0, 3.0, 3.0], [2.0, 2.0, 4.0, 0.0]])
    assert moved(before, after, bounds, 2) == pytest.approx(2 / 20)


# Of 90 steps and 4,166 branches there may be about 50,000·30/(90·4,166) = 4 spans in each interval of 30 steps: 3 have whole steps.
@pytest.mark.parametrize("diverges, wanted", [(1, list(range(91))), (4166, list(range(0, 91, 10))), (100_000, [0, 30, 60, 90])])
def test_shares_change_at_the_intervals_of_choice_and_as_often_between_as_there_is_room(diverges, wanted):
    assert share_bounds(30, 90, diverges).tolist() == wanted


@pytest.mark.parametrize("gap, shifted, settled", [(0.009, 0.009, True), (0.011, 0.009, False), (0.009, 0.011, False)])
def test_a_round_is_settled_where_neither_drivers_nor_shares_would_move(gap, shifted, settled):
    assert Round(1, Gap(100 + 100 * gap, 100, 500), shifted, 0.0, 0.0).settled(0.01) == settled


@pytest.mark.parametrize("come, parts", [
    ([[50, 52], [50, 48]], [[500_000, 520_000], [500_000, 480_000]]),
    # Parts that differ by less than 50 millionths from those before stay as these are.
    ([[500_000, 500_030, 500_100], [500_000, 499_970, 499_900]], [[500_000, 500_000, 500_100], [500_000, 500_000, 499_900]]),
    ([[0, 1], [0, 2]], [[333_333, 333_333], [666_667, 666_667]]),  # where nobody comes at first those behind count
    ([[0, 0], [0, 0]], [[1, 1], [1_000_000, 1_000_000]])])  # where nobody comes, the nearest exit, which is 3 steps ahead
def test_what_comes_to_a_fork_is_parted_to_a_millionth(come, parts):
    fork = Fork("diverges[1]", 0, (0, 1), (0, 1), ("m",))
    assert parts_of(fork, numpy.array(come, float), numpy.array([5.0, 3.0])).tolist() == parts


def test_three_ways_out_are_parted_one_by_one():
    # 500 of 1,000 go the first way, and 300 of the other 500 the second; a third is 1 to 2, and a millionth 1 in 1,001.
    parts = numpy.array([[500_000, 333_333, 1], [300_000, 333_333, 500_000], [200_000, 333_334, 499_999]])
    assert list(pairs_of(parts)) == [[(1, 1), (1, 2), (1, 1000)], [(3, 2), (1, 1), (1, 1)]]


def test_a_network_has_the_shares_of_the_first_span_and_turns_where_others_hold():
    text = "ctm,1\nsteps,90\ndiverge,m,a,b,7,9\n"
    parts = numpy.array([[500_000, 250_000, 250_000], [500_000, 750_000, 750_000]])
    made = SharedNetwork(SimpleNamespace(network=SimpleNamespace(records=[record_of(line) for line in text.splitlines()[1:]])))
    content = made.content([Fork("diverges[1]", 0, (0, 1), (0, 1), ("m",))], [parts], numpy.array([0, 30, 60, 90]))
    assert content.decode() == "ctm,2\nsteps,90\ndiverge,m,a,b,1,1\nturn,m,30,90,1,3\n"


def test_the_rows_of_the_ways_have_all_drivers_and_their_minutes(tmp_path):
    made = begun(tmp_path, TWO_WAYS.replace("step = 10", "step = 5") + CLOSED)
    (choice,) = made.choices
    short = next(place for place, way in enumerate(choice.ways) if "short01" in made.legs.cells(way))
    choice.informed[:], choice.chosen[:], choice.kept[:] = 0.4, 0, 0
    choice.chosen[1 - short], choice.kept[short] = 1, 1
    found = {row.roads[1]: (row.vehicles, row.minutes) for row in made.rows() if row.start == "07:00:00"}
    # 40 % of 250 choose the long way. 14.75 km at 90 km/h, or 7.5 km more, and a step of 5 s in the gate.
    assert found["short"] == pytest.approx((150, 595 / 60)) and found["long"] == pytest.approx((100, 895 / 60))
    assert list(dict.fromkeys(row.start for row in made.rows())) == CLOCKS


@pytest.mark.parametrize("come, told", [([9.925, 10_000], 1), ([10, 9_995], 0)])
def test_rounding_is_told_from_a_thousandth_of_the_lesser_branch_on(come, told):
    # 1 to 1,000 in place of 1 to 1,007.6 is 0.75 % more; in place of 1 to 999.5, which 1 to 999 is as near to, it is 0.05 %.
    fork, found = Fork("diverges[1]", 0, (0, 1), (0, 1), ("m",)), Rounded()
    coming = numpy.array(come, float)[:, None]
    found.note(fork, coming, parts_of(fork, coming, numpy.array([5.0, 3.0])))
    assert (found.intervals, found.of) == (told, 1)


def row(clock, way, vehicles):
    return WayRow("home", "work", clock, 1, vehicles, 10.0, ("a", way, "b"))


def test_drivers_keep_the_ways_of_the_earlier_assignment_interval_by_interval(tmp_path):
    made = begun(tmp_path, TWO_WAYS)
    rows = [row(clock, way, part) for clock in CLOCKS for way, part in
            (("short", 30 if clock == "07:00:00" else 10), ("long", 10 if clock == "07:00:00" else 30))]
    divert(made, rows, 0.4, after=60)
    (choice,) = made.choices
    short = next(place for place, way in enumerate(choice.ways) if "short01" in made.legs.cells(way))
    assert choice.parts[short] == pytest.approx([0.75] + [0.25] * 11)
    # Step 60 is 07:10, and who sets out then is the first who may choose.
    assert choice.informed.tolist() == [0, 0] + [0.4] * 10


def test_the_share_of_a_route_is_that_of_the_middle_of_an_interval(tmp_path):
    routes = "".join(f'[[routes]]\nfrom = "home"\nto = "work"\nroads = ["{road}"]\nshare = {share}\n' for road, share in
                     (("short", '[["07:00", "07:32", 1], ["07:32", "09:00", 3]]'), ("long", 1)))
    (choice,) = begun(tmp_path, TWO_WAYS + routes).choices
    assert choice.parts[0] == pytest.approx([0.5] * 6 + [0.75] * 6)


def test_a_way_that_nobody_takes_makes_room_for_another():
    choice = choice_of([1, 0])
    choice.kept[:, 0] = [1, 0]
    choice.most = 2
    assert choice.put((7,)) and choice.ways == [(0,), (7,)] and choice.parts[:, 0].tolist() == [1, 0]
    choice.chosen[:, 0] = [0.5, 0.5]
    assert not choice.put((8,)) and choice.put((7,)) and choice.ways == [(0,), (7,)]


def test_drivers_keep_to_the_routes_that_are_given(tmp_path, recording_program):
    made, _ = assigned(tmp_path, TWO_WAYS.replace("3000]]", "1800]]") + '[[routes]]\nfrom = "home"\nto = "work"\nroads = ["long"]\n')
    (choice,) = made.choices
    assert [("long01" in made.legs.cells(way)) for way in choice.ways] == [True]
    assert made.times[0] / 6 == pytest.approx(numpy.full((1, 12), 15.0))


@pytest.mark.parametrize("text", [TWO_WAYS, TWO_PAIRS, grid_study(3, demand=(100, 300))], ids=["ways", "pairs", "grid"])
def test_the_study_that_is_written_runs_as_the_last_round_did(text, tmp_path, recording_program):
    made, rounds = assigned(tmp_path, text, 1e-9, 3)
    found = written(made, rounds[-1], read_values(tmp_path / "study.toml"), Places(tmp_path / "a.toml"))
    assert (tmp_path / "a.report").read_bytes() == made.text and found.last is rounds[-1]


@pytest.mark.parametrize("informed, delay", [
    # All take the short way: 1,000 more come than pass in the hour, who are gone half an hour later.
    (0, (1000 * 60 / 2 + 1000 * 30 / 2) / 60),
    # From 10 min on, when 166.7 wait, 600 vehicles/h take the long way and 400 more come than pass: 500 wait at 08:00, for 15 min.
    (0.2, (166.7 * 10 / 2 + (166.7 + 500) / 2 * 50 + 500 * 15 / 2) / 60)])
@pytest.mark.parametrize("by", ["the study", "the call"])
def test_who_is_not_informed_takes_the_shortest_way_at_free_flow(by, informed, delay, tmp_path, recording_program):
    told = f"ways = 8\ninformed = {informed}" if by == "the study" else "ways = 8"
    (tmp_path / "s.toml").write_text(TWO_WAYS.replace("ways = 8", told))
    found = assign(tmp_path / "s.toml", informed=informed if by == "the call" else None, gap=1e-5)
    assert found.figures["delay_vehicle_hours"] == pytest.approx(delay, rel=0.02)


def test_a_queue_that_is_left_at_the_end_goes_on_as_then(tmp_path, recording_program):
    made, _ = assigned(tmp_path, TWO_PAIRS.replace('end = "08:00"', 'end = "07:15"'), 0.002)
    # Who sets out 12 min 30 s after the start leaves 9 min 10 s later, 6 min 40 s behind the end.
    for times in made.times:
        assert times[0] / 6 == pytest.approx([5 + t / 3 for t in (2.5, 7.5, 12.5)], abs=0.01)
