"""What gaps let pass: the formulas against figures that were worked out by hand from the Highway Capacity Manual's gaps."""

from fractions import Fraction
from types import SimpleNamespace

import pytest

from ctmtools.study.precedences import KINDS
from ctmtools.study.plan import Gaps, Permission
from ctmtools.yielding.gaps import harders, in_two_stages, passing, siegloch
from ctmtools.yielding.permitted import InLane, Opposing, PermittedGreen, in_span


@pytest.mark.parametrize("priority, passes", [(300, 744.3), (600, 504.6), (900, 340.0), (1200, 227.7)])
def test_a_right_turn_out_of_a_side_street_by_harders(priority, passes):
    # As 600·exp(-600·6.2/3600)/(1 - exp(-600·3.3/3600)) = 600·0.35582/0.42305.
    assert harders(priority, 6.2, 3.3) == pytest.approx(passes, abs=0.1)


@pytest.mark.parametrize("circulating, passes", [(0, 1380), (500, 828.7), (1000, 497.6)])
def test_an_entry_of_a_roundabout_is_that_of_the_manual(circulating, passes):
    # 1,380·exp(-0.00102·v), Highway Capacity Manual 2016.
    kind = KINDS["roundabout"]
    assert siegloch(circulating, float(kind.critical[2]), float(kind.follow_up[2])) == pytest.approx(passes, rel=5e-4)


@pytest.mark.parametrize("opposing, passes", [(400, 1000.3), (800, 690.5)])
def test_a_permitted_left_turn_beside_a_queue_that_is_gone(opposing, passes):
    # 400·exp(-0.5)/(1 - exp(-0.27778)) = 400·0.60653/0.24253.
    kind = KINDS["permitted-left"]
    assert harders(opposing, float(kind.critical[2]), float(kind.follow_up[2])) == pytest.approx(passes, abs=0.1)


def test_the_queue_of_those_who_come_towards_clears_as_it_does_by_hand():
    # 30 s of red at 400 vehicles/h are gone at 1,800 - 400 vehicles/h: 400·30/1,400 s.
    assert Opposing((0, 30), 400, 400, 1800).cleared(60) == pytest.approx(8.571, abs=0.001)
    assert Opposing((0, 30), 900, 900, 1800).cleared(60) == 30
    later = Opposing((10, 40), 400, 400, 1800)
    assert later.cleared(60) == pytest.approx(8.571, abs=0.001)
    # So its queue is gone at 18.571 s: in no part of the step from 16 to 18 s, in 0.2143 of that to 19 s, and in all of that to 21 s.
    parts = [PermittedGreen._free(SimpleNamespace(cycle=60, step=2), time, later) for time in (17, 18, 20)]
    assert parts == pytest.approx([0, 0.2143, 1], abs=0.0005)


def test_nobody_turns_while_the_queue_of_those_who_come_towards_clears():
    # Of 600 vehicles/h the queue of 30 s of red clears in 600·30/1,200 = 15 s, half of the step around it. Then 600·exp(-0.75)/(1 -
    # exp(-0.41667)) = 600·0.47237/0.34076 turn.
    one = SimpleNamespace(gaps=Gaps(Fraction(9, 2), Fraction(5, 2), "harders"))
    green = PermittedGreen(one, Permission(60, 0, (0, 30), [(0, 30)], 0), 2, 1800)
    assert green.rates([Opposing((0, 30), 600, 600, 1800)]).tolist()[:15] == [0] * 7 + [pytest.approx(415.9, abs=0.1)] + [pytest.approx(831.7, abs=0.1)] * 7


@pytest.mark.parametrize("part, passes", [(1, 1800), (0.5, 1800)])
def test_where_nobody_comes_towards_a_left_turn_its_lane_passes_as_in_any_green(part, passes):
    one = SimpleNamespace(gaps=Gaps(Fraction(9, 2), Fraction(5, 2), "harders", True))
    green = PermittedGreen(one, Permission(60, 0, (0, 30), [(0, 30)], 2), 2, 1800)
    assert (green.rates([], InLane(part, 2)) / part).tolist()[:15] == [pytest.approx(passes)] * 15


def test_the_first_of_a_lane_who_turns_comes_as_the_manual_has_it():
    # Of 2 in a cycle the first after 30·exp(-0.860·2^0.629) - 2 = 30·exp(-1.32998) - 2 s; from a lane of their own at once.
    assert InLane(0.25, 2).freely(30) == pytest.approx(5.934, abs=0.001) and InLane().freely(30) == 0 == InLane(0.5, 40).freely(30)


@pytest.mark.parametrize("time, within", [(49, False), (50, True), (5, True), (65, True), (10, False), (20, False)])
def test_a_span_that_passes_the_end_of_the_cycle(time, within):
    assert in_span(time, (50, 70), 60) == within


def test_a_median_of_one_vehicle_by_hand():
    # a = 1 - 0.32·exp(-1.3) = 0.91279, y = (500 - 300)/(600 - 300) = 2/3:
    # 0.91279/(4/9 - 1)·(2/3·(2/3 - 1)·600 + (2/3 - 1)·300).
    assert in_two_stages(1, 500, 600, 300) == pytest.approx(383.4, abs=0.1)
    # Where both stages pass alike y is 1: 0.91279/2·(500 + 300).
    assert in_two_stages(1, 500, 500, 300) == pytest.approx(365.1, abs=0.1)


def test_a_median_of_many_passes_what_the_narrower_stage_does():
    # 1 - 0.32·exp(-1.3·sqrt(20)) = 0.99904 of the lesser stage, however great the power of y is, here 1e16 to the 20th.
    barely = 300.0000000000001
    assert in_two_stages(20, 1000, barely, 300) == pytest.approx(299.713, abs=0.01)
    assert in_two_stages(20, barely, 1000, 300) == pytest.approx(299.713, abs=0.01)
    assert in_two_stages(20, 500, 900, 300) == pytest.approx(499.52, abs=0.01)


def test_a_stage_that_passes_no_more_than_both_at_once_adds_nothing():
    assert in_two_stages(1, 200, 900, 300) == 300 and in_two_stages(1, 900, 200, 300) == 300


def test_hardly_anybody_with_priority_leaves_what_follows_at_the_follow_up_gap():
    # As v goes to 0, v/(1 - exp(-v·t_f/3600)) goes to 3600/t_f.
    assert harders(1e-13, 6.2, 3.3) == pytest.approx(3600 / 3.3)


def test_who_stops_follows_at_a_distance_where_nobody_comes_and_who_gives_way_is_unbounded():
    stops = Gaps(Fraction(62, 10), Fraction(33, 10), "harders")
    assert passing(0, stops) == pytest.approx(3600 / 3.3)
    assert passing(0, Gaps(stops.critical, stops.follow_up, "harders", give_way=True)) == float("inf")
