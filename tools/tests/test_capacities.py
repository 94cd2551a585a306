"""What closures and openings leave of a road: lanes by lane and vehicles/h, worked out on paper."""

from fractions import Fraction

import pytest

from ctmtools.study.limits import Change, flow_left, lanes_left, least, most_opened, spans
from ctmtools.study.plan import Section

from .corridor import HEAD, corridor

ROAD = Section(start=Fraction(0), lanes=3, free_flow_speed=Fraction(90), wave_speed=Fraction(18), jam_density=Fraction(144),
               saturation_flow=Fraction(2160), first_density=Fraction(0), cells="m")


def change(begin=0, end=10, **terms):
    return Change(begin, end, "here", **{name: Fraction(value) if name != "red" else value for name, value in terms.items()})


@pytest.mark.parametrize("terms, wanted", [
    ([], 3 * 2160), ([{"closed": 1}], 2 * 2160), ([{"closed": 1}, {"closed": 1.5}], 0.5 * 2160), ([{"closed": 3}], 0),
    # Each lane left open by a closure passes 1,800, and one opened beside it no more, whatever it could.
    ([{"closed": 1, "saturation_flow": 1800}], 2 * 1800),
    ([{"closed": 1, "saturation_flow": 1800}, {"opened": 1}], 3 * 1800),
    ([{"closed": 1, "saturation_flow": 1800}, {"opened": 1, "saturation_flow": 2000}], 3 * 1800),
    ([{"closed": 1, "saturation_flow": 1800}, {"opened": 1, "saturation_flow": 1500}], 2 * 1800 + 1500),
    ([{"opened": 1}], 4 * 2160), ([{"opened": 2, "saturation_flow": 1500}], 3 * 2160 + 2 * 1500),
    # A capacity is that of the road's own lanes.
    ([{"capacity": 900}, {"opened": 1}], 900 + 2160), ([{"capacity": 900}, {"capacity": 600}], 600), ([{"capacity": 9000}], 3 * 2160),
    # Of four lanes closed one is taken from the two opened.
    ([{"closed": 4}, {"opened": 2}], 2160), ([{"closed": 5.5}, {"opened": 2}], 0),
    ([{"opened": 1}, {"red": True}], 0)])
def test_what_passes_where_changes_hold(terms, wanted):
    assert flow_left(ROAD, [change(**one) for one in terms]) == wanted


def test_lanes_that_are_left_are_own_and_opened():
    assert lanes_left(ROAD, [change(closed=1), change(opened=2)]) == (2, 2)
    assert lanes_left(ROAD, [change(closed=4), change(opened=2)]) == (0, 1)
    assert lanes_left(ROAD, [change(closed=6), change(opened=2)]) == (0, 0)


def test_the_least_limit_of_a_gate_holds_and_a_red_light_before_all():
    assert least([change(capacity=900), change(capacity=600)]) == 600
    assert least([change(capacity=900), change(red=True)]) == 0


def test_spans_in_which_the_same_changes_hold():
    one, two, three = change(0, 10), change(5, 8), change(20, 30)
    assert list(spans([two, one, three])) == [(0, 5, [one]), (5, 8, [two, one]), (8, 10, [one]), (20, 30, [three])]
    assert list(spans([change(0, 5), change(5, 9)])) == [(0, 5, [change(0, 5)]), (5, 9, [change(5, 9)])] and not list(spans([]))


def test_the_most_lanes_that_are_opened_at_once():
    assert most_opened([change(0, 5, opened=1), change(3, 9, opened=2), change(9, 12, opened=2.5)]) == 3 and most_opened([]) == 0


def test_a_closure_without_times_is_of_the_whole_study(tmp_path):
    made = corridor(tmp_path, '[[closures]]\nroad = "m"\nlanes = 1\n', head=HEAD.replace("step = 10", "step = 1"))
    # Of two lanes one passes 0.6 vehicles in a second.
    assert {tuple(line.split(",")[2:]) for line in made.text.splitlines() if line.startswith("limit,m")} == {("0", "3600", "0.6")}
