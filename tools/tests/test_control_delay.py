"""The control delay of those who give way: the Highway Capacity Manual's formula by hand, and what a study's run tells of it."""

import re

import pytest

from ctmtools import read_study
from ctmtools.runs.running import settled_by_runs
from ctmtools.yielding.gaps import at_roundabout, at_signal, at_stop

from .examples import EXAMPLES
from .test_yield import CROSSING, PERMITTED, SIDE, write


@pytest.mark.parametrize("flow, wanted", [(0, 12.2), (250, 19.18), (500, 69.12), (750, 257.05)])
def test_a_stop_that_passes_500_by_hand(flow, wanted):
    # 3600/500 = 7.2 s, 900·0.25 = 225 s and 8/(500·0.25) = 0.064. At 250: 7.2 + 225·(-0.5 + sqrt(0.25 + 0.032)) + 5; at 500: 7.2 +
    # 225·sqrt(0.064) + 5; at 750: 7.2 + 225·(0.5 + sqrt(0.25 + 0.096)) + 5.
    assert at_stop(flow, 500) == pytest.approx(wanted, abs=0.01)


def test_over_a_long_time_it_is_the_wait_of_a_queue_that_comes_and_is_served_at_random():
    # 3600/(c - v) is the mean time in such a queue, with 5 s for slowing down; at a signal half of what stands before the server.
    assert at_stop(250, 500, 1000) == pytest.approx(3600 / 250 + 5, abs=0.01)
    assert at_signal(250, 500, 1000) == pytest.approx((3600 / 250 - 7.2) / 2, abs=0.01)


def test_at_a_roundabout_few_stop_where_few_come():
    # 3.6 + 225·(-0.5 + sqrt(0.25 + 0.016)) + 2.5 = 3.6 + 225·0.015752 + 2.5.
    assert at_roundabout(500, 1000) == pytest.approx(9.644, abs=0.001)
    assert at_roundabout(0, 1000) == 3.6


def lost(found):
    """Of each that gives way what its vehicles lose in s by coming at random."""
    return [3600 * one.hours / one.vehicles for one in found.waits]


def test_a_side_street_below_its_capacity_tells_what_the_formula_has(tmp_path, recording_program):
    found = settled_by_runs(read_study(write(tmp_path, SIDE.format(main=600, low=400, high=400))).scenario)
    # Past 600 vehicles/h pass 504.6: x = 0.7927, 7.13 + 225·(-0.2073 + sqrt(0.04298 + 0.05027)) + 5 = 34.2 s. In the first of 12
    # intervals and behind the first vehicles the road is still empty.
    assert lost(found) == [pytest.approx(34.2, rel=0.03)]
    told = next(line for line in found.built.remarks if line.startswith("merges[1], side"))
    assert re.search(r"vehicles/h may pass through gaps; 39\d vehicles lose 3\d\.\d s each by coming at random$", told)
    assert any(line.startswith(f"what is lost by coming at random is {found.waits[0].hours:.2f} vehicle-hours by the Highway Capacity "
                               "Manual") for line in found.built.remarks)


def test_a_full_side_street_has_its_queue_and_no_such_loss(tmp_path, recording_program):
    found = settled_by_runs(read_study(write(tmp_path, SIDE.format(main=600, low=400, high=700))).scenario)
    waits, = found.waits
    # From 07:30:36 on it is full, so in the last five of twelve intervals. 200 come to it before, and 37.0 pass until 07:35.
    assert waits.full == 5 and waits.vehicles == pytest.approx(237, abs=1)
    assert any(line.endswith("s each by coming at random, and a queue stands in 5 intervals") for line in found.built.remarks)


def test_a_permitted_left_turn_tells_what_its_fixed_greens_leave_to_chance(tmp_path, recording_program):
    # 300 turn where by hand 477.3 may: x = 0.6286, 225·(-0.3714 + sqrt(0.13796 + 4·0.6286/(477.3·0.25))) = 225·0.02739 = 6.16 s.
    text = CROSSING.format(more=PERMITTED.replace("SNEAKERS", "2")).replace('gs = {{ into = "s", demand = 600 }}', "").replace(
        "demand = 600", "demand = 300")
    found = settled_by_runs(read_study(write(tmp_path, text)).scenario)
    assert lost(found) == [pytest.approx(6.16, rel=0.05)]


@pytest.mark.parametrize("name, seconds", [("stop", 46.6), ("roundabout", 14.8)])
def test_the_village_loses_what_paper_says_at_today_s_traffic(name, seconds, recording_program):
    # 450 vehicles/h come where 504.6 and 748.3 may pass: x = 0.8918, 7.13 + 34.44 + 5, and x = 0.6014, 4.81 + 6.98 + 3.01.
    found = settled_by_runs(read_study(EXAMPLES / f"village-{name}.toml").scenario)
    assert lost(found) == [pytest.approx(seconds, rel=0.03)]
