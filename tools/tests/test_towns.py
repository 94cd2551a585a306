"""The cases of bench/towns: how many there are, the manual's values by hand, and what the tools pass beside them."""

from collections import Counter

import manual
import pytest
import town_cases
import town_tools


@pytest.fixture(scope="module")
def bench():
    """The manual's formulas, the cases by name, and the tools' side of them."""
    return manual, {case.name: case for case in town_cases.CASES}, town_tools


def test_thirty_cases_of_all_kinds(bench):
    _, cases, _ = bench
    assert len(cases) == 30
    assert Counter(case.kind for case in cases.values()) == {
        "shared lane": 4, "flare": 2, "permitted left": 6, "protected": 1, "both": 1, "two-way stop": 4, "all-way stop": 2, "roundabout": 4,
        "pocket": 2, "arterial": 2, "actuated": 2}
    assert sum(case.capacity is None for case in cases.values()) == 3


@pytest.mark.parametrize("name, by_hand", [
    # 550·exp(-0.94722)/(1 - exp(-0.50417)) = 538.6 and 1,030·exp(-1.83111)/(1 - exp(-1.00139)) = 260.9; half of a lane each, 2/(1/538.6 + 1/260.9).
    ("shared lane, half left, 200", 351.5),
    # 1/(0.75/538.6 + 0.25/260.9).
    ("shared lane, a quarter left, 240", 425.4),
    # Those to the left wait 13.8 + 11.2 + 5 s from a lane of their own, 1.00 at once, and need room for 2: half of the way from 351.5 to 799.5.
    ("flare for one, 240", 575.5),
    ("flare for two, 240", 799.5),
    # The queue clears in 300·44/1,500 = 8.8 s: 27.2 of 80 s at 300·exp(-0.375)/(1 - exp(-0.20833)) = 1,096.2, and 2 at the end of each of 45 cycles.
    ("permitted left, 100 against 300", 462.7),
    ("permitted left, 100 against 500", 307.6),
    ("permitted left, 60 against 700", 165.8),
    ("protected left, 200", 360.0),
    # 16 s of 1,800; 400 clear in 400·52/1,400 = 14.86 s, and 13.14 s of 80 let 1,000.3 turn, 164.3; 90 at the end.
    ("protected and permitted left, 350", 614.3),
    ("stop, right, 300 beside 600", 504.6),
    # 450 in the lane beside: 450·exp(-0.8625)/(1 - exp(-0.4125)).
    ("stop, right, 300 beside 900 on two lanes", 562.0),
    ("left off the street, 300 against 600", 987.0),
    # 1,380·exp(-0.4896) and, beside 650 + 40 + 40, 1,380·exp(-0.7446).
    ("roundabout, 480 on each arm", 845.8), ("roundabout, 350 beside 730", 655.4),
    ("roundabout, one lane into two, 500", 928.4),
    # 1,350·exp(-0.644) + 1,420·exp(-0.595) = 709.0 + 783.2.
    ("roundabout, two lanes into two, 700", 1492.2),
    ("two signals, a green wave", 990.0),
    # The other green is 300/1,800·(48 - 3) + 3 over 1 - 300/1,800, 12.6 s, and the cycle 60.6 s.
    ("a crossing that follows traffic", 1188.1)])
def test_the_manual_by_hand(bench, name, by_hand):
    assert bench[1][name].capacity() == pytest.approx(by_hand, abs=0.15)


def test_control_delay_by_hand(bench):
    manual, _, _ = bench
    # 250 of 500: 7.2 + 225·(-0.5 + sqrt(0.25 + 8·0.5/125)) + 5 = 19.18 s.
    assert manual.at_stop(250, 500) == pytest.approx(19.18, abs=0.01)
    # 200 of 360 in 16 of 80 s: 40·0.8²/(1 - 0.2·0.5556) = 28.8 s, and 225·(-0.4444 + sqrt(0.19753 + 4·0.5556/90)) = 6.06 s.
    assert manual.at_signal(200, 360, 80, 16) == pytest.approx(34.86, abs=0.02)
    # The polygon of the same queue, whose green is at its end.
    assert manual.even_queue(200, [0] * 64 + [1800] * 16) == pytest.approx(28.8, rel=0.01)


def test_a_permitted_left_turn_in_one_lane_by_hand(bench):
    manual, cases, _ = bench
    # Half of 260 turn left, 2.889 in a cycle: the first comes after 36·exp(-0.860·2.889^0.629) - 2 = 4.74 s, and the others' queue is gone
    # after 8.8. Then 1/(0.5/1,096.2 + 0.5/1,800) = 1,362.6 pass, and 1.5 at the end: (4.736·1,800 + 27.2·1,362.6)/80 + 67.5 = 637.3.
    assert manual.permitted_in_lane(300, 0.5, 80, 36, 260) == pytest.approx(637.3, abs=0.1)
    # 3.178 wait when it begins, 1.152 after 4.74 s and 1.445 after 8.8; they are gone after 4.72 s more at 1,362.6 - 260 in an hour.
    # Their waits are 69.9, 10.3, 5.3 and 3.4 vehicle-seconds of 5.778 vehicles: 15.4 s, and at random 1.93.
    assert cases["one lane, half left, against 300"].delay() == pytest.approx(15.4 + 1.93, abs=0.3)


def test_an_all_way_stop_by_hand(bench):
    manual, _, _ = bench
    flows, turns = {"S": 300, "E": 0}, dict.fromkeys("SE", (0, 0))
    # Alone each starts 3.9 s behind the one before, so 3,600/3.9 pass. Beside one that is always busy he needs 5.8 s.
    assert manual.headways(flows, turns)["S"] == pytest.approx(3.9)
    assert manual.all_way(flows, turns, "S") == pytest.approx(3600 / 3.9, abs=0.5)
    assert manual.all_way({"S": 300, "E": 1200}, turns, "S") == pytest.approx(3600 / 5.8, abs=0.5)


@pytest.mark.parametrize("name", ["shared lane, half left, 200", "stop, right, 300 beside 600", "left off the street, 300 against 600", "protected left, 200"])
def test_the_tools_pass_what_the_manual_has(bench, tmp_path, recording_program, name):
    _, cases, tools = bench
    case = cases[name]
    by = tools.Tools(tmp_path)
    passes = by.may_pass(case.made) if case.at_flow else by.passes(case.made.with_watched(2 * case.capacity()))
    assert passes == pytest.approx(case.capacity(), rel=0.05)
