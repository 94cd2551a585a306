"""The rules by which rows of detectors are left out, at their limits as tools/docs/detectors.md has them."""

import pandas
import pytest

from ctmtools import Problem
from ctmtools.detectors.rules import broken, rules_of

SOUND = {"station": "1", "day": "a", "interval": 300.0, "flow": 1200.0, "occupancy": 10.0, "speed": 90.0, "density": float("nan"),
         "observed": 100.0, "lanes": 2.0, "again": False}


def frame(rows):
    """A row every 5 minutes with these values, and else sound and unlike the row before."""
    filled = pandas.DataFrame([{**SOUND, "flow": SOUND["flow"] + i, "second": 300 * i, **row} for i, row in enumerate(rows)])
    return filled.assign(moment=filled.second, station=filled.station.astype("category"))


def left_out(rows, *words):
    """The places of the rows that these rules leave out."""
    found = broken(frame(rows), rules_of(words))
    return [place for place, rule in enumerate(found) if rule]


@pytest.mark.parametrize("word, kept, gone", [
    ("occupancy", {"occupancy": 100}, {"occupancy": 100.1}), ("occupancy=50", {"occupancy": 50}, {"occupancy": 50.1}),
    ("observed", {"observed": 75}, {"observed": 74.9}), ("observed=90", {"observed": 90}, {"observed": 89}),
    ("speed", {"speed": 200}, {"speed": 200.1}), ("speed=130", {"speed": 130}, {"speed": 131}),
    # 3,000 vehicles/h for each lane.
    ("capacity", {"flow": 6000}, {"flow": 6001}), ("capacity", {"flow": 3000, "lanes": 1}, {"flow": 6000, "lanes": 1}),
    ("no-occupancy", {"occupancy": 0, "flow": 0}, {"occupancy": 0, "flow": 12}),
    ("no-flow", {"flow": 0, "occupancy": 0}, {"flow": 0, "occupancy": 0.1}),
    ("no-speed", {"speed": 0, "flow": 0}, {"speed": 0, "flow": 12})])
def test_a_value_at_its_limit_is_kept_and_one_beyond_is_left_out(word, kept, gone):
    assert left_out([{}, kept, gone, {}], word) == [2]


def test_lanes_are_needed_where_vehicles_passed_alone():
    assert left_out([{"flow": 0, "lanes": float("nan")}, {"flow": 6001}], "capacity") == [1]
    with pytest.raises(Problem, match="needs the number of lanes"):
        left_out([{"flow": 1, "lanes": float("nan")}], "capacity")


SAME, STILL = {"flow": 600}, {"flow": 0, "occupancy": 0, "speed": 0}


@pytest.mark.parametrize("rows, word, gone", [
    ([SAME] * 8, "constant", 0), ([SAME] * 9, "constant", 9), ([SAME] * 9, "constant=9", 0), ([SAME] * 10, "constant=9", 10),
    ([STILL] * 9, "constant", 0), ([{**STILL, "occupancy": 100}] * 9, "constant", 9),
    # Eight rows, and behind a time without rows one more; and a row of another station.
    ([*[SAME] * 8, {**SAME, "second": 2700}], "constant", 0), ([*[SAME] * 8, {**SAME, "station": "2"}], "constant", 0),
    ([*[SAME] * 4, {}, *[SAME] * 5], "constant", 0)])
def test_rows_on_end_that_stay_the_same(rows, word, gone):
    assert len(left_out(rows, word)) == gone


@pytest.mark.parametrize("count, left, word, gone", [(10, 5, "day", 5), (10, 4, "day", 10), (10, 4, "day=40", 6), (10, 3, "day=40", 10),
                                                     (101, 50, "day", 101), (101, 51, "day", 50)])
def test_a_day_of_less_than_half_its_rows_is_left_out(count, left, word, gone):
    """The other station has all rows of the day, and keeps them."""
    rows = [{"observed": 100 if i < left else 0} for i in range(count)]
    whole = [{"station": "2", "second": 300 * i} for i in range(count)]
    assert left_out([*rows, *whole], "observed", word) == list(range(count - gone, count))


def test_a_row_is_told_under_the_first_rule_that_takes_it():
    found = broken(frame([{"observed": 0, "speed": 300}, {"speed": 300, "occupancy": 101}]), rules_of("all"))
    assert list(found) == ["observed", "occupancy"]
