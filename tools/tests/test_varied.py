"""What a sweep varies: values as Python has them, keys of one table, and rows in order."""

from fractions import Fraction

import pytest

from ctmtools.many_runs.variations import changed, shown, variation, variation_of
from ctmtools.problem import NoSuchKey, Problem
from ctmtools.sweeps.sweeping import SweptRows

from .examples import EXAMPLES


def test_values_are_numbers_or_texts():
    assert variation_of("start", ["06:00", "07:00"]).values == ("06:00", "07:00")
    # What Python adds up in halves of a bit is the decimal that it stands for.
    assert variation_of("demand", [0.1 + 0.2, 100000.1 + 200000.2, 1, "x"]).values == (Fraction(3, 10), Fraction(3000003, 10), 1, "x")
    assert variation_of("demand", "0:1:0.5").values == (0, Fraction(1, 2), 1)
    assert variation("a=1:2:x").values == ("1:2:x",) and variation("a=1,b, 2").values == (1, "b", 2)


def test_a_thousand_values_are_the_most():
    assert len(variation("a=1:1000:1").values) == 1000
    for text in ("a=1:1001:1", "a=1:2:0", "a=1:2:-1", "a=2:1:1"):
        with pytest.raises(Problem):
            variation(text)
    assert variation("a=1:1:1").values == (1,)


@pytest.mark.parametrize("key", ["demand.on.x", "signals.0.offset", "signals.3.offset", "signals.1", "step.x", "roads.q.lanes"])
def test_keys_that_are_none(key):
    values = {"step": 10, "signals": [{"offset": 1}, {"offset": 2}], "roads": {"m": {"lanes": 2}}}
    with pytest.raises(NoSuchKey):
        changed(values, {key: 1})


def test_values_are_told_in_ten_digits():
    assert shown(Fraction(1, 3)) == "0.3333333333" and shown(Fraction(3)) == "3" and shown("a") == "a"


def measured(delay, queue=0.0, error=""):
    values = dict.fromkeys(("delay_vehicle_hours", "longest_queue_km", "most_waiting_vehicles", "left_vehicles", "inside_vehicles",
                            "travel_time_min"), 0.0)
    return {**values, "delay_vehicle_hours": delay, "longest_queue_km": queue, "rounded": "", "error": error}


def test_rows_are_in_the_order_of_delay_and_those_that_failed_last():
    marks = [f"{i:016d}" for i in range(5)]
    results = SweptRows(None, ["a"], marks[:4])
    for mark, a, row in zip(marks, (4, 3, 2, 1, 0), (measured(5), measured(float("nan"), error="no"), measured(2, 1.5), measured(2, 0.5), measured(0))):
        results.put({"a": Fraction(a)}, row, mark)
    # The fifth is of another call.
    assert results.done == set(marks[:4]) and results.frame().a.tolist() == ["1", "2", "4", "3"]


def test_rows_in_a_file_are_kept_whole(tmp_path):
    path = tmp_path / "r" / "results.csv"
    marks = ["a" * 16, "b" * 16]
    SweptRows(path, ["k"], marks).put({"k": Fraction(1, 2)}, measured(3), marks[0])
    again = SweptRows(path, ["k"], marks)
    assert again.done == {marks[0]} and again.frame().k.tolist() == ["0.5"]
    again.put({"k": 2}, measured(1, error="failed"), marks[1])
    assert SweptRows(path, ["k"], marks).done == {marks[0]}
    path.write_text(path.read_text() + "7,1,2,3,4,5,6,,,cccccccc\n")
    assert SweptRows(path, ["k"], ["cccccccc"]).done == set()
    with pytest.raises(Problem, match="has the results of a sweep over k; name another folder"):
        SweptRows(path, ["q"], marks)


def test_a_run_without_a_travel_time_is_read_again(tmp_path):
    path = tmp_path / "results.csv"
    SweptRows(path, ["k"], ["a" * 16]).put({"k": 2}, {**measured(3), "travel_time_min": float("nan")}, "a" * 16)
    again = SweptRows(path, ["k"], ["a" * 16]).frame()
    assert again.delay_vehicle_hours.tolist() == [3] and again.travel_time_min.isna().all()


def test_rows_beyond_those_that_are_told_are_counted(tool, plain):
    status, out, err = tool("sweep", EXAMPLES / "arterial-0.toml", "--vary", "signals.offset=0,20,40", "--rows", "1", "-j", "1")
    lines = out.splitlines()
    # Forty seconds from line to line are the green wave.
    assert status == 0 and lines[0].split()[:3] == ["signals.offset", "delay", "(vehicle-hours)"] and lines[1].split()[:2] == ["40", "6.75"]
    assert lines[2] == "  and 2 more rows"
