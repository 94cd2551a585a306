"""Means over spans of time, of a red light worked out step by step: as GeoJSON, by road, and as travel times."""

import pytest

from ctmtools.exports.geojson import collection, features
from ctmtools.problem import Problem
from ctmtools.report.by_road import bounds_of, by_road, network_states
from ctmtools.report.reading import report_of
from ctmtools.report.states import queues_of, states, totals
from ctmtools.report.travel import travel_times
from ctmtools.units import Units

from .plain_reports import at_a_light

# The cell holds one at step 2, which leaves in it; one from step 5 on, and another from step 9 on, which both leave in step 10.


def spans(every, cell="a"):
    return [row["properties"] for row in features(at_a_light(0, 3, 7), every) if row["properties"]["cell"] == cell]


def test_spans_of_a_cell_at_a_light():
    rows = spans(10)
    assert [(row["begin"], row["end"]) for row in rows] == [(0, 10), (10, 20), (20, 30), (30, 40)]
    assert [row["flow"] for row in rows] == [0.1, 0.2, 0, 0] and [row["density"] for row in rows] == [0.7, 0.2, 0, 0]
    assert [row["speed"] for row in rows] == [0.143, 1, None, None] and [row["delay"] for row in rows] == [6, 0, 0, 0]


def test_the_last_span_ends_with_the_run():
    rows = spans(15)
    assert [(row["begin"], row["end"]) for row in rows] == [(0, 15), (15, 30), (30, 40)] and rows[0]["flow"] == 0.2
    assert len(spans(1)) == 40 and [row["flow"] for row in spans(1)[:4]] == [0, 0, 1, 0]
    with pytest.raises(Problem, match="less than the time from record to record"):
        spans(0.9)


def test_gates_have_no_density_and_the_whole_run_no_spans():
    gate = spans(40, "g")[0]
    assert gate["flow"] == 0.075 and "density" not in gate and "speed" not in gate
    report = at_a_light(0, 3, 7)
    whole = [row["properties"] for row in features(report) if row["properties"]["cell"] == "a"]
    assert whole == [{"cell": "a", "kind": "road", "left": 3, "delay": 6}]
    assert collection(report)["units"] == {"delay": "vehicle-steps", "flow": "vehicles in a step", "density": "vehicles in a cell",
                                           "speed": "cells in a step", "coordinates": "local, of a schematic map in cells"}


def test_a_road_of_the_light_by_ten_steps():
    report = at_a_light(0, 3, 7)
    report.units.roads = {"a": ["a"]}
    frame = by_road(report, 10)
    rows = frame[frame.road == "a"]
    assert rows.step.tolist() == [0, 10, 20, 30] and rows.left.tolist() == [1, 2, 0, 0] and rows.flow.tolist() == [0.1, 0.2, 0, 0]
    assert rows.density.tolist() == pytest.approx([0.7, 0.2, 0, 0]) and rows.delay.tolist() == pytest.approx([6, 0, 0, 0])
    assert rows.speed.tolist()[:2] == pytest.approx([1 / 7, 1]) and rows.speed.isna().tolist() == [False, False, True, True]
    assert rows.delay_each.tolist()[:2] == pytest.approx([6, 0]) and rows.queue.tolist() == [1, 0, 0, 0]
    assert frame.attrs["units"]["flow"] == "vehicles in a step" and frame.attrs["units"]["queue"] == "cells"
    found = network_states(report, 10)
    assert found.step.tolist() == [0, 10, 20, 30] and found.flow.tolist() == pytest.approx([0.1, 0.2, 0, 0])
    assert found.density.tolist() == pytest.approx([0.7, 0.2, 0, 0])


@pytest.mark.parametrize("every, wanted", [(None, [0, 40]), (10, [0, 10, 20, 30, 40]), (15, [0, 15, 30, 40]), (40, [0, 40]), (100, [0, 40]),
                                           (1, list(range(41)))])
def test_bounds_of_spans(every, wanted):
    assert bounds_of(at_a_light(0), every) == wanted


def test_a_span_is_no_shorter_than_a_record():
    with pytest.raises(Problem, match="less than the time"):
        bounds_of(at_a_light(0), 0.9)


def test_travel_times_by_ten_steps():
    frame = travel_times(at_a_light(0, 3, 7, 12), ["a"], 10)
    # Those of the steps 0, 3 and 7 need 1, 5.75 and 2.25 steps; the fourth enters at 13.5, while it is green.
    assert frame.step.tolist() == [0, 10] and frame.time.tolist() == [0, 10] and frame.entered.tolist() == pytest.approx([3, 1])
    assert frame["mean"].tolist() == pytest.approx([3, 1]) and frame.least.tolist() == pytest.approx([1, 1])
    assert frame.most.tolist() == pytest.approx([5.75, 1]) and frame.free.tolist() == [1, 1] and frame.delay.tolist() == pytest.approx([2, 0])
    assert frame.speed.isna().all()
    for every in (0, -1):
        with pytest.raises(Problem, match="--every: must be above 0"):
            travel_times(at_a_light(0), ["a"], every)


def test_states_of_a_report_without_its_network():
    report = at_a_light(0, 3, 7)
    known = states(report)
    assert known[known.cell == "g"].density.isna().all() and known[known.cell == "a"].density.tolist()[:4] == [0, 0, 1, 0]
    report.network = None
    frame = states(report)
    row = frame[(frame.cell == "a") & (frame.step == 9)].iloc[0]
    assert (row.vehicles, row.flow, row.density, row.speed) == (2, 0, 2, 0) and frame[frame.cell == "g"].density.tolist()[:3] == [0, 1, 0]
    assert frame.time.tolist()[:4] == [0, 0, 0, 1] and frame[frame.step == 40].flow.isna().all()


def test_ends_and_queues_in_hours():
    report = at_a_light(0, 3, 7)
    report.units = Units(step=1800, start=0)
    ends = totals(report, value_of_time=12)
    # Six steps of half an hour.
    assert ends.delay.tolist() == [0, 3, 0] and ends.cost.tolist() == [0, 36, 0] and ends.entered.tolist() == [3, 3, 3]
    queue = queues_of(report).iloc[0]
    assert (queue.cell, queue.delay, queue.most_waiting) == ("a", 3, 2) and str(queue.began) == "1900-01-01 02:30:00"
    assert str(queue.most_at) == "1900-01-01 04:30:00" and str(queue.cleared) == "1900-01-01 05:00:00"


def test_the_time_spent_between_records_that_stand_apart():
    text = b"report,10,1\n" + b"".join(b"at,%d,c,%d,%d\n" % row for row in ((0, 0, 0), (4, 8, 4), (5, 6, 7), (10, 2, 12))) + \
        b"cell,c,2,14,12,20\ntotal,2,14,12,20\n"
    report = report_of(text)
    assert report.recorded and report.passed[:, 0].tolist() == [4, 3, 5] and report.times.tolist() == [0, 4, 5, 10]
    # Evenly from 0 to 8 it holds 0, 2, 4 and 6, then 8, then 6, 5.2, 4.4, 3.6 and 2.8. What doesn't leave of these 12, 8 and 22 are 8, 5
    # and 17; of the 20 that the program says have waited each has two thirds of that.
    assert report.waited[:, 0].tolist() == pytest.approx([16 / 3, 10 / 3, 34 / 3])
    assert report.spent[:, 0].tolist() == pytest.approx([4 + 16 / 3, 3 + 10 / 3, 5 + 34 / 3])
