"""Travel times, worked out on paper: at free flow, at a red light, before a lane drop, and along routes."""

import warnings

import numpy
import plain_model
import pytest

from ctmtools import Problem, read_report
from ctmtools.report.comparing import travel
from ctmtools.report.summary import page
from ctmtools.report.travel import Trips, chain_of, road_times, travel_times, trips

from .corridor import corridor
from .examples import save_report
from .plain_reports import at_a_light, reported


def test_at_free_flow_a_cell_takes_a_step(tmp_path):
    report = reported(corridor(tmp_path, demand='[["06:00", "06:30", 1000]]'))
    assert trips(report, ["m1", "m2", "m3", "m4"]).steps == pytest.approx(4)
    assert trips(report, ["g", "m1"]).steps == pytest.approx(2)
    frame = travel_times(report, chain_of(report, road="m"), every=900)
    assert frame["mean"].tolist() == pytest.approx([4 * 10 / 60] * 3)  # the last come in at 06:30:10
    # 1 km in 40 s is 90 km/h. 1,000 vehicles/h come for 1,800 s, of which those of the first 890 s enter by 06:15.
    assert frame.speed.tolist() == pytest.approx([90] * 3) and frame.delay.tolist() == pytest.approx([0] * 3)
    assert frame.entered.sum() == pytest.approx(500, abs=0.01)
    assert frame.entered[0] == pytest.approx(890 * 1000 / 3600, abs=0.01)


def test_who_comes_in_a_red_waits_for_the_green():
    # A vehicle that comes in step 3 stands in the gate in step 4, and enters the cell in it; step 10 is the next green.
    found = trips(at_a_light(0, 3, 7), ["a"])
    assert found.entered == pytest.approx([1.5, 4.5, 8.5]) and found.vehicles == pytest.approx([1, 1, 1])
    # Both of the red leave in step 10 together, the first in its first half: their middles leave at 10.25 and 10.75.
    assert found.steps == pytest.approx([1, 5.75, 2.25])


def test_who_has_not_arrived_by_the_end_has_no_time():
    report = at_a_light(0, 35)
    assert numpy.isnan(trips(report, ["a"]).steps).tolist() == [False, True]
    frame = travel_times(report, ["a"], every=20)
    assert frame["mean"][0] == 1 and numpy.isnan(frame["mean"][1]) and frame.attrs["units"]["mean"] == "steps"


def test_of_nobody_there_is_no_mean_time():
    with warnings.catch_warnings():
        warnings.simplefilter("error")
        assert numpy.isnan(Trips(*[numpy.empty(0)] * 4).mean)


def test_spans_of_a_single_step():
    frame = travel_times(at_a_light(0, 3), ["a"], every=1)
    assert frame.time[frame.entered > 0].tolist() == [1, 4]  # whose middles come at 1.5 and 4.5


def test_the_delay_of_a_lane_drop_is_that_of_its_travel_times(report):
    read = report("bottleneck")
    found = trips(read, chain_of(read, road="m"))
    hours = read.units.hours((found.vehicles * (found.steps - 30))[~numpy.isnan(found.steps)].sum())
    assert hours == pytest.approx(461.25, abs=0.05)
    # At most 450 wait, of whom 4,320 pass in an hour: 375 s beside the 300 s at free flow, for who is at the drop, 200 s
    # from the gate, when they do, at 08:00 at the gate.
    longest = next(time for time in road_times(read) if time.road == "m")
    assert longest.most * 10 == pytest.approx(300 + 375, abs=1)
    assert longest.entered == pytest.approx(720, abs=1.5)
    assert (longest.free, longest.road) == (30, "m")


def test_by_quarter_of_an_hour_before_a_lane_drop(report):
    read = report("bottleneck")
    frame = travel_times(read, chain_of(read, "m.0", "m.5"), every=900)
    # At 07:30 at the gate 360 wait, 300 s; at 07:15 half of them. Each quarter has the mean of both its ends.
    quarters = frame[(frame.step >= 360) & (frame.step < 720)]
    assert quarters.delay.tolist() == pytest.approx([75 / 60, 225 / 60, 318.75 / 60, 356.25 / 60], abs=0.05)
    assert frame["free"].tolist() == pytest.approx([200 / 60] * len(frame))


def test_a_route_over_a_merge_and_an_exit(report):
    read = report("interchange")
    cells = chain_of(read)
    assert read.network.kinds[cells[0]] == "gate" and all(read.network.kinds[cell] == "road" for cell in cells[1:])
    found = trips(read, cells)
    assert numpy.nanmin(found.steps) >= len(cells) - 1e-6


def test_places_of_a_route(tmp_path):
    report = reported(corridor(tmp_path))
    assert chain_of(report, "m.0", "m.1") == chain_of(report, road="m") == ["m1", "m2", "m3", "m4"]
    assert chain_of(report, "m.0.25", "m.0.5") == ["m2"] and chain_of(report, "m.0.26", "m.0.74") == ["m2", "m3"]
    assert chain_of(report, "g", "x") == ["g", "m1", "m2", "m3", "m4"] == chain_of(report)


@pytest.mark.parametrize("begin, end, road, wanted", [
    ("m.2", "m.1", None, "--from m.2: road m has 1 km"), ("n.0", "m.1", None, "--from n.0: there is no such place"),
    ("m.0", None, None, "--to: is missing"), ("m.0", "m.1", "m", "--road: say either"),
    ("m.0.5", "m.0.25", None, "no route leads from m.0.5 to m.0.25"), (None, None, "n", "the units name no road n")])
def test_mistakes_in_places(tmp_path, begin, end, road, wanted):
    with pytest.raises(Problem) as found:
        chain_of(reported(corridor(tmp_path)), begin, end, road)
    assert wanted in str(found.value)


def test_the_command_prints_and_writes_rows_draws_them_and_refuses_odd_spans(tool, reports, tmp_path):
    path = reports("bottleneck")
    status, out, err = tool("travel-time", path, "--road", "m", "--every", "30 min", "-o", "rows.csv", "--plot", "t.png")
    assert status == 0 and "at free flow, 30 steps" in out and out.splitlines()[2].split()[:3] == ["departure", "from", "vehicles"]
    row = next(line.split() for line in out.splitlines() if line.strip().startswith("06:00"))
    assert row[2:] == ["5", "5", "5", "90"]
    assert (tmp_path / "t.png").stat().st_size > 5000
    assert (tmp_path / "rows.csv").read_text().startswith("time,entered,mean,least,most,free,delay,speed,step\n")
    assert tool("travel-time", path, "--every", "1 s")[2].count("must be a step or more") == 1
    assert tool("travel-time", path, "--every", "soon")[0] == 2


def test_who_is_not_there_by_the_end_is_told(tool, tmp_path):
    made = corridor(tmp_path)
    (tmp_path / "s.report").write_bytes(plain_model.report(made.text.encode(), 1))
    (tmp_path / "s.csv").write_text(made.text)
    status, out, err = tool("travel-time", "s.report")
    assert status == 0 and "- where not all have arrived by the end, in 1 row" in out


def test_the_page_and_the_comparison_tell_it(tool, tmp_path):
    one, two = (save_report(tmp_path, name) for name in ("bottleneck", "bottleneck-staggered"))
    rows = travel(read_report(one), read_report(two))
    assert rows["rise"]["m"] < -1
    out = tool("compare", one, two)[1]
    assert "Mean travel time from end to end in min, 1 of 1 roads that differ" in out


def test_the_page_has_the_roads_that_are_held_up(report):
    lines = list(page(report("bottleneck")))
    row = next(line.split() for line in lines if line.startswith("  m "))
    assert row[:4] == ["m", "7.50", "5.0", "min"] and row[6:8] == ["11.2", "min"]
    assert "Travel time from end to end, of vehicles that have arrived:" in lines
