"""Studies against detectors: what a run with known values passed finds these values again; triangles of known states."""

from types import SimpleNamespace

import numpy
import pandas
import pytest

from ctmtools import Problem, run
from ctmtools.calibration import fitting
from ctmtools.calibration.diagram import fit, read_states
from ctmtools.calibration.fitting import (Calibration, Reach, around, by_place, descend, distance, fitted, geh, range_of,
    starts, width_of)
from ctmtools.calibration.observed import modelled, read_observed
from ctmtools.many_runs import workers

from .clusters import PATIENCE
from .corridor import HEAD

STUDY = HEAD.format(end="08:00") + """
[roads.m]
length = 2
lanes = 2
sections = [{ from = 1, lanes = 1 }]
[gates.g]
into = "m"
demand = [["06:00", "06:20", 1500], ["06:20", "07:00", 2700], ["07:00", "08:00", 900]]
[exits.x]
from = "m"
"""


def calibrate(study, observed, ranges, most=80, first=16, searches=3, **terms):
    return fitted(Calibration(study, observed, ranges, **terms), most, first, searches)


def study(tmp_path, flow=2160, name="s.toml"):
    path = tmp_path / name
    path.write_text(STUDY.replace("saturation_flow = 2160", f"saturation_flow = {flow}"))
    return path


def seen(tmp_path, report, places=("m.0.5", "m.1.5"), speeds=True):
    """A file of what detectors would have seen of a report, in quarters of an hour."""
    rows = ["place,start,end,flow" + ",speed" * speeds]
    for place in places:
        cell = {"m.0.5": "m2", "m.1.5": "m6"}[place]
        for quarter in range(8):
            steps = slice(90 * quarter, 90 * (quarter + 1))
            flow = report.left[cell].diff().to_numpy()[1:][steps].mean()
            held = report.vehicles[cell].to_numpy()[:-1][steps].mean()
            start, end = (f"{6 + minutes // 60:02d}:{minutes % 60:02d}" for minutes in (15 * quarter, 15 * quarter + 15))
            rows.append(f"{place},{start},{end},{flow * 360:.3f}" + f",{90 * flow / held:.3f}" * speeds)
    path = tmp_path / "seen.csv"
    path.write_text("\n".join(rows) + "\n")
    return path


def test_the_values_of_a_known_run_are_found(tmp_path, recording_program):
    known = run(study(tmp_path, 1930, "known.toml"))
    observed = read_observed(seen(tmp_path, known))
    found = calibrate(study(tmp_path), observed, [range_of("lane.saturation_flow=1700:2200")], most=40)
    assert found.values["lane.saturation_flow"] == pytest.approx(1930, abs=5)
    assert found.distance < 0.002 < found.before and found.runs <= 1 + 40 + 12
    low, high = found.as_well["lane.saturation_flow"]
    assert 1900 < low <= 1930 <= high < 1960
    rows = by_place(found.modelled, observed)
    assert list(rows.index) == ["m.0.5", "m.1.5"] and (rows.geh < 0.2).all() and (rows.below_5 == 1).all()


def test_the_points_to_begin_at():
    assert around(2, 1) == [(0.5, 0.5)] and around(1, 4) == [(0.125,), (0.375,), (0.625,), (0.875,)]
    assert len(around(2, 9)) == 9 and len(around(2, 8)) == 4


def valleys(parts):
    """A distance with valleys at 0.47, where it is 0.3, and at 0.94, where it is 0.1, in the first part; in the others at 0.4."""
    first = min(0.3 + 2 * (parts[0] - 0.47) ** 2, 0.1 + 20 * (parts[0] - 0.94) ** 2)
    return first + sum((part - 0.4) ** 2 for part in parts[1:])


@pytest.mark.parametrize("keys", [1, 2])
def test_a_search_leaves_the_valley_that_it_begins_in(keys):
    def found(grid, count):
        seen = {}

        def off(parts):
            seen[tuple(parts)] = valleys(parts)
            return seen[tuple(parts)]
        for start in starts(grid, valleys, count):
            descend(off, start, width_of(grid), 60)
        return min(seen, key=seen.get)

    # From the middle alone it ends where it began, as it did when it had no other start.
    assert found(around(keys, 1), 1)[0] == pytest.approx(0.47, abs=0.01)
    assert found(around(keys, 16), 3)[0] == pytest.approx(0.94, abs=0.01)


def test_the_starts_are_valleys_of_the_grid_that_lie_apart():
    grid = around(1, 16)
    assert starts(grid, valleys, 3) == [(0.96875,), (0.46875,)] and len(starts(grid, valleys, 1)) == 1
    # The points of 16 are a sixteenth apart, those of a quarter in each of two ranges a half.
    assert (width_of(grid), width_of(around(2, 4)), width_of(around(2, 3))) == (1 / 32, 1 / 4, 0.3)


@pytest.mark.parametrize("most, searches", [(40, [24]), (76, [20, 20, 20]), (20, [11])])
def test_each_search_has_eight_runs_for_each_key(monkeypatch, most, searches):
    made = []
    monkeypatch.setattr(fitting, "descend", lambda distance, start, wide, runs: made.append(runs))
    # Of 40 or 76 runs 16 are of the grid, and of 20 as many as make a square in the half of them, 9. Two keys make 16 runs a search.
    own = SimpleNamespace(ranges=["a", "b"], need=lambda points: None, point_of=lambda parts: parts, distance=lambda parts: 0.0, best=())
    fitting.Calibration.search(own, most, 16, 3)
    assert made == searches


def test_how_far_a_value_does_as_well_is_halved():
    reach, tried = Reach((0.5,), 0, 1), []
    for _ in range(5):
        tried.append(reach.parts[0])
        reach.judged(reach.parts[0] <= 0.6)
    assert tried == [1, 0.75, 0.625, 0.5625, 0.59375] and reach.end == (0.59375,)


def test_each_key_has_its_own_values_that_do_as_well():
    # Six tries from 32 to an end of 0 to 64 come to a whole number.
    off = {(float(x), float(y)): 1.0 if 30 <= x <= 35 and 20 <= y <= 50 else 2.0 for x in range(65) for y in range(65)}
    own = SimpleNamespace(ranges=[range_of("x=0:64"), range_of("y=0:64")], need=lambda points: None, off=off,
                          point_of=lambda parts: Calibration.point_of(own, parts))
    assert Calibration.as_well(own, (32.0, 32.0)) == {"x": (30, 35), "y": (20, 50)}


def test_values_that_do_as_well_are_told(tmp_path, recording_program):
    # Of 2,700 vehicles/h from 06:20 to 07:00 some wait, but by 07:37 at the latest; from then on 900 come and go freely.
    (tmp_path / "seen.csv").write_text("place,start,end,flow\nm.0.5,07:45,08:00,900\n")
    observed = read_observed(tmp_path / "seen.csv")
    found = calibrate(study(tmp_path), observed, [range_of("lane.saturation_flow=1850:2160")], 8, first=4)
    assert found.as_well["lane.saturation_flow"] == (1850, 2160) and found.distance < 0.001


def test_what_was_tried_is_not_run_again(tmp_path, recording_program):
    observed = read_observed(seen(tmp_path, run(study(tmp_path, 1930, "known.toml"))))
    ranges = [range_of("lane.saturation_flow=1700:2160")]
    terms = {"most": 10, "first": 4, "folder": tmp_path / "kept"}
    whole = calibrate(study(tmp_path), observed, ranges, **terms)
    lines = (tmp_path / "kept/tried.csv").read_text().splitlines(keepends=True)
    (tmp_path / "kept/tried.csv").write_text("".join(lines[:6]) + lines[6][:20])  # stopped in the middle of a row
    again = calibrate(study(tmp_path), observed, ranges, **terms)
    assert (again.values, again.distance, again.as_well) == (whole.values, whole.distance, whole.as_well)
    assert again.runs == whole.runs - 5
    kept = calibrate(study(tmp_path), observed, ranges, **terms)
    assert kept.runs == 0 and kept.modelled.equals(whole.modelled)
    assert Calibration(study(tmp_path, 2000), observed, ranges, folder=tmp_path / "kept").earlier == 0


@pytest.mark.parametrize("jobs", [1, 2])
def test_a_search_that_begins_at_the_nearest_of_some(tmp_path, recording_program, jobs):
    observed = read_observed(seen(tmp_path, run(study(tmp_path, 1500, "known.toml"))))
    found = calibrate(study(tmp_path), observed, [range_of("lane.saturation_flow=1200:2150")], most=30, first=4, jobs=jobs)
    assert found.values["lane.saturation_flow"] == pytest.approx(1500, abs=6)
    with pytest.raises(Problem, match="no such key"):
        calibrate(study(tmp_path), observed, [range_of("lane.wave=1:2")])


def test_the_first_runs_on_a_cluster(tmp_path, recording_program, monkeypatch):
    from distributed import LocalCluster

    monkeypatch.setattr(workers, "PATIENCE", PATIENCE)
    observed = read_observed(seen(tmp_path, run(study(tmp_path, 2000, "known.toml"))))
    with LocalCluster(n_workers=1, threads_per_worker=1, dashboard_address=None) as made:
        found = calibrate(study(tmp_path), observed, [range_of("lane.saturation_flow=1800:2200")], 12, first=3,
                          dask=made.scheduler_address)
    assert found.values["lane.saturation_flow"] == pytest.approx(2000, abs=20)


def test_what_the_model_passes_where_a_detector_stands(tmp_path, recording_program):
    report = run(study(tmp_path))
    (tmp_path / "two.csv").write_text("Place,Start,End,Flow\nm.1.5,06:30,07:00,2000\nm.0.5,07:30,08:00,900\n")
    observed = read_observed(tmp_path / "two.csv")
    found = modelled(report, observed)
    # One lane passes 2,160 of the 2,700 vehicles/h; half an hour after the peak all 900 pass freely.
    assert found.flow.tolist() == pytest.approx([2160, 900], abs=0.01) and found.speed.tolist() == pytest.approx([90, 90], abs=0.5)
    # Off by 160 of 2,000 and by none; the mean of the observed is 1,450.
    assert distance(found, observed) == pytest.approx(160 / 1450 / 2 ** 0.5, abs=1e-3)


def test_geh():
    # The root of 2 · 100² / 1,900 and of 2 · 10² / 10; no flow is no miss.
    found = geh(pd([1000.0, 10.0, 0.0]), pd([900.0, 0.0, 0.0]))
    assert found.tolist() == pytest.approx([(20000 / 1900) ** 0.5, 20 ** 0.5, 0])


def pd(values):
    return pandas.Series(values)


@pytest.mark.parametrize("text, wanted", [
    ("place,start,end\nm.1,06:00,07:00\n", "has no column flow"), ("place,start,end,flow\n", "has no rows"),
    ("place,start,end,flow\nm.1,06:00,07:00,x\n", "line 2, flow: expected a flow"),
    ("place,start,end,flow\nm.1,06:00,06:00,5\n", "line 2: expected a flow, 0 or more, and an end after"),
    ("place,start,end,flow\nm.1,soon,06:00,5\n", "line 2, start: expected a clock time")])
def test_mistakes_in_the_file_of_detectors(tmp_path, text, wanted):
    (tmp_path / "d.csv").write_text(text)
    with pytest.raises(Problem) as found:
        read_observed(tmp_path / "d.csv")
    assert wanted in str(found.value)


@pytest.mark.parametrize("text", ["lane.wave_speed", "lane.wave_speed=5", "=1:2", "lane.wave_speed=3:2", "a=x:y", "a=1:inf", "a=-inf:1", "a=nan:1"])
def test_mistakes_in_ranges(text):
    with pytest.raises(Problem, match="expected KEY=LOW:HIGH"):
        range_of(text)


def test_the_command(tool, tmp_path, recording_program):
    path = seen(tmp_path, run(study(tmp_path, 2000, "known.toml")), speeds=False)
    status, out, err = tool("calibrate", study(tmp_path), "--observed", path, "--vary", "lane.saturation_flow=1800:2200", "--runs", 12)
    assert status == 0 and out.startswith("lane.saturation_flow = 20") or out.startswith("lane.saturation_flow = 199")
    assert "m.1.5" in out and (tmp_path / "s-calibration.png").stat().st_size > 5000
    path.write_text("place,start,end,flow\nq.1,06:00,07:00,5\n")
    status, out, err = tool("calibrate", study(tmp_path), "--observed", path, "--vary", "lane.saturation_flow=1800:2200")
    assert status == 2 and "q.1 is no place of the study" in err and err.count("\n") == 1


def states(noise=0.0, seed=3):
    """Flow and speed of a lane on a triangle of 100 km/h, 20 km/h and 150 vehicles/km, whose top is 2,500 vehicles/h."""
    drawn = numpy.random.default_rng(seed)
    density = numpy.concatenate([drawn.uniform(2, 25, 200), drawn.uniform(25, 120, 80)])
    flow = numpy.minimum(100 * density, 20 * (150 - density)) * (1 + noise * drawn.standard_normal(len(density)))
    return flow, density


@pytest.mark.parametrize("noise, off", [(0, 0.002), (0.05, 0.04)])
def test_the_triangle_of_known_states_is_found(tmp_path, noise, off):
    flow, density = states(noise)
    (tmp_path / "d.csv").write_text("Flow,Speed\n" + "".join(f"{3 * q:.4f},{q / k:.6f}\n" for q, k in zip(flow, density)))
    found = fit(read_states(tmp_path / "d.csv", lanes=3))
    assert (found.speed, found.wave, found.jam, found.capacity) == pytest.approx((100, 20, 150, 2500), rel=off)
    assert found.rows == 280 and found.queued == pytest.approx(80, abs=6 if noise else 1)


def test_flows_and_densities_of_all_lanes_are_parted_among_them(tmp_path):
    (tmp_path / "d.csv").write_text("Flow,Density\n" + 4 * "1800,18\n3600,90\n")
    assert read_states(tmp_path / "d.csv", lanes=3)[["flow", "density"]].values.tolist() == 4 * [[600, 6], [1200, 30]]


def test_three_rows_of_queued_traffic_are_enough_for_a_triangle():
    """Free traffic of 100 km/h up to 2,000 vehicles/h, and waves of 20 km/h from a jam of 120 vehicles/km."""
    free, queued = numpy.arange(2, 21, 2), numpy.array([60, 80, 100])
    states = pandas.DataFrame({"density": [*free, *queued], "flow": [*(100 * free), *(20 * (120 - queued))]}, dtype=float)
    found = fit(states)
    assert (found.speed, found.wave, found.jam) == pytest.approx((100, 20, 120), rel=0.01)
    with pytest.raises(Problem, match="2 rows are of queued traffic, too few"):
        fit(states[:-1])


def test_queued_rows_near_together_are_told(tool, tmp_path):
    flow, density = states(0.03)
    one = (density < 25) | (density > 60) & (density < 70)  # as before a lane drop: one state of queued traffic
    pandas.DataFrame({"flow": flow[one], "density": density[one]}).to_csv(tmp_path / "d.csv", index=False)
    status, out, err = tool("diagram", "d.csv")
    assert status == 0 and "warning: most rows of queued traffic lie between 6" in out and "too near together" in out


def test_the_command_of_the_diagram(tool, tmp_path):
    flow, density = states()
    pandas.DataFrame({"flow": flow, "density": density}).to_csv(tmp_path / "d.csv", index=False)
    status, out, err = tool("diagram", "d.csv")
    assert status == 0 and "saturation_flow = 2500  # vehicles/h" in out and "warning" not in out and (tmp_path / "d-diagram.png").exists()
    pandas.DataFrame({"flow": flow[:200], "density": density[:200] / 2}).to_csv(tmp_path / "free.csv", index=False)
    free = tool("diagram", "free.csv")
    assert free[0] == 2 and "too few for a wave speed" in free[2]
    (tmp_path / "none.csv").write_text("flow,occupancy\n1,2\n")
    assert "needs the columns flow and density, or flow and speed" in tool("diagram", "none.csv")[2]
