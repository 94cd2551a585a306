"""The figures of docs/VALIDATION.md: the program against the theory of kinematic waves."""

from fractions import Fraction

import numpy
import plain_model
import pytest

from ctmtools import build
from ctmtools.network_file.network import network_of
from ctmtools.program.calls import ask, program_path, takes
from ctmtools.report.queues import queues_in
from ctmtools.report.reading import report_of
from ctmtools.study.reading import read_values, scenario_of

from .examples import EXAMPLES
from .kinematic_waves import LaneDrop, SpeedLimit

DEMAND = [(0, 0.5, 2160), (0.5, 1, 3600), (1, 1.5, 5040), (1.5, 2, 4500), (2, 2.5, 3780), (2.5, 3, 2880),
          (3, 3 + 8 / 9, 2160)]


def run(name, **changes):
    """The report of a study with each step recorded, by the program where it records, else by the plain recurrences."""
    path = EXAMPLES / f"{name}.toml"
    built = build(scenario_of({**read_values(path), **changes}, path))
    text = built.text.encode()
    recorded = takes("--every", str(program_path()))
    report = report_of(ask(("run", "--every", "1"), text).out if recorded else plain_model.report(text, 1))
    report.units, report.network, report.name = built.units, network_of(text), name
    return report


def clocks(report, queue):
    """When a queue began, reached farthest and cleared, as clock times."""
    return tuple(report.units.clock(step, True) for step in (queue.start, queue.reached, queue.end))


def hours(report, cells):
    return report.units.hours(report.cells.wait[cells].sum())


def test_red_light():
    report = run("validation/red-light")
    queue, = queues_in(report)
    assert hours(report, report.cells.index) == pytest.approx(0.9)
    assert (queue.reach, clocks(report, queue)) == (pytest.approx(0.175), ("08:08:00", "08:10:08", "08:10:48"))


@pytest.mark.parametrize("step, cell, reach, cleared, mean, most", [
    (20, 500, 3.5, "08:40:40", 0.7, 6.8), (10, 250, 3.25, "08:40:50", 0.36, 3.4), (5, 125, 3.125, "08:40:50", 0.18,
                                                                                   1.7),
    (Fraction(5, 2), 62.5, 3.125, "08:40:50", 0.09, 0.85)])
def test_lane_drop_over_the_length_of_cells(step, cell, reach, cleared, mean, most):
    report = run("bottleneck", step=Fraction(step))
    queue = queues_in(report)[0]
    assert hours(report, report.cells.index) == pytest.approx(461.25, abs=0.01)
    assert queue.reach == pytest.approx(reach) and clocks(report, queue)[2] == cleared
    cells = [name for name in report.units.roads["m"] if report.units.cells[name]["to_km"] <= 5.001]
    bounds = [0.0, *(report.units.cells[name]["to_km"] for name in cells)]
    assert bounds[1] * 1000 == cell
    times = report.times * report.units.step / 3600
    theory = LaneDrop(90, 18, 432, 5, 4320, DEMAND, delay=report.units.step / 3600)  # a step passes in the gate
    misplaced = numpy.abs(report.vehicles[cells].to_numpy() - theory.held(bounds, times)).sum(axis=1) / 2
    queued = (times > 1.06) & (times < 2.68)
    assert misplaced[queued].mean() == pytest.approx(mean, rel=0.05)
    assert misplaced.max() == pytest.approx(most, rel=0.05)


def test_theory_of_the_lane_drop():
    theory = LaneDrop(90, 18, 432, 5, 4320, DEMAND)
    times = numpy.linspace(1, 2.7, 1701)
    places = numpy.linspace(0, 5, 2001)
    queued = theory.passed(places[None, :], times[:, None]) < theory.come(times[:, None] - places[None, :] / 90) - 1e-6
    tail = [places[row].min() if row.any() else 5 for row in queued]
    assert min(tail) == pytest.approx(1.875, abs=0.01)
    assert times[int(numpy.argmin(tail))] == pytest.approx(2 + 75 / 3600, abs=0.01)


def test_road_works():
    report = run("workzone")
    queue, = queues_in(report)
    assert hours(report, report.cells.index) == pytest.approx(2328, abs=0.01)
    assert (queue.reach, clocks(report, queue)) == (pytest.approx(4), ("10:00:20", "13:57:30", "14:14:00"))
    # Five minutes after the end the wave has run 1.5 km back by theory; behind it cells still hold more than Q = 18.
    row = report.vehicles.loc[1830, [f"m{i}" for i in range(15, 21)]]
    assert [round(value, 1) for value in row] == [43.7, 33.3, 25.4, 20.7, 18.6, 18.1]


@pytest.mark.parametrize("step, cell, widths", [(4, 50, (237, 333, 470)), (2, 25, (167, 235, 331)), (1, 12.5, (118,
                                                                                                               166,
                                                                                                               234))])
def test_a_green_smears_the_wave_by_the_root_of_its_way(step, cell, widths):
    report = run("validation/green", step=Fraction(step))
    assert hours(report, report.cells.index) == pytest.approx(28.8, abs=0.01)
    cells = [name for name in report.units.roads["c"] if report.units.cells[name]["to_km"] <= 1.5001][::-1]
    back = [1.5 - (report.units.cells[name]["from_km"] + report.units.cells[name]["to_km"]) / 2 for name in cells]
    for way, width in zip((0.25, 0.5, 1.0), widths):
        jam = report.vehicles.loc[round((60 + way / 15 * 3600) / step), cells].to_numpy() / (cell / 1000)
        part = (jam - 72) / (288 - 72)
        low, middle, high = (numpy.interp(level, part, back) for level in (0.1, 0.5, 0.9))
        assert (high - low) * 1000 == pytest.approx(width, abs=1)
        assert (high - low) * 1000 == pytest.approx(2.56 * (2 / 3 * way * 1000 * cell) ** 0.5, rel=0.03)
        assert abs(middle - way) * 1000 < 3


def test_merge():
    report = run("validation/merge")
    roads = report.units.roads
    assert hours(report, roads["a"]) == pytest.approx(56.25)
    assert hours(report, roads["b"]) == pytest.approx(71.015625, abs=0.001)
    assert hours(report, roads["c"]) == 0
    flow = {road: [round(report.flow.loc[minute * 12, roads[road][-1]] * 720) for minute in (35, 50, 57)]
            for road in "ab"}
    assert flow == {"a": [3240, 3240, 1800], "b": [1080, 1080, 2160]}
    ramp, main = queues_in(report)
    assert (main.reach, clocks(report, main)) == (pytest.approx(2.5), ("07:03:35", "07:30:20", "07:40:50"))
    assert (ramp.reach, clocks(report, ramp)) == (pytest.approx(2.625), ("07:03:25", "07:31:35", "07:45:45"))


def test_off_ramp():
    report = run("interchange")
    motorway = report.units.roads["m"][:24]
    assert report.cells.wait[["r1", "r2"]].sum() + report.cells.wait[motorway].sum() / 4 == pytest.approx(48_600)
    assert hours(report, motorway) == pytest.approx(345.38, abs=0.01)
    assert hours(report, ["r1", "r2"]) == pytest.approx(48.66, abs=0.01)
    assert queues_in(report)[0].reach == pytest.approx(4.25)


LIMIT = SpeedLimit(100, 60, 20, 120, 1900, 6, 7, 0.15)


def test_theory_of_the_speed_limit():
    assert (LIMIT.left, LIMIT.queued, LIMIT.most, LIMIT.tail) == (1800, 30, 2000, pytest.approx(-100 / 11))
    assert LIMIT.met == pytest.approx(0.15 + 13 / 60) and 6 + LIMIT.tail * LIMIT.met == pytest.approx(6 - 10 / 3)
    # Each who stands or drives slower than 100 km/h loses time: 30 less 18 in a km, and 19 less 11.4 of those who were in the stretch.
    places, times = numpy.linspace(0.005, 9.995, 1000), numpy.linspace(0.0005, 0.4995, 500)
    held = numpy.array([[LIMIT.density(place, time) for place in places] for time in times])
    first = (places[None, :] > 6) & (places[None, :] < 7) & (times[:, None] < 1 / 60) & (held == 19)
    assert (12 * (held == 30) + 7.6 * first).sum() * 0.01 * 0.001 == pytest.approx(6.063, abs=0.01)


@pytest.mark.parametrize("step, delay", [(9, 5.87), (Fraction(9, 2), 5.97), (Fraction(9, 4), 6.02)])
def test_speed_limit_over_the_length_of_cells(step, delay):
    report = run("validation/speed-limit", step=Fraction(step))
    assert hours(report, report.cells.index) == pytest.approx(delay, abs=0.005)
    assert 6.0633 - hours(report, report.cells.index) == pytest.approx(0.19 * step / 9, rel=0.05)  # half the error with half the length


def test_staggered_hours():
    assert hours(run("bottleneck-staggered"), slice(None)) == pytest.approx(120)
