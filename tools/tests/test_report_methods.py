"""What a report is asked by a dot: the same as by the functions, and the rows of a cell and of a road."""

import matplotlib.figure
import pandas
import pytest

import ctmtools
from ctmtools import Problem, Report, read_report, run

from .examples import EXAMPLES
from .test_meter import METER, RAMP, small

ROAD = """\
title = "A <road>"
step = 10
end = "00:05"
lane = { free_flow_speed = 90, wave_speed = 18, jam_density = 144, saturation_flow = 2160 }
[roads.m]
length = 0.5
lanes = 1
[gates.g]
into = "m"
demand = 720
[exits.x]
from = "m"
"""


@pytest.fixture
def of(report):
    return report("bottleneck")


def test_each_method_gives_what_its_function_gives(of):
    for found, wanted in (
            (of.states(), ctmtools.states(of)), (of.totals(20), ctmtools.totals(of, 20)), (of.queues(), ctmtools.queues_of(of)),
            (of.by_road(900, 12), ctmtools.by_road(of, 900, 12)),
            (of.travel_times(road="m", every=900), ctmtools.travel_times(of, ctmtools.chain_of(of, road="m"), 900)),
            (of.travel_times("m.1", "m.5"), ctmtools.travel_times(of, ctmtools.chain_of(of, "m.1", "m.5")))):
        pandas.testing.assert_frame_equal(found, wanted)
        assert found.attrs == wanted.attrs and len(found)
    assert of.page() == ctmtools.page(of)


def test_the_rows_of_a_cell_and_of_a_road(plain):
    # A step of 10 s at 90 km/h makes cells of 250 m: two, which hold 2 vehicles each once 720 vehicles/h have come through.
    report = run(ROAD)
    cell = report.cell("m2")
    assert cell.cell.unique().tolist() == ["m2"] and cell.step.tolist() == list(range(31)) and cell.attrs["units"]["flow"] == "vehicles/h"
    assert cell.flow[5] == pytest.approx(720) and cell.density[5] == pytest.approx(8) and cell.speed[5] == pytest.approx(90)
    road = report.road("m")
    assert road.cell[:2].tolist() == ["m1", "m2"] and len(road) == 62 and road.road.unique().tolist() == ["m"]
    with pytest.raises(Problem, match="^.*: there is no cell m3$"):
        report.cell("m3")
    with pytest.raises(Problem, match="^.*: there is no road n$"):
        report.road("n")
    with pytest.raises(Problem, match="there is no road m, as the units aren't known"):
        run(EXAMPLES / "arterial-0.csv").road("m")


def test_pictures(of, tmp_path):
    assert isinstance(of.plot("delay"), matplotlib.figure.Figure)
    of.plot("time-space", tmp_path / "m.svg", road="m", begin="07:00", until="08:00")
    assert "vehicles/km" in (tmp_path / "m.svg").read_text()
    with pytest.raises(Problem, match="No such option: --raod; is --road meant"):
        of.plot("time-space", raod="m")
    with pytest.raises(Problem, match="--shifted: is no option of time-space"):
        of.plot("time-space", shifted=True)


def test_a_report_shows_itself_in_a_line_and_in_a_notebook(plain, of):
    report = run(ROAD)
    assert repr(report) == "<Report 'A <road>': 4 cells, 30 steps, recorded 31 times>"
    assert repr(run(ROAD, every=0)) == "<Report 'A <road>': 4 cells, 30 steps, without records>"
    shown = report._repr_html_()
    assert shown.startswith("<pre>A &lt;road&gt;: 00:00 to 00:05, 4 cells\n") and 'src="data:image/png;base64,iVBOR' in shown
    # Of 2 vehicles that come each step those of the last three are still in the gate and the two cells.
    without = run(ROAD, every=0)._repr_html_()
    assert "img" not in without and "60 entered, 54 left, 6 are still inside" in without


def test_reports_are_equal_where_they_are_the_same_one(of, reports):
    assert of == of and of != read_report(reports("bottleneck")) and len({of, read_report(reports("bottleneck"))}) == 2


def test_whatever_gives_a_report_gives_one_with_methods(program, of, reports, tmp_path):
    small(tmp_path, RAMP + METER + "interval = 600\n")
    done = ctmtools.meter(tmp_path / "study.toml")
    kept = run(ROAD, output=tmp_path / "r.report")
    assert all(isinstance(one, Report) for one in (of, read_report(reports("bottleneck")), run(ROAD), kept, done.report, done.without))
    assert kept.name == str(tmp_path / "r.report") and kept.units.known and kept.network is not None
