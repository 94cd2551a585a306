"""The numbers of the page for a browser: frames, means, tables and times, of queues worked out step by step."""

from types import SimpleNamespace as Some

import pytest

from ctmtools import Problem
from ctmtools.network_file.network import network_of
from ctmtools.pages import frames
from ctmtools.pages.content import data_of, opening
from ctmtools.pages.frames import Frames, bounds_of
from ctmtools.pages.html_page import page_of
from ctmtools.pages.tables import table_of
from ctmtools.report.reading import report_of
from ctmtools.units import Units

from .corridor import corridor
from .page_data import cells_of, decoded, figures
from .test_lines import corridors
from .plain_reports import at_a_light, reported


# In 3,200,000 bytes each cell has in a frame two of density, two of flow and a bit of its queue, and each frame 24 for its time.
@pytest.mark.parametrize("cells, count, steps, each", [(2000, 1, 386, 1), (2000, 1, 387, 2), (2000, 1, 1440, 4), (2000, 2, 1440, 8), (10, 1, 1440, 1),
                                                       (4_000_000, 1, 9, 9)])
def test_as_many_frames_as_there_is_room_for(cells, count, steps, each):
    found = bounds_of([Some(cells=range(cells), times=range(steps + 1))] * count)
    assert found == [*range(0, steps, each), steps]


def test_the_data_of_a_light():
    data = data_of([at_a_light(0, 3, 7)])
    assert decoded(data, "density")["a"][:11] == pytest.approx([0, 0, 1, 0, 0, 1, 1, 1, 1, 2, 2], abs=0.001)
    assert decoded(data, "flow")["a"][[2, 5, 10, 11]] == pytest.approx([1, 0, 2, 0], abs=0.001)
    assert [data["reports"][0][name]["most"][1] for name in ("density", "flow")] == [2, 2]
    assert data["units"] == {"density": "vehicles in a cell", "flow": "vehicles in a step", "speed": "cells in a step", "place": "cell"}
    assert data["times"] == [f"step {step}" for step in range(41)] and data["clock"] == {"known": False, "bounds": [*range(41)]}
    assert data["subtitle"] == "40 steps. 3 vehicles entered, 3 left, 0 are still inside, delay 6 vehicle-steps"
    assert data["notes"].startswith("Density, flow and speed are means over 1 step. A cell") and data["title"] == "light"
    whole = "all road cells, in the order of the file"
    assert data["networks"][0]["roads"] == {whole: [1]} and data["opening"] == {"report": 0, "road": whole, "cell": "a", "frame": 9}
    cell = cells_of(data)[1]
    assert (cell["name"], cell["kind"], cell["from"], cell["to"]) == ("a", "road", 0, 1)


@pytest.mark.filterwarnings("error::RuntimeWarning")
def test_a_run_in_which_nobody_comes_has_zeros_and_no_warning():
    data = data_of([at_a_light()])
    assert not any(decoded(data, name)[cell].any() for name in ("density", "flow") for cell in "gax")


def test_means_of_frames_of_several_steps(monkeypatch):
    monkeypatch.setattr(frames, "MOST_DATA", 10 * (3 * 4.125 + 24))  # ten frames of three cells
    data = data_of([at_a_light(0, 3, 7)])
    assert decoded(data, "density")["a"] == pytest.approx([0.25, 0.75, 1.25, *[0] * 7], abs=0.001) and len(data["times"]) == 11
    assert decoded(data, "flow")["a"] == pytest.approx([0.25, 0, 0.5, *[0] * 7], abs=0.001) and "means over 4 steps" in data["notes"]


def test_means_of_records_that_stand_apart():
    text = b"report,10,1\n" + b"".join(b"at,%d,c,%d,%d\n" % row for row in ((0, 0, 0), (4, 8, 4), (5, 6, 7), (10, 2, 12))) + \
        b"cell,c,2,14,12,20\ntotal,2,14,12,20\n"
    report = report_of(text, "c")
    report.network = network_of(b"ctm,1\nsteps,10\nroad,c,60,9,1,5,0\n")
    data = data_of([report])
    # 4, 3 and 5 go out. Evenly between records it would hold 12, 8 and 22 over the steps, 8, 5 and 17 more, of which 20 of 30 wait.
    assert decoded(data, "density")["c"] == pytest.approx([(4 + 16 / 3) / 4, 3 + 10 / 3, (5 + 34 / 3) / 5], abs=0.001)
    assert decoded(data, "flow")["c"] == pytest.approx([1, 3, 1], abs=0.001)


def test_of_times_of_one_density_the_page_opens_at_that_with_most_vehicles():
    rows = ((0, "a", 10, 0), (0, "b", 0, 0), (1, "a", 0, 10), (1, "b", 50, 0), (2, "a", 9, 10), (2, "b", 45, 50), (3, "a", 0, 19), (3, "b", 0, 95))
    report = report_of(b"report,3,2\n" + b"".join(b"at,%d,%s,%d,%d\n" % (step, cell.encode(), *row) for step, cell, *row in rows) +
                       b"cell,a,0,19,19,0\ncell,b,0,95,95,0\ntotal,0,114,114,0\n", "c")
    report.network = network_of(b"ctm,1\nsteps,3\nroad,a,60,9,1,5,0\nroad,b,60,9,1,5,0\n")
    report.units = Units(step=10, start=0, roads={"m": ["a", "b"]}, cells={"a": {"road": "m", "from_km": 0, "to_km": 0.1},
                                                                           "b": {"road": "m", "from_km": 0.1, "to_km": 0.6}})
    # First 10 vehicles on the 100 m of a, then 50 on the 500 m of b: 100 vehicles/km each time. Then 54 on both, 90 vehicles/km.
    assert opening([Frames(report, [0, 1, 2, 3], True)])["frame"] == 1


def test_two_reports_side_by_side():
    one, two = corridors(60, a=20), corridors(60, a=10)
    two.name = "other.report"
    data = data_of([one, two])
    assert "<title>made and other</title>" in page_of([one, two], library="// d3") and data["names"] == ["made", "other"]
    assert (data["title"], data["subtitle"]) == ("made and other", "60 steps")
    # Length, delay, vehicles, delay of each and most in queues; a gate has neither length nor queue.
    table = table_of([one, two])
    assert [figures(table, i)["all road cells, in the order of the file"][:5] for i in (0, 1)] == [[1, 400, 40, 10, 1], [1, 100, 20, 5, 1]]
    assert [figures(table, i)["gate ga"][:5] for i in (0, 1)] == [[None, 0, 40, 0, None], [None, 0, 20, 0, None]]
    # Came, served, still inside, delay, and how much more than the first.
    assert data["tables"]["reports"]["rows"] == [["made", 40, 40, 0, 400, None, None], ["other", 20, 20, 0, 100, -300, -75]]
    assert data["tables"]["cells"]["rows"][0] == ["a", 400, 100, -300, 40, 20, -20]


def test_a_gate_in_which_somebody_waits_has_a_delay_of_its_own(tmp_path):
    report = reported(corridor(tmp_path, lanes=1, demand='[["06:00", "06:10", 3240]]'))
    own = figures(table_of([report]))
    # Of 9 in each of 60 steps 6 pass: 3 more wait after each, and from then on 6 fewer, 90 steps in all.
    delay = (180 * 60 / 2 + 180 * 30 / 2) / 360
    assert own["gate g"][:4] == [None, pytest.approx(delay, abs=0.01), 540, pytest.approx(delay * 3600 / 540, abs=0.1)]
    assert own["m"][1] == pytest.approx(0, abs=0.001)


def test_steps_of_other_length_are_of_other_times():
    one, two = corridors(9, a=1), corridors(9, a=1)
    two.units = Units(step=5)
    with pytest.raises(Problem, match="is of other times than"):
        data_of([one, two])


@pytest.mark.parametrize("step, times", [(60, ["00:10", "00:11"]), (120, ["00:10", "00:12"]), (90, ["00:10:00", "00:11:30"]),
                                         (10, ["00:10:00", "00:10:10"])])
def test_seconds_are_told_where_frames_are_no_whole_minutes(step, times):
    report = corridors(9, a=1)
    report.units = Units(step=step, start=600)
    data = data_of([report])
    assert data["times"][:2] == times and data["clock"] == {"known": True, "bounds": [600 + step * i for i in range(10)]}
