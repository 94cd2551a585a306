"""What pictures show, by the data of their lines and bars: of a red light, and of queues, worked out step by step."""

import numpy
import pandas
import pytest
from matplotlib.transforms import Bbox

from ctmtools import Problem, build, read_study
from ctmtools.plots import curves, delay, difference, figure, fundamental, labels, network_map, queue, rates, roadside, sweep, time_space
from ctmtools.plots.layout import _at, _between, _beyond, lay_out, middles
from ctmtools.report.queues import queues_in
from ctmtools.units import DAY_ZERO
from ctmtools.units import Units

from .corridor import corridor
from .test_lines import corridors
from .plain_reports import at_a_light, reported


def light(**units):
    """The light that two vehicles wait at, with units where they are said."""
    report = at_a_light(0, 3, 7)
    report.units = Units(**units)
    return report


def test_curves_of_a_light():
    axes = curves.draw(light()).axes[0]
    assert [line.get_label() for line in axes.lines] == ["come to gate g", "past a", "come to exit x"]
    come, past, left = (line.get_ydata() for line in axes.lines)
    # Vehicles come in the steps 0, 3 and 7; one leaves the cell in step 2, and two in step 10.
    assert come.tolist()[:9] == [0, 1, 1, 1, 2, 2, 2, 2, 3] and past.tolist()[:12] == [0, 0, 0, 1, 1, 1, 1, 1, 1, 1, 1, 3]
    assert left.tolist() == past.tolist() and axes.lines[0].get_xdata().tolist() == list(range(41)) and axes.get_ylim()[0] == 0
    assert axes.get_xlim() == (0, 40) and axes.get_xlabel() == "Time (steps)"


def test_curves_that_are_shifted_and_have_a_flow_taken_off():
    report = light(step=10, start=21600)
    axes = curves.draw(report, ["g", "a", "x"], background=360, shifted=True, begin="06:01", until="06:05").axes[0]
    # What has come to the gate is moved on by two steps, to the gate and the cell; what has left it by none.
    assert [line.get_xdata()[0] for line in axes.lines] == [21620, 21600, 21600] and axes.get_xlim() == (21660, 21900)
    assert [line.get_label() for line in axes.lines] == ["come to gate g, + 20 s", "past a", "come to exit x"]
    # A vehicle in each step, counted from 06:00 on: 3 vehicles less 4 and 40.
    assert axes.lines[1].get_ydata()[[0, 4, 40]].tolist() == [0, 1 - 4, 3 - 40]
    assert curves._lags(report, ["g", "a"]) == [2, 0] and curves._lags(report, ["a"]) == [0]
    with pytest.raises(Problem, match="a flow in vehicles/h can't be taken off"):
        curves.draw(light(), background=1)
    with pytest.raises(Problem, match="no route leads from x to g"):
        curves.draw(light(), ["x", "g"], shifted=True)


def test_curves_without_delay_are_of_both_ends():
    report = corridors(60, a=20)
    report.cells.wait["a"] = 0
    assert curves._telling(report) == ["ga", "xa"]


def test_a_queue_that_comes_once_is_drawn_as_it_is():
    report = corridors(60, a=20)
    upper, lower = queue.draw(report).axes
    reach, waiting = upper.lines[0].get_ydata(), lower.lines[0].get_ydata()
    # It holds from 2 vehicles at step 2 to 21 at step 21 and 2 at step 40, one of which passes.
    assert waiting[[2, 3, 21, 40]].tolist() == [1, 2, 20, 1] and numpy.isnan(waiting[[0, 43]]).all() and waiting[[1, 41]].tolist() == [0, 0]
    assert reach[[2, 40]].tolist() == [1, 1] and lower.lines[0].get_label() == "from a" and upper.get_ylabel() == "Reach back (cells)"
    assert "the most in each cycle" not in lower.get_xlabel()


def test_a_queue_that_comes_with_each_cycle_is_drawn_by_cycles():
    report = at_a_light(*range(0, 30))
    one, = queues_in(report)
    assert one.spells > 1
    values = queue._by_cycle(report, one).waiting
    run = values.groupby(values.index // 10)
    assert (run.nunique() == 1).all() and values[10] > 0 and "the most in each cycle of a signal" in queue.draw(report).axes[1].get_xlabel()


def test_queues_that_are_not_drawn_are_told():
    lower = queue.draw(corridors(60, **{f"r{i}": 20 + i for i in range(7)})).axes[1]
    assert [line.get_label() for line in lower.lines] == [f"from r{i}" for i in (6, 5, 4, 3, 2)]
    # Those of 21 and 20 pairs of vehicles.
    assert f"Not drawn: 2 more, the longest 1 cell from r1; {21 * 21 + 20 * 20:,} vehicle-steps in all" in " ".join(lower.get_xlabel().split())


def test_spans_of_red():
    row = pandas.Series({"cycle": 10, "offset": 3, "from": 0, "to": 5})
    # It is green in the steps in which step + 3 ends with 0 to 4: 7 to 11, 17 to 21 and so on.
    assert list(roadside._reds(row, 0, 30)) == [(2, 7), (12, 17), (22, 27)]
    assert list(roadside._reds(row, 4, 14)) == [(4, 7), (12, 14)]
    between = pandas.Series({"cycle": 10, "offset": 0, "from": 2, "to": 5})
    assert list(roadside._reds(between, 0, 13)) == [(0, 2), (5, 10), (10, 12)]


@pytest.mark.parametrize("places, wanted", [([], []), ([3], [(3, 3)]), ([1, 2, 3, 5, 7, 8], [(1, 3), (5, 5), (7, 8)])])
def test_stretches_without_gaps(places, wanted):
    assert list(roadside._stretches(places)) == wanted


def test_what_stands_beside_a_route(report):
    read = report("interchange")
    cells = [f"m{i:02d}" for i in range(23, 31)]
    marks = roadside.junctions(read, cells)
    # Behind m24 the off-ramp r leaves, behind m28 the on-ramp a joins.
    assert [mark for mark in marks if "lanes" not in mark[1]] == [(2, "r leaves"), (6, "a joins")]


def test_a_line_in_a_narrow_picture_has_twenty_letters_however_wide_they_are():
    axes = figure.figure(size=(1, 1))[1]
    figure.note(axes, 45 * "W")
    assert axes.get_xlabel().split("\n") == [20 * "W", 20 * "W", 5 * "W"]


def test_a_time_space_diagram_of_a_light():
    drawn = time_space.draw(light())
    axes, bar = drawn.axes
    values = axes.collections[0].get_array().reshape(1, 40)
    assert values[0, :11].tolist() == [0, 0, 1, 0, 0, 1, 1, 1, 1, 2, 2] and axes.collections[0].get_clim() == (0, 60)
    assert bar.get_ylabel() == "Density (vehicles in a cell)" and axes.get_ylabel() == "Cells a to a, direction of travel upward"
    assert [text.get_text() for text in drawn.legends[0].get_texts()] == ["slower than 80% of free flow", "red light"]
    named = time_space.draw(corridors(60, a=20)).legends[0].get_texts()
    assert [text.get_text() for text in named] == ["slower than 80% of free flow"]


def test_a_diagram_with_a_closure_and_known_roads(tmp_path):
    report = reported(corridor(tmp_path, '[[closures]]\nroad = "m"\nfrom = 0.5\nto = 0.75\nlanes = 1\nstart = "06:10"\nend = "06:20"\n'))
    drawn = time_space.draw(report, of="flow")
    axes, bar = drawn.axes
    assert [text.get_text() for text in drawn.legends[0].get_texts()] == ["slower than 80% of free flow", "capacity reduced"]
    patch = next(one for one in axes.patches if one.get_hatch())
    assert (patch.get_x(), patch.get_width(), patch.get_y(), patch.get_height()) == (6 * 3600 + 600, 600, 0.5, 0.25)
    assert bar.get_ylabel() == "Flow (vehicles/h)" and axes.get_ylabel() == "Road m (km), direction of travel upward"
    assert axes.get_xlim() == (6 * 3600, 7 * 3600) and axes.get_ylim() == (0, 1) and axes.get_xlabel() == "Time of day (h:min)"


@pytest.mark.parametrize("roads, told", [("m", "Road m"), ("mno", "Roads m, n, o"), ("mnop", "Roads m to p")])
def test_roads_of_a_route(roads, told):
    report = light(cells={f"{road}1": {"road": road} for road in roads})
    assert time_space._roads(report, [f"{road}1" for road in roads]) == told


def test_rates_of_meters():
    from types import SimpleNamespace as Some

    rows = pandas.DataFrame({"step": [0, 6, 12], "ramp": "r", "occupancy": [numpy.nan, 5, 25], "rate": [900, 1200, 600]})
    gauge = Some(meter=Some(ramp="r"), detector="a", begin=0, end=18, wanted=20)
    above, below = rates.draw(light(step=10, start=0), rows, [gauge]).axes
    # What is seen in an interval stands in the row of the next one.
    values, edges, _ = above.patches[0].get_data()
    assert numpy.array_equal(values, [5, 25, numpy.nan], equal_nan=True) and edges.tolist() == [0, 60, 120, 180]
    assert list(above.lines[0].get_ydata()) == [20, 20] and list(above.lines[0].get_xdata()) == [0, 180]
    assert below.patches[0].get_data()[0].tolist() == [900, 1200, 600]


def test_the_difference_of_two_queues():
    one, two = corridors(60, a=20), corridors(60, a=10)
    drawn = difference.draw(one, two)
    mesh = drawn.axes[0].collections[0]
    # Both hold 11 at step 11; from then on the one rises to 21 at step 21, and the other falls to 1.
    assert mesh.get_array().reshape(1, 60)[0, [11, 12, 21, 50]].tolist() == [0, -2, -20, 0] and mesh.get_clim() == (-20, 20)
    assert drawn.axes[1].get_ylabel() == "Rise of density (vehicles in a cell)"
    assert [text.get_text() for text in drawn.legends[0].get_texts()] == ["queue, made (1)", "queue, made (2)"]
    two.network = None
    two.units = one.units
    with pytest.raises(Problem, match="isn't known"):
        difference.draw(one, two)


def test_junctions_stand_in_a_difference_where_the_network_is_known(report):
    read = report("interchange")
    places = [line.get_ydata()[0] for line in difference.draw(read, read, "m").axes[0].lines]
    # The off-ramp leaves at km 6, and the on-ramp joins at km 7.
    assert places == [6, 7]
    network, read.network = read.network, None
    try:
        assert not difference.draw(read, read, "m").axes[0].lines
    finally:
        read.network = network


def test_bars_of_delay():
    report = at_a_light(0, 3, 7)
    report.cells.wait["g"] = 4
    axes = delay.draw(report).axes[0]
    # A gap of a bar and a half lies between roads and gates.
    assert [(bar.get_x() + bar.get_width() / 2, bar.get_height()) for bar in axes.patches] == [(0, 6), (2.5, 4)]
    assert [label.get_text() for label in axes.get_xticklabels()] == ["a", "gate g"] and axes.get_ylabel() == "Delay (vehicle-steps)"
    assert axes.get_title(loc="left") == "light: delay by cell, 10.0 vehicle-steps in all" and axes.get_xlim() == (-1, 3.5)


def test_points_of_a_fundamental_diagram():
    axes, bar = fundamental.draw(light(), None).axes
    # 40 steps are 40 spans of one: of the light's steps 2, 5 and 10 the cell holds 1, 1 and 2 and passes 1, 0 and 2.
    assert axes.lines[0].get_xdata()[[2, 5, 10]].tolist() == [1, 1, 2] and axes.lines[0].get_ydata()[[2, 5, 10]].tolist() == [1, 0, 2]
    assert axes.collections[0].get_array()[[0, 39]].tolist() == [0, 39] and bar.get_ylabel() == "Time (steps)"


def test_lines_over_a_diagram():
    axes = figure.figure()[1]
    report = light(step=10, start=21600)
    handles = time_space.draw_lines(axes, report, ["tail: 06:01 2, 06:02:30 0.5", "tail: 06:03 1, 06:04 2", "head: 06:00 0, 06:01 1"])
    assert [list(line.get_xdata()) for line in axes.lines] == [[21660, 21750], [21780, 21840], [21600, 21660]]
    assert list(axes.lines[0].get_ydata()) == [2, 0.5] and [handle.get_label() for handle in handles] == ["tail", "head"]
    for wrong in ("tail", "tail: 06:01 2", "tail: 06:01 2 3, 06:02 1", "tail: 06:01 x, 06:02 1"):
        with pytest.raises(Problem, match="--line"):
            time_space.draw_lines(axes, report, [wrong])


def test_times_of_pictures():
    known, bare = light(step=10, start=86000), light()
    assert figure.moments(known, [0, 3]) == [86000, 86030] and figure.moments(light(step=10), [2]) == [20] and figure.moments(bare, [0, 3]) == [0, 3]
    # A clock time before the start is of the next day.
    assert figure.moment(known, "24:00") == 40 and figure.moment(known, "00:00") == 40 and figure.moment(bare, "7") == 7
    assert figure.span_of(known, None, None) == (0, 40) and figure.span_of(bare, "3", "40") == (3, 40)
    for begin, until in (("5", "5"), ("0", "41"), ("9", "3")):
        with pytest.raises(Problem, match="expected times from 0 to 40"):
            figure.span_of(bare, begin, until)
    assert [figure.clock_axis(figure.figure()[1].xaxis, 0, last) for last in (100, 101, 3600, 36000, 36001, 10**7)] == [10, 20, 600, 3600, 7200, 86400]


def test_points_of_a_line():
    points, reach = [(0.0, 0.0), (3.0, 0.0), (3.0, 4.0)], [0.0, 3.0, 7.0]
    assert [_at(points, reach, way) for way in (0, 1.5, 3, 5, 7)] == [(0, 0), (1.5, 0), (3, 0), (3, 2), (3, 4)]
    assert _between(points, reach, 0, 3) == [] and _between(points, reach, 1, 7) == [(3, 0)] and _between(points, reach, 3, 9) == [(3, 4)]
    assert _beyond((0, 0), (3, 4), 10) == (9, 12) and _beyond((1, 1), (1, 1), 5) == (1, 1)


def test_a_road_lies_along_its_points(tmp_path):
    report = reported(corridor(tmp_path))
    report.units.points = {"m": [[0, 0], [0.6, 0], [0.6, 0.4]]}
    found = lay_out(report)
    # A quarter of the kilometre each: the third has the corner in it.
    assert [[(round(x, 9), round(y, 9)) for x, y in found[f"m{i}"]] for i in range(1, 5)] == [
        [(0, 0), (0.25, 0)], [(0.25, 0), (0.5, 0)], [(0.5, 0), (0.6, 0), (0.6, 0.15)], [(0.6, 0.15), (0.6, 0.4)]]
    gate, way_out = found["g"], found["x"]
    assert gate[-1] == pytest.approx((0, 0)) and gate[0][0] < 0 and gate[0][1] == pytest.approx(0)
    assert way_out[0] == pytest.approx((0.6, 0.4)) and way_out[-1][1] > 0.4 and way_out[-1][0] == pytest.approx(0.6)


def test_a_longer_road_lies_along_the_same_points(tmp_path):
    corridor(tmp_path)
    path = tmp_path / "study.toml"
    path.write_text(path.read_text().replace("length = 1\n", "length = 2\n"))
    report = reported(build(read_study(path)))
    report.units.points = {"m": [[0, 0], [0.6, 0], [0.6, 0.4]]}
    found = lay_out(report)
    # Eight cells of an eighth of the line each: the fifth has the corner in it.
    assert [[(round(x, 9), round(y, 9)) for x, y in found[f"m{i}"]] for i in (1, 4, 5, 6)] == [
        [(0, 0), (0.125, 0)], [(0.375, 0), (0.5, 0)], [(0.5, 0), (0.6, 0), (0.6, 0.025)], [(0.6, 0.025), (0.6, 0.15)]]


def test_joints_lie_in_the_middle_of_those_beside_them():
    import networkx

    graph = networkx.path_graph(4)
    assert middles(graph, {0: (0.0, 0.0), 3: (3.0, 6.0)}) == {1: pytest.approx((1, 2)), 2: pytest.approx((2, 4))}


def test_points_in_a_box():
    points = numpy.array([(0, 0), (1, 1), (2, 1), (5, 5)])
    assert labels._crossed(Bbox.from_extents(-1, -1, 1.5, 1.5), points) == 2 and labels._crossed(Bbox.from_extents(0, 0, 1, 1), None) == 0
    assert labels._crossed(Bbox.from_extents(0, 0, 1, 1), points) == 2  # its edges are of it
    assert labels._crossed(Bbox.from_extents(1.5, 0, 6, 6), points) == 2 and labels._crossed(Bbox.from_extents(6, 6, 7, 7), points) == 0


def test_a_map_of_a_light():
    report = at_a_light(0, 3, 7)
    report.cells.wait["g"] = 4
    axes = network_map.draw(report).axes[0]
    assert axes.collections[1].get_clim()[0] == 0  # the lightest colour is that of no delay
    assert axes.collections[1].get_array().tolist() == [6] and axes.get_title(loc="left") == "light: 10.0 vehicle-steps of delay, schematic"
    texts = [text.get_text() for text in axes.texts if text.get_text()]
    assert "g\n4.0 veh.-steps" in texts
    line = lay_out(report)
    ends = {tuple(numpy.round(text.xy, 6)) for text in axes.texts if not text.get_text()}
    assert ends == {tuple(numpy.round(line[cell][-1], 6)) for cell in "gx"}


def test_points_along_a_line_are_close_together():
    axes = figure.figure()[1]
    axes.set_xlim(0, 1)
    axes.set_ylim(0, 1)
    found = network_map._points(axes, {"a": [(0, 0.5), (1, 0.5)]}, {"a": 6.0})
    (x0, y0), (x1, _) = axes.transData.transform([(0, 0.5), (1, 0.5)])
    count = int((x1 - x0) / 4) + 1
    # Three rows of points: along the line, and half its width of 6 points, 5 dots at 120 an inch, beside it.
    assert len(found) == 3 * count and sorted({round(y - y0, 6) for _, y in found}) == [-5, 0, 5]
    assert found[:, 0].min() == pytest.approx(x0) and found[:, 0].max() == pytest.approx(x1)
    assert network_map._points(axes, {}, {}).shape == (0, 2)


def test_the_first_day_of_times_without_a_date():
    assert pandas.Timestamp(DAY_ZERO) == pandas.Timestamp("1900-01-01")


@pytest.mark.parametrize("values, shown", [(["1.1", "0.9", "1"], [0.9, 1, 1.1]), (["c", "a", "b"], ["a", "b", "c"])])
def test_a_sweep_is_drawn_over_numbers_or_texts(values, shown):
    frame = pandas.DataFrame({"demand": values, "delay_vehicle_hours": [3.0, 1, 2], "longest_queue_km": [0.3, 0.1, 0.2],
                              "waiting_upstream_vehicles": [5, 0, 0], "error": ""})
    above, below = sweep.draw(frame, ["demand"], "light").axes
    assert list(above.lines[0].get_xdata()) == shown and above.lines[0].get_ydata().tolist() == [1, 2, 3]
    assert list(below.lines[1].get_xdata()) == shown[2:] and below.lines[1].get_ydata().tolist() == [0.3]
