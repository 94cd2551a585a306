"""What a picture says can be read: no name over another, none cut off, and what is left out is told."""

from itertools import combinations

import numpy
import pandas
import pytest
from matplotlib import rcParams
from matplotlib.collections import LineCollection
from matplotlib.colors import to_hex
from matplotlib.figure import Figure
from matplotlib.lines import Line2D
from matplotlib.text import Text

from ctmtools import Problem, plot, read_report
from ctmtools.plots.delay import MOST_BARS
from ctmtools.plots.figure import legend_below, save
from ctmtools.plots.layout import lay_out
from ctmtools.plots.network_map import MOST_WIDTH, _points
from ctmtools.plots.pictures import PICTURES
from ctmtools.report.queues import queues_in
from ctmtools.units import Units

from .examples import EXAMPLES, save_report
from .plain_reports import plain_report

RED = "#c00000"
STUDIES = ["grid", "meter", "interchange", "street"]


def written(figure):
    """The texts that a figure shows, each with the box in dots that it takes."""
    figure.draw_without_rendering()
    hidden = set()
    for axes in figure.axes:
        for axis in (axes.xaxis, axes.yaxis):
            first, last = sorted(axis.get_view_interval())
            for tick in axis.get_major_ticks():
                if not axes.axison or not first - 1e-9 <= tick.get_loc() <= last + 1e-9:
                    hidden |= {id(tick.label1), id(tick.label2)}
            if not axes.axison:
                hidden |= {id(axis.label), id(axis.offsetText)}
    return [(text, text.get_window_extent()) for text in figure.findobj(Text)
            if text.get_visible() and text.get_text().strip() and id(text) not in hidden]


def overlapping(one, two, least=1.0):
    """Whether two boxes have more than a dot in common, in width and in height."""
    return (min(one.x1, two.x1) - max(one.x0, two.x0) > least) and (min(one.y1, two.y1) - max(one.y0, two.y0) > least)


def assert_readable(figure):
    shown = written(figure)
    for text, box in shown:
        assert box.x0 >= -1 and box.y0 >= -1 and box.x1 <= figure.bbox.x1 + 1 and box.y1 <= figure.bbox.y1 + 1, text
    for (one, box), (two, other) in combinations(shown, 2):
        assert not overlapping(box, other), (one, two)


@pytest.mark.parametrize("kind", PICTURES)
@pytest.mark.parametrize("name", STUDIES)
def test_no_name_stands_over_another_and_none_is_cut_off(report, name, kind):
    assert_readable(plot(report(name), kind))


@pytest.mark.parametrize("kind", PICTURES)
def test_a_long_title_in_wide_letters_is_not_cut(report, kind):
    read = report("interchange")
    read.units.title = "WIDENING OF MOTORWAY W7 BETWEEN MMMMM AND WWWWW WITH AN INTERCHANGE AT MMMMMMMMMM AND WWWWWWWWWWWW"
    assert_readable(plot(read, kind))


@pytest.mark.parametrize("kind, options", [("n-curves", {"cells": [f"m{i:02d}" for i in range(3, 33, 3)]}), ("queue", {})])
def test_a_legend_stands_over_no_curve(report, kind, options):
    read = report("interchange")
    figure = plot(read, kind, **options)
    assert_readable(figure)
    legend, = figure.legends
    box = legend.get_window_extent()
    assert all(box.y1 <= axes.get_window_extent().y0 + 1 and axes.get_legend() is None for axes in figure.axes)
    assert box.x0 >= 0 and box.x1 <= figure.bbox.x1


def test_for_a_legend_of_many_rows_a_picture_grows():
    drawn = Figure(figsize=(8, 4))
    legend_below(drawn, [Line2D([], [], label=f"{number} {80 * 'w'}") for number in range(8)])
    # Eight rows of 9 points or more are an inch at least, apart from the axes by 0.08; 0.3 inches of it a picture has.
    assert drawn.get_size_inches()[0] == 8 and drawn.get_size_inches()[1] >= 4 + 8 * 9 / 72 + 0.08 - 0.3


def test_the_rates_of_meters_can_be_read(report):
    from ctmtools.moments.metering import gauge_of
    from ctmtools.plots.rates import draw
    from ctmtools.study.plan import Meter

    read = report("meter")
    gauges = [gauge_of(Meter("ramp"), read.network, read.units)]
    assert_readable(draw(read, rates_of("ramp", range(0, 2880, 12)), gauges))


def rates_of(ramp, steps):
    """Rates and occupancies that fall and rise again."""
    return pandas.DataFrame([(step, ramp, 12 + step % 96 / 12, 240 + step % 960) for step in steps],
                            columns=["step", "ramp", "occupancy", "rate"])


@pytest.mark.parametrize("name", STUDIES)
def test_pictures_without_units_can_be_read(report, name):
    read = report(name)
    read.units = Units()
    for kind in PICTURES:
        assert_readable(plot(read, kind))


def texts(figure):
    return "\n".join(text.get_text() for text, _ in written(figure))


def many_roads(count):
    """The report of so many roads side by side, of one cell each, in each of which vehicles queue."""
    text = ("ctm,1\nsteps,60\n" + "".join(
        f"gate,g{i},9,0\nroad,r{i},300,9,1,5,0\nexit,x{i},2\nlink,g{i},r{i}\nlink,r{i},x{i}\ndemand,g{i},0,30,{3 + i % 5}\n"
        for i in range(count)))
    made = plain_report(text, name="many")
    made.units = Units(title="Many", step=10.0, start=0.0, roads={f"road{i}": [f"r{i}"] for i in range(count)},
                       cells={f"r{i}": {"road": f"road{i}", "from_km": 0.0, "to_km": 0.25, "lanes": 2} for i in range(count)})
    return made


@pytest.mark.parametrize("kind, names", [("delay", ["road road"]), ("map", ["road road", "g", "x"])])
def test_names_that_find_no_room_are_counted(kind, names):
    figure = plot(many_roads(90), kind)
    assert_readable(figure)
    shown = texts(figure).splitlines()
    left_out = next(int(line.split()[0]) for line in shown if line.endswith("names are left out"))
    named = sum(any(line.startswith(name) and line[len(name):].isdigit() for name in names) for line in shown)
    assert left_out > 0 and named + left_out == 90 * len(names)


def test_bars_that_are_left_out_are_told(report):
    read = report("grid")
    delays = read.by_road().set_index("road").delay  # of twelve roads, those before a junction with what waits in its cells
    delays = delays[~delays.index.str.startswith("gate ")]
    shown = delays[delays >= 0.0005 * delays.sum()]
    assert len(delays) == 12 and len(shown) == 8 and f"{12 - len(shown)} roads with less than 0.05% of the delay are left out" in texts(plot(read, "delay"))
    many = plot(many_roads(160), "delay")
    assert f"The {MOST_BARS // 2} cells with the most delay" in texts(many) and len(many.axes[0].patches) == MOST_BARS // 2
    assert "others are left out" in texts(many)
    free = many_roads(61)
    free.cells.wait = 0.0
    assert "60 roads with less than 0.05% of the delay are left out" in texts(plot(free, "delay"))


def test_each_red_light_is_drawn(report):
    read = report("street")
    axes = plot(read, "time-space").axes[0]
    red = [path for lines in axes.collections if isinstance(lines, LineCollection) and to_hex(lines.get_color()[0]) == RED
           for path in lines.get_paths()]
    assert len(red) >= 10 * 7200 // 80  # ten signals, a red in each cycle of 80 s, for two hours


@pytest.mark.parametrize("name", ["interchange", "grid", "meter", "street"])
def test_the_queues_drawn_have_the_figures_of_the_page(report, name):
    read = report(name)
    upper, lower = plot(read, "queue").axes
    queues = queues_in(read)[:5]
    assert [max_of(line) for line in lower.lines] == pytest.approx([queue.most for queue in queues])
    own = [line for line in upper.lines if not line.get_label().endswith("which joined it")]
    assert [max_of(line) for line in own] == pytest.approx([queue.reach for queue in queues if queue.reach])


def test_a_part_that_reaches_farther_is_drawn(report):
    # The stadium's queue stands in its gate; that of the road joined it, and reaches back 1.5 km.
    figure = plot(report("event"), "queue")
    line, = figure.axes[0].lines
    assert line.get_label().startswith("from n20 (") and max_of(line) == pytest.approx(1.5)
    assert_readable(figure)


def max_of(line):
    return numpy.nanmax(numpy.asarray(line.get_ydata(), dtype=float))


def test_queues_that_are_not_drawn_are_told(report):
    read = report("street")
    rest = queues_in(read)[5:]
    hours = read.units.hours(sum(queue.delay for queue in rest))
    shown = texts(plot(read, "queue"))
    assert f"Not drawn: {len(rest)} more, the longest 0.15 km" in shown and f"{hours:.2f} vehicle-hours in all" in shown
    assert "others" not in shown


def test_the_queues_of_a_road_alone(report):
    read = report("interchange")
    assert len(plot(read, "queue", roads=["a"]).axes[1].lines) == 1
    assert len(plot(read, "queue").axes[1].lines) == 2
    with pytest.raises(Problem, match="no road q"):
        plot(read, "queue", roads=["q"])


@pytest.mark.parametrize("kind", ["queue", "time-space"])
def test_a_queue_that_reaches_the_upstream_end_is_told_below(tmp_path, kind):
    # Of the 450 vehicles that wait at 08:00 before the lane drop 36 find room in each of the four cells of a kilometre.
    text = (EXAMPLES / "bottleneck.toml").read_text().replace("length = 7.5", "length = 3.5").replace("from = 5.0", "from = 1.0")
    (tmp_path / "short.toml").write_text(text)
    figure = plot(read_report(save_report(tmp_path, tmp_path / "short")), kind)
    shown = " ".join(texts(figure).split())
    assert "The queue of m04 (m km 1.00) reaches the upstream end of the model at 07:12:00: up to 306 vehicles wait in the gate on" in shown
    assert_readable(figure)


def test_a_folder_with_a_file_matplotlibrc_has_no_latex_run(report, tmp_path, monkeypatch):
    monkeypatch.setitem(rcParams, "text.usetex", True)
    monkeypatch.setenv("PATH", str(tmp_path))  # no latex is there to be run
    save(plot(report("interchange"), "delay"), tmp_path / "a.png")
    assert (tmp_path / "a.png").stat().st_size > 1000


def test_no_such_picture(report):
    with pytest.raises(Problem, match="known are time-space"):
        plot(report("interchange"), "heat")


SIDES = {"north": (0, 1), "east": (1, 0), "south": (0, -1), "west": (-1, 0)}
JUNCTIONS = {"P": (0.7, 1.1), "Q": (1.1, 1.1), "R": (0.7, 0.7), "S": (1.1, 0.7)}


def test_a_way_out_of_a_junction_is_drawn_straight_on(report):
    read = report("four-arms")
    lines = lay_out(read)
    exits = [cell for cell, kind in read.network.kinds.items() if kind == "exit"]
    assert len(exits) == 8
    for name in exits:
        junction, side = name.split("-")
        (x, y), (u, v) = JUNCTIONS[junction], SIDES[side]
        right, above = lines[name][-1][0] - x, lines[name][-1][1] - y
        assert 0.03 < right * u + above * v < 0.2 and abs(right * v + above * u) < 0.05
    movements = [cell for cell in lines if cell.startswith(("nP-", "QP-", "RP-", "wP-")) and "join" not in cell]
    assert len(movements) >= 12 and all(abs(x - 0.7) < 0.1 and abs(y - 1.1) < 0.1 for cell in movements
                                        for x, y in lines[cell])


def test_the_names_of_ramps_stand_beside_them(report):
    figure = plot(report("interchange"), "map")
    thick = dict.fromkeys(report("interchange").cells.index, MOST_WIDTH)
    edges = _points(figure.axes[0], {cell: line for cell, line in lay_out(report("interchange")).items() if cell[0] in "ra"
                                     and cell[1:].isdigit()}, thick)
    for text, box in written(figure):
        if text.get_text().startswith("road "):
            assert not any(box.x0 < x < box.x1 and box.y0 < y < box.y1 for x, y in edges), text


def test_the_clock_times_of_a_diagram_are_round(report):
    times = [text.get_text() for text, box in written(plot(report("interchange"), "mfd")) if ":" in text.get_text()]
    assert {"06:30", "07:00", "09:30"} <= set(times) and all(len(time) == 5 for time in times if time[0].isdigit())
