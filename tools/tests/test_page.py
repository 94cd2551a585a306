"""What the page of reports shows, against numbers worked out on paper and those of the program, `compare` and `table`."""

import base64
import datetime
import hashlib
import json
import re
import subprocess
from dataclasses import replace

import numpy
import pytest

from ctmtools import Problem, by_road, read_report
from ctmtools.network_file.network import network_of
from ctmtools.pages.background import STREETS, Background
from ctmtools.pages.content import data_of
from ctmtools.pages.networks import junctions_of, roads_of
from ctmtools.pages.html_page import DRAWING_LIBRARY, page_of
from ctmtools.pages.tables import table_of
from ctmtools.report.comparability import names_of
from ctmtools.report.queues import standing
from ctmtools.report.reading import Amounts, Report, Sums, report_of
from ctmtools.report.records import Records

from .corridor import HEAD, corridor
from .examples import TOOLS
from .page_data import cells_of, decoded, figures, queued
from .plain_reports import reported

# A road and its gate beside the corridor: 3 vehicles come in a step and 2 leave.
BESIDE = """
[roads.b]
length = 0.5
lanes = 1
[gates.h]
into = "b"
demand = [["06:00", "06:30", 1080]]
[exits.y]
from = "b"
capacity = 720
"""


def policy_of(page):
    """The terms of a page's content policy."""
    text = re.search('<meta http-equiv="Content-Security-Policy" content="([^"]*)">', page)[1]
    return dict(term.split(" ", 1) for term in text.split("; "))


def test_the_content_policy_allows_the_scripts_and_the_style_of_the_page_alone(tmp_path):
    page = page_of([reported(corridor(tmp_path))], library="// d3")
    policy = policy_of(page)
    for kind in ("script", "style"):
        texts = re.findall(f"<{kind}>(.*?)</{kind}>", page, re.DOTALL)
        sums = [f"'sha256-{base64.b64encode(hashlib.sha256(text.encode()).digest()).decode()}'" for text in texts]
        assert policy.pop(f"{kind}-src").split() == sums and f"<{kind} " not in page
    assert policy == {"default-src": "'none'", "base-uri": "'none'", "form-action": "'none'"}
    assert "Content-Security-Policy" in page.partition("<style>")[0] and not re.search(r"\s(on\w+|style)=", page.partition("<script>")[0])


@pytest.mark.parametrize("tiles, allowed", [
    (STREETS, "https://tile.openstreetmap.org"), ("http://127.0.0.1:80/{z}/{x}/{y}.png", "http://127.0.0.1:80"), ("tiles/{z}/{x}/{y}.png", "'self' file:")])
def test_the_content_policy_allows_tiles_of_one_server(tiles, allowed):
    assert Background(tiles=tiles).origin == allowed


@pytest.mark.parametrize("tiles", ["javascript://x/{z}", "https://a; script-src */{z}", 'https://a"><script>/{z}'])
def test_no_server_of_tiles_changes_the_content_policy(tiles):
    with pytest.raises(Problem, match="--tiles: expected the address of a server"):
        _ = Background(tiles=tiles).origin


def test_density_and_flow(tmp_path):
    data = data_of([reported(corridor(tmp_path, demand='[["06:00", "06:30", 1440]]'))])
    assert [cell["name"] for cell in cells_of(data)] == ["g", "m1", "m2", "m3", "m4", "x"]
    assert data["networks"][0]["roads"] == {"m": [1, 2, 3, 4]}
    assert len(data["times"]) == 361 and data["times"][180] == "06:30:00"
    # 4 vehicles in each step and so in each cell of 250 m, 16 vehicles/km, from two steps after 06:00 to two after 06:30.
    assert decoded(data, "density")["m1"].tolist() == [0] * 2 + [16] * 180 + [0] * 178
    assert decoded(data, "flow")["m4"].tolist() == [0] * 5 + [1440] * 180 + [0] * 175
    assert data["clock"]["known"] and data["clock"]["bounds"][::360] == [6 * 3600, 7 * 3600]


def test_a_gate_shows_all_that_wait_in_it(tmp_path):
    # 10 vehicles come in a step, from the first on, and 6 go in a lane, from the second on: 10 + 4 x 59 after 60 of them.
    data = data_of([reported(corridor(tmp_path, lanes=1, demand='[["06:00", "06:10", 3600]]'))])
    waiting = decoded(data, "density")["g"]
    assert waiting[1:61] == pytest.approx(10 + 4 * numpy.arange(60), abs=0.01) and waiting.max() == pytest.approx(246)


def large():
    """A report of 1,440 steps and 2,000 cells, made without a run."""
    names = [f"c{i:04d}" for i in range(2000)]
    network = network_of(("ctm,1\nsteps,1440\n" + "".join(f"road,{name},60,9,1,5,0\n" for name in names) +
                          "".join(f"link,{one},{two}\n" for one, two in zip(names, names[1:]))).encode())
    held = numpy.random.default_rng(1).random((1441, 2000)) * 60
    left = numpy.vstack([numpy.zeros(2000), numpy.cumsum(held[:-1] / 2, axis=0)])  # of what a cell holds the half leaves, and half waits
    amounts = Amounts(n=held[-1], come=held[-1] + left[-1], gone=left[-1], wait=left[-1])
    return Report(1440, names, amounts, Sums(0, 0, 0, 0), Records.of_vehicles(numpy.arange(1441), held, left), network=network, name="large")


def test_the_data_of_a_large_report_stay_small():
    report = large()
    made = data_of([report])
    assert len(json.dumps(made, separators=(",", ":"))) < 5_000_000 and len(made["times"]) == 361  # four steps each
    held = report.vehicles.to_numpy()
    assert decoded(made, "density")["c0007"][3] == pytest.approx(held[12:16, 7].mean(), abs=0.001)


def test_reports_that_are_recorded_at_other_steps(tmp_path):
    one, two = (reported(corridor(tmp_path, demand='[["06:00", "06:30", 1440]]'), every) for every in (1, 6))
    data = data_of([one, two])
    assert len(data["times"]) == 61 and data["times"][:2] == ["06:00", "06:01"]
    assert "means over 60 s. Queues and travel times are seen every 60 s" in data["notes"]
    # 4 vehicles in a step leave m4 from the fifth step on: one of six in the first minute, and then all.
    for report in (0, 1):
        assert decoded(data, "flow", report)["m4"][[0, 1, 29]] == pytest.approx([240, 1440, 1440], abs=0.1)


def test_lengths_that_are_not_known_are_not_km(report):
    read = report("interchange")
    read.units.cells, read.units.roads = {}, {}
    data = data_of([read])
    assert data["units"] == {"density": "vehicles in a cell", "flow": "vehicles/h", "speed": "cells in a step", "place": "cell"}
    assert decoded(data, "density")["m24"].max() == pytest.approx(read.vehicles["m24"].max(), abs=0.01)
    assert [measure["unit"] for measure in data["tables"]["roads"]["measures"]][::4] == ["cells", "cells"]


def test_queues_are_outlined_as_in_the_pictures(report):
    read = report("bottleneck")
    stands, shown = standing(read), queued(data_of([read]))
    assert stands["m20"].any() and all((shown[cell] == stands[cell].to_numpy()).all() for cell in shown)


def test_the_page_opens_at_the_greatest_density_of_the_road_with_the_greatest_delay(report):
    data = data_of([report("bottleneck-staggered"), report("bottleneck")])
    # More come than the lane drop passes until 08:00, and what the gate lets in then is on the road a step later.
    opening = data["opening"]
    assert (opening["report"], opening["road"], opening["cell"]) == (1, "m", "m20")
    assert data["times"][opening["frame"]] == "08:00:10"
    assert decoded(data, "density", 1)["m20"][opening["frame"]] == pytest.approx(192)


def test_what_a_junction_is_made_of_is_no_road(report):
    read = report("four-arms")
    assert len(roads_of(read)) == 16 and {len(cells) for cells in junctions_of(read).values()} == {20}
    assert "junction of nP, QP, RP and wP" in junctions_of(read)
    data = data_of([read])
    assert not [road for road in data["networks"][0]["roads"] if "-" in road] and data["opening"]["road"] in roads_of(read)


def test_the_table_of_roads(report):
    table = table_of([report("bottleneck")])
    assert [(measure["name"], measure["unit"]) for measure in table["measures"]] == [
        ("length", "km"), ("delay", "vehicle-hours"), ("vehicles that left", ""), ("delay of each", "s"),
        ("most in queues at once", "km"), ("mean travel time", "min")]
    # The lane drop's delay, by theory, over the 12,900 that came; its longest queue is 13 cells; 7.5 km are 5 min long.
    each = 461.25 * 3600 / 12900
    assert figures(table)["m"] == pytest.approx([7.5, 461.25, 12900, each, 3.25, 5 + each / 60], abs=0.01)
    assert figures(table)["gate on"] == [None, pytest.approx(0), pytest.approx(12900), pytest.approx(0), None, None]
    assert table["total"][0][:4] == pytest.approx([7.5, 461.25, 12900, each], abs=0.01)


@pytest.mark.parametrize("name", ["interchange", "grid", "four-arms"])
def test_the_delays_of_a_table_add_up_to_the_programs(report, name):
    read = report(name)
    table, total = table_of([read]), read.units.hours(read.total.delay)
    assert sum(own[1] for own in figures(table).values()) == pytest.approx(total, abs=1e-4)
    assert table["total"][0][1] == pytest.approx(total, abs=1e-5)


@pytest.mark.parametrize("name", ["interchange", "grid"])
def test_the_table_tells_what_table_by_road_tells(report, name):
    read = report(name)
    rows = by_road(read).set_index("road")
    for road, own in figures(table_of([read])).items():
        if road in rows.index:
            told = rows.loc[road, ["delay", "left", "delay_each", *(["queue"] if own[4] is not None else [])]]
            assert [value for value in own[1:5] if value is not None] == pytest.approx(told.tolist(), abs=1e-4), road


def test_roads_that_one_report_alone_has_count(tmp_path):
    one = reported(corridor(tmp_path, lanes=1, demand='[["06:00", "06:10", 3600]]'))
    two = reported(corridor(tmp_path, BESIDE, lanes=1, demand='[["06:00", "06:10", 3600]]'))
    for reports in ([one, two], [two, one]):
        table = table_of(reports)
        for i, report in enumerate(reports):
            told = sum(own[1] for own in figures(table, i).values() if own is not None)
            assert told == pytest.approx(report.units.hours(report.total.delay), abs=1e-5)
    table = table_of([one, two])
    assert figures(table, 0)["b"] is None and figures(table, 0)["gate h"] is None
    # Of 3 that come in a step 2 leave: 180 are too many after 180 steps, so all wait for 180 x 180 / 2 + 90 x 180 / 2 steps.
    assert sum(figures(table, 1)[name][1] for name in ("b", "gate h")) == pytest.approx((16200 + 8100) / 360, rel=0.02)
    data = data_of([one, two])
    assert [len(network["roads"]) for network in data["networks"]] == [1, 2]
    assert data["tables"]["told"] == ["A is “study (1)”, B is “study (2)”:",
                                      "Mind: A and B have other cells: 4 of B alone (h, b1, b2 and 1 more), 6 of both."]


def test_a_road_that_nobody_left_has_no_delay_of_each(tmp_path):
    parts = BESIDE.replace("1080", "0")
    own = figures(table_of([reported(corridor(tmp_path, parts))]))
    assert own["b"] == [0.5, 0, 0, None, 0, None] and own["m"][3] == 0


def test_reports_side_by_side_tell_what_compare_tells(tool, reports):
    paths = reports("bottleneck"), reports("bottleneck-staggered")
    data = data_of([read_report(path) for path in paths])
    first, second = data["tables"]["reports"]["rows"]
    assert first == ["A lane drop", 12900, 12900, 0, pytest.approx(461.25), None, None]
    assert second[4:] == pytest.approx([120, -341.25, -100 * 341.25 / 461.25])
    told = tool("compare", *paths)[1]
    for cell, *row in data["tables"]["cells"]["rows"]:
        line = next(line.split() for line in told.splitlines() if line.split()[:1] == [cell])
        assert [float(text.replace(",", "")) for text in line[1:]] == pytest.approx(row, abs=0.005)
    assert f"{len(data['tables']['cells']['rows'])} of {data['tables']['cells']['count']} cells that differ" in told


def test_lanes_of_another_number_are_told(tmp_path):
    data = data_of([reported(corridor(tmp_path, lanes=lanes)) for lanes in (2, 3)])
    assert data["tables"]["told"][1] == "4 cells have another number of lanes in A and in B, as m1: 2 in A, 3 in B."
    assert [cells_of(data, report)[1]["lanes"] for report in (0, 1)] == [2, 3]


def test_more_than_two_reports(report):
    data = data_of([report(name) for name in ("bottleneck", "bottleneck-staggered", "bottleneck")])
    assert len(data["tables"]["reports"]["rows"]) == 3 and len(data["tables"]["roads"]["rows"][0]["of"]) == 3
    assert len(data["networks"]) == 1 and data["tables"]["cells"] is None


def test_two_reports_need_the_same_times(tmp_path):
    one, two = (reported(corridor(tmp_path, end=end)) for end in ("07:00", "08:00"))
    with pytest.raises(Problem, match="is of other times than"):
        data_of([one, two])


def test_a_network_without_a_road_is_refused():
    network = network_of(b"ctm,1\nsteps,2\ngate,g,5,3\n")
    report = report_of(b"report,2,1\n" + b"".join(b"at,%d,g,3,0\n" % step for step in range(3)) +
                       b"cell,g,3,0,0,6\ntotal,3,0,0,6\n", "alone.report")
    with pytest.raises(Problem, match="^alone.report: its network has no road that a page could show$"):
        page_of([replace(report, network=network)])


def test_what_reports_are_called(tmp_path):
    def called(title, name):
        report = reported(corridor(tmp_path))
        report.units.title, report.name = title, name
        return report
    assert names_of([called("One", "a.report"), called("Two", "b.report")]) == ["One", "Two"]
    assert names_of([called("One", "x/a.report"), called("One", "x/b.report")]) == ["a", "b"]
    assert names_of([called("One", "x/a.report"), called("One", "y/a.report")]) == ["x/a.report", "y/a.report"]
    assert len(set(names_of([called("One", "a.report")] * 2))) == 2


def test_where_a_page_comes_from(report):
    told = data_of([report("bottleneck")])["provenance"]
    commit = subprocess.run(["git", "log", "-1", "--format=%h"], cwd=TOOLS, capture_output=True, text=True).stdout.strip()
    today = datetime.date.today().isoformat()
    assert told.startswith("Study “A lane drop”, network bottleneck.csv, report bottleneck.report of ")
    assert f"Page made on {today} by ctm " in told and commit in told


def test_a_map_behind_needs_points(report):
    with pytest.raises(Problem, match="have no points"):
        data_of([report("bottleneck")], Background("EPSG:25832"))


@pytest.mark.parametrize("crs, cause", [(None, "isn't known; --crs names"), ("EPSG:1", '--crs: expected a coordinate system such as EPSG:25832, found "EPSG:1"'),
                                        ("EPSG:4326", "--crs: expected a projected system")])
def test_a_map_behind_needs_a_place_on_the_earth(report, crs, cause):
    with pytest.raises(Problem, match=cause):
        data_of([report("grid")], Background(crs))


# Said by --crs, where the study has km of its own, and by the study.
@pytest.mark.parametrize("said, own, points", [("EPSG:32632", "", "[[500, 0], [501, 0]]"),
                                               (None, 'crs = "EPSG:32632"', "[[500000, 0], [501000, 0]]"),
                                               (None, 'crs = "EPSG:4326"', "[[9, 0], [9.008983, 0]]")])
def test_roads_lie_on_the_map_behind_them(tmp_path, said, own, points):
    # 500 km east and 0 km north in zone 32 are 9 degrees east on the equator, where Mercator's metres are those of the earth.
    head = own + HEAD.replace("[lane]", f"[roads.b]\nlength = 1\nlanes = 1\npoints = {points}\n[gates.h]\n"
                              'into = "b"\n[exits.y]\nfrom = "b"\n[lane]')
    data = data_of([reported(corridor(tmp_path, head=head))], Background(said))
    line = next(cell["line"] for cell in cells_of(data) if cell["name"] == "b1")
    assert line[0] == pytest.approx([9 / 180 * 20037508.34, 0], abs=1) and line[1][0] - line[0][0] == pytest.approx(250, rel=0.001)
    assert not data["schematic"]


def test_without_points_the_map_is_schematic(tmp_path):
    assert data_of([reported(corridor(tmp_path))])["schematic"]


def test_a_title_can_not_end_the_script(tmp_path):
    report = reported(corridor(tmp_path))
    report.units.title = 'a</script><b>"<!--<script>'
    page = page_of([report], library="// d3")
    assert page.count("</script>") == 3 and "<title>a&lt;/script&gt;" in page and "<!--" not in page


def test_a_missing_library_is_named(tmp_path, monkeypatch):
    monkeypatch.setattr("ctmtools.pages.html_page.DRAWING_LIBRARY", tmp_path / "d3.min.js")
    with pytest.raises(Problem, match="apt install node-d3"):
        page_of([reported(corridor(tmp_path))])


def test_mistakes_in_the_words(tool, reports):
    assert "a page's name ends with .html" in tool("report", reports("bottleneck"), "-o", "x.txt")[2]
    assert "go with --map-behind" in tool("report", reports("bottleneck"), "--tiles", "x/{z}/{x}/{y}.png")[2]
    assert DRAWING_LIBRARY.exists()
