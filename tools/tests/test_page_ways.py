"""The ways of an assignment on the page: what it has of them, and what it shows in a browser. examples/README.md has the paper."""

import shutil

import pytest

from ctmtools import assign, read_report
from ctmtools.assignment.ways_file import ways_of_report
from ctmtools.pages import ways
from ctmtools.pages.content import data_of
from ctmtools.pages.html_page import page_of
from ctmtools.units import clock_text, seconds_of_clock

from .examples import EXAMPLES
from .test_page_in_browser import browser, ink, opened, printed_pages, text  # noqa: F401
from .trips import TWO_PAIRS

TOWN, ROUND = ["west", "town", "east"], ["west", "bypass", "east"]


@pytest.fixture(scope="module")
def folder(recording_program, tmp_path_factory):
    """The town with its bridge open, and closed with 30 % who choose anew."""
    made = tmp_path_factory.mktemp("ways")
    assign(EXAMPLES / "bypass.toml", made / "open.toml")
    assign(EXAMPLES / "bypass-closed.toml", made / "closed.toml", earlier=made / "open.toml", informed=0.3, gap=0.001)
    return made


@pytest.fixture
def both(folder):
    return [read_report(folder / f"{name}.report") for name in ("open", "closed")]


def names_of(report, spans):
    """The cells of spans of numbers."""
    return [report.cells.index[number] for first, last in spans for number in range(first, last + 1)]


def test_the_ways_of_a_report_have_their_cells_vehicles_and_minutes(both):
    found = data_of(both[:1])["ways"]
    (pair,) = found["pairs"]
    (way,) = pair["ways"]
    assert (pair["from"], pair["to"], way["roads"]) == ("from-west", "to-east", TOWN)
    cells = [f"{road}{number:02d}" if road != "east" else f"east{number}" for road, count in (("west", 11), ("town", 48), ("east", 4))
             for number in range(1, count + 1)]
    assert names_of(both[0], way["of"][0]["cells"]) == ["from-west", *cells, "to-east"]
    # 720 vehicles/h for three hours and a half, 60 in each 5 min; a step of 10 s in the gate and in each of 63 cells. Between the
    # records of every 5 steps the curves are straight, so a flow of 2 in a step that begins or stops a steps behind one lies
    # a(5 - a) vehicle-steps beside: behind the gate, west, town and east, 1, 12, 60 and 64 steps late, 14 of 60 vehicles at most.
    minutes = way["of"][0]["minutes"]
    assert way["of"][0]["vehicles"] == pytest.approx([60] * 42)
    assert minutes[1:-1] == pytest.approx([64 / 6] * 40, abs=0.001)
    assert [minutes[0], minutes[-1]] == pytest.approx([64 / 6] * 2, abs=14 / 60 / 6)
    assert found["starts"] == [7 * 3600 + 300 * number for number in range(42)] and found["widths"] == [300]


def test_two_reports_have_the_ways_of_both(both):
    found = data_of(both)["ways"]
    town, round_ = found["pairs"][0]["ways"]
    assert (town["roads"], round_["roads"]) == (TOWN, ROUND) and round_["of"][0] is None
    # Who sets out from 07:20 on comes to the closed bridge; 30 % of 60 go round it, over 1 + 11 + 72 + 4 cells.
    place = found["starts"].index(7 * 3600 + 20 * 60)
    assert round_["of"][1]["vehicles"][:place] == [None] * place and round_["of"][1]["vehicles"][place] == pytest.approx(18)
    assert round_["of"][1]["minutes"][place] == pytest.approx(88 / 6, abs=0.02)


def test_ways_that_few_take_are_left_out_of_many(both, monkeypatch):
    monkeypatch.setattr(ways, "MOST_NUMBERS", 2 * 2 * 42)  # vehicles and minutes of one way in two reports
    found = data_of(both)["ways"]
    assert [way["roads"] for way in found["pairs"][0]["ways"]] == [TOWN] and found["left_out"] == 1


def changed(folder):
    path = folder / "open.ways.csv"
    path.write_text(path.read_text().replace("60.000000", "61.000000", 1))


def another_network(folder):
    (folder / "open.toml").write_text((folder / "open.toml").read_text().replace("720", "700"))


@pytest.mark.parametrize("change, kept", [(lambda folder: None, True), (changed, False), (another_network, False),
                                          (lambda folder: (folder / "open.ways.csv").unlink(), False)])
def test_ways_of_another_run_are_on_no_page(tool, folder, tmp_path, change, kept):
    for name in ("toml", "csv", "report", "units.json", "ways.csv"):
        shutil.copy(folder / f"open.{name}", tmp_path)
    change(tmp_path)
    # A run of the study anew is of the same network, where that is as it was, however often it is recorded.
    assert tool("run", "open.toml", "--every", "6")[0] == 0
    report = read_report(tmp_path / "open.report")
    assert (ways_of_report(report) is not None) == kept and (data_of([report])["ways"] is not None) == kept


def test_pairs_are_compared_by_the_ways_of_their_runs_alone(tool, folder, tmp_path):
    for path in folder.iterdir():
        shutil.copy(path, tmp_path)
    assert "Of 1 pairs 0 gained and 1 lost" in tool("compare", "open.report", "closed.report")[1]
    changed(tmp_path)
    status, out, _ = tool("compare", "open.report", "closed.report")
    assert status == 0 and " pairs " not in out


@pytest.mark.parametrize("seconds", [0, 25200, 86400, 86401, 88200, 2 * 86400 + 60])
def test_clock_times_are_read_as_they_are_told(seconds):
    assert seconds_of_clock(clock_text(seconds, always=True)) == seconds_of_clock(clock_text(seconds)) == seconds


def test_ways_past_midnight(tool, tmp_path, recording_program):
    later = TWO_PAIRS.replace("07:10", "00:00").replace("07:20", "00:10").replace("07:00", "23:50").replace("08:00", "00:50")
    (tmp_path / "night.toml").write_text(later)
    status, _, err = tool("assign", "night.toml")
    assert status == 0, err
    found = data_of([read_report(tmp_path / "night.assigned.report")])["ways"]
    assert found["starts"] == [86400 - 600, 86400 - 300, 86400, 86400 + 300]
    assert [pair["ways"][0]["of"][0]["vehicles"] for pair in found["pairs"]] == [[75, 75, 25, 25], [25, 25, 75, 75]]


@pytest.fixture(scope="module")
def page(folder):
    made = folder / "both.html"
    made.write_text(page_of([read_report(folder / f"{name}.report") for name in ("open", "closed")]))
    return made


def lit(browser):  # noqa: F811
    return browser.execute_script("return [...litCells()].map(place => shown().cells[place].name)")


def test_a_way_that_is_clicked_is_lit_with_its_times(browser, page):  # noqa: F811
    opened(browser, page)
    assert "from-west to to-east: 2,520 vehicles" in text(browser, "pair") and lit(browser) == []
    before = ink(browser, "map"), ink(browser, "space")
    rows = browser.find_elements("css selector", "#pair-ways tbody tr")
    assert rows[0].text.startswith("west › town › east 2,520 ") and rows[1].text.startswith("west › bypass › east 0 ")
    assert browser.find_element("css selector", "#pair-ways tfoot").text.startswith("in all 2,520 2,520 10.67 ")
    browser.execute_script("document.querySelector('#pair-ways tr[data-way=\"0\"]').click()")
    assert {"from-west", "town01", "town48", "to-east"} <= set(lit(browser)) and len(lit(browser)) == 65
    assert ink(browser, "map") != before[0] and ink(browser, "space") != before[1]
    for name in ("way-times", "way-flows"):
        drawn = browser.execute_script(f"return [...document.querySelectorAll('#{name} .series')].map(line => line.getAttribute('d'))")
        assert len(drawn) == 2 and all(line.startswith("M") for line in drawn) and drawn[0] != drawn[1]
    # The bypass is lit in the report in which nobody takes it too.
    browser.execute_script("see({ report: 0, against: null }); chooseWay(1)")
    assert "bypass36" in lit(browser) and "town01" not in lit(browser) and "west › bypass › east" in text(browser, "ways-key")
    assert browser.execute_script("return document.querySelector('#way-times .series').getAttribute('d')") == ""
    browser.execute_script("chooseWay(1)")
    assert lit(browser) == [] and browser.get_log("browser") == []


@pytest.mark.parametrize("width, scheme", [(420, "light"), (1024, "dark"), (1920, "light")])
def test_the_ways_find_room_on_screens_of_all_widths(browser, page, width, scheme):  # noqa: F811
    opened(browser, page, width, scheme)
    browser.execute_script("chooseWay(0)")
    assert browser.execute_script("return document.documentElement.scrollWidth") <= width
    assert browser.execute_script("return document.querySelector('#way-times svg').clientHeight") > 100 and browser.get_log("browser") == []


def test_the_ways_are_printed_on_the_second_of_two_sheets(browser, page):  # noqa: F811
    opened(browser, page)
    browser.execute_script("chooseWay(1); addEventListener('beforeprint', () => { window.printedWays ="
                           "[...document.querySelectorAll('#pair-ways tbody tr')].filter(row => row.offsetHeight).length; })")
    assert printed_pages(browser) == 2 and browser.execute_script("return window.printedWays") == 2
    assert "A click on a route" in text(browser, "ways-more") and browser.get_log("browser") == []


def test_a_page_without_ways_has_no_part_for_them(browser, report, tmp_path):  # noqa: F811
    path = tmp_path / "none.html"
    path.write_text(page_of([report("interchange")]))
    opened(browser, path)
    assert not browser.find_element("id", "ways").is_displayed() and browser.get_log("browser") == []
