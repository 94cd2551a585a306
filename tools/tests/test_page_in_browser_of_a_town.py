"""The page of an imported town in a browser: names of roads, labels, signals and closures."""

import csv
import itertools

import numpy
import pytest
from selenium.webdriver.common.by import By
from selenium.webdriver.support.ui import WebDriverWait

from ctmtools.pages.content import data_of
from ctmtools.pages.html_page import page_of

from .page_data import cells_of, decoded
from .test_page_approaches import town
from .test_page_in_browser import browser, column, entries, ink, opened, point_at, taken, text

__all__ = ["browser", "town"]


@pytest.fixture(scope="module")
def page(town, tmp_path_factory):
    """The page of a street as an import names it."""
    path = tmp_path_factory.mktemp("page") / "town.html"
    path.write_text(page_of([town]))
    return path


def test_a_reader_sees_roads_by_their_streets(browser, page):
    opened(browser, page)
    assert "High Street, from Mill Lane to Ring" in entries(browser, "road") and len(entries(browser, "road")) == 9
    assert "High Street, from Mill Lane to Ring" in column(browser, 1) and "gate Ring south" in column(browser, 1)
    assert browser.execute_script("return shown().cells.map(cell => placeText(cell, true)).filter(text => /High-|Mill-|fork|join/.test(text))") == []
    taken(browser, "road", "High Street, from Mill Lane to Ring")
    assert text(browser, "cell").startswith("High Street, from Mill Lane to Ring, km 0.3 to 0.35: ")
    assert browser.get_log("browser") == []


@pytest.mark.parametrize("zoom", [1, 2, 5, 20])
def test_names_on_the_map_stand_over_no_other_at_any_zoom(browser, page, zoom):
    opened(browser, page)
    browser.execute_script("mapZoom = d3.zoomIdentity.translate(arguments[1], arguments[2]).scale(arguments[0]); drawMap()", zoom, -300 * (zoom - 1),
                           -190 * (zoom - 1))
    names = browser.execute_script("return namesDrawn.map(({ text, box }) => [text, ...box])")
    for (_, left, top, wide), (_, other, above, broad) in itertools.combinations(names, 2):
        assert left + wide <= other or other + broad <= left or abs(top - above) >= 13  # px: 11 of letters and 2 between
    texts = [name for name, *_ in names]
    assert zoom > 1 or texts[0] == "closed 07:05 to 07:10" and len(texts) > 3
    assert not [name for name in texts if "-" in name] and browser.get_log("browser") == []


def test_a_signal_has_its_diagram_below_its_approach(browser, page):
    opened(browser, page)
    wide = ("return [...document.querySelectorAll('#signals rect.' + arguments[0])]"
            ".flatMap(one => ['x', 'width'].map(name => +one.getAttribute(name)))")
    left, cycle = browser.execute_script(wide, "red")[:2]
    # Of 60 s High Street has the first 30 and Mill Lane the next 20.
    assert browser.execute_script(wide, "green") == pytest.approx([left, cycle / 2, left + cycle / 2, cycle / 3])
    assert [one.text for one in browser.find_elements(By.CSS_SELECTOR, "#signals text.phase")] == ["1", "2"]
    assert text(browser, "signals-key").startswith("Cycle 60 s, which begins at 07:00:10; greens")
    browser.execute_script("document.querySelector('#approaches tr[data-signal^=Mill]').click()")
    assert browser.execute_script("return document.getElementById('signal').value") == "Mill Lane north, to High Street"
    assert browser.get_log("browser") == []


def test_closures_and_signals_are_marked_with_their_times(browser, page):
    opened(browser, page)
    taken(browser, "road", "High Street east, from Ring")
    assert browser.execute_script("return marksDrawn.map(mark => mark.text)") == ["closed 07:05 to 07:10"]
    # The last 5 min of the quarter of an hour are without it, as are the first.
    without = ink(browser, "map")
    browser.execute_script("at(shown().closures.length && bounds.indexOf(25500))")
    assert ink(browser, "map") != without
    taken(browser, "road", "High Street east, to Mill Lane")
    assert browser.execute_script("return marksDrawn.map(mark => mark.text)") == ["signal, cycle 60 s"]
    # Green from 10 to 40 s of each minute.
    reds = browser.execute_script("const signals = shown().signals.slice(0, 1); return redsOf(signals, 60, signals[0].zero, begins, begins + 60)")
    assert [[begin - 25200, end - 25200] for begin, end in reds] == [[0, 10], [40, 70]]
    assert browser.execute_script("return [25205, 25215, 25245].map(time => isGreen(shown().signals[0], time))") == [False, True, False]
    assert point_at(browser, "space", 0.5, 0.5) and browser.get_log("browser") == []


def test_each_picture_is_saved_as_png_and_csv_by_a_click(browser, page, town, tmp_path):
    opened(browser, page)
    browser.execute_cdp_cmd("Browser.setDownloadBehavior", {"behavior": "allow", "downloadPath": str(tmp_path)})
    pictures = ["map", "space", "curves", "queues", "signals"]
    for name, kind in itertools.product(pictures, ("PNG", "CSV")):
        browser.execute_script("[...document.getElementById(arguments[0]).parentNode.querySelectorAll('.savers button')]"
                               ".find(one => one.textContent === arguments[1]).click()", name, kind)
        path = tmp_path / f"town - {name}.{kind.lower()}"
        WebDriverWait(browser, 60).until(lambda _: path.exists() and path.stat().st_size)
    for name in pictures:
        content = (tmp_path / f"town - {name}.png").read_bytes()
        assert content.startswith(b"\x89PNG") and len(content) > 2000
    files = {name: list(csv.DictReader(open(tmp_path / f"town - {name}.csv", newline="", encoding="utf-8"))) for name in pictures}
    data = data_of([town])
    assert [[float(row[f"{course['name']} (m)"]) for row in files["queues"]] for course in data["reports"][0]["queues"]] == \
        [course["metres"] for course in data["reports"][0]["queues"]]
    assert [row["begin"] for row in files["queues"]][:2] == ["07:00", "07:00:05"]
    cells, densities = cells_of(data), decoded(data, "density")
    own, frame = data["networks"][0]["roads"][data["opening"]["road"]], data["opening"]["frame"]
    told = numpy.array([float(row["density (vehicles/km)"]) for row in files["space"]]).reshape(-1, len(own))
    assert told.T == pytest.approx(numpy.array([densities[cells[cell]["name"]] for cell in own]), abs=1e-3)
    assert [float(row["density (vehicles/km)"]) for row in files["map"]] == pytest.approx([densities[cell["name"]][frame] for cell in cells], abs=1e-3)
    assert [(row["greens"], row["from (s of the cycle)"], row["to (s of the cycle)"], row["cycle (s)"]) for row in files["signals"]] == [
        ("High Street east, to Mill Lane, into High Street east, Mill Lane north", "0", "30", "60"),
        ("Mill Lane north, to High Street, into High Street east, Mill Lane north", "30", "50", "60")]
    assert set(files["curves"][0]) == {"begin", "end", "place", "density (vehicles/km)", "flow (vehicles/h)"}
    assert browser.get_log("browser") == []


def test_a_picture_has_its_title_its_legend_and_what_is_drawn(browser, page):
    opened(browser, page)
    inked = """const [name] = arguments, sheet = pictureOf(name), pen = sheet.getContext('2d'), paper = pen.getImageData(sheet.width - 1, 0, 1, 1).data;
        const count = (top, foot, left, right) => { const { data: bytes } = pen.getImageData(left, top, right - left, foot - top); let found = 0;
          for (let i = 0; i < bytes.length; i += 4) found += bytes[i] !== paper[0] || bytes[i + 1] !== paper[1]; return found; };
        return [sheet.width, sheet.height, count(0, 88, 0, 400), count(88, 196, 0, sheet.width), count(sheet.height - 60, sheet.height, 0, sheet.width)]"""
    for name in ("map", "space", "curves", "queues", "signals"):
        width, height = browser.execute_script(f"const box = document.getElementById('{name}'); return [box.clientWidth, box.clientHeight]")
        wide, high, title, legend, foot = browser.execute_script(inked, name)
        assert wide == 2 * width and high > 2 * height + 88 and title > 100 and legend > 100 and (foot > 20 or name == "map")


def test_texts_of_a_csv_run_nothing_and_names_of_files_hold_no_path(browser, page):
    opened(browser, page)
    assert browser.execute_script("return csvText([['=1+1', 'a,b', 'say \"x\"', -5], ['-5', '+x', 'é', '']])") == \
        "'=1+1,\"a,b\",\"say \"\"x\"\"\",-5\n'-5,'+x,é,\n"
    assert browser.execute_script("byId('title').textContent = '../a: <b>'; return fileName('map', 'png')") == ".. a b - map.png"
