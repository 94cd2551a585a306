"""The page of reports in a browser without a window: what it shows when it is used, on screens and on paper."""

import base64
import math
import re

import numpy
import pytest
from selenium import webdriver
from selenium.webdriver.chrome.service import Service
from selenium.webdriver.common.action_chains import ActionChains
from selenium.webdriver.common.by import By
from selenium.webdriver.common.actions.wheel_input import ScrollOrigin
from selenium.webdriver.support.ui import WebDriverWait

from ctmtools import build, read_report, read_study, states
from ctmtools.pages.background import Background
from ctmtools.pages.html_page import page_of
from ctmtools.pages.tables import table_of
from ctmtools.yielding.fixed_greens import note_losses

from .corridor import corridor
from .test_fixed_greens import STOP_LINE
from .test_page import BESIDE
from .test_yield import write
from .plain_reports import reported

LANE_DROP, STAGGERED = "A lane drop", "Staggered hours before a lane drop"
LESS = f"{STAGGERED} less {LANE_DROP}"


@pytest.fixture(scope="module")
def browser():
    """A browser without a window, which reaches no network."""
    options = webdriver.ChromeOptions()
    for word in ("--headless=new", "--no-sandbox", "--disable-gpu", "--hide-scrollbars", "--proxy-server=127.0.0.1:9"):
        options.add_argument(word)
    options.set_capability("goog:loggingPrefs", {"browser": "ALL"})
    found = webdriver.Chrome(service=Service("/usr/bin/chromedriver"), options=options)
    yield found
    found.quit()


@pytest.fixture(scope="module")
def page(reports, tmp_path_factory):
    """The page of some reports, each made once."""
    folder, made = tmp_path_factory.mktemp("pages"), {}

    def path_of(*names):
        if names not in made:
            made[names] = folder / f"{len(made)}.html"
            made[names].write_text(page_of([read_report(reports(name)) for name in names]))
        return made[names]
    return path_of


@pytest.fixture(scope="module")
def two(page):
    """The page of two reports."""
    return page("bottleneck", "bottleneck-staggered")


def opened(browser, page, width=1200, scheme="light"):
    """Opens a page in a window of a width, in a colour scheme."""
    browser.execute_cdp_cmd("Emulation.setEmulatedMedia", {"features": [{"name": "prefers-color-scheme", "value": scheme}]})
    browser.execute_cdp_cmd("Emulation.setDeviceMetricsOverride", {"width": width, "height": 1000, "deviceScaleFactor": 1,
                                                                    "mobile": False})
    browser.get(page.as_uri())
    return browser


def ink(browser, name):
    """The bytes of a drawing, by which one tells whether it changed."""
    return browser.execute_script(f"return document.querySelector('#{name} canvas').toDataURL()")


def text(browser, name):
    return browser.find_element(By.ID, name).text


def taken(browser, name, entry):
    """Takes an entry of a list of the page."""
    browser.execute_script("const list = document.getElementById(arguments[0]);"
                           "list.value = [...list.options].find(one => one.text === arguments[1]).value;"
                           "list.dispatchEvent(new Event('change'))", name, entry)


def entries(browser, name):
    return browser.execute_script("return [...document.getElementById(arguments[0]).options].map(one => one.text)", name)


def column(browser, number, table="roads"):
    return [cell.text for cell in browser.find_elements(By.CSS_SELECTOR, f"#{table} tbody td:nth-child({number})")]


def point_at(browser, name, across, down):
    """Moves the pointer to a part of a drawing's width and height, and gives what is told there, line by line."""
    drawing = browser.find_element(By.ID, name)
    browser.execute_script("arguments[0].scrollIntoView({block: 'center'})", drawing)
    offset = [round((part - 0.5) * drawing.size[side]) for part, side in ((across, "width"), (down, "height"))]
    ActionChains(browser).move_to_element_with_offset(drawing, *offset).perform()
    return text(browser, "tip").split("\n")


def test_a_page_that_is_used(browser, two):
    opened(browser, two)
    assert text(browser, "title") == f"{LANE_DROP} and {STAGGERED}" and text(browser, "time") == "08:00:10"
    before = ink(browser, "map")
    browser.execute_script("const s = document.getElementById('slider'); s.value = 360; s.dispatchEvent(new Event('input'))")
    assert text(browser, "time") == "07:00:00" and ink(browser, "map") != before
    before = browser.execute_script("return document.querySelector('#curves path.curve').getAttribute('d')")
    point_at(browser, "space", 0.5, 0.8)
    ActionChains(browser).click().perform()
    assert text(browser, "cell").startswith("Cell m") and not text(browser, "cell").startswith("Cell m20")
    assert browser.execute_script("return document.querySelector('#curves path.curve').getAttribute('d')") != before
    point_at(browser, "map", 0.5, 0.5)
    ActionChains(browser).click().perform()
    # The middle of the way from the gate to the exit, 30 cells of 250 m and both ends of 150 m, is km 3.75.
    assert text(browser, "cell").split(",")[0] in ("Cell m15", "Cell m16")
    assert browser.get_log("browser") == []


def test_the_pointer_tells_place_density_flow_and_speed(browser, two):
    opened(browser, two)
    # In the queue before the lane drop 4,320 vehicles/h pass two lanes, and 3 x (144 - 1440 / 18) = 192 stand on a km of three.
    told = point_at(browser, "map", 0.5, 0.5)
    assert re.fullmatch(r"m1[56], road m, km 3.* at 08:00:10", told[0])
    assert told[1:] == ["density 192 vehicles/km", "density by lane 64 vehicles/km in a lane", "flow 4,320 vehicles/h",
                        "speed 22.5 km/h"]
    told = point_at(browser, "space", 0.5, 0.3)
    assert "road m, km" in told[0] and told[-1].startswith("speed ")
    taken(browser, "view", LESS)
    # With staggered hours 4,500 vehicles/h drive there at 90 km/h.
    assert "density, vehicles/km 192 50 -142" in point_at(browser, "map", 0.4, 0.5)
    assert browser.get_log("browser") == []


def test_each_value_is_that_of_the_table(browser, page, report):
    opened(browser, page("interchange"))
    frame = states(report("interchange"))
    for cell in ("m24", "r2", "ramp"):
        rows = frame[frame.cell == cell][:-1]
        told = browser.execute_script(
            "const [name] = arguments, place = shown().places.get(name), all = d3.range(frames);"
            "return ['density', 'flow', 'speed'].map(of => all.map(frame => value(of, place, frame)))", cell)
        density, flow, speed = (numpy.array([numpy.nan if one is None else one for one in own]) for own in told)
        assert flow == pytest.approx(rows.flow.to_numpy(), abs=0.1)
        assert density == pytest.approx((rows.vehicles if cell == "ramp" else rows.density).to_numpy(), abs=0.01)
        driven = ~numpy.isnan(speed)
        assert driven.sum() == (0 if cell == "ramp" else (rows.density > 0.002 * rows.density.max()).sum())
        assert speed[driven] == pytest.approx(rows.speed.to_numpy()[driven], rel=0.005)


def test_a_gate_tells_who_waits_in_it(browser, page):
    opened(browser, page("interchange"))
    # At 06:30 1,800 vehicles/h begin to come to the ramp, 5 in a step, and by 07:00 those wait that didn't find room.
    taken(browser, "quantity", "flow")
    browser.execute_script("state.frame = 360; choose(shown().places.get('ramp'))")
    waiting = browser.execute_script("return waits(shown(), shown().places.get('ramp'), 359)")
    assert browser.execute_script("return endText(shown().cells.find(cell => cell.name === 'ramp'), shown().places.get('ramp'))") \
        .startswith("ramp: ") and waiting > 100
    assert "in the gate, vehicles" in browser.find_element(By.CSS_SELECTOR, "#curves svg").text
    assert browser.get_log("browser") == []


def test_speed_and_density_by_lane(browser, two):
    opened(browser, two)
    assert entries(browser, "quantity") == ["density", "density by lane", "flow", "speed"]
    taken(browser, "quantity", "density by lane")
    # Behind the drop two lanes pass all that they can: 2,160 vehicles/h at 90 km/h in each, 24 vehicles/km.
    behind = point_at(browser, "map", 0.9, 0.5)
    assert "density by lane 24 vehicles/km in a lane" in behind and "speed 90 km/h" in behind
    legend = browser.find_element(By.CSS_SELECTOR, "#legend svg").text
    assert "density by lane, vehicles/km in a lane" in legend and "60" in legend
    taken(browser, "quantity", "speed")
    assert "speed, km/h" in browser.find_element(By.CSS_SELECTOR, "#legend svg").text
    assert "no vehicles" in text(browser, "key") and browser.get_log("browser") == []


def test_the_difference_has_colours_about_0_and_names(browser, two):
    opened(browser, two)
    assert entries(browser, "view") == [LANE_DROP, STAGGERED, LESS]
    before = ink(browser, "space"), text(browser, "legend")
    taken(browser, "view", LESS)
    assert ink(browser, "space") != before[0] and LESS in text(browser, "map-head") and LESS in text(browser, "cell")
    ticks = [float(tick.text.replace("−", "-")) for tick in browser.find_elements(By.CSS_SELECTOR, "#legend .tick text")]
    assert 0 in ticks and ticks == [-tick for tick in reversed(ticks)]
    assert f"queue, {LANE_DROP}" in text(browser, "key") and f"queue, {STAGGERED}" in text(browser, "key")
    heads = [head.text for head in browser.find_elements(By.CSS_SELECTOR, "#roads th")]
    assert not [head for head in heads if head in ("A", "B")] and any(STAGGERED in head.replace("\n", " ") for head in heads)
    assert browser.get_log("browser") == []


def test_what_only_one_report_has_is_in_the_table_and_in_no_difference(browser, tmp_path):
    path = tmp_path / "beside.html"
    path.write_text(page_of([reported(corridor(tmp_path)), reported(corridor(tmp_path, BESIDE))]))
    opened(browser, path)
    taken(browser, "view", "study (2) less study (1)")
    row = next(row.text.split() for row in browser.find_elements(By.CSS_SELECTOR, "#roads tbody tr") if row.text[:2] == "b ")
    assert row[:4] == ["b", "–", "0.5", "–"] and row[4] == row[5] != "0" and row[6] == "–"
    assert browser.find_element(By.CSS_SELECTOR, "#roads tfoot").text.startswith("in all 1 1.5 ")  # km
    assert browser.execute_script("return value('density', shown().places.get('b1'), 10)") is None
    assert browser.get_log("browser") == []


def test_a_speed_limit_is_outlined_and_told(browser, tmp_path):
    """Of one of two reports, from 06:10 to 06:40 on km 0.5 to 0.75; the diagram begins at 06:00 and ends at 07:00."""
    limit = '[[speed_limits]]\nroad = "m"\nfrom = 0.5\nto = 0.75\nstart = "06:10"\nend = "06:40"\nspeed = 60\n'
    path = tmp_path / "limited.html"
    path.write_text(page_of([reported(corridor(tmp_path, parts, demand=1080)) for parts in ("", limit)]))
    opened(browser, path)
    taken(browser, "view", "study (1)")
    assert not any(line.startswith("speed limit") for line in point_at(browser, "space", 0.4, 0.375))
    without = ink(browser, "space")
    taken(browser, "view", "study (2)")
    assert "speed limit 60 km/h" in point_at(browser, "space", 0.4, 0.375) and ink(browser, "space") != without
    assert not any(line.startswith("speed limit") for line in point_at(browser, "space", 0.9, 0.375))
    taken(browser, "view", "study (2) less study (1)")
    assert any(line.startswith("speed limit, km/h – 60") for line in point_at(browser, "space", 0.4, 0.375))
    assert browser.get_log("browser") == []


def test_it_is_zoomed_dragged_and_played(browser, two):
    opened(browser, two)
    for name in ("map", "space"):
        before = ink(browser, name)
        drawing = browser.find_element(By.ID, name)
        browser.execute_script("arguments[0].scrollIntoView({block: 'center'})", drawing)
        ActionChains(browser).scroll_from_origin(ScrollOrigin.from_element(drawing, 100, 0), 0, -300).perform()
        zoomed = ink(browser, name)
        ActionChains(browser).move_to_element(drawing).click_and_hold().move_by_offset(60, 10).release().perform()
        assert len({before, zoomed, ink(browser, name)}) == 3
        browser.execute_script(f"{name}.closest('.pane').querySelector('[data-zoom=\"0\"]').click()")
        assert browser.execute_script(f"return {name}Zoom.k") == 1
    browser.find_element(By.ID, "play").click()
    WebDriverWait(browser, 300).until(lambda _: text(browser, "time") > "08:01")
    browser.find_element(By.ID, "play").click()
    stopped = text(browser, "time")
    assert text(browser, "time") == stopped and browser.get_log("browser") == []


def test_the_table_is_sorted_by_a_click(browser, page):
    opened(browser, page("interchange"))
    assert column(browser, 1) == ["m", "gate ramp", "r", "a", "gate main"]
    browser.find_elements(By.CSS_SELECTOR, "#roads th button")[0].click()
    assert column(browser, 1) == ["a", "gate main", "gate ramp", "m", "r"]
    assert browser.find_elements(By.CSS_SELECTOR, "#roads th")[0].get_attribute("aria-sort") == "ascending"
    browser.find_elements(By.CSS_SELECTOR, "#roads th button")[0].click()
    assert column(browser, 1) == ["r", "m", "gate ramp", "gate main", "a"]
    browser.find_element(By.CSS_SELECTOR, "#roads tr[data-road=a]").click()
    assert browser.execute_script("return document.getElementById('road').value") == "a"
    assert browser.get_log("browser") == []


def test_all_columns_of_two_reports_are_seen_at_1024_pixels(browser, two):
    opened(browser, two, 1024)
    assert browser.execute_script("const t = document.getElementById('roads'); return [t.scrollWidth <= t.parentElement.clientWidth,"
                                  "t.querySelectorAll('tfoot td').length]") == [True, 13]
    assert browser.find_element(By.CSS_SELECTOR, "#roads tbody tr").text == \
        "m 7.5 461.25 120 -341.25 12,900 12,900 128.72 33.49 3.25 1.25 7.15 5.56"


def test_three_reports_stand_in_one_table(browser, page):
    opened(browser, page("bottleneck", "bottleneck-staggered", "bottleneck"), 1024)
    names = entries(browser, "view")[:3]
    assert column(browser, 1, "reports") == names and len(set(names)) == 3
    assert column(browser, 5, "reports") == ["461.25", "120", "461.25"]
    taken(browser, "measure", "most in queues at once, km")
    assert [column(browser, number)[0] for number in (3, 4, 5)] == ["3.25", "1.25", "3.25"]
    assert browser.get_log("browser") == []


@pytest.mark.parametrize("scheme, paper", [("light", "rgba(255, 255, 255, 1)"), ("dark", "rgba(22, 24, 27, 1)")])
@pytest.mark.parametrize("width", [420, 1024, 1920])
def test_light_and_dark_on_screens_of_all_widths(browser, two, scheme, paper, width):
    opened(browser, two, width, scheme)
    body = browser.find_element(By.TAG_NAME, "body")
    assert body.value_of_css_property("background-color") == paper
    assert browser.execute_script("return document.documentElement.scrollWidth") <= width
    assert browser.get_log("browser") == []


def test_five_reports_on_a_narrow_screen(browser, reports, tmp_path):
    """Their names stand in the table, each above its numbers, and where they come from is told where it is asked for."""
    found = [read_report(reports("bottleneck")) for _ in range(5)]
    for number, report in enumerate(found, 1):
        report.units.title = f"Plan {number} with staggered hours before the lane drop"
    path = tmp_path / "five.html"
    path.write_text(page_of(found))
    opened(browser, path, 420)
    height = "return document.querySelector(arguments[0]).getBoundingClientRect().height"
    assert text(browser, "title") == "Plan 1 with staggered hours before the lane drop and 4 other reports"
    assert browser.execute_script(height, "header") < 120 and browser.execute_script(height, "#compared") < 450
    assert browser.execute_script("const box = document.querySelector('#reports').parentNode; return box.scrollWidth <= box.clientWidth")
    assert text(browser, "provenance") == ""
    browser.find_element(By.CSS_SELECTOR, "#origin summary").click()
    assert "Page made on" in text(browser, "provenance")
    opened(browser, path)
    assert "Page made on" in text(browser, "provenance") and browser.get_log("browser") == []


def printed_pages(browser):
    """How many pages of A4 the page is printed on."""
    printed = browser.execute_cdp_cmd("Page.printToPDF", {"preferCSSPageSize": True, "printBackground": True})
    content = base64.b64decode(printed["data"])
    boxes = {tuple(map(float, box.split())) for box in re.findall(rb"/MediaBox \[([^]]*)\]", content)}
    assert [box[2:] for box in boxes] == [pytest.approx((210 / 25.4 * 72, 297 / 25.4 * 72), abs=1)]
    return len(re.findall(rb"/Type /Page\b", content))


@pytest.mark.parametrize("names", [("bottleneck",), ("bottleneck", "bottleneck-staggered"), ("four-arms",),
                                   ("bottleneck", "bottleneck-staggered", "bottleneck")])
def test_it_is_printed_on_two_pages_of_a4(browser, page, names):
    opened(browser, page(*names), scheme="dark")
    assert printed_pages(browser) == 2
    assert browser.execute_script("return [state.printing, document.documentElement.className]") == [False, ""]


def test_what_is_lost_at_fixed_greens_stands_below_the_roads(browser, tmp_path):
    study = read_study(write(tmp_path, STOP_LINE.format(demand=450, more=""))).scenario
    built = build(study)
    note_losses(study, (), built)
    path = tmp_path / "greens.html"
    path.write_text(page_of([reported(built)]))
    opened(browser, path)
    head = browser.find_element(By.CSS_SELECTOR, "#greens h2").text
    assert head.startswith("Lost at fixed greens by coming at random") and head.endswith("no part of the delay: 0.24 vehicle-hours")
    assert [column(browser, number, "greens-0") for number in range(1, 7)] == [["street09"], ["444"], ["49%"], ["1.9 s"], ["0.24"], [""]]
    assert printed_pages(browser) == 2


def test_rows_that_find_no_room_on_paper_are_counted(browser, tmp_path):
    roads = "".join(f'[roads.r{i}]\nlength = 1\nlanes = 1\n[gates.g{i}]\ninto = "r{i}"\n[exits.x{i}]\nfrom = "r{i}"\n'
                    for i in range(60))
    path = tmp_path / "many.html"
    path.write_text(page_of([reported(corridor(tmp_path, roads, end="06:10"))]))
    opened(browser, path)
    browser.execute_script("addEventListener('beforeprint', () => { window.told = [byId('more').textContent,"
                           "[...document.querySelectorAll('#roads tbody tr')].filter(row => row.offsetHeight).length]; })")
    assert printed_pages(browser) == 2
    told, rows = browser.execute_script("return window.told")
    assert told == f"{122 - rows} more rows are left out here." and 30 <= rows < 60


def test_a_page_asks_no_server(browser, two):
    opened(browser, two)
    assert browser.execute_script("return performance.getEntriesByType('resource').length") == 0
    assert browser.execute_script("return document.querySelectorAll('img[src], link').length") == 0


def test_no_script_runs_but_the_page_s_own(browser, two, tmp_path):
    alien = "window.alien = 1"
    more = f'<script>{alien}</script><img src="none.png" onerror="{alien}"><svg onload="{alien}"></svg><a id="go" href="javascript:{alien}">go</a>'
    path = tmp_path / "alien.html"
    path.write_text(two.read_text().replace("</header>", f"{more}</header>", 1))
    opened(browser, path)
    browser.execute_script("document.getElementById('go').click()")
    assert text(browser, "title") and browser.execute_script("return [typeof data, typeof d3, typeof window.alien]") == ["object", "object", "undefined"]
    told = [entry["message"] for entry in browser.get_log("browser")]
    assert len([line for line in told if "Content Security Policy" in line]) >= 4


def test_a_map_stands_behind_where_it_is_asked_for(browser, reports, tmp_path):
    report = read_report(reports("interchange"))
    # Zone 32: 500 km east lies at 9 degrees east, and 5,761 km north at 52 degrees north.
    report.units.points = {"m": [[500, 5761.038], [508, 5761.038]]}
    path = tmp_path / "behind.html"
    path.write_text(page_of([report], background=Background("EPSG:32632", "tiles/{z}/{x}/{y}.png")))
    opened(browser, path)
    sources = browser.execute_script("return [...document.querySelectorAll('#map .tiles img')].map(i => i.getAttribute('src'))")
    found = {tuple(map(int, re.fullmatch(r"tiles/(\d+)/(\d+)/(\d+)\.png", source).groups())) for source in sources}
    (level,) = {tile[0] for tile in found}
    # The number of a tile, as OpenStreetMap's wiki has it.
    latitude = math.radians(52)
    across, down = (9 + 180) / 360 * 2 ** level, (1 - math.asinh(math.tan(latitude)) / math.pi) / 2 * 2 ** level
    assert (level, int(across), int(down)) in found and 2 <= len(found) <= 40
    browser.get_log("browser")  # that there are no such files


def test_a_report_of_steps_and_cells(browser, tmp_path, reports):
    report = read_report(reports("interchange"))
    report.units.step, report.units.cells, report.units.roads = None, {}, {}
    assert [measure["unit"] for measure in table_of([report])["measures"]] == ["cells", "vehicle-steps", "", "steps", "cells",
                                                                              "steps"]
    path = tmp_path / "plain.html"
    path.write_text(page_of([report]))
    opened(browser, path)
    assert entries(browser, "quantity") == ["density", "flow", "speed"] and text(browser, "cell").startswith("Cell m24")
    assert browser.get_log("browser") == []
