"""The page that answers in a browser without a window: what is typed and dragged there, and what is seen then."""

import pytest
from selenium.webdriver.common.action_chains import ActionChains
from selenium.webdriver.common.by import By
from selenium.webdriver.common.keys import Keys

from ctmtools.live.fields import values_in
from ctmtools.live.session import Session

from .live_pages import begun_browser, is_drawn, opened, serving, until, until_it_is
from .test_live_session import STUDY


@pytest.fixture(scope="module")
def browser():
    found = begun_browser()
    yield found
    found.quit()


@pytest.fixture
def session(tmp_path, program):
    path = tmp_path / "short.toml"
    path.write_text(STUDY)
    return Session.of_file(path)


def field(browser, key):
    return browser.find_element(By.CSS_SELECTOR, f"#live-form input[data-key='{key}']")


def text(browser, name):
    return browser.find_element(By.ID, name).text


def typed(browser, key, value):
    """Types into a field by keyboard alone."""
    found = field(browser, key)
    found.send_keys(Keys.CONTROL, "a")
    found.send_keys(value, Keys.TAB)


def test_typing_undoing_and_saving(browser, session):
    with serving(session) as address:
        opened(browser, address)
        assert text(browser, "title") == "Short" and text(browser, "live-state") == "saved"
        before = browser.execute_script("return document.querySelector('#space canvas').toDataURL()")
        typed(browser, "roads.m.lanes", "1")
        is_drawn(browser, 1)
        assert browser.execute_script("return document.querySelector('#space canvas').toDataURL()") != before
        # One lane passes 2,160 of 3,600 vehicles/h, so there is delay where there was none.
        until(browser, "/Delay 0 → [\\d.]+ vehicle-hours \\(\\+/.test(document.getElementById('live-difference').textContent)")
        assert text(browser, "live-state") == "not saved" and "lanes = 1  # of them" in session.text
        ActionChains(browser).key_down(Keys.CONTROL).send_keys("z").key_up(Keys.CONTROL).perform()
        is_drawn(browser, 2)
        assert session.text == STUDY and field(browser, "roads.m.lanes").get_attribute("value") == "2"
        ActionChains(browser).key_down(Keys.CONTROL).send_keys("y").key_up(Keys.CONTROL).perform()
        is_drawn(browser, 3)
        ActionChains(browser).key_down(Keys.CONTROL).send_keys("s").key_up(Keys.CONTROL).perform()
        until(browser, "document.getElementById('live-state').textContent === 'saved'")
        assert session.path.read_text() == STUDY.replace("lanes = 2", "lanes = 1")
        assert browser.get_log("browser") == []


def test_a_fault_stands_at_its_field_and_names_are_text(browser, session):
    session.change([("title", "<script>window.alien = 1</script>")])
    with serving(session) as address:
        opened(browser, address)
        assert text(browser, "title") == "<script>window.alien = 1</script>"
        typed(browser, "lane.wave_speed", "200")
        until(browser, "document.querySelector('[aria-invalid]') !== null")
        assert "must be at most the free-flow speed" in text(browser, "live-fault")
        assert browser.execute_script("return document.getElementById('live-report').classList.contains('before')")
        typed(browser, "lane.wave_speed", "20")
        until(browser, "document.querySelector('[aria-invalid]') === null && !document.querySelector('#live-report.before')")
        assert browser.execute_script("return typeof window.alien") == "undefined" and browser.get_log("browser") == []


def test_plans_are_kept_and_compared(browser, session):
    with serving(session) as address:
        opened(browser, address)
        typed(browser, "roads.m.lanes", "1")
        browser.execute_script("document.getElementById('live-plans').open = true")
        browser.find_element(By.ID, "live-plan-name").send_keys("narrow")
        browser.find_element(By.ID, "live-keep").click()
        until(browser, "document.querySelectorAll('#live-plan-table tbody tr').length === 3")
        names = [cell.text for cell in browser.find_elements(By.CSS_SELECTOR, "#live-plan-table td:first-child")]
        assert names == ["as opened", "narrow", "at hand"]
        browser.execute_script("const list = document.getElementById('live-against'); list.value = 'narrow';"
                               "list.dispatchEvent(new Event('change'))")
        until(browser, "document.getElementById('live-difference').textContent.startsWith('Against “narrow”')")
        assert browser.get_log("browser") == []


def closure(session):
    return values_in(session.text)["closures"][0]


def test_a_box_is_drawn_moved_and_widened_by_pointer(browser, session):
    with serving(session) as address:
        opened(browser, address)
        browser.find_element(By.CSS_SELECTOR, "#live-draws [data-kind=closures]").click()
        # The picture leaves 46 px at its left, 18 at its right and top, 24 at its foot; 10 minutes and 2 km lie between.
        wide, high = browser.execute_script("const box = document.getElementById('space'); box.scrollIntoView({block: 'center'});"
                                            "return [box.clientWidth, box.clientHeight]")
        space = browser.find_element(By.ID, "space")

        def at(minute, km):
            return (round(46 + minute / 10 * (wide - 64) - wide / 2), round(high - 24 - km / 2 * (high - 42) - high / 2))
        drag(browser, space, at(2, 1), at(5, 1.5))
        until(browser, "document.querySelector('#live-boxes g.box[data-key=\"closures.1\"]') !== null")
        comes_to(browser, session, {"road": "m", "from": 1.0, "to": 1.5, "start": "06:02", "end": "06:05", "lanes": 1})
        drag(browser, space, at(3.5, 1.25), at(4.5, 1))
        until(browser, "document.querySelector('[data-key=\"closures.1.start\"]').value === '06:03'")
        comes_to(browser, session, {"road": "m", "from": 0.75, "to": 1.25, "start": "06:03", "end": "06:06", "lanes": 1})
        drag(browser, space, at(6, 1), at(8, 1))
        until(browser, "document.querySelector('[data-key=\"closures.1.end\"]').value === '06:08'")
        comes_to(browser, session, {"road": "m", "from": 0.75, "to": 1.25, "start": "06:03", "end": "06:08", "lanes": 1})
        assert browser.get_log("browser") == []
        for _ in range(3):
            session.undo()
        assert session.text == STUDY


def comes_to(browser, session, wanted):
    """Waits until the closure is as it is wanted and drawn so: what is dragged comes there by other values."""
    until_it_is(lambda: closure(session), lambda found: found == wanted)
    is_drawn(browser, session.version)


def drag(browser, element, first, last):
    """Drags from one point of an element to another, about its middle, on the way over a third."""
    middle = [(a + b) // 2 for a, b in zip(first, last)]
    steps = ActionChains(browser, 50).move_to_element_with_offset(element, *first).click_and_hold()
    steps.move_to_element_with_offset(element, *middle).move_to_element_with_offset(element, *last).release().perform()


DEMAND = [["06:00", "06:03", 3600], ["06:03", "06:06", 1800.5], ["06:06", "06:10", 900]]
COLUMNS = "start\tend\tflow\n06:00\t06:03\t3,600\n06:03\t06:06\t1800,5\n06:06\t06:10\t900\n"  # as a spreadsheet copies them


def paste(browser, key, columns):
    """Pastes columns into a cell of a table."""
    browser.execute_script("const found = document.querySelector(`#live-form input[data-key='${arguments[0]}']`); found.focus();"
                           "const clipboardData = new DataTransfer(); clipboardData.setData('text', arguments[1]);"
                           "found.dispatchEvent(new ClipboardEvent('paste', {clipboardData, bubbles: true, cancelable: true}))", key, columns)


def demand(session):
    return values_in(session.text)["gates"]["on"]["demand"]


def holds(browser, row):
    """Takes hold of a step of the demand's curve, and gives the height of the curve in px."""
    height = browser.execute_script("const found = document.querySelector(\"svg[data-key='gates.on.demand']\");"
                                    "found.scrollIntoView({block: 'center'}); return found.getBoundingClientRect().height")
    grip = browser.find_element(By.CSS_SELECTOR, f"svg[data-key='gates.on.demand'] [data-row='{row}']")
    ActionChains(browser, 50).move_to_element(grip).click_and_hold().perform()
    return height


def test_pasted_columns_and_a_step_dragged_right_after(browser, session):
    with serving(session) as address:
        opened(browser, address)
        paste(browser, "gates.on.demand.0.0", COLUMNS)
        high = holds(browser, 2)
        assert demand(session) == DEMAND and high == 96
        # The curve has room for 1.3 times the greatest flow, 4,680 vehicles/h, of which 24 of 96 px are a quarter, 1,170.
        ActionChains(browser, 50).move_by_offset(0, -12).move_by_offset(0, -12).release().perform()
        found = until_it_is(lambda: demand(session)[2][2], lambda flow: abs(flow - 900 - 1170) < 50)
        is_drawn(browser, session.version)
        assert demand(session)[:2] == DEMAND[:2] and field(browser, "gates.on.demand.2.2").get_attribute("value") == str(found)
        session.undo()  # the whole drag
        assert demand(session) == DEMAND
        assert browser.get_log("browser") == []


def test_a_step_is_dragged_while_columns_come(browser, session):
    with serving(session) as address:
        opened(browser, address)
        high = holds(browser, 1)
        paste(browser, "gates.on.demand.0.0", COLUMNS)
        until_it_is(lambda: demand(session), lambda rows: rows == DEMAND)
        is_drawn(browser, session.version)
        ActionChains(browser, 50).move_by_offset(0, high // 8).move_by_offset(0, high // 8).release().perform()
        until_it_is(lambda: demand(session)[1][2], lambda flow: abs(flow - 1800 + 1170) < 50)
        assert demand(session)[::2] == DEMAND[::2] and browser.get_log("browser") == []


def test_the_difference_of_two_plans_as_a_picture(browser, session):
    """The picture of one plan less the other follows what is changed, and is of one colour where both are alike."""
    shades = ("const canvas = document.querySelector('#space canvas'), {data} = canvas.getContext('2d').getImageData(60, 30, canvas.width - 90,"
              "canvas.height - 70); return new Set(new Uint32Array(data.buffer)).size")
    with serving(session) as address:
        opened(browser, address)
        browser.execute_script("const list = document.getElementById('view'); list.selectedIndex = 2; list.dispatchEvent(new Event('change'))")
        assert text(browser, "space-head") == "Time and place, at hand less as opened on road"
        assert browser.execute_script(shades) == 1
        typed(browser, "roads.m.lanes", "1")
        is_drawn(browser, 1)
        until(browser, "(() => {" + shades + "})() > 1")
        assert text(browser, "space-head") == "Time and place, at hand less as opened on road" and browser.get_log("browser") == []
