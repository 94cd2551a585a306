"""The green band of a street on the page that answers: what is drawn of it, and what is moved in it by keys and by pointer."""

import pytest
from selenium.webdriver.common.action_chains import ActionChains
from selenium.webdriver.common.by import By
from selenium.webdriver.common.keys import Keys

from ctmtools.live.fields import values_in
from ctmtools.live.session import Session

from .examples import EXAMPLES
from .live_pages import begun_browser, is_drawn, opened, serving, until, until_it_is

# Stop lines each 0.5 km, which are 40 s at 45 km/h, green for 60 s of 120 s.
STREET = (EXAMPLES / "arterial-wave.toml").read_text()
LISTED = STREET.replace("offset = 40  # s, by which each turns green after the one before it", "offset = [0, 40, 80, 0, 40]")


@pytest.fixture(scope="module")
def browser():
    found = begun_browser()
    yield found
    found.quit()


def session_of(folder, text):
    path = folder / "street.toml"
    path.write_text(text)
    return Session.of_file(path)


def band_is(browser, seconds):
    until(browser, "document.querySelector('#live-band p').textContent === arguments[0]",
          f"c: green band of {seconds} s in a cycle of 120 s, at 45 km/h")


def offset_is(browser, session, wanted):
    until_it_is(lambda: values_in(session.text)["signals"][0]["offset"], lambda found: found == wanted)
    is_drawn(browser, session.version)


def test_a_band_by_keys_and_by_pointer(browser, tmp_path, program):
    session = session_of(tmp_path, STREET)
    with serving(session) as address:
        opened(browser, address)
        band_is(browser, 60)
        assert len(browser.find_elements(By.CSS_SELECTOR, "#live-band g.line")) == 5
        browser.execute_script("document.querySelector('#live-band [data-line=\"signals.1 1\"]').focus()")
        ActionChains(browser).send_keys(Keys.ARROW_RIGHT).perform()
        # Green from 50 s, 100 s, .. on and reached after 40 s, 80 s, ..: those who pass the first line from 40 s to 60 s pass all.
        offset_is(browser, session, 50)
        band_is(browser, 20)
        # The last line is moved 40 s back, and with it each line 10 s behind the one before it.
        wide = browser.execute_script("const line = document.querySelector('#live-band g.line line').getBoundingClientRect(); return line.width")
        grip = browser.find_element(By.CSS_SELECTOR, "#live-band [data-line='signals.1 4'] rect.green")
        way = -round(40 / 240 * wide / 2)
        ActionChains(browser, 50).move_to_element(grip).click_and_hold().move_by_offset(way, 0).move_by_offset(way, 0).release().perform()
        offset_is(browser, session, 40)
        band_is(browser, 60)
        session.undo()
        assert "offset = 50" in session.text and browser.get_log("browser") == []


def test_lines_that_turn_green_at_moments_of_their_own(browser, tmp_path, program):
    session = session_of(tmp_path, LISTED)
    with serving(session) as address:
        opened(browser, address)
        band_is(browser, 60)
        browser.execute_script("document.querySelector('#live-band [data-line=\"signals.1 2\"]').focus()")
        ActionChains(browser).send_keys(Keys.ARROW_LEFT, Keys.ARROW_LEFT).perform()
        # The third line is green from 60 s to 120 s, and is reached after 80 s: who passes the first one by 40 s passes it.
        offset_is(browser, session, [0, 40, 60, 0, 40])
        band_is(browser, 40)
        assert browser.get_log("browser") == []


def test_a_road_with_one_stop_line_has_no_band(browser, tmp_path, program):
    session = session_of(tmp_path, STREET.replace("at = [0.5, 1.0, 1.5, 2.0, 2.5]", "at = 2.5"))
    with serving(session) as address:
        opened(browser, address)
        assert browser.execute_script("return document.getElementById('live-band').hidden")
