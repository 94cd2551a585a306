"""The page that answers in a browser beside what is not as it should be: broken studies, other pages, strangers, a server that ends."""

import json

import pytest
from selenium.webdriver.common.action_chains import ActionChains
from selenium.webdriver.common.by import By

from ctmtools.live.session import Session

from .live_pages import begun_browser, is_drawn, opened, serving, until
from .test_live_session import STUDY


@pytest.fixture(scope="module")
def browser():
    found = begun_browser()
    yield found
    found.quit()


@pytest.fixture
def path(tmp_path, program):
    found = tmp_path / "short.toml"
    found.write_text(STUDY)
    return found


def test_a_broken_study_opens_with_its_text_and_is_mended(browser, path):
    path.write_text(STUDY.replace("lanes = 2", "lanes = "))
    session = Session.of_file(path)
    with serving(session) as address:
        browser.get(address)
        until(browser, "!document.getElementById('live-fault').hidden && document.getElementById('live-as-text').open")
        assert "line 16" in browser.find_element(By.ID, "live-fault").text
        text = browser.find_element(By.ID, "live-text")
        assert text.get_attribute("value") == path.read_text()
        browser.execute_script("arguments[0].value = arguments[0].value.replace('lanes = ', 'lanes = 2')", text)
        browser.find_element(By.XPATH, "//button[@id='live-take-text']").click()
        until(browser, "document.querySelector('#space canvas') !== null && document.getElementById('live-fault').hidden")
        assert session.text == STUDY and browser.get_log("browser") == []


def test_two_pages_see_each_other_s_changes(browser, path):
    session = Session.of_file(path)
    with serving(session) as address:
        opened(browser, address)
        first = browser.current_window_handle
        browser.switch_to.new_window("window")
        try:
            opened(browser, address)
            browser.execute_script("const field = document.querySelector(\"#live-form input[data-key='roads.m.lanes']\");"
                                   "field.value = '3'; field.dispatchEvent(new Event('change'))")
            is_drawn(browser, 1)
        finally:
            browser.close()
            browser.switch_to.window(first)
        is_drawn(browser, 1)
        assert browser.execute_script("return document.querySelector(\"#live-form input[data-key='roads.m.lanes']\").value") == "3"


# Asks from another page: whether the address can be fetched, and whether a socket opens.
STRANGER = """
const [address, done] = arguments, socket = new WebSocket(address.replace("http", "ws") + "socket");
const opens = new Promise(then => { socket.onopen = () => then(true); socket.onerror = () => then(false); });
Promise.all([fetch(address).then(() => true, () => false), opens]).then(found => done(JSON.stringify(found)));
"""


def test_a_page_of_another_origin_is_refused(browser, path, tmp_path):
    with serving(Session.of_file(path)) as address:
        opened(browser, address)
        without = address.rsplit("/", 2)[0] + "/" + "x" * 32 + "/"
        browser.get(without)
        assert browser.find_element(By.TAG_NAME, "body").text == "the address lacks the secret"
        stranger = tmp_path / "stranger.html"
        stranger.write_text("<title>A stranger</title>")
        browser.get(stranger.as_uri())
        assert json.loads(browser.execute_async_script(STRANGER, address)) == [False, False]
        told = [entry["message"] for entry in browser.get_log("browser")]
        assert any("403" in line for line in told)  # the page without the secret, or the socket


def test_a_server_that_ends_while_one_drags(browser, path):
    session = Session.of_file(path)
    session.change([("closures.+", {"road": "m", "from": 1, "to": 1.5, "start": "06:02", "end": "06:05", "lanes": 1})])
    with serving(session) as address:
        opened(browser, address)
        until(browser, "document.querySelector('#live-boxes g.box .body') !== null")
        box = browser.find_element(By.CSS_SELECTOR, "#live-boxes g.box .body")
        browser.execute_script("document.getElementById('space').scrollIntoView({block: 'center'})")
        ActionChains(browser, 50).move_to_element(box).click_and_hold().move_by_offset(20, 0).perform()
    until(browser, "document.getElementById('live-answer').textContent.startsWith('The server has ended')")
    ActionChains(browser, 50).move_by_offset(20, 0).release().perform()
    assert browser.execute_script("return document.querySelectorAll('#live-boxes g.box').length") == 1
    assert not [entry for entry in browser.get_log("browser") if entry["source"] == "javascript"]
