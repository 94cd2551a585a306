"""The page that answers in a browser, by keyboard alone and by pointer: boxes, signals, and pages of other widths and colours."""

import re

import pytest
from selenium.webdriver.common.action_chains import ActionChains
from selenium.webdriver.common.by import By
from selenium.webdriver.common.keys import Keys

from ctmtools.live.fields import values_in
from ctmtools.live.session import Session

from .live_pages import begun_browser, is_drawn, opened, serving, until, until_it_is
from .test_live_session import STUDY

SIGNAL = """
[[signals]]
road = "m"
at = 1  # km
cycle = 60  # s
green = 30  # s
"""


@pytest.fixture(scope="module")
def browser():
    found = begun_browser()
    yield found
    found.quit()


def session_of(folder, text):
    path = folder / "short.toml"
    path.write_text(text)
    return Session.of_file(path)


def press(browser, *keys, shift=False):
    """Presses keys where the focus is."""
    steps = ActionChains(browser)
    if shift:
        steps.key_down(Keys.SHIFT)
    steps.send_keys(*keys)
    if shift:
        steps.key_up(Keys.SHIFT)
    steps.perform()


def comes_to(browser, session, kind, **wanted):
    """Waits until the first table of a kind has these values, and is drawn so."""
    def values():
        found = values_in(session.text).get(kind, [{}])[0]
        return {name: found.get(name) for name in wanted}
    until_it_is(values, lambda found: found == wanted)
    is_drawn(browser, session.version)


def test_a_closure_by_keyboard_alone(browser, session, tmp_path):
    with serving(session) as address:
        opened(browser, address)
        browser.execute_script("document.querySelector('#live-draws [data-kind=closures]').focus()")
        press(browser, Keys.ENTER)
        # 8 cells of 250 m and ten minutes: it begins before the middle of the road, from a third of the time to two thirds.
        comes_to(browser, session, "closures", road="m", start="06:03", end="06:07", lanes=1, to=1.0, **{"from": 0.75})
        until(browser, "document.activeElement.dataset.key === 'closures.1'")
        press(browser, Keys.ARROW_RIGHT, Keys.ARROW_UP)
        comes_to(browser, session, "closures", start="06:04", end="06:08", to=1.25, **{"from": 1.0})
        press(browser, Keys.ARROW_LEFT, Keys.ARROW_UP, shift=True)
        comes_to(browser, session, "closures", start="06:04", end="06:07", to=1.5, **{"from": 1.0})
        press(browser, "+")
        comes_to(browser, session, "closures", lanes=2)
        press(browser, Keys.DELETE)
        until_it_is(lambda: session.text.count("closures"), lambda count: count == 0)
        is_drawn(browser, session.version)
        assert browser.get_log("browser") == []


@pytest.fixture
def session(tmp_path, program):
    return session_of(tmp_path, STUDY)


@pytest.fixture
def signalled(tmp_path, program):
    return session_of(tmp_path, STUDY + SIGNAL)


def test_a_signal_by_keys(browser, signalled):
    with serving(signalled) as address:
        opened(browser, address)
        browser.execute_script("document.querySelector('#live-signals g').focus()")
        press(browser, Keys.ARROW_RIGHT, Keys.ARROW_RIGHT)  # by steps of 10 s
        comes_to(browser, signalled, "signals", offset=20, green=30, cycle=60)
        press(browser, Keys.ARROW_RIGHT, shift=True)
        comes_to(browser, signalled, "signals", offset=20, green=40, cycle=60)
        press(browser, Keys.ARROW_UP, Keys.ARROW_UP)
        comes_to(browser, signalled, "signals", offset=20, green=40, cycle=80)
        assert browser.get_log("browser") == []


def test_a_signal_by_pointer(browser, signalled):
    with serving(signalled) as address:
        opened(browser, address)
        wide = browser.execute_script("return document.querySelector('#live-signals .cycle').getBoundingClientRect().width")  # of 60 s
        for part, by, wanted in [("green.first", 20, {"offset": 20, "green": 30, "cycle": 60}), ("edge", -10, {"offset": 20, "green": 20, "cycle": 60}),
                                 ("rim", 10, {"offset": 20, "green": 20, "cycle": 70})]:
            grip = browser.find_element(By.CSS_SELECTOR, f"#live-signals .{part}")
            way = round(by / 60 * wide / 2)
            ActionChains(browser, 50).move_to_element(grip).click_and_hold().move_by_offset(way, 0).move_by_offset(way, 0).release().perform()
            comes_to(browser, signalled, "signals", **wanted)
        signalled.undo()
        assert "cycle = 60  # s" in signalled.text and browser.get_log("browser") == []


@pytest.mark.parametrize("width, scheme", [(420, "light"), (420, "dark"), (1920, "light"), (1920, "dark")])
def test_widths_and_schemes(browser, session, width, scheme):
    with serving(session) as address:
        opened(browser, address, width=width, scheme=scheme)
        assert browser.execute_script("return document.documentElement.scrollWidth") <= width
        paper = re.findall(r"\d+", browser.execute_script("return getComputedStyle(document.body).backgroundColor"))
        assert (sum(map(int, paper[:3])) > 384) == (scheme == "light")
        beside = browser.execute_script("const [study, report] = ['live-study', 'live-report'].map(id => document.getElementById(id).getBoundingClientRect());"
                                        "return study.right <= report.left + 1")
        assert beside == (width > 900) and browser.get_log("browser") == []


def test_long_work_gives_a_plan_beside_the_others(browser, signalled):
    with serving(signalled) as address:
        opened(browser, address)
        browser.execute_script("for (const id of ['live-works', 'live-plans']) document.getElementById(id).open = true")
        browser.find_element(By.CSS_SELECTOR, "[data-work=optimise]").click()
        until(browser, "document.querySelector('#live-works [role=status]').textContent.includes('vehicle-hours after')")
        until(browser, "[...document.querySelectorAll('#live-plan-table td:first-child')].some(cell => cell.textContent === 'optimised')")
        assert "optimised" in signalled.plans and browser.get_log("browser") == []
