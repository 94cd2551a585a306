"""The draws on the page: which it has, how it has them, and what it shows in a browser."""

import json
import shutil

import pandas
import pytest

from ctmtools import read_report
from ctmtools.pages.content import data_of
from ctmtools.pages.draws import MOST_POINTS, draws_of
from ctmtools.pages.html_page import page_of
from ctmtools.problem import Problem
from ctmtools.network_file.checksums import checksum
from ctmtools.files.seals import KEY, sealed
from ctmtools.uncertainty.reliability import DELAY, TRAVEL
from ctmtools.uncertainty.results import Draws, read_results, write_results

from .corridor import GATE
from .test_page_in_browser import browser, opened, printed_pages, text  # noqa: F401

TITLES = {"uncertain": "A lane drop, demand uncertain", "uncertain-shoulder": "The same with a hard shoulder"}


def results_of(delays, networks, failed=()):
    """Draws whose plans have these delays; the travel time of the road is 12 min and a minute for each vehicle-hour."""
    rows = [{"plan": plan, "draw": number, "demand": 0.1 * number, "incidents": 0, DELAY: delay, "left_vehicles": 4800.0,
             "inside_vehicles": 0.0, "last_queue_s": 600.0 * number, f"{DELAY} m": delay, f"{TRAVEL}m": 12.0 + delay, "queue_past m.9": number % 2,
             "rounded": "", "error": ""}
            for plan, own in delays.items() for number, delay in enumerate(own, 1)]
    rows += [{"plan": plan, "draw": 1, "demand": 0.1, "error": "no lane is left"} for plan in failed]
    stand = {plan: {DELAY: 3.0, f"{DELAY} m": 3.0, f"{TRAVEL}m": 15.0} for plan in networks}
    count = max(map(len, delays.values()))
    frame = pandas.DataFrame(rows).fillna({"rounded": "", "error": ""})
    return Draws(frame, title="A lane drop, demand uncertain", titles={plan: TITLES[plan] for plan in networks}, seed=4, count=count,
                 asked_for=count, places=("m.9",), times={"07:00": 3600.0}, stand=stand, free={plan: {"m": 12.0} for plan in networks},
                 networks=networks)


@pytest.fixture
def beside(reports, tmp_path):
    """Two reports in a folder, and the checksums of their networks."""
    for name in TITLES:
        path = reports(name)
        for suffix in (".report", ".csv", ".units.json"):
            shutil.copy(path.with_suffix(suffix), tmp_path)
    return {name: checksum((tmp_path / f"{name}.csv").read_bytes()) for name in TITLES}


ONE_TO_TEN = [float(delay) for delay in range(1, 11)]


def written(folder, results):
    (folder / "uncertain.draw").mkdir(exist_ok=True)
    write_results(results, folder / "uncertain.draw")
    return folder / "uncertain.draw"


def both(folder):
    return [read_report(folder / f"{name}.report") for name in TITLES]


def test_the_page_has_the_distribution_of_each_plan_and_its_sum(beside, tmp_path):
    written(tmp_path, results_of({"uncertain": ONE_TO_TEN, "uncertain-shoulder": [1.0] * 9 + [10.0]}, beside))
    found = data_of(both(tmp_path))["draws"]
    first, second = found["plans"]
    assert found["head"] == "Delay in 10 draws, seed 4" and first["name"] == "A lane drop, demand uncertain (uncertain)"
    # Five bars from 1 to 10, of 1.8 each: two of the ten lie in each.
    assert found["ends"] == pytest.approx([1, 2.8, 4.6, 6.4, 8.2, 10])
    assert first["shares"] == [0.2] * 5 and second["shares"] == [0.9, 0, 0, 0, 0.1]
    assert first["sum"] == [[delay, pytest.approx(delay / 10)] for delay in ONE_TO_TEN] and second["sum"][-1] == [10, 1]
    assert first["at"] == pytest.approx([5.5, 8.2, 9.55])
    # The travel time at free flow is 12 min, the mean 17.5, its 95th percentile 21.55.
    assert first["rows"][0][:3] == ("delay (vehicle-hours)", "3", "5.5") and first["rows"][1][-2:] == ("1.80", "23%")
    assert first["lines"] == ["A queue passes m.9 in 50% of draws (95 % interval 24 to 76 %)",
                              "A queue lasts past 07:00 in 40% of draws (95 % interval 17 to 69 %)"]
    assert found["compared"][0].startswith("uncertain-shoulder has less delay than uncertain in 80% of draws")


def test_what_is_read_again_is_what_was_written_to_the_last_digit(beside, tmp_path):
    made = results_of({"uncertain": [1 / 3, 0.1 + 0.2, 1e-7], "uncertain-shoulder": []}, beside, failed=["uncertain-shoulder"])
    found = read_results(written(tmp_path, made))
    pandas.testing.assert_frame_equal(found.rows, made.rows, check_dtype=False, check_exact=True)
    pandas.testing.assert_frame_equal(found.summary, made.summary)
    assert (found.titles, found.networks, found.places, found.times) == (made.titles, made.networks, made.places, made.times)
    plans = data_of(both(tmp_path))["draws"]["plans"]
    assert plans[1]["lines"] == ["No run succeeded."] and not plans[1]["sum"] and len(plans[0]["sum"]) == 3


def test_a_long_sum_is_thinned_to_its_ends(beside, tmp_path):
    written(tmp_path, results_of({"uncertain": [float(delay) for delay in range(5000)]}, {"uncertain": beside["uncertain"]}))
    (plan,) = data_of(both(tmp_path))["draws"]["plans"]
    assert len(plan["sum"]) == MOST_POINTS and plan["sum"][0] == [0, 0.0002] and plan["sum"][-1] == [4999, 1]
    assert len(plan["shares"]) == 40 and sum(plan["shares"]) == pytest.approx(1)
    assert all(part == pytest.approx((delay + 1) / 5000) for delay, part in plan["sum"])


def test_draws_stand_beside_any_report_of_the_page_or_are_named(beside, tmp_path):
    folder = written(tmp_path, results_of({"uncertain": ONE_TO_TEN}, {"uncertain": beside["uncertain"]}))
    first, second = both(tmp_path)
    assert data_of([second, first])["draws"] and not data_of([second])["draws"]
    other = folder.rename(tmp_path / "other")
    assert not data_of([first])["draws"] and data_of([first], draws=other)["draws"]
    with pytest.raises(Problem, match="other: its draws are of other networks than .*uncertain-shoulder.report; run the studies"):
        draws_of([second], ["b"], other)
    with pytest.raises(Problem, match="none: has no draws.json; `ctm-tools draw` writes such a folder"):
        draws_of([second], ["b"], tmp_path / "none")


def edited(folder):
    path = folder / "draws.csv"
    path.write_text(path.read_text().replace("10.0", "11.0"))


def of_other_terms(folder):
    path = folder / "draws.json"
    terms = json.loads(path.read_text())
    del terms["free"], terms[KEY]
    path.write_text(json.dumps(sealed(terms)))


@pytest.mark.parametrize("change, wanted", [
    (edited, "draws.csv: isn't what draws.json is of"), (of_other_terms, "draws.json: isn't one that this `ctm-tools draw` writes"),
    (lambda folder: (folder / "draws.json").write_text("{"), "draws.json: isn't one that `ctm-tools draw` writes"),
    (lambda folder: (folder / "draws.csv").unlink(), "draws.csv: ")])
def test_draws_that_are_not_whole_are_on_no_page(beside, tmp_path, change, wanted):
    folder = written(tmp_path, results_of({"uncertain": ONE_TO_TEN}, {"uncertain": beside["uncertain"]}))
    change(folder)
    assert data_of(both(tmp_path))["draws"] is None
    with pytest.raises(Problem, match=wanted):
        data_of(both(tmp_path), draws=folder)


def test_draws_come_from_the_command_into_the_page(tool, program, tmp_path):
    """A gate lets 1,200 vehicles/h pass, and an hour has 1,500: the delay is 1500·300/2400 = 187.5 in each draw."""
    (tmp_path / "s.toml").write_text(GATE + '[[uncertain]]\nkey = "demand"\nfactor = "given"\nvalues = [1]\n')
    for words in (["draw", "s.toml", "--runs", "2", "-j", "1"], ["run", "s.toml"], ["report", "s.report"]):
        status, _, err = tool(*words)
        assert status == 0, err
    assert '"head":"Delay in 2 draws, seed 1"' in (tmp_path / "s.html").read_text()
    (plan,) = data_of([read_report(tmp_path / "s.report")])["draws"]["plans"]
    assert plan["name"] == "s" and plan["rows"][0][:3] == ("delay (vehicle-hours)", "187.5", "187.5")
    status, _, err = tool("report", "s.report", "--draws", "none")
    assert (status, err) == (2, "ctm-tools: none: has no draws.json; `ctm-tools draw` writes such a folder\n")
    (tmp_path / "s.toml").write_text((tmp_path / "s.toml").read_text().replace("1500", "1400"))
    assert tool("run", "s.toml")[0] == 0 and data_of([read_report(tmp_path / "s.report")])["draws"] is None


@pytest.fixture
def page(beside, tmp_path):
    made = written(tmp_path, results_of({"uncertain": ONE_TO_TEN, "uncertain-shoulder": [1.0] * 9 + [10.0]}, beside))
    (tmp_path / "draws.html").write_text(page_of(both(tmp_path), draws=made))
    return tmp_path / "draws.html"


def paths(browser, name):  # noqa: F811
    return browser.execute_script(f"return [...document.querySelectorAll('#{name} .series')].map(line => line.getAttribute('d'))")


def test_two_plans_stand_beside_each_other_in_the_drawings(browser, page):  # noqa: F811
    opened(browser, page)
    assert text(browser, "draws-head") == "Delay in 10 draws, seed 4"
    for name in ("draw-bars", "draw-sum"):
        first, second = paths(browser, name)
        assert first != second and first.startswith("M") and "NaN" not in first + second
    # Each of ten draws makes a step of the sum up; three percentiles are marked for each plan.
    assert paths(browser, "draw-sum")[0].count("V") == 10
    assert browser.execute_script("return document.querySelectorAll('#draw-sum .percentile').length") == 6
    heads = [head.text for head in browser.find_elements("css selector", "#draw-figures .plan")]
    assert heads == [f"{title} ({name})" for name, title in TITLES.items()]
    rows = [row.text for row in browser.find_elements("css selector", "#draw-figures .row")]
    assert rows[0].startswith("delay (vehicle-hours) 3 5.5 ") and rows[1].endswith(" 1.80 23%") and len(rows) == 4
    assert "uncertain-shoulder has less delay than uncertain in 80% of draws" in text(browser, "draws-told")
    assert browser.get_log("browser") == []


@pytest.mark.parametrize("width, scheme", [(420, "light"), (420, "dark"), (1024, "dark"), (1920, "light")])
def test_the_draws_find_room_on_screens_of_all_widths(browser, page, width, scheme):  # noqa: F811
    opened(browser, page, width, scheme)
    assert browser.execute_script("return document.documentElement.scrollWidth") <= width
    assert browser.execute_script("const table = document.getElementById('draw-figures'); return table.scrollWidth <= table.parentElement.clientWidth")
    assert browser.execute_script("return document.querySelector('#draw-sum svg').clientHeight") > 100 and browser.get_log("browser") == []


def test_the_draws_are_printed_on_a_sheet_of_their_own(browser, page):  # noqa: F811
    opened(browser, page)
    assert printed_pages(browser) == 3
    assert browser.execute_script("return document.getElementById('draws').nextElementSibling.id") == "tabled" and browser.get_log("browser") == []


def test_a_page_without_draws_has_no_part_for_them(browser, report, tmp_path):  # noqa: F811
    path = tmp_path / "none.html"
    path.write_text(page_of([report("interchange")]))
    opened(browser, path)
    assert not browser.find_element("id", "draws").is_displayed() and browser.get_log("browser") == []
