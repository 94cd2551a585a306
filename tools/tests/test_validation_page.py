"""The figures of docs/VALIDATION.md as they stand on the page, which the program gives."""

import re
from fractions import Fraction
from functools import lru_cache

import pytest

from ctmtools.report.queues import queues_in

from . import test_validation
from .examples import TOOLS
from .test_validation import LIMIT, clocks, hours, run
from .validation_tables import PAGE, rows_under

FIRST_PAGE, FORMAT = ((TOOLS.parent / page).read_text() for page in ("README.md", "docs/FORMAT.md"))


def rows_of(heading):
    """The rows of the table under a heading that begin with a length of cells and a step."""
    section = PAGE.split(f"\n## {heading}\n")[1].split("\n## ")[0]
    return re.findall(r"^\| ([\d.]+) m \| ([\d.]+) s \| (.*) \|$", section, re.MULTILINE)


def delay(report, cells=slice(None)):
    return f"{hours(report, cells):,.2f}".rstrip("0").rstrip(".")


def longest(queue, without=0.0):
    """In hundredths of a km, of which a half is rounded up."""
    return f"{queue.reach - without + 1e-9:.2f} km"


@lru_cache
def limited(step):
    return run("validation/speed-limit", step=Fraction(step))


def density(step, seconds, first):
    """The vehicles/km on 250 m from a kilometre on, so long after 08:00."""
    report = limited(step)
    own = [cell for cell, row in report.units.cells.items() if first - 1e-9 <= row["from_km"] and row["to_km"] <= first + 0.25 + 1e-9]
    return report.vehicles.loc[round((540 + seconds) / step), own].sum() / 0.25


@pytest.mark.parametrize("clock, place, theory, coarse, fine", rows_under("Time | From km, 250 m | Vehicles/km by theory | Cells of 250 m | Cells of 62.5 m"))
def test_densities_at_a_speed_limit(clock, place, theory, coarse, fine):
    seconds, first = 60 * int(clock[3:5]) + int(clock[6:]), float(place)
    assert [f"{value:.1f}" for value in (LIMIT.held([first, first + 0.25], seconds / 3600)[0], density(9, seconds, first),
                                         density(2.25, seconds, first))] == [theory, coarse, fine]


def test_the_table_of_densities_has_twelve_rows():
    assert len(rows_under("Time | From km, 250 m | Vehicles/km by theory | Cells of 250 m | Cells of 62.5 m")) == 12


def cases():
    """The rows of the table of cases, each with what the program gives."""
    light, drop, works, merge, ramp = map(run, ("validation/red-light", "bottleneck", "workzone", "validation/merge", "interchange"))
    roads, slip = merge.units.roads, ["r1", "r2"]
    of_light, of_drop, of_works, of_ramp = (queues_in(report)[0] for report in (light, drop, works, ramp))
    of_slip, of_road = queues_in(merge)
    yield "red light", delay(light)
    yield "longest queue, cells of 25 m", f"{of_light.reach * 1000:.0f} m, {round(of_light.reach / 0.025)} cells"
    yield "lane drop", delay(drop)
    yield "longest queue, cells of 250 m", f"{longest(of_drop)}, {round(of_drop.reach / 0.25)} cells"
    yield "cleared", clocks(drop, of_drop)[2]
    yield "road works", delay(works)
    yield "longest queue", longest(of_works)
    yield "cleared", clocks(works, of_works)[2]
    yield "green", delay(run("validation/green"))
    yield "merge", f"{delay(merge, roads['a'])} and {delay(merge, roads['b'])}"
    yield "longest queues, cells of 125 m", f"{of_road.reach:.2f} and {longest(of_slip)}"
    yield "full off-ramp", f"{delay(ramp, ramp.units.roads['m'][:24])} and {delay(ramp, slip)}"
    yield "longest queue on the motorway", longest(of_ramp, without=0.5)  # the off-ramp's two cells
    yield "speed limit", delay(limited(9))


# What test_yield.py and test_assign.py hold beside the figures on paper.
ELSEWHERE = ["side street", "roundabout of four arms alike", "permitted left turn", "two routes", "delay", "a closed bridge"]


def test_the_table_of_cases():
    rows = re.findall(r"^\| ([^|]*) \| [^|]* \| ([^|]*) \|$", PAGE.split("\n## ")[0], re.MULTILINE)
    told = [(re.sub(r"\[|\].*|: .*", "", case), figure) for case, figure in rows[1:]]
    here = list(cases())
    assert told[:len(here)] == here and [case for case, _ in told[len(here):]] == ELSEWHERE


def amounts(text):
    """The numbers of a text, and its clock times."""
    return {told if ":" in told else float(told.replace(",", "")) for told in re.findall(r"\d(?:[\d,:]*\d)?(?:\.\d+)?", text)}


def working(page, anchor):
    """What stands under the heading to which a link leads, and under those of the examples to which that leads."""
    parts = re.split(r"^#+ (.*)$", ((TOOLS.parent / "docs" / page).read_text() if page else PAGE), flags=re.MULTILINE)
    found = next(text for heading, text in zip(parts[1::2], parts[2::2])
                 if re.sub(r"[^\w\- ]", "", heading.lower()).replace(" ", "-") == anchor)
    links = [] if page else re.findall(r"\((\.\./examples/README\.md)#([^)]*)\)", found)
    return found + "".join(working(*link) for link in links)


def test_the_figures_by_theory_are_those_of_the_workings():
    link = None
    for case, theory, _ in rows_under("Case | By theory | By the program"):
        link = re.search(r"\(([^)#]*)#([^)]*)\)", case) or link
        told = amounts(theory)
        if case.startswith("[full off-ramp]"):
            on_the_road, on_the_ramp = sorted(told, reverse=True)
            told = {on_the_road / 4 + on_the_ramp}  # those bound for the town, whom the working tells: a quarter of the road's
        if not case.startswith("[two routes]"):  # test_assign.py has its time of day, and the working how long after the begin that is
            assert told <= amounts(working(*link.groups())), case


def test_the_first_page_tells_what_staggered_hours_save():
    before, after = (hours(run(name), slice(None)) for name in ("bottleneck", "bottleneck-staggered"))
    told = f"the delay falls by {100 * (1 - after / before):.0f} %, to {after:.0f} vehicle-hours"
    assert told in FIRST_PAGE


def test_the_first_page_tells_the_queue_and_the_delay_of_the_lane_drop():
    drop = run("bottleneck")
    reach, steps = queues_in(drop)[0].reach, round(hours(drop, slice(None)) * 360)
    assert f"queue reaches {reach:g} km back and costs {delay(drop)} vehicle-hours" in FIRST_PAGE
    assert f"The delay of {steps:,} vehicle-steps of 10 s is {delay(drop)} vehicle-hours" in FORMAT
    assert f"the queue reached {round(reach / 0.25)} cells, {reach:g} km, back" in FORMAT


@pytest.mark.parametrize("cell, step, told", rows_of("A red light"))
def test_a_red_light_over_the_length_of_cells(cell, step, told):
    reach, cleared, delay = told.split(" | ")
    report = run("validation/red-light", step=Fraction(step))
    queue = queues_in(report)[0]
    assert report.units.cells[report.units.roads["c"][0]]["to_km"] * 1000 == float(cell)
    assert (f"{queue.reach * 1000:.0f} m", clocks(report, queue)[2]) == (reach, cleared)
    assert hours(report, report.cells.index) == pytest.approx(float(delay), abs=0.01)


def held(test):
    """The figures to which a test of the program holds it, for each length of cells."""
    return test.pytestmark[0].args[1]


def test_the_rows_of_the_lane_drop_are_those_to_which_the_program_is_held():
    rows = rows_of("The length of the cells")
    wanted = held(test_validation.test_lane_drop_over_the_length_of_cells)
    for row, (step, cell, reach, cleared, mean, most) in zip(rows, wanted, strict=True):
        told = row[2].split(" | ")
        assert (Fraction(row[1]), float(row[0]), *told[:2]) == (step, cell, f"{reach:g} km", cleared)
        assert [float(figure) for figure in told[2:5]] == pytest.approx([461.25, mean, most], rel=0.05)


def test_the_rows_of_the_green_are_those_to_which_the_program_is_held():
    rows = rows_of("A green after a standing queue")
    wanted = held(test_validation.test_a_green_smears_the_wave_by_the_root_of_its_way)
    assert [(Fraction(step), float(cell), told) for cell, step, told in rows] == [
        (step, cell, " | ".join(f"{width} m" for width in widths)) for step, cell, widths in wanted]


def test_the_tables_have_a_row_for_each_length_of_cells():
    assert [len(rows_of(heading)) for heading in ("A red light", "A green after a standing queue", "The length of the cells")] == [3, 3, 4]


@pytest.mark.parametrize("step, names", [(720, ["m08"]), (480, [f"m{i}" for i in range(13, 18)])])
def test_what_the_cells_of_the_lane_drop_hold(step, names):
    """At 08:00 m08 holds 26, and at 07:20 five cells hold what the page says."""
    row = run("bottleneck").vehicles.loc[step, names]
    told = "At 08:00 m08 holds 26 vehicles" if names == ["m08"] else (
        "At 07:20 the cells m13 to m17 of the lane drop hold {:.1f}, {:.1f}, {:.1f}, {:.1f} and {:.1f} vehicles".format(*row))
    assert told in PAGE
    assert names != ["m08"] or round(row["m08"]) == 26
