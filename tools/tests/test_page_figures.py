"""Each figure of the first page and of docs/VALIDATION.md is read from where it was made."""

import ast
import hashlib
import re

import pytest

from .examples import TOOLS
from .page_figures import FIGURE, FIRST, MADE, SUMO, VALIDATION, figures, read
from .test_documents import blocks, ended, stand_in_order, top  # noqa: F401

TESTS = TOOLS / "tests"
# The tables of docs/VALIDATION.md that other tests compare with the program's runs: their heads, and the tests.
TABLES = {
    "Case | By theory | By the program": ["test_validation_page.py test_the_table_of_cases", "test_yield.py test_a_permitted_left_turn_passes_what_it_does_by_hand",
                                          "test_validation_page.py test_the_figures_by_theory_are_those_of_the_workings",
                                          "test_yield.py test_four_arms_of_a_roundabout_alike_pass_what_they_do_by_hand",
                                          "test_assign.py test_the_delay_of_two_ways_is_the_one_on_paper",
                                          "test_assign.py test_all_take_the_short_way_until_its_queue_costs_as_much",
                                          "test_diversion.py test_several_shares_are_one_table"],
    "Cells | Step | Longest queue | Cleared | Delay": ["test_validation_page.py test_a_red_light_over_the_length_of_cells"],
    "Cells | Step | 250 m back | 500 m back | 1 km back": ["test_validation_page.py test_the_rows_of_the_green_are_those_to_which_the_program_is_held"],
    "Time | From km, 250 m | Vehicles/km by theory | Cells of 250 m | Cells of 62.5 m": ["test_validation_page.py test_densities_at_a_speed_limit"],
    "Cells | Step | Longest queue | Cleared | Delay | Vehicles misplaced, mean while it queues | At most, of 690": [
        "test_validation_page.py test_the_rows_of_the_lane_drop_are_those_to_which_the_program_is_held"],
    "Priority, vehicles/h | Passes by the formula | By the program | The queue begins | Waiting at 08:00 on paper | By the program": [
        "test_yield.py test_a_side_street_passes_what_its_formula_lets_and_queues_from_there_on"],
    "Come, vehicles/h | Greens on paper, s | Cycle | By the program | Cycle": ["test_actuated.py test_the_greens_settle_at_those_of_paper"],
}
# The rows of those tables that a text of page_figures.py has.
WITHOUT_TEST = ("| theory |", "| [side street]", "| [two routes]")
# Texts that a test compares with what it finds, or whose figures are its own bounds.
ASSIGN = "test_assign.py "
TEXTS = [
    (VALIDATION, "The middle of the start of moving stays within 3 m", ["test_validation.py test_a_green_smears_the_wave_by_the_root_of_its_way"]),
    (VALIDATION, "With 800 vehicles/h at each arm the program settles after 4", ["test_yield.py test_four_arms_of_a_roundabout_alike_pass_what_they_do_by_hand"]),
    (VALIDATION, "With 600 none waits.", ["test_yield.py test_a_roundabout_below_its_capacity_holds_nobody_up"]),
    (VALIDATION, "a relative gap below 0.002, which 41 rounds reach", [ASSIGN + "test_the_delay_of_two_ways_is_the_one_on_paper"]),
    (VALIDATION, "Then 1,652 ", [ASSIGN + "test_all_take_the_short_way_until_its_queue_costs_as_much"]),
    (VALIDATION, "the shares over time are those on paper to 0.1 %, and drivers' times to 0.002 min",
     [ASSIGN + "test_two_pairs_leave_a_queue_as_they_came_into_it", ASSIGN + "test_who_queues_waits_as_long_as_on_paper"]),
    (VALIDATION, "each is taken by an eighth, to 1e-9", [ASSIGN + "test_eight_ways_that_are_alike_are_taken_alike"]),
    (VALIDATION, "30 pairs ([grids.py](../tools/tests/grids.py)): in each, some round of the first 50 has a relative gap below 0.02. Each route that 5 vehicles "
     "or more take in an interval then takes at most 5 % longer",
     ["grids.py grid_study", ASSIGN + "test_a_made_grid_comes_to_rest_within_50_rounds", ASSIGN + "near_the_best"]),
    (FIRST, "The comparison prints that the delay falls by 74 %, to 120 vehicle-hours", ["test_validation_page.py test_the_first_page_tells_what_staggered_hours_save"]),
]
# What runs of bench made on docs/SUMO.md, which the gate doesn't run: where it begins and what stands behind it, by which scripts, and the checksum of
# its figures. A new run gives new ones.
MEASURED = [
    ("Figures of 28 November 2026", "\n## Giving way\n", ["imported", "imported-vehicles"], "262747dc6eda"),
    ("Figures of 30 November 2026, commits cf2f832a", "\n## Drivers who", ["giving-way"], "a804418a1fad"),
    ("Figures of 30 November 2026, commits 7a35d364", "\n## ", ["rerouted-queues", "rerouted"], "87974e237917"),
]


def source_of(test):
    """The source of a function of the tests, by its file and name."""
    file, name = test.split()
    text = (TESTS / file).read_text()
    found, = (node for node in ast.parse(text).body if isinstance(node, ast.FunctionDef) and node.name == name)
    first = min(node.lineno for node in [found, *found.decorator_list])
    return "\n".join(text.splitlines()[first - 1:found.end_lineno])


def is_held(figure, text, sources):
    """Whether a figure stands in these sources, as it is or as a part of 100 or beyond 1, or is what they put behind its words."""
    value, before = float(figure.replace(",", "")), FIGURE.split(text[:text.index(figure)])[-1][-12:]
    numbers = {float(number.replace("_", "")) for number in re.findall(r"(?<![\w.])\d[\d_]*(?:\.\d+)?(?:e-?\d+)?", sources)}
    return not numbers.isdisjoint({value, value / 100, 1 + value / 100}) or f"{before}{{" in sources


def measured_text(page, begin, end):
    return begin + page.split(begin)[1].split(end)[0]


@pytest.fixture(scope="module")
def made():
    """The texts with their figures, each with its page."""
    return [(page, text) for page, texts in MADE for text in texts()]


def test_each_text_stands_on_its_page_with_the_figures_of_its_source(made):
    assert len(made) > 80
    assert [text for page, text in made if text not in read(page)] == []


def test_each_figure_has_a_source(made):
    pages = {page: read(page) for page in (FIRST, VALIDATION)}
    for heads in TABLES:
        before, _, behind = pages[VALIDATION].partition(f"\n| {heads} |\n")
        table, _, rest = behind.partition("\n\n")
        pages[VALIDATION] = "\n".join([before, *(row for row in table.splitlines() if row.startswith(WITHOUT_TEST)), rest])
    # Commands run and blocks are compared with what they show: test_documents.py.
    pages[FIRST] = re.sub(r"^```$.*?^```$", "", pages[FIRST], flags=re.MULTILINE | re.DOTALL)
    for page, text in [*made, *((page, text) for page, text, _ in TEXTS)]:
        pages[page] = pages[page].replace(text, "")
    pages[FIRST] = re.sub(r"`\./ctm[^`]*`", "", pages[FIRST])
    left = [(page, line) for page, text in pages.items() for line in re.sub(r"\]\([^)]*\)", "]", text).splitlines() if figures(line)]
    assert left == []


@pytest.mark.parametrize("heads", TABLES)
def test_a_table_is_compared_by_its_tests(heads):
    assert f"\n| {heads} |\n" in read(VALIDATION)
    for test in TABLES[heads]:
        assert "assert" in source_of(test)


@pytest.mark.parametrize("page, text, tests", TEXTS, ids=[text for _, text, _ in TEXTS])
def test_the_figures_of_a_text_are_those_of_its_tests(page, text, tests):
    sources = "\n".join(map(source_of, tests))
    assert text in read(page)
    assert [figure for figure in FIGURE.findall(text) if not is_held(figure, text, sources)] == []


@pytest.mark.parametrize("begin, end, scripts, checksum", MEASURED, ids=[row[0][:30] for row in MEASURED])
def test_what_was_measured_is_as_the_last_run_of_its_script_left_it(begin, end, scripts, checksum):
    text = measured_text(read(SUMO), begin, end)
    for script in scripts:
        assert f"bench/{script}" in text and (TOOLS.parent / "bench" / script).is_file()
    assert hashlib.sha256(" ".join(FIGURE.findall(text)).encode()).hexdigest()[:12] == checksum


def test_the_first_page_shows_what_its_first_command_prints(top, recording_program):  # noqa: F811
    parts = blocks(read(FIRST))
    (_, command), (_, shown) = next((one, two) for one, two in zip(parts, parts[1:]) if one[1][0] == "./ctm-tools run examples/bottleneck.toml")
    status, told = ended(top, recording_program, "bash", "-c", command[0])
    assert status == 0 and stand_in_order(shown, told)
