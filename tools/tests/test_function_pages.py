"""The page of the site with the functions of `import ctmtools`, against the functions themselves."""

import inspect
import re

import pytest
from function_pages import functions, public_names

import ctmtools


@pytest.fixture(scope="module")
def sections():
    """The text of each section of the page."""
    parts = re.split(r"^## (.*)$", "\n".join(functions()), flags=re.MULTILINE)
    return dict(zip(parts[1::2], parts[2::2]))


def test_the_page_has_each_public_name_once(sections):
    assert public_names() == ctmtools.HOMES
    assert list(sections)[:len(ctmtools.__all__)] == sorted(ctmtools.__all__, key=str.lower)


@pytest.mark.parametrize("name", [name for name in ctmtools.__all__ if inspect.isfunction(getattr(ctmtools, name))])
def test_a_function_has_its_arguments_with_their_types_and_what_it_says_of_itself(sections, name):
    told, function = sections[name], getattr(ctmtools, name)
    for argument in inspect.signature(function).parameters.values():
        assert re.search(rf"[(\s*]{argument.name}: \S", told), argument
    assert " -> " in told and inspect.getdoc(function) in told


def test_what_functions_take_and_give_has_a_section_too(sections):
    assert "StudySource = Study | Path | str" in sections["StudySource"]
    assert "runs: int\nseed: int\n" in sections["DrawOptions"] and "rows: pandas.DataFrame" in sections["Results"]
    # Options of calibrations are those of its own and those of how detectors are read.
    assert "starts: int" in sections["CalibrateOptions"] and "date_order: str | None" in sections["CalibrateOptions"]


def test_a_class_has_its_methods_and_those_of_the_class_below_it(sections):
    report = sections["Report"]
    assert "### Report.queues\n\n```\nqueues() -> pandas.DataFrame\n```\n\nA row for each queue" in report
    assert "### Report.delay_vehicle_hours\n\n```\ndelay_vehicle_hours -> float\n```" in report
    assert "### Study.with_" in sections["Study"] and "_begin" not in sections["Study"]
