"""Slips in a study file: the line that is shown, and the hint on what it was meant to be."""

import pytest

from ctmtools.problem import Problem
from ctmtools.study.reading import slip_hint

from .corridor import HEAD, corridor


@pytest.mark.parametrize("line, hint", [
    ("length = 1,5", "Is a decimal comma meant? Write a point."), ("flows = [[1, 5", ""), ("a = [06:30, 7]", 'Put a clock time in quotes, as "06:30".'),
    ("length = 5;", "Take the semicolon away."), ("length = 500 m", 'Put a number with its unit in quotes, as "500 m".'),
    ("into = m", "Put a text in quotes."), ("length: 5", "A key and its value have an equals sign between them."), ("// a", "A comment begins with #."),
    ("% a", "A comment begins with #."), ("= 5", "")])
def test_hints_on_a_line(line, hint):
    assert slip_hint(f"a = 1\n  {line} \n".encode(), "it is (at line 2, column 5)") == f"; `{line}`. {hint}".rstrip()


def test_a_long_line_is_shown_to_its_sixtieth_letter():
    assert slip_hint(("x" * 60 + "y").encode(), "(at line 1, column 9)") == f"; `{60 * 'x'}`."


def test_lines_that_are_none():
    assert slip_hint(b"a = 1\n", "(at line 2, column 1)") == "" and slip_hint(b"a = 1\n", "no line") == ""
    assert slip_hint(b"a = 1\n", "Cannot overwrite a value (at line 1, column 1)") == "; `a = 1`. It stands above already; a key and a table stand once."
    assert slip_hint(b"PK\x03\x04", "(at line 1, column 1)") == "; this is an Excel workbook or another archive"


@pytest.mark.parametrize("parts, told", [
    ('[[signals]]\nroad = "m"\ncycle = 60\ngreen = 0\n', "signals[1].green: must be above 0 s and at most the cycle, 60 s"),
    ('[[signals]]\nroad = "m"\ncycle = 60\ngreen = 61\n', "signals[1].green: must be above 0 s and at most the cycle, 60 s"),
    ('[[on_ramps]]\nroad = "m"\nramp = "r"\nat = 0.5\npriorities = [0, 0]\n', "on_ramps[1].priorities: expected two numbers that aren't negative, and not"),
    ('[[on_ramps]]\nroad = "m"\nramp = "r"\nat = 0.5\npriorities = [1, -1]\n', "on_ramps[1].priorities: expected two numbers"),
    ('[[closures]]\nroad = "m"\nlanes = 1\ncapacity = 5\n', "closures[1].lanes: say either lanes, those that are closed, or capacity")])
def test_numbers_that_can_not_be(tmp_path, parts, told):
    with pytest.raises(Problem) as found:
        corridor(tmp_path, parts)
    assert told in str(found.value)


@pytest.mark.parametrize("lanes", [1, 0.5])
def test_an_opening_of_any_lanes(tmp_path, lanes):
    made = corridor(tmp_path, f'[[openings]]\nroad = "m"\nlanes = {lanes}\nstart = "06:10"\nend = "06:20"\n', head=HEAD)
    # Two lanes pass 12 vehicles in a step, and one more 6.
    assert f"limit,m1,60,120,{12 + 6 * lanes:g}" in made.text
