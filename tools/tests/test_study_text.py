"""Numbers, names and texts of a study as they are written: exactly where they have finitely many decimals."""

import datetime
from fractions import Fraction

import pytest

from ctmtools.study.writing import _decimal, study_text, value_text


@pytest.mark.parametrize("number, text", [
    (Fraction(3), "3"), (Fraction(-3), "-3"), (Fraction(1, 2), "0.5"), (Fraction(-1, 8), "-0.125"), (Fraction(5, 4), "1.25"),
    (Fraction(1, 20), "0.05"), (Fraction(1201, 100), "12.01"), (Fraction(1, 3), "0.333333333"), (Fraction(-200, 3), "-66.666666667"),
    # A half thirty times over has thirty decimals, which are written; one more has more than that.
    (Fraction(1, 2**30), "0." + str(5**30).rjust(30, "0")), (Fraction(1, 2**31), "0.000000000")])
def test_numbers(number, text):
    assert _decimal(number) == text and value_text(number) == text


def test_other_values():
    assert value_text(True) == "true" and value_text(False) == "false" and value_text(datetime.time(6, 30)) == "06:30:00" and value_text(7) == "7"
    assert value_text([Fraction(1, 2), "a"]) == '[0.5, "a"]' and value_text({}) == "{}" and value_text({"a b": 1}) == '{ "a b" = 1 }'
    assert value_text('say "\\"\t') == '"say \\"\\\\\\"\\t"'


def test_tables_stand_behind_what_is_none():
    values = {"roads": {"m": {"length": 1}}, "step": 10, "signals": [{"at": [1]}, {"at": 2}], "lane": {"jam": 144}, "none": [], "bare": {}}
    assert study_text(values, "why") == ("# why\n\nstep = 10\nlane = { jam = 144 }\nnone = []\nbare = {}\n\n[roads.m]\nlength = 1\n\n"
                                         "[[signals]]\nat = [1]\n\n[[signals]]\nat = 2\n")
