"""Numbers that are larger or nearer to 0 than any of a study, in studies and in options: each is answered at once, with its key."""

from fractions import Fraction

import pytest

from ctmtools import Problem, read_study
from ctmtools.texts.quantities import exact
from ctmtools.many_runs.variations import variation

from .trips import TWO_WAYS

LONG = "9" * 5000
ROUTE = '[[routes]]\nfrom = "home"\nto = "work"\nroads = ["short"]\n'
DEMAND = 'demand = [["07:00", "08:00", 3000]]'


def short(value):
    """What names a case of pytest."""
    return str(value)[:40]


@pytest.mark.parametrize("text, wanted", [("0.3", Fraction(3, 10)), ("3e-1", Fraction(3, 10)), ("3/10", Fraction(3, 10)),
                                          ("1e-999999999", 0), ("1e999999999", float("inf")), (LONG, float("inf")), ("-inf", float("-inf"))],
                         ids=short)
def test_a_number_is_exact_or_beyond(text, wanted):
    assert exact(text) == wanted


@pytest.mark.parametrize("text", ["", "ten", "1/0", "0x10", f"{LONG}/1", f"1/{LONG}"], ids=short)
def test_what_is_no_number_is_a_value_error(text):
    with pytest.raises(ValueError):
        exact(text)


@pytest.mark.parametrize("old, new, told", [
    ('interval = "5 min"', "interval = 1e999999999", "routing.interval: expected a number, found inf"),
    ('interval = "5 min"', "interval = 1e305", "routing.interval: expected a number, found one beyond 1e300"),
    ('interval = "5 min"', f'interval = "{LONG} s"', "routing.interval: expected a duration"),
    ('interval = "5 min"', "interval = 1e-999999999", "routing.interval: must be above 0"),
    ("ways = 8", f"ways = 1{'0' * 400}", "routing.ways: expected a number, found one beyond 1e300"),
    ("ways = 8", "ways = 1e30", "routing.ways: expected at most 1,000, found 1000000"),
    ("ways = 8", "ways = 1001", "routing.ways: expected at most 1,000, found 1001"),
    ("ways = 8", "ways = 8\ninformed = 1e400", "routing.informed: expected a number, found inf"),
    ("ways = 8", "ways = 8\ninformed = 1.0000001", "routing.informed: expected a part from 0 to 1, found 1.0000001"),
    (DEMAND, f"{DEMAND}\n{ROUTE}share = 1e400", "routes[1].share: expected a number, found inf"),
    (DEMAND, f"{DEMAND}\n{ROUTE}share = [[\"07:00\", \"09:00\", 1e305]]", "routes[1].share[1]: expected a number, found one beyond 1e300"),
    (DEMAND, "demand = 1e299", "trips[1]: 1e+299 vehicles/h are more than 10,000,000 in a step"),
    (DEMAND, f'demand = [["07:00", "08:00:00.{LONG}", 1]]', "trips[1].demand[1]: expected a clock time")], ids=short)
def test_a_key_beyond_is_refused_with_its_place(tmp_path, old, new, told):
    assert old in TWO_WAYS
    (tmp_path / "s.toml").write_text(TWO_WAYS.replace(old, new))
    with pytest.raises(Problem) as found:
        read_study(tmp_path / "s.toml")
    assert f"s.toml: {told}" in str(found.value)


@pytest.mark.parametrize("part", ["1e999999999", "-1e999999999", LONG], ids=short)
def test_a_part_of_drivers_beyond_is_refused(tool, tmp_path, part):
    (tmp_path / "s.toml").write_text(TWO_WAYS)
    status, _, err = tool("assign", "s.toml", "--informed", part)
    assert status == 2 and "--informed: expected a number, found " in err and err.count("\n") == 1


def test_values_that_are_varied_stay_texts_where_they_are_beyond():
    assert variation("step=5,1e999999999").values == (5, "1e999999999")
