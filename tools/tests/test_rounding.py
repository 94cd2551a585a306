"""Rounding: to the nearest whole step, part, cell and ratio, what of it is told, and what is never rounded down."""

from fractions import Fraction

import pytest

from ctmtools import build, read_study
from ctmtools.plans.timing import Timing
from ctmtools.study.reading import read_values
from ctmtools.study.scale import Rounded, Rounding, Scale, rounded_text
from ctmtools.many_runs.variations import variation_of

from .corridor import corridor
from .examples import EXAMPLES


class Study:
    """A study of an hour in steps of 10 s, so far as its scale needs it."""

    step, duration = Fraction(10), Fraction(3600)


@pytest.fixture
def scale():
    return Scale(Study(), Rounding())


@pytest.mark.parametrize("seconds, steps", [(0, 0), (4.9, 0), (5.1, 1), (14.9, 1), (15.1, 2), (20, 2), (3600, 360)])
def test_the_nearest_step(scale, seconds, steps):
    assert scale.whole_steps("time", Fraction(seconds)) == steps


def test_a_time_has_at_least_as_many_steps_as_it_must(scale):
    assert scale.steps == 360 and scale.whole_steps("cycle", Fraction(1), least=1) == 1
    assert scale.span("closure", Fraction(4), Fraction(16)) == (0, 2)


# A step of 10 s is a 360th of an hour.
@pytest.mark.parametrize("flow, parts", [(360, 1_000_000), (1000, 2_777_778), (1, 2_778), (0, 0)])
def test_a_flow_in_parts_a_step(scale, flow, parts):
    assert scale.flow("flow", Fraction(flow)) == parts


@pytest.mark.parametrize("pair, wanted", [
    ((90, 10), (9, 1)), ((10, 90), (1, 9)), ((1, 1), (1, 1)), ((0, 1), (1, 1000)), ((1, 0), (1000, 1)), ((1999, 1), (1000, 1)),
    ((3, 2000), (1, 667)), ((Fraction("0.333"), Fraction("0.667")), (333, 667))])
def test_shares_as_whole_numbers_up_to_a_thousand(scale, pair, wanted):
    assert scale.weights("shares", [Fraction(one) for one in pair]) == wanted


def test_a_share_is_measured_by_the_smaller_one(scale):
    scale.weights("shares", [Fraction(1999), Fraction(1)])
    *_, note = scale.rounding.notes
    assert (note.asked, note.modelled, note.unit, note.of) == (Fraction("99.95"), Fraction(100_000, 1001), "%", Fraction("0.05"))
    scale.flow("flow", Fraction(1))
    *_, note = scale.rounding.notes
    assert (note.asked, note.modelled, note.of) == (1, Fraction(2778, 1_000_000) * 360, 1)


@pytest.mark.parametrize("asked, modelled, of, differs", [
    (1000, 1001, 1000, False), (1000, 1001.5, 1000, True), (1000, 998.5, 1000, True), (1000, 1001.5, 2000, False),
    (0, 0, 0, False), (0, 1, 0, True), (-1000, -1000.5, -1000, False)])
def test_a_difference_is_told_from_more_than_a_thousandth_on(asked, modelled, of, differs):
    assert Rounded("time", Fraction(asked), Fraction(modelled), "s", Fraction(of)).differs == differs


def test_a_note_is_measured_by_what_was_asked_where_nothing_else_is_said():
    rounding = Rounding()
    rounding.note("whole", 1000, Fraction("1000.9"), "s")
    rounding.note("end", 1000, Fraction("1000.9"), "s", of=10)
    assert [note.what for note in rounding.differing] == ["end"]
    assert str(rounding.differing[0]) == "end: 1,000 s asked, 1,000.9 s modelled"


@pytest.mark.parametrize("value, beside, text", [
    (Fraction(1, 3), None, "0.333333"), (1234567, None, "1.23457e+06"), (123456, None, "123,456"), (2, 2, "2"),
    (Fraction("1000.0001"), 1000, "1,000.0001"), (Fraction("1.00000001"), 1, "1.00000001"),
    # 15 digits are what a number of 64 bits has for certain.
    (1 + Fraction(1, 10**13), 1, "1.0000000000001"), (1 + Fraction(1, 10**16), 1, "1")])
def test_a_number_is_told_in_as_many_digits_as_it_takes(value, beside, text):
    assert rounded_text(value, beside) == text


# Cells of 250 m: half of one is the bound between one number and the next.
@pytest.mark.parametrize("kilometres, cells", [(0.1, 1), (0.374, 1), (0.376, 2), (0.624, 2), (0.626, 3), (1, 4)])
def test_a_road_is_the_nearest_number_of_cells_and_at_least_one(tmp_path, kilometres, cells):
    corridor(tmp_path)
    path = tmp_path / "study.toml"
    path.write_text(path.read_text().replace("length = 1\n", f"length = {kilometres}\n"))
    assert len(build(read_study(path)).units.roads["m"]) == cells


# In steps of 5 s; a least green is never cut short.
@pytest.mark.parametrize("least, steps", [(0, 1), (1, 1), (5, 1), (5.5, 2), (10, 2), (10.1, 3), (14.9, 3), (15, 3)])
def test_a_least_green_is_rounded_up(least, steps):
    path = EXAMPLES / "grid.toml"
    timing = Timing(read_values(path), path, Fraction(least))
    assert {junction.least for junction in timing.junctions} == {steps}
    # Of 14 green steps two greens keep the least each, and the rest is parted.
    assert {junction.spare for junction in timing.junctions} == {14 - 2 * steps}


@pytest.mark.parametrize("text, values", [("0:60:10", [0, 10, 20, 30, 40, 50, 60]), ("0.8:1.2:0.1", [0.8, 0.9, 1.0, 1.1, 1.2]),
                                          ("0:25:10", [0, 10, 20]), ("1,3", [1, 3])])
def test_a_range_of_values_ends_within_its_bounds(text, values):
    assert [float(value) for value in variation_of("key", text).values] == values
