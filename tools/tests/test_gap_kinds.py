"""The gaps of each kind of giving way, as the Highway Capacity Manual's tables have them, and what a study says of them."""

import re
from fractions import Fraction

import pytest

from ctmtools import read_study
from ctmtools.study.precedences import KINDS

from .examples import TOOLS
from .test_yield import CROSSING, write

# Base critical and follow-up headways of two-way stops in s, by 2, 4 and 6 lanes of the street with priority: Highway Capacity Manual
# 2010, chapter 19. Of a permitted left turn: chapter 31. Of a roundabout: what makes 1,380·exp(-0.00102·v) by Siegloch, 2016, chapter 22.
MANUAL = {
    "major-left": ("4.1, 4.1, 5.3", "2.2, 2.2, 3.1", "Harders"), "minor-right": ("6.2, 6.9, 7.1", "3.3, 3.3, 3.9", "Harders"),
    "minor-through": ("6.5, 6.5, 6.5", "4.0, 4.0, 4.0", "Harders"), "minor-left": ("7.1, 7.5, 6.4", "3.5, 3.5, 3.8", "Harders"),
    "permitted-left": ("4.5", "2.5", "Harders"), "roundabout": ("4.976", "2.609", "Siegloch")}


def by_lanes(text):
    """The seconds by 2, 4 and 6 lanes; one number is that of all."""
    numbers = [Fraction(number) for number in text.split(", ")]
    return dict(zip((2, 4, 6), numbers if len(numbers) == 3 else numbers * 3))


def test_the_gaps_are_those_of_the_manual():
    assert {name: (kind.critical, kind.follow_up, kind.formula) for name, kind in KINDS.items()} == {
        name: (by_lanes(critical), by_lanes(follow_up), formula.lower()) for name, (critical, follow_up, formula) in MANUAL.items()}


def test_the_page_has_the_gaps_of_the_manual():
    rows = re.findall(r"^\| `([\w-]+)` \| ([\d., ]+) \| ([\d., ]+) \| (\w+) \|$", (TOOLS / "docs/yields.md").read_text(), re.MULTILINE)
    assert {row[0]: row[1:] for row in rows} == MANUAL


@pytest.mark.parametrize("terms, critical, follow_up, stage", [
    ('kind = "minor-left"', "7.1", "3.5", "7.1"), ('kind = "minor-left", priority_lanes = 4', "7.5", "3.5", "7.5"),
    ('kind = "major-left", priority_lanes = 6', "5.3", "3.1", "5.3"),
    # A left turn out of a side street needs 0.7 s less where nobody comes from ahead, and nobody else does.
    ('kind = "minor-left", legs = 3', "6.4", "3.5", "6.4"), ('kind = "minor-through", legs = 3', "6.5", "4", "6.5"),
    # In two stages the manual has 6.1 s for a left turn past two lanes, and 5.5 s for who goes straight on.
    ('kind = "minor-left", median = 1, first = [["n", "x"]]', "7.1", "3.5", "6.1"),
    ('kind = "minor-through", median = 2, first = [["n", "x"]]', "6.5", "4", "5.5"),
    ('kind = "minor-through", median = 1, first = [["n", "x"]], stage_gap = 5.8', "6.5", "4", "5.8"),
    ('kind = "minor-right", critical_gap = 6, legs = 3', "6", "3.3", "6"), ('kind = "minor-right", follow_up = 3', "6.2", "3", "6.2"),
    ('critical_gap = 5, follow_up = 3', "5", "3", "5")])
def test_the_gaps_of_a_movement_of_a_study(tmp_path, terms, critical, follow_up, stage):
    more = f'yields = [{{ movement = ["e", "y"], yields_to = [["n", "x"], ["s", "y"]], {terms} }}]'
    (one,) = read_study(write(tmp_path, CROSSING.format(more=more))).scenario.yields
    assert (one.gaps.critical, one.gaps.follow_up) == (Fraction(critical), Fraction(follow_up))
    assert (one.stage or one.gaps).critical == Fraction(stage)


@pytest.mark.parametrize("kind, gives_way", [("major-left", True), ("minor-right", False), ("minor-through", False),
                                             ("minor-left", False), ("roundabout", True)])
def test_who_comes_out_of_a_side_street_stops_and_others_give_way(tmp_path, kind, gives_way):
    for control, wanted in ("", gives_way), (', control = "stop"', False), (', control = "give_way"', True):
        more = f'yields = [{{ movement = ["s", "y"], yields_to = [["n", "x"]], kind = "{kind}"{control} }}]'
        (one,) = read_study(write(tmp_path, CROSSING.format(more=more))).scenario.yields
        assert one.gaps.give_way == wanted
