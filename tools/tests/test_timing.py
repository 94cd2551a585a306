"""The timing of signals in numbers: stop lines that follow each other, greens that are parted, and the study they make."""

from fractions import Fraction

import pytest

from ctmtools.plans.timing import Crossroads

from .test_optimise import timing


def test_rows_of_a_street():
    variables = timing("arterial-wave")
    # Each stop line is green for 60 s, the first at 20 s and each other 50 s later, in a cycle of 120 s.
    rows = variables.rows((2, 5, 5, 5, 5))
    assert [(first, greens) for _, first, greens in rows] == [(20, [60]), (70, [60]), (0, [60]), (50, [60]), (100, [60])]
    assert [place for place, _, _ in rows] == [f"signals[1], line {i}" for i in range(1, 6)]


def test_rows_of_junctions():
    variables = timing("grid")
    rows = variables.rows((3, 0) + (0, 6) * 3)
    assert rows[0] == ("junctions[1]", 15, [10, 60]) and [greens for _, _, greens in rows[1:]] == 3 * [[40, 30]]


def crossroads(greens, least, pauses, cycle=30, start=2):
    return Crossroads(0, "junctions[1]", cycle, 0, list(range(len(greens))), start, greens, pauses, least, sum(greens) - least * len(greens))


@pytest.mark.parametrize("greens, least, cuts", [([8, 6, 7], 2, [6, 10]), ([2, 10, 9], 2, [0, 8]), ([9, 9], 9, []), ([1, 12, 8], 3, [0, 7]),
                                                 ([15, 5, 1], 3, [12, 12])])
def test_cuts_through_the_steps_that_are_to_spare(greens, least, cuts):
    made = crossroads(greens, least, [1] * len(greens))
    assert made.cuts == cuts
    if all(green >= least for green in greens):
        assert made.parted(made.cuts) == greens  # cutting as the study does gives the study's greens


def test_greens_of_any_cuts_have_the_least_each_and_the_sum_of_all():
    made = crossroads([8, 6, 7], 2, [1, 2, 6])
    assert made.spare == 15 and made.parted([0, 15]) == [2, 17, 2] and made.parted([15, 4]) == [6, 13, 2] and made.parted([5, 5]) == [7, 2, 12]
    assert made.starts([8, 6, 7]) == [2, 11, 19] and made.starts([17, 2, 2]) == [2, 20, 24] and crossroads([9, 9], 9, [1, 1]).parted([]) == [9, 9]
    assert crossroads([8, 6], 2, [9, 1], cycle=20, start=15).starts([8, 6]) == [15, 12]


def test_a_study_at_another_point():
    variables = timing("grid")
    values = variables.changed((15, 10) + (0, 6) * 3)
    table = values["junctions"][0]
    assert table["offset"] == 75 and [(phase["start"], phase["green"]) for phase in table["phases"]] == [(0, 60), (65, 10)]
    assert values["junctions"][1] == {**variables.values["junctions"][1], "offset": 0, "phases": values["junctions"][1]["phases"]}
    assert timing("arterial-ten", Fraction(1)).start == (0,) + (0,) * 9
