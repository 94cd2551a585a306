"""Junctions in other words: what each message blames, greens that pass the end of the cycle, and cells that are taken off."""

from fractions import Fraction

import pytest

from ctmtools import Problem, build, read_study
from ctmtools.study.crossings import _follow, green
from ctmtools.study.plan import Crossing, Phase

from .test_junctions import PHASES, THREE, built, records


@pytest.mark.parametrize("more, told", [
    (PHASES.format('{ movements = [["e", "y"], ["q", "x"]], green = 10 }'), "phases[1].movements: q isn't of this junction, which has n, e, w"),
    (PHASES.format('{ movements = [["e", "q"]], green = 10 }'), "phases[1].movements: q isn't of this junction, which has x, y, z"),
    (PHASES.format('{ into = ["q"], green = 10 }'), "phases[1].into: q isn't of this junction, which has x, y, z"),
    (PHASES.format('{ green = 50 }, { green = 1 }'), "phases[2].green: from 60 to 61 s is not within the cycle of 60 s"),
    ('cycle = 60\nphases = [{ green = 50 }, { green = 20 }]\n', "phases[2].green: from 50 to 70 s is not within the cycle of 60 s"),
    (PHASES.format('{ start = 60, green = 10 }'), "phases[1].green: from 60 to 70 s is not within the cycle"),
    (PHASES.format('{ green = 0 }'), "phases[1].green: from 0 to 0 s is not within the cycle"),
    ('phases = [{ green = 10 }]\n', "junctions[1].cycle: is missing; phases and a cycle go together"),
    ('turns = [{ start = "06:30", shares = [[1, 1, 1], [0, 1, 0], [1, 0, 1]] }, { end = "06:10", shares = [[1, 1, 1], [0, 0, 0], [1, 0, 1]] }]\n',
     "junctions[1].turns[2].shares: no vehicle drives on from e"),
    ("lanes = [[1, 1, 1], [0, 1.5, 0], [1, 0, 1]]\n", "junctions[1].lanes: expected whole numbers, found 1.5")])
def test_what_is_blamed(tmp_path, more, told):
    with pytest.raises(Problem) as found:
        built(tmp_path, THREE + more)
    assert told in str(found.value)


def test_phases_without_a_time_between_them_follow_at_once(tmp_path):
    made = built(tmp_path, THREE + 'cycle = 60\nphases = [{ from = ["n", "w"], green = 20 }, { from = ["e"], green = 40 }]\n')
    # n and w are green in the steps 0 and 1 of 6, and e in the others.
    assert records(made, "signal") == [["n4", "6", "0", "0", "2"], ["e4", "6", "4", "0", "4"], ["w4", "6", "0", "0", "2"]]


def phased(cycle, *spans):
    """A junction of one movement with phases at times, those of which it is green marked."""
    phases = [Phase(Fraction(start), Fraction(length), [(0, 0)] if own else []) for start, length, own in spans]
    return Crossing(["n"], ["x"], [[Fraction(1)]], [], None, None, Fraction(cycle), Fraction(0), phases, False, "junctions[1]")


@pytest.mark.parametrize("spans, wanted", [
    ([(0, 20, True), (30, 20, False)], (0, 20)), ([(0, 20, False), (30, 20, True)], (30, 50)),
    ([(0, 10, False), (15, 10, True), (30, 20, True)], (15, 50)),
    # Of the last phase and the first of the next cycle it is one green.
    ([(5, 10, True), (20, 10, False), (40, 15, True)], (40, 75)), ([(0, 20, True), (30, 20, True)], (0, 60)), ([(10, 20, True)], (10, 30))])
def test_the_green_of_phases_that_follow_each_other(spans, wanted):
    assert green(phased(60, *spans), (0, 0)) == wanted


def test_phases_that_do_not_follow_each_other_are_no_green():
    with pytest.raises(Problem, match="junctions\\[1\\].phases: the movement n to x is green in phases that don't follow"):
        green(phased(60, (0, 10, True), (10, 10, False), (20, 10, True), (30, 10, False)), (0, 0))


@pytest.mark.parametrize("places, count, wanted", [([0], 1, True), ([0, 1], 4, True), ([3, 0], 4, True), ([0, 2], 4, False), ([0, 2], 3, True),
                                                   ([0, 1, 2], 3, True)])
def test_places_side_by_side_in_a_ring(places, count, wanted):
    assert _follow(places, count) == wanted


def test_cells_are_taken_off_as_long_as_half_of_one_is_left(tmp_path):
    # A road of one cell has none left, though the rest of its length, 100 m of 350, is another.
    long, short = 'n = { length = 1, lanes = 2 }\n', 'n = {{ length = {}, lanes = 2 }}\n'
    built(tmp_path, THREE)
    text = (tmp_path / "study.toml").read_text().replace(THREE, THREE + "within = true\n")
    for length, count in ((0.5, 1), (0.376, 1), (0.374, None)):
        (tmp_path / "study.toml").write_text(text.replace(long, short.format(length)))
        if count is None:
            with pytest.raises(Problem, match="junctions\\[1\\].within: n has too few cells for it, of 250 m each"):
                build(read_study(tmp_path / "study.toml"))
        else:
            assert len(build(read_study(tmp_path / "study.toml")).units.roads["n"]) == count


def test_a_share_that_is_nothing_until_a_time(tmp_path):
    made = built(tmp_path, THREE.replace("[0, 1, 0]", "[2, 1, 0]").replace("[4, 0, 1]", "[1, 1, 1]") +
                 'turns = [{ start = "06:30", shares = [[1, 1, 1], [0, 3, 0], [0, 0, 1]] }]\n')
    # Of w x parts from y and z together, and these from each other.
    assert ["w4", "w-x1", "w-fork1.1", "1", "2"] in records(made, "diverge") and ["w-fork1.1", "w-y1", "w-z1", "1", "1"] in records(made, "diverge")
    assert ["e4", "180", "360", "1", "1000"] in records(made, "turn") and ["w-fork1.1", "180", "360", "1", "1000"] in records(made, "turn")


def test_each_movement_has_the_lanes_that_are_said(tmp_path):
    made = built(tmp_path, THREE + "lanes = [[1, 2, 3], [0, 2, 0], [3, 0, 1]]\n")
    lanes = {cell: made.units.cells[cell]["lanes"] for cell in made.units.cells if "-" in cell and "fork" not in cell}
    assert lanes == {"n-x1": 1, "n-y1": 2, "n-z1": 3, "e-y1": 2, "w-x1": 3, "w-z1": 1}
