"""The search for the timing of signals: less delay on the street of ten signals, the same for a seed, and going on."""

import subprocess
from fractions import Fraction
from pathlib import Path

import pytest

from ctmtools.plans.choosing import candidate
from ctmtools.plans.searching import Search, Tried, moved_to
from ctmtools.plans.timing import Timing
from ctmtools.problem import Problem
from ctmtools.study.reading import read_scenario, read_values, scenario_of
from ctmtools.study.writing import study_text

from .corridor import corridor_text
from .examples import EXAMPLES

STREET = EXAMPLES / "arterial-ten.toml"
STUDIES = sorted(path.stem for path in EXAMPLES.glob("*.toml"))


@pytest.fixture
def choosing_program(program):
    if b"words refused" in subprocess.run([program, "choose"], input=b"", stderr=subprocess.PIPE).stderr:
        pytest.skip("the built program has no mode choose")


def timing(name, least=10):
    path = EXAMPLES / f"{name}.toml"
    return Timing(read_values(path), path, Fraction(least))


@pytest.mark.parametrize("name", STUDIES)
def test_a_study_that_is_written_is_the_same(name, tmp_path):
    values = read_values(EXAMPLES / f"{name}.toml")
    (tmp_path / "s.toml").write_text(study_text(values, "a comment"))
    assert read_values(tmp_path / "s.toml") == values


def test_texts_and_numbers_are_written_as_they_are(tmp_path):
    values = {"a b": 'x"\\', "d": Fraction(-1, 8), "e": [], "f": {"g": True, "h": [[1, Fraction(5, 2)]]}, "t": [{"u": {}}],
              "v": {"w.x": {"y": 1}}}
    (tmp_path / "s.toml").write_text(study_text(values))
    assert read_values(tmp_path / "s.toml") == values


@pytest.mark.parametrize("name", ["arterial-0", "arterial-wave", "arterial-ten", "grid", "four-arms"])
def test_the_point_of_a_study_is_the_study(name):
    variables = timing(name)
    point = variables.start
    assert len(point) == len(variables.most) and all(0 <= number <= most for number, most in zip(point, variables.most))
    path = EXAMPLES / f"{name}.toml"
    assert candidate(scenario_of(variables.changed(point), path)) == candidate(read_scenario(path))


def test_a_green_of_a_step_stays_one(tmp_path):
    text = corridor_text('[[signals]]\nroad = "m"\nat = 0.5\ncycle = 60\ngreen = 10\n')
    (tmp_path / "s.toml").write_text(text)
    line, = Timing(read_values(tmp_path / "s.toml"), tmp_path / "s.toml", Fraction(10)).lines
    assert (line.cycle, line.green, line.first) == (6, 1, 0)


def test_each_stop_line_of_a_street_follows_the_one_before():
    variables = timing("arterial-wave")
    assert variables.start == (0, 4, 4, 4, 4) and variables.most == [11] * 5
    # Green at 20 s, each other 50 s later, in a cycle of 120 s.
    assert variables.changed((2, 5, 5, 5, 5))["signals"][0]["offset"] == [20, 70, 0, 50, 100]


def test_a_junction_parts_the_green_that_it_has():
    variables = timing("grid")
    # A cycle of 16 steps; greens of 8 and 6 steps with 1 after each, of which 2 at least remain: 10 are parted.
    assert variables.start == (0, 6) * 4 and variables.most == [15, 10] * 4
    phases = variables.changed((3, 0) + (0, 6) * 3)["junctions"][0]["phases"]
    assert [(phase["start"], phase["green"]) for phase in phases] == [(0, 10), (15, 60)]
    assert variables.changed((3, 0) + (0, 6) * 3)["junctions"][0]["offset"] == 15
    assert timing("grid", 35).most == [15] * 4  # 14 steps are all that two greens of 7 need
    for point in ((0, 0) * 4, (15, 10) * 4, (7, 3) * 4):
        candidate(scenario_of(variables.changed(point), Path("grid.toml")))


def test_a_study_without_signals_is_refused():
    with pytest.raises(Problem, match="no signal whose timing"):
        timing("bottleneck")


def test_on_the_street_of_ten_signals_the_delay_is_at_least_a_tenth_less(tool, choosing_program):
    words = ["optimise", STREET, "--signals", "--generations", "3", "--population", "16"]
    status, out, err = tool(*words)
    assert status == 0 and not err
    row = next(line.split() for line in out.splitlines() if line.strip().startswith("delay (vehicle-hours)"))
    before, after = map(float, row[-2:])
    assert before == pytest.approx(49980 / 360, abs=0.01) and after <= 0.9 * before  # all at once, examples/README.md
    assert "64 runs in this call, 64 plans tried in all" in out
    assert candidate(read_scenario("arterial-ten.optimise/best.toml")).cells == candidate(read_scenario(STREET)).cells
    # The same call makes no run again, and one with another folder tries the same plans.
    again = tool(*words)[1]
    assert again.startswith("64 plans stand in") and "less delay; 0 runs in this call, 64 plans" in again
    first = Path("arterial-ten.optimise/tried.csv").read_bytes()
    assert tool(*words, "-o", "other")[0] == 0 and Path("other/tried.csv").read_bytes() == first
    assert tool(*words[:-4], "--generations", "1", "--population", "16", "--seed", "2", "-o", "third")[0] == 0
    assert Path("third/tried.csv").read_bytes() != first


def test_a_search_that_was_stopped_goes_on(tmp_path, choosing_program):
    whole = Search(STREET, tmp_path / "whole")
    best = whole.run(2, 16)
    path = tmp_path / "part" / "tried.csv"
    path.parent.mkdir()
    lines = (tmp_path / "whole" / "tried.csv").read_text().splitlines(keepends=True)
    path.write_text("".join(lines[:20]) + lines[20][:9])  # stopped in the middle of a row
    part = Search(STREET, tmp_path / "part")
    assert part.earlier == 19 and part.run(2, 16) == best
    assert part.runs == whole.runs - 19 and path.read_text() == "".join(lines).replace("\r\n", "\n")
    more = Search(STREET, tmp_path / "part")
    assert more.hours(more.run(3, 16)) <= whole.hours(best) and more.runs > 0


def test_only_plans_are_tried_that_the_timing_may_have(monkeypatch, program):
    def judged(self, points):
        for point in points:
            self.tried.put(point, Fraction(sum(point)))
        return [self.tried.delays[point] for point in points]

    # The search goes to the least of all numbers, where the delay is their sum.
    monkeypatch.setattr(Search, "_judged", judged)
    search = Search(EXAMPLES / "four-arms.toml")
    assert sum(search.run(40, 16)) < sum(search.timing.start)
    assert all(0 <= number <= most for point in search.tried.delays for number, most in zip(point, search.timing.most))


def test_rows_of_another_search_stay(tmp_path):
    one = Tried(tmp_path / "tried.csv", "a")
    one.put((1, 2), Fraction(5, 2))
    other = Tried(tmp_path / "tried.csv", "b")
    assert not other.delays
    other.put((1, 2), Fraction(1))
    other.put((0, 2), Fraction(1))
    assert Tried(tmp_path / "tried.csv", "a").delays == {(1, 2): Fraction(5, 2)}
    assert Tried(tmp_path / "tried.csv", "b").best == (1, 2)
    (tmp_path / "tried.csv").write_text("time,flow\n1,2\n")
    with pytest.raises(Problem, match="isn't of a search"):
        Tried(tmp_path / "tried.csv", "a")


def test_files_of_counts_are_named_from_the_new_place():
    values = {"gates": {"a": {"demand": {"counts": "c.csv"}}, "b": {"demand": 5}}}
    assert moved_to(values, Path("x/s.toml"), Path("y/best.toml"))["gates"]["a"]["demand"]["counts"] == "../x/c.csv"
