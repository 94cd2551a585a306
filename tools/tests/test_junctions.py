"""Junctions of several arms, made of cells of their own: against a study by hand, and worked out on paper."""

import plain_model
import pytest

from ctmtools import Problem, build, read_study
from ctmtools.network_file.network import network_of
from ctmtools.report.reading import report_of

from .corridor import HEAD
from .examples import EXAMPLES, TOOLS


def built(tmp_path, junction, more="", demand=600):
    """A study of three roads in, n, e and w, and three out, x, y and z, and a junction between them."""
    text = HEAD.format(end="07:00") + "[roads]\n" + "".join(
        f"{road} = {{ length = 1, lanes = 2 }}\n" for road in "newxyz")
    text += "[gates]\n" + "".join(f"g{road} = {{ into = \"{road}\", demand = {demand} }}\n" for road in "new")
    text += "[exits]\n" + "".join(f"out{road} = {{ from = \"{road}\" }}\n" for road in "xyz")
    path = tmp_path / "study.toml"
    path.write_text(text + f"[[junctions]]\n{junction}" + more)
    return build(read_study(path))


def records(made, kind):
    return [line.split(",")[1:] for line in made.text.splitlines() if line.startswith(kind + ",")]


THREE = 'from = ["n", "e", "w"]\ninto = ["x", "y", "z"]\nshares = [[1, 2, 3], [0, 1, 0], [4, 0, 1]]\n'


def test_an_approach_of_three_movements_parts_twice(tmp_path):
    made = built(tmp_path, THREE)
    # n parts into x and the rest, 1 to 2 + 3, and the rest 2 to 3; e goes on to y alone; w parts 4 to 1.
    assert records(made, "diverge") == [["n4", "n-x1", "n-fork1.1", "1", "5"], ["n-fork1.1", "n-y1", "n-z1", "2", "3"],
                                        ["w4", "w-x1", "w-z1", "4", "1"]]
    assert ["e4", "e-y1"] in records(made, "link")
    # Two come to each of x, y and z, all of two lanes.
    assert records(made, "merge") == [["n-x1", "w-x1", "x1", "1", "1"], ["n-y1", "e-y1", "y1", "1", "1"],
                                      ["n-z1", "w-z1", "z1", "1", "1"]]
    assert not any(row[0] in ("e-x1", "e-z1", "w-y1") for row in records(made, "road"))
    # A cell of its own is a road of 250 m, the way of a step at 90 km/h.
    assert [(made.units.cells[name]["from_km"], made.units.cells[name]["to_km"]) for name in ("n-x1", "n-fork1.1")] == [(0, 0.25)] * 2
    assert made.remarks == ["junctions[1]: 6 movements, 7 cells of its own; driving through takes 10 to 20 s more, a step "
                            "in each cell"]


def test_phases_that_are_green_together_by_their_starts_are_told(tmp_path):
    phases = ('cycle = 60\n[[junctions.phases]]\nstart = 0\ngreen = 30\nfrom = ["n"]\n'
              '[[junctions.phases]]\nstart = {}\ngreen = 25\nfrom = ["e", "w"]\n')
    told = [built(tmp_path, THREE + phases.format(start)).warnings for start in (20, 30, 50)]
    # From 20 to 30 s of the cycle both are green; from 30 s on none is; from 50 s on the second lasts to 15 s of the next cycle.
    assert told[0] == ["junctions[1].phases: phases 1 and 2 by their start are both green for 10 s of each cycle, with n to x and "
                       "e to y, which no phase has together"]
    assert not told[1] and "both green for 15 s" in told[2][0]


def test_movements_of_one_approach_may_be_green_together(tmp_path):
    phases = ('cycle = 60\nphases = [{ start = 0, green = 30, movements = [["n", "x"], ["n", "y"]] }, '
              '{ start = 20, green = 20, movements = [["n", "z"]] }, { start = 40, green = 20, from = ["e", "w"] }]\n')
    assert not built(tmp_path, THREE + phases).warnings


def test_many_ways_out_of_a_street_with_a_long_name(tmp_path):
    street, outs = "street-of-many-ways-out", "abcdef"
    text = HEAD.format(end="07:00") + "[roads]\n" + "".join(f'{road} = {{ length = 1, lanes = 2 }}\n' for road in (street, *outs))
    text += f'[gates.g]\ninto = "{street}"\ndemand = 600\n[exits]\n' + "".join(f'x{road} = {{ from = "{road}" }}\n' for road in outs)
    (tmp_path / "study.toml").write_text(text + f'[[junctions]]\nfrom = ["{street}"]\ninto = {[*outs]}\nshares = [[1, 1, 1, 1, 1, 1]]\n')
    # Each diverge parts one way from the others, 1 to as many as are left; a name has at most 32 letters.
    forks = [f"{street}4", *(f"{street}-fork{number}.1" for number in range(1, 5))]
    assert [[row[0], *row[3:]] for row in records(build(read_study(tmp_path / "study.toml")), "diverge")] == \
        [[fork, "1", str(5 - number)] for number, fork in enumerate(forks)]


def test_three_that_lead_to_one_way_out_are_joined_twice(tmp_path):
    made = built(tmp_path, 'from = ["n", "e", "w"]\ninto = ["x"]\nshares = [[1], [1], [1]]\npriorities = [3, 2, 1]\n')
    assert records(made, "merge") == [["n-x1", "e-x1", "x-join1.1", "3", "2"], ["x-join1.1", "w-x1", "x1", "5", "1"]]


def test_the_vehicles_go_where_their_shares_say(tmp_path):
    report = report_of(plain_model.report(built(tmp_path, THREE).text.encode(), 1))
    n, steps = report.vehicles, {"n-x1": 1, "n-y1": 2, "n-z1": 3}
    # 600 vehicles/h are 100 in 10 min; of n come a sixth, a third and a half, and of w four fifths and a fifth.
    passed = report.left.loc[180] - report.left.loc[120]
    assert {cell: passed[cell] for cell in steps} == pytest.approx({"n-x1": 100 / 6, "n-y1": 100 / 3, "n-z1": 50}, abs=0.01)
    assert {exit_: n[exit_][180] - n[exit_][120] for exit_ in ("outx", "outy", "outz")} == \
        pytest.approx({"outx": 100 / 6 + 80, "outy": 100 / 3 + 100, "outz": 50 + 20}, abs=0.01)


def test_shares_by_time(tmp_path):
    turns = 'turns = [{ start = "06:30", shares = [[3, 2, 1], [0, 1, 0], [0, 0, 1]] }]\n'
    made = built(tmp_path, THREE + turns)
    assert records(made, "turn") == [["n4", "180", "360", "1", "1"], ["n-fork1.1", "180", "360", "2", "1"],
                                     ["w4", "180", "360", "1", "1000"]]


def test_a_movement_that_has_a_share_at_times_has_a_cell(tmp_path):
    made = built(tmp_path, THREE + 'turns = [{ start = "06:30", shares = [[1, 1, 1], [1, 1, 0], [4, 0, 1]] }]\n')
    assert records(made, "diverge")[2] == ["e4", "e-x1", "e-y1", "1", "1000"]
    assert ["e4", "180", "360", "1", "1"] in records(made, "turn")


PHASES = "cycle = 60\nintergreen = 10\nphases = [{}]\n"


def test_an_approach_whose_movements_are_green_together_has_one_signal(tmp_path):
    made = built(tmp_path, THREE + PHASES.format('{ from = ["n", "w"], green = 20 }, { from = ["e"], green = 20 }'))
    # Steps of 10 s: n and w are green from 0 to 2 of 6, and e from 3 to 5, which is 3 steps behind.
    assert records(made, "signal") == [["n4", "6", "0", "0", "2"], ["e4", "6", "3", "0", "2"], ["w4", "6", "0", "0", "2"]]


def test_movements_that_are_green_at_other_times_have_their_own_signals(tmp_path):
    made = built(tmp_path, THREE + "offset = 10\n" + PHASES.format(
        '{ from = ["n"], into = ["y", "z"], green = 10 }, { from = ["n"], green = 10 }, '
        '{ movements = [["e", "y"], ["w", "x"], ["w", "z"]], green = 10 }'))
    # n to y and z is green from 0 to 30 s, with the 10 s between the phases, n to x from 20 s on; all 10 s later.
    assert records(made, "signal") == [["n-x1", "6", "3", "0", "1"], ["n-y1", "6", "5", "0", "3"],
                                       ["n-z1", "6", "5", "0", "3"], ["e4", "6", "1", "0", "1"], ["w4", "6", "1", "0", "1"]]


def test_its_cells_can_be_taken_off_the_approaches(tmp_path):
    made = built(tmp_path, THREE + "within = true\n")
    # Each movement drives through a cell or two: one of four is taken off each approach.
    assert [len(made.units.roads[road]) for road in "newxyz"] == [3, 3, 3, 4, 4, 4]
    assert made.remarks[0].endswith("a step in each cell; the fewest of each approach are taken off its length")
    assert not made.rounding.differing


def test_as_many_cells_are_taken_off_as_the_shortest_way_through_has(tmp_path):
    made = built(tmp_path, THREE.replace("[1, 2, 3], [0, 1, 0], [4, 0, 1]", "[1, 0, 0], [1, 0, 0], [1, 1, 1]") + "within = true\n")
    # Those from n and e have a cell each, and one in which they are joined before those from w join them.
    assert [len(made.units.roads[road]) for road in "newxyz"] == [2, 2, 3, 4, 4, 4]


@pytest.mark.parametrize("junction, wanted", [
    (THREE.replace('"w"]', '"q"]'), "junctions[1].from: q isn't a road or a gate of the study"),
    (THREE.replace('"z"]', '"q"]'), "junctions[1].into: q isn't a road or an exit of the study"),
    (THREE.replace('"w"]', '"n"]'), "junctions[1].from: n stands twice"),
    (THREE.replace("[0, 1, 0]", "[0, 1]"), "junctions[1].shares[2]: expected 3 entries, found 2"),
    (THREE.replace("[0, 1, 0]", "[0, 0, 0]"), "junctions[1].shares: no vehicle drives on from e"),
    (THREE.replace("2, 3]", "0, 3]").replace("[0, 1, 0]", "[1, 0, 0]"), "junctions[1].shares: no vehicle drives into y"),
    (THREE.replace("[0, 1, 0]", "[0, -1, 0]"), "a number here isn't negative, found -1"),
    (THREE + "cycle = 60\n", "junctions[1].phases: is missing; phases and a cycle go together"),
    (THREE + PHASES.format('{ from = ["n"], green = 20 }'), "phases: the movement e to y is green in none"),
    (THREE + PHASES.format('{ from = ["q"], green = 20 }'), "phases[1].from: q isn't of this junction, which has n, e, w"),
    (THREE + PHASES.format('{ green = 70 }'), "phases[1].green: from 0 to 70 s is not within the cycle of 60 s"),
    (THREE + PHASES.format('{ from = ["e"], into = ["x"], green = 20 }'), "phases[1]: no movement is green in it"),
    (THREE.replace("[0, 1, 0]", "[0, 1, 1]") + PHASES.format(
        '{ green = 10 }, { from = ["n", "w"], green = 1 }, { green = 10 }, { from = ["n", "w"], green = 1 }'),
     "the movement e to y is green in phases that don't follow each other"),
    (THREE + "lanes = [[2, 1, 0], [0, 1, 0], [1, 0, 1]]\n", "junctions[1].lanes: the movement n to z has 0"),
    (THREE + "priorities = [1, 0, 1]\n", "junctions[1].priorities: the movement e to y has 0"),
    (THREE + "within = 1\n", "junctions[1].within: expected true or false"),
    (THREE + "phase = []\n", "junctions[1].phase: no such key; is phases meant?")])
def test_mistakes_blame_the_key_that_has_them(tmp_path, junction, wanted):
    with pytest.raises(Problem) as found:
        built(tmp_path, junction)
    assert wanted in str(found.value)


def in_order(fields):
    """A record whose two branches stand in the order of their names."""
    kind, *values = fields
    if kind == "merge":
        return kind, values[2], tuple(sorted(zip(values[:2], values[3:])))
    if kind == "diverge":
        return kind, values[0], tuple(sorted(zip(values[1:3], values[3:])))
    return tuple(fields)


def test_the_grid_is_that_of_merges_and_diverges_by_hand():
    short, long = (build(read_study(path)).text.encode() for path in (EXAMPLES / "grid.toml",
                                                                      TOOLS / "tests/studies/grid-by-hand.toml"))
    one, two = ({in_order((record.kind, *record.values)) for record in network_of(text).records} for text in (short, long))
    assert one == two
    one, two = (report_of(plain_model.report(text)).cells for text in (short, long))
    # Merges round the parts of a vehicle to the side of the first of two.
    assert (one - two.loc[one.index]).abs().max().max() < 0.01


@pytest.mark.parametrize("name", ["grid", "four-arms"])
def test_a_grid_is_short_to_write(name):
    assert len((EXAMPLES / f"{name}.toml").read_text().splitlines()) <= 60


def test_four_arms_serve_all_who_come():
    made = build(read_study(EXAMPLES / "four-arms.toml"))
    report = report_of(plain_model.report(made.text.encode(), 10))
    # Eight gates: 480 and 640 vehicles/h for half an hour each, then 320 for a third of one.
    assert report.total.entered == pytest.approx(8 * (240 + 320 + 320 / 3), abs=0.01)
    assert report.total.left == pytest.approx(report.total.entered, abs=0.1) and not made.warnings
    # The network is the same from each side, so each exit has its part.
    exits = report.cells.come[[cell for cell, kind in made.network.kinds.items() if kind == "exit"]]
    assert len(exits) == 8 and exits.tolist() == pytest.approx([report.total.entered / 8] * 8, rel=0.02)
