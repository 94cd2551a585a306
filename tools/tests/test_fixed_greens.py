"""What is lost at fixed greens by coming at random: its formula by hand, the lane groups, and what `run` tells of a study."""

import csv
import io
import re
import shutil

import numpy
import pandas
import pytest

from ctmtools import read_study
from ctmtools.pages.tables import greens_of
from ctmtools.report.reading import read_report
from ctmtools.runs.running import opened
from ctmtools.study.network_text import build
from ctmtools.yielding.gaps import at_signal
from ctmtools.yielding.fixed_greens import _green_parts, lane_groups, waits_at_greens

from .test_yield import LANE, recorded, write

# A street with a stop line in its middle: 1,800 vehicles/h pass in 30 s of each minute, so 900.
STOP_LINE = LANE + """[roads]
street = {{ length = 0.5, lanes = 1 }}
[gates]
come = {{ into = "street", demand = {demand} }}
[exits]
go = {{ from = "street" }}
[[signals]]
road = "street"
at = 0.25
cycle = 60
green = 30
first_green = 0
{more}
"""
# An approach of so many lanes, from the south, and one from the north, whose movements have lanes as the table says.
APPROACH = LANE + """[roads]
s = {{ length = 0.2, lanes = {lanes} }}
n = {{ length = 0.2, lanes = 1 }}
east = {{ length = 0.2, lanes = 2 }}
ahead = {{ length = 0.2, lanes = 2 }}
west = {{ length = 0.2, lanes = 2 }}
[gates]
gs = {{ into = "s", demand = 400 }}
gn = {{ into = "n", demand = 400 }}
[exits]
oe = {{ from = "east" }}
oa = {{ from = "ahead" }}
ow = {{ from = "west" }}
[[junctions]]
from = ["s", "n"]
into = ["east", "ahead", "west"]
shares = [[1, 6, 1], [0, 0, 1]]
lanes = [{table}, [0, 0, 1]]
cycle = 60
{more}
"""
TOGETHER = 'phases = [{ green = 30 }]\n'
PERMITTED = ('phases = [{ green = 30, permitted = [["s", "west"]] }]\n'
             'yields = [{ movement = ["s", "west"], yields_to = [["n", "west"]] }]\n')
APART = 'phases = [{ movements = [["s", "east"], ["s", "ahead"]], green = 20 }, { movements = [["s", "west"], ["n", "west"]], green = 20 }]'


@pytest.mark.parametrize("flow, capacity, wanted", [(450, 900, 1.983), (720, 900, 7.393), (900, 900, 30.0), (400, 800, 2.228)])
def test_the_incremental_delay_of_fixed_greens_by_hand(flow, capacity, wanted):
    # 225·(x - 1 + sqrt((x - 1)² + 4x/(c/4))): at 450 of 900 225·(-0.5 + sqrt(0.25 + 0.0088889)) = 225·0.0088115; at 720 of 900
    # 225·(-0.2 + sqrt(0.04 + 0.0142222)) = 225·0.0328570; at 900 of 900 225·sqrt(0.0177778); at 400 of 800 225·(-0.5 + sqrt(0.26)).
    assert at_signal(flow, capacity) == pytest.approx(wanted, abs=0.001)


def lost(tmp_path, text):
    """What is lost at the greens of a study, by a run of which each step is recorded."""
    return waits_at_greens(recorded(opened(write(tmp_path, text)).built))


def test_a_stop_line_below_its_capacity_loses_what_the_formula_has(tmp_path, recording_program):
    # 450 vehicles/h of 900 lose 1.983 s each. The first come 20 s after the start, and who comes in the last 30 s of an interval waits
    # for the next one. So 31.25 pass in the first interval of 5 min, 375 vehicles/h, x = 0.4167, who lose 225·(-0.58333 +
    # sqrt(0.340278 + 0.0074074)) = 1.421 s, and 37.5 in each of the others: (31.25·1.421 + 412.5·1.983)/443.75 = 1.943 s.
    one, = lost(tmp_path, STOP_LINE.format(demand=450, more=""))
    assert one.name == "street09" and one.full == 0
    assert one.vehicles == pytest.approx(443.75, abs=0.01) and one.part == pytest.approx(0.4941, abs=0.0001)
    assert 3600 * one.hours / one.vehicles == pytest.approx(1.943, abs=0.001)


def test_where_a_queue_stands_nothing_is_lost_beside_it(tmp_path, recording_program):
    # 1,200 come from 07:30 on where 900 pass. They reach the stop line 20 s later, so the first green of that interval passes 3.75 who
    # waited, 2.5 and 3.33, and the four others 15 each: 69.58, of 75. In the last five intervals of 5 min all pass that may. 218.75
    # have passed by 07:30.
    one, = lost(tmp_path, STOP_LINE.format(demand='[["07:00", "07:30", 450], ["07:30", "08:00", 1200]]', more=""))
    assert one.full == pytest.approx(1500) and one.vehicles == pytest.approx(218.75 + 69.58, abs=0.01)


@pytest.mark.parametrize("lanes, wanted", [(1, 4.067), (2, 2.058)])
def test_lanes_closed_at_the_stop_line_leave_less(tmp_path, recording_program, lanes, wanted):
    # A capacity of 1,440 a lane for the hour leaves 720 in greens: x = 0.625. On one lane 225·(-0.375 + sqrt(0.140625 + 0.0138889)) =
    # 4.067 s, on two 225·(-0.375 + sqrt(0.140625 + 0.0069444)) = 2.058 s.
    closed = f'[[closures]]\nroad = "street"\nfrom = 0.2\nto = 0.3\nstart = "07:00"\nend = "08:00"\ncapacity = {1440 * lanes}\n'
    one, = lost(tmp_path, STOP_LINE.replace("lanes = 1", f"lanes = {lanes}").format(demand=450 * lanes, more=closed))
    assert one.part == pytest.approx(0.625, abs=0.01)
    assert 3600 * one.hours / one.vehicles == pytest.approx(wanted, rel=0.03)


def test_a_limit_within_a_cycle_leaves_what_of_the_green_lies_behind_it():
    # Green in the steps 2 to 5 of each 10; nobody passes in the first 4, and half as many may in the fourth from the end.
    signal = pandas.Series({"cycle": 10, "offset": 0, "from": 2, "to": 6})
    found = _green_parts(signal, [(0, 4, 0.0), (13, 14, 1.0)], 2.0, numpy.array([0.0, 10, 20]))
    assert found.tolist() == pytest.approx([2 / 10, 3.5 / 10])


LANE_GROUPS = {  # the lanes of the approach and of its movements, how they are green, and the groups with their lanes
    "each has a lane of its own": (3, "[1, 1, 1]", TOGETHER, {"s to east": 1, "s to ahead": 1, "s to west": 1}),
    "one lane for all": (1, "[1, 1, 1]", TOGETHER, {"s to east, ahead, west": 1}),
    "two lanes for all": (2, "[1, 2, 1]", TOGETHER, {"s to east, ahead, west": 2}),
    "a permitted left turn has a lane of its own": (2, "[1, 1, 1]", PERMITTED, {"s to east, ahead": 1}),
    "a permitted left turn shares the lane": (1, "[1, 1, 1]", PERMITTED, {"s to east, ahead": 1}),
    "a left turn has a lane and a green of its own": (3, "[1, 2, 1]", APART, {"s to east, ahead": 2, "s to west": 1}),
}


@pytest.mark.parametrize("lanes, table, more, wanted", LANE_GROUPS.values(), ids=LANE_GROUPS.keys())
def test_who_share_lanes_and_a_green_are_one_group(tmp_path, lanes, table, more, wanted):
    study = read_study(write(tmp_path, APPROACH.format(lanes=lanes, table=table, more=more))).scenario
    built = build(study)
    found = {one.name: one for one in lane_groups(study, built.network, built.units)}
    assert {name: one.saturation / 1800 for name, one in found.items()} == {
        **{f"junctions[1], {name}": count for name, count in wanted.items()}, "junctions[1], n to west": 1}


def test_who_gives_way_adds_to_what_comes_to_a_shared_lane_and_is_told_elsewhere(tmp_path):
    study = read_study(write(tmp_path, APPROACH.format(lanes=1, table="[1, 1, 1]", more=PERMITTED))).scenario
    built = build(study)
    shared = lane_groups(study, built.network, built.units)[0]
    assert (shared.line, shared.cells, shared.all_cells) == ("s7", ["s-east1", "s-ahead1"], ["s-east1", "s-ahead1", "s-west1"])


def test_greens_that_follow_traffic_and_signals_for_a_time_are_no_fixed_greens(tmp_path):
    timed = STOP_LINE.format(demand=450, more='start = "07:10"')
    study = read_study(write(tmp_path, timed)).scenario
    built = build(study)
    assert not lane_groups(study, built.network, built.units)


def test_run_tells_it_below_the_page_and_nothing_without_records(tmp_path, tool, recording_program):
    path = write(tmp_path, STOP_LINE.format(demand=450, more=""))
    status, out, _ = tool("run", path)
    assert status == 0
    assert re.search(r"\n\nLost at fixed greens by coming at random, by the Highway Capacity Manual and no part of the delay: 0\.24 "
                     r"vehicle-hours\n\n  lane group +vehicles +of what may pass +each +vehicle-hours +queue stands\n"
                     r"  street09 +444 +49% +1\.9 s +0\.24\n\nReport", out)
    assert "at random" not in tool("run", path, "--every", "0")[1]


def test_those_who_give_way_at_the_same_signal_are_told_once(tmp_path, recording_program):
    found = lost(tmp_path, APPROACH.format(lanes=2, table="[1, 1, 1]", more=PERMITTED))
    assert [one.name for one in found] == ["junctions[1], s to east, ahead", "junctions[1], n to west"]
    # 7/8 of 400 vehicles/h of the 900 of a lane, x = 0.3889: 225·(-0.6111 + sqrt(0.37346 + 0.0069136)) = 1.265 s.
    assert 3600 * found[0].hours / found[0].vehicles == pytest.approx(1.265, rel=0.05)


@pytest.fixture(scope="module")
def run_once(tmp_path_factory):
    """The folder of the run of the left turn, and what it told once it has been made."""
    return tmp_path_factory.mktemp("left-turn"), []


@pytest.fixture
def left_turn(tmp_path, tool, recording_program, run_once):
    """What `run` tells below its page of a signal with a permitted left turn, from a folder with its report study.report."""
    kept, told = run_once
    if told:
        shutil.copytree(kept, tmp_path, dirs_exist_ok=True)
    else:
        told.append(tool("run", write(tmp_path, APPROACH.format(lanes=2, table="[1, 1, 1]", more=PERMITTED)))[1])
        shutil.copytree(tmp_path, kept, dirs_exist_ok=True)
    return told[0][told[0].index("\nLost at fixed greens"):told[0].index("\n\nReport ")]


def cells_told(told):
    """The rows of a table that is told, cell by cell."""
    return [re.split(r"  +", line.strip()) for line in told.splitlines() if line.startswith("  ")]


def test_the_page_for_a_browser_has_the_words_and_numbers_of_run(left_turn):
    found, = greens_of([read_report("study.report")], ["study"])
    assert re.fullmatch(r"Lost at fixed greens .*: \d\.\d\d vehicle-hours, \d\.\d\d with movements that give way", found["head"])
    assert left_turn.strip().splitlines()[0] == found["head"]
    shown = [[cell for cell in row if cell] for row in [found["columns"], *found["rows"]]]
    assert [[cell.removeprefix("junctions[1], ") for cell in row] for row in cells_told(left_turn)] == shown


def test_a_table_by_lane_groups_has_the_numbers_of_run(left_turn, tool):
    _, out, _ = tool("table", "study.report", "--by", "lane-group", "--value-of-time", "20")
    rows = list(csv.DictReader(io.StringIO(out)))
    assert list(rows[0]) == ["lane_group", "vehicles", "part", "lost_each", "lost", "queue_stands", "cost"]
    assert cells_told(left_turn)[1:] == [[row["lane_group"], f"{float(row['vehicles']):.0f}", f"{float(row['part']):.0%}",
                                          f"{float(row['lost_each']):.1f} s", f"{float(row['lost']):.2f}"] for row in rows]
    assert all(float(row["cost"]) == pytest.approx(20 * float(row["lost"])) and float(row["queue_stands"]) == 0 for row in rows)


@pytest.mark.parametrize("words, wanted", [(("--interval", "15 min"), "goes without --interval"), (("--cell", "s7"), "--cell with --by cell"),
                                           (("--totals",), "--totals and --cell with --by cell")])
def test_what_a_table_by_lane_groups_does_not_take(left_turn, tool, words, wanted):
    status, _, err = tool("table", "study.report", "--by", "lane-group", *words)
    assert status == 2 and wanted in err


def test_a_network_that_was_edited_has_its_own_loss_at_greens_and_no_longer_that_of_giving_way(left_turn, tool, tmp_path):
    # The program's own run repeats the report, and tells the same; with half of the demand less is lost.
    assert left_turn in tool("run", "study.csv", "-o", "again.report")[1]
    network = tmp_path / "study.csv"
    text = network.read_text()
    gate = next(line for line in text.splitlines() if line.startswith("demand,gs"))
    *words, amount = gate.split(",")
    network.write_text(text.replace(gate, ",".join([*words, f"{float(amount) / 2:g}"])))
    _, out, _ = tool("run", "study.csv", "-o", "half.report")
    assert "Lost at fixed greens" in out and "with movements that give way" not in out and left_turn not in out


def test_a_network_of_build_tells_it_too(tmp_path, tool, plain):
    path = write(tmp_path, STOP_LINE.format(demand=450, more=""))
    assert tool("build", path)[0] == 0
    _, out, _ = tool("run", "study.csv", "-o", "by-hand.report")
    assert re.search(r"no part of the delay: 0\.24 vehicle-hours\n", out)


def test_two_reports_compared_tell_what_each_loses_at_random(left_turn, tool):
    greens, both = map(float, re.search(r"delay: ([\d.]+) vehicle-hours, ([\d.]+) with movements that give way", left_turn).groups())
    _, out, _ = tool("compare", "study.report", "study.report")
    rows = {row[0]: row[1:] for row in cells_told(out[out.index("Lost by coming at random"):])}
    assert rows["at fixed greens"] == [f"{greens:.2f}", f"{greens:.2f}", "0"]
    assert float(rows["where streams give way"][0]) == pytest.approx(both - greens, abs=0.011)


def test_what_is_not_known_is_not_compared(left_turn, tool):
    assert tool("run", "study.toml", "--every", "0", "-o", "bare.report")[0] == 0
    assert "at random" not in tool("compare", "study.report", "bare.report")[1]


def test_lanes_that_pass_more_than_the_manual_has_for_them_are_told(tmp_path, tool, recording_program):
    # Of two lanes one is of those who turn west, who give way, so east and ahead share the other: in 30 s of 60 it passes 900. Of
    # 1,100 who come 12/13 are theirs, 1,015.4, and pass each from a lane of his own, which is 113 % of that.
    text = APPROACH.format(lanes=2, table="[1, 1, 1]", more=PERMITTED).replace("shares = [[1, 6, 1]", "shares = [[6, 6, 1]")
    text = text.replace('into = "s", demand = 400', 'into = "s", demand = 1100').replace('into = "n", demand = 400', 'into = "n", demand = 60')
    write(tmp_path, text)
    out = tool("run", "study.toml")[1]
    assert "junctions[1], s to east, ahead: 113% pass of what may by the Highway Capacity Manual, so its queue is too short\n" in out
    write(tmp_path, text.replace("demand = 1100", "demand = 900"))
    assert "its queue is too short" not in tool("run", "study.toml")[1]
