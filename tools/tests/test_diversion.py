"""A bridge that is closed: who has a way already and keeps it, and who goes round. examples/README.md has the paper."""

import contextlib
import re
import shutil

import pytest

from ctmtools import assign, read_report
from ctmtools.assignment.ways_file import read_ways
from ctmtools.command_line import main

from .examples import EXAMPLES
from .validation_tables import figures_of

OPEN, CLOSED = EXAMPLES / "bypass.toml", EXAMPLES / "bypass-closed.toml"


@pytest.fixture(scope="module")
def made(recording_program, tmp_path_factory):
    """The files of an assignment of the town with its bridge open."""
    folder = tmp_path_factory.mktemp("open")
    with contextlib.chdir(folder), pytest.raises(SystemExit) as ended:
        main(["assign", str(OPEN)])
    assert ended.value.code == 0
    return list(folder.iterdir())


@pytest.fixture
def opened(tool, made, tmp_path):
    """The same in the folder of the test."""
    for path in made:
        shutil.copy(path, tmp_path)
    return "bypass.assigned.toml"


@pytest.mark.parametrize("informed, delay, back", [(0, 1796, None), (0.3, 1167.8, "09:35:00"), (1, 3.56, "09:15:00")])
def test_the_delay_at_a_closed_bridge_is_the_one_on_paper(opened, informed, delay, back):
    found = assign(CLOSED, earlier=opened, informed=informed, gap=5e-5)
    frame = found.rows
    assert found.figures["delay_vehicle_hours"] == pytest.approx(delay, rel=0.002, abs=0.3)
    assert found.figures["left_vehicles"] == pytest.approx(2520, abs=1)
    round_ = frame[frame.roads.apply(lambda roads: "bypass" in roads)]
    if back is None:
        assert round_.empty
    else:
        all_ = round_[round_.vehicles > 59 * informed]
        # From the first interval on in which anybody comes to the closed bridge, to that before who sets out at `back`.
        assert all_.start.min() == "07:20:00" and (round_.start[round_.start >= back].index == round_.index[-1:]).all()
        assert round_[round_.start < back].vehicles.tolist() == pytest.approx([60 * informed] * len(all_), abs=1e-6)


def test_only_who_sets_out_later_chooses_anew(opened):
    frame = assign(CLOSED, earlier=opened, informed=1, after="08:00", gap=0.001).rows
    round_ = frame[frame.roads.apply(lambda roads: "bypass" in roads)]
    assert round_.start.min() == "08:00:00"


def test_several_shares_are_one_table(tool, opened, tmp_path):
    status, out, err = tool("assign", CLOSED, "--from", opened, "--informed", "0,0.3,1", "-o", "table.csv", "-j", "2",
                            "--gap", "0.0001")
    assert status == 0, err
    rows = (tmp_path / "table.csv").read_text().splitlines()
    assert rows[0].startswith("informed,rounds,gap,delay_vehicle_hours") and len(rows) == 4
    delays = [float(row.split(",")[3]) for row in rows[1:]]
    assert figures_of("a closed bridge") == [["1,796", "1,167.8", "3.6"], [f"{delay:,.1f}" for delay in delays]]
    table = (EXAMPLES / "README.md").read_text().split("\n| Informed | Delay | Time of all drivers |\n")[1].split("\n\n")[0]
    assert re.findall(r"^\| [^|]* \| ([\d,.]+)", table, re.MULTILINE) == [f"{delay:,.2f}" for delay in delays]


def test_compare_tells_by_pair_who_lost(tool, opened):
    assert tool("assign", CLOSED, "--from", opened, "--informed", "0", "-o", "closed.assigned.toml")[0] == 0
    status, out, err = tool("compare", "bypass.assigned.report", "closed.assigned.report")
    assert status == 0 and "Of 1 pairs 0 gained and 1 lost" in out
    row = next(line for line in out.splitlines() if line.strip().startswith("from-west"))
    # 1,796 vehicle-hours for 2,520 vehicles.
    assert float(row.split()[-1].replace(",", "")) == pytest.approx(1796, rel=0.005)


def test_without_a_bridge_that_is_closed_all_drive_through_the_town(tool, opened):
    assert read_report("bypass.assigned.report").total.delay < 1
    assert {row.roads for row in read_ways("bypass.assigned.ways.csv")} == {("west", "town", "east")}
