"""What stands beside a report or is named for it: units and network, which of them is taken, and what doesn't fit."""

import os

import plain_model
import pytest

from ctmtools import Problem, read_report
from ctmtools.runs.outputs import write_units
from ctmtools.report.by_road import network_states
from ctmtools.units import OfNetwork, Units, units_path

from .corridor import corridor
from .plain_reports import at_a_light


@pytest.fixture
def made(tmp_path):
    """A report in a folder, and its network with units in another."""
    built = corridor(tmp_path)
    for name in ("here", "there"):
        (tmp_path / name).mkdir()
    (tmp_path / "here" / "a.report").write_bytes(plain_model.report(built.text.encode(), 6))
    (tmp_path / "there" / "n.csv").write_text(built.text)
    write_units(units_path(tmp_path / "there" / "n.csv"), built.units)
    return tmp_path


def test_a_report_alone_has_neither(made):
    read = read_report(made / "here" / "a.report")
    assert read.network is None and not read.units.known
    with pytest.raises(Problem, match="the network of this report isn't known; name its file with --network"):
        read.need_network()


def test_units_beside_the_network_are_taken_where_the_report_has_none(made):
    network = made / "there" / "n.csv"
    read = read_report(made / "here" / "a.report", network=network)
    assert read.units.step == 10 and read.network.steps == 360
    own = made / "own.units.json"
    write_units(own, Units(step=5))
    assert read_report(made / "here" / "a.report", units=own, network=network).units.step == 5
    write_units(units_path(made / "here" / "a.report"), Units(step=7))
    assert read_report(made / "here" / "a.report", network=network).units.step == 7
    # Units that are named are taken, whatever they say.
    write_units(own, Units())
    assert not read_report(made / "here" / "a.report", units=own, network=network).units.known


def test_the_network_that_units_name_comes_before_that_of_the_reports_name(made):
    report, named = made / "here" / "a.report", made / "here" / "n.csv"
    text = (made / "there" / "n.csv").read_text()
    limited = text + "limit,m4,60,120,3\n"
    (made / "here" / "a.csv").write_text(limited)
    assert read_report(report).network.content == limited.encode()
    named.write_text(text)
    write_units(units_path(report), Units(step=10, network=OfNetwork("n.csv")))
    assert read_report(report).network.content == text.encode()
    named.write_text("ctm,1\nsteps,9\nexit,x,1\n")
    for network in (None, named):
        with pytest.raises(Problem, match="isn't of the network .*n.csv: it has other cells"):
            read_report(report, network=network)
    # A network that only bears the report's name is left out where it isn't of it.
    units_path(report).unlink()
    (made / "here" / "a.csv").write_text(text.replace("steps,360", "steps,361"))
    assert read_report(report).network is None
    with pytest.raises(Problem, match="none.units.json: no such file or directory"):
        read_report(report, units=made / "none.units.json")


@pytest.mark.parametrize("content", [b"root:*:20228:0:::\n", b"", None])
def test_of_a_file_that_units_name_and_that_is_no_network_nothing_is_quoted(made, content):
    report, named = made / "here" / "a.report", made / "there" / "shadow"
    if content is None:
        os.mkfifo(named)
    else:
        named.write_bytes(content)
    write_units(units_path(report), Units(step=10, network=OfNetwork("../there/shadow")))
    with pytest.raises(Problem, match="names the network .*shadow, which is none; name the network's file with --network$") as refused:
        read_report(report)
    assert "20228" not in str(refused.value)


def test_a_step_without_cells_gives_no_kilometres():
    report = at_a_light(0, 3, 7)
    report.units = Units(step=10)
    states = network_states(report, 100)
    # The states are over cells: in ten steps one goes out and seven stand, as many cells as there are.
    assert states.flow.tolist() == pytest.approx([0.1, 0.2, 0, 0]) and states.density.tolist() == pytest.approx([0.7, 0.2, 0, 0])
