"""Signals of other programs' networks: programs without phases, rings, and greens that go on over the end of a cycle."""

import tomllib
from pathlib import Path
from xml.etree.ElementTree import Element

import pytest

from ctmtools.imports.gmns import phase_spans
from ctmtools.imports.gmns_tables import Row
from ctmtools.imports.sumo import joined, read_network
from ctmtools.imports.sumo_net import _allowed

from .test_import import net


@pytest.mark.parametrize("offset, wanted", [(0, 0), (10, 10), (60, 0), (70, 10), (-10, 50)])
def test_an_offset_is_within_the_cycle(tmp_path, offset, wanted):
    (tmp_path / "t.net.xml").write_text(net().replace('offset="10"', f'offset="{offset}"'))
    program = read_network(tmp_path / "t.net.xml").programs["J"]
    assert (program.cycle, program.offset) == (60, wanted)


def test_a_program_without_phases_is_never_green(tmp_path):
    text = net()
    begin, end = text.index("<phase"), text.index("</tlLogic>")
    (tmp_path / "t.net.xml").write_text(text[:begin] + text[end:])
    found = read_network(tmp_path / "t.net.xml")
    assert found.programs["J"].cycle == 0 and found.ways["a", "c"].green == []


@pytest.mark.parametrize("spans, wanted", [
    ([(0, 10), (50, 60)], [(50, 70)]), ([(0, 10), (50, 59)], [(0, 10), (50, 59)]), ([(5, 10), (50, 60)], [(5, 10), (50, 60)]),
    ([(0, 10), (5, 20)], [(0, 20)]), ([(0, 20), (5, 10)], [(0, 20)]), ([(0, 60)], [(0, 60)]), ([], []), ([(0, 10), (20, 30), (40, 60)], [(20, 30), (40, 70)])])
def test_greens_that_touch_are_one(spans, wanted):
    assert joined(spans, 60) == wanted


def phases(*fields):
    return [Row(Path("t.csv"), line, row) for line, row in enumerate(fields, 2)]


def test_phases_of_no_ring_follow_each_other():
    rows = phases({"max_green": "10", "clearance": "5", "position": "2"}, {"min_green": "20", "position": "1"},
                  {"max_green": "0", "min_green": "7", "position": "3"})
    # The second one comes first, with its least green, since it has no greatest one.
    assert phase_spans(rows) == [(20, 30), (0, 20), (35, 42)]


@pytest.mark.parametrize("terms, drives", [
    ({}, True), ({"allow": "passenger bus"}, True), ({"allow": "all"}, True), ({"allow": "bus"}, False), ({"disallow": "bus"}, True),
    ({"disallow": "passenger bus"}, False), ({"disallow": "all"}, False)])
def test_the_lanes_that_cars_may_use(terms, drives):
    assert ("passenger" in _allowed(Element("lane", terms))) == drives


def test_the_shape_of_a_street_is_in_kilometres(tmp_path):
    (tmp_path / "t.net.xml").write_text(net().replace('<edge id="a"', '<edge id="a" shape="0,0 250,0 250,125"'))
    assert read_network(tmp_path / "t.net.xml").streets["a"].points == [(0, 0), (0.25, 0), (0.25, 0.125)]


TABLES = {"node": "node_id\n1\n2\n3\n", "link": "link_id,from_node_id,to_node_id,length,free_speed\na,1,2,0.5,60\nb,2,3,0.5,60\n",
          "movement": "mvmt_id,node_id,ib_link_id,ob_link_id,ctrl_type\n1,2,a,b,signal\n",
          "signal_timing_plan": "timing_plan_id,controller_id\nday,J\n",
          "signal_timing_phase": "timing_phase_id,timing_plan_id,max_green,clearance,position\np1,day,10,5,1\np2,day,15,5,2\np3,day,25,5,3\n",
          "signal_phase_mvmt": "timing_phase_id,mvmt_id\np1,1\np3,1\n"}


def test_a_signal_between_two_streets(tool, tmp_path):
    (tmp_path / "town").mkdir()
    for name, text in TABLES.items():
        (tmp_path / "town" / f"{name}.csv").write_text(text)
    status, out, err = tool("import", "gmns", "town")
    study = tomllib.loads((tmp_path / "town.toml").read_text())
    assert status == 0 and set(study["roads"]) == {"a", "b"} and study["links"] == [{"from": "a", "into": "b"}]
    # Phases of 10, 15 and 25 s with 5 s behind each are a cycle of 65 s. It is green in the first and the third.
    assert study["signals"] == [{"road": "a", "cycle": 65, "green": 25, "first_green": 35}]
    assert "1 movements are green several times in a cycle, as a to b; the longest of them is kept" in out
