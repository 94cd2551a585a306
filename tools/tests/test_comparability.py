"""What a comparison says of two reports that aren't of the same cells, places and times."""

from types import SimpleNamespace

import plain_model
import pytest

from ctmtools.runs.outputs import write_units
from ctmtools.report.comparability import other_lanes_and_speeds
from ctmtools.units import units_path

from .corridor import HEAD, corridor


@pytest.fixture
def saved(tmp_path):
    """Saves the report of a corridor under a name."""
    def save(name, **named):
        made = corridor(tmp_path, **named)
        path = tmp_path / f"{name}.report"
        path.write_bytes(plain_model.report(made.text.encode(), 10))
        write_units(units_path(path), made.units)
        return path
    return save


def warnings(told):
    return [line for line in told.splitlines() if line.startswith("warning: ")]


def test_other_cells_are_told(tool, saved):
    one = saved("one")
    other = saved("other", head=HEAD.replace("step = 10", "step = 5"))
    assert warnings(tool("compare", one, other)[1]) == [
        "warning: A and B have other cells: 4 of B alone (m5, m6, m7 and 1 more), 6 of both",
        "warning: 4 cells of one name are other parts of a road in A and in B, as m1: m km 0 to 0.25 in A, m km 0 to 0.125 in B",
        "warning: A is of 360 steps of 10 s, 06:00 to 07:00, B of 720 steps of 5 s, 06:00 to 07:00"]


def test_cells_of_one_name_elsewhere_are_told(tool, saved):
    one, other = saved("one"), saved("other", head=HEAD.replace("= 90", "= 120").replace("= 18", "= 24"))
    told = warnings(tool("compare", one, other)[1])
    assert told[0] == "warning: A and B have other cells: 1 of A alone (m4), 5 of both"
    assert told[1].endswith("as m1: m km 0 to 0.25 in A, m km 0 to 0.333333 in B")


def test_another_end_is_told(tool, saved):
    told = warnings(tool("compare", saved("one"), saved("other", end="08:00"))[1])
    assert told == ["warning: A is of 360 steps of 10 s, 06:00 to 07:00, B of 720 steps of 10 s, 06:00 to 08:00"]


def test_other_lanes_and_speeds_are_told(tool, saved):
    one = saved("one")
    lines = tool("compare", one, saved("wide", lanes=3))[1].splitlines()
    assert lines[2] == "4 cells have another number of lanes in A and in B, as m1: 2 in A, 3 in B"
    lines = tool("compare", one, saved("slow", head=HEAD.replace("= 18", "= 15")))[1].splitlines()
    assert lines[2] == "4 cells have another wave speed in A and in B, as m1: 18 km/h in A, 15 km/h in B"
    assert "another" not in tool("compare", one, saved("same"))[1]


def test_a_single_other_cell_is_told_as_one():
    one, two = (SimpleNamespace(network=None, units=SimpleNamespace(cells={
        "m1": {"road": "m", "from_km": 0, "to_km": 1, "lanes": lanes}})) for lanes in (2, 3))
    assert list(other_lanes_and_speeds(one, two)) == ["1 cell has another number of lanes in A and in B, as m1: 2 in A, 3 in B"]


def test_nothing_is_told_of_reports_that_are_alike(tool, saved):
    assert not warnings(tool("compare", saved("one"), saved("other", lanes=3))[1])


def test_reports_of_one_title_are_named_by_their_files(tool, saved, tmp_path):
    head = 'title = "The ring road"' + HEAD
    one, other = saved("one", head=head), saved("other", head=head)
    assert tool("compare", one, other)[1].splitlines()[:2] == [f"A  one ({one})", f"B  other ({other})"]
    (tmp_path / "later").mkdir()
    later = saved("later/one", head=head)
    assert tool("compare", one, later)[1].splitlines()[:2] == [f"A  {one}", f"B  {later}"]
    wide = saved("wide", head=head.replace("ring", "wide"))
    assert tool("compare", one, wide)[1].splitlines()[:2] == [f"A  The ring road ({one})", f"B  The wide road ({wide})"]
