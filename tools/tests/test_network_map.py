"""Where the cells of a network lie on its map, where the study gives points of its roads."""

import math

import pytest

from ctmtools import build, read_study
from ctmtools.plots.layout import lay_out

from .corridor import HEAD
from .plain_reports import reported

JUNCTION = HEAD.format(end="07:00") + """
[roads.b]
length = 1
lanes = 1
points = [[600, 5800], [601, 5800]]
[roads.c]
length = 1
lanes = 1
points = [[600, 5800], [600, 5801]]
[roads.a]
length = 0.25
lanes = 1
points = [[599.75, 5800], [600, 5800]]
[gates.g]
capacity = 2000
demand = 100
[exits.x]
from = "b"
[exits.y]
from = "c"
[[junctions]]
from = ["g", "a"]
into = ["b", "c"]
shares = [[1, 0], [1, 1]]
lanes = [[1, 0], [1, 1]]
"""
LOOP = JUNCTION + """
[roads.d]
length = 0.5
lanes = 1
[[junctions]]
from = ["d"]
into = ["e"]
shares = [[1]]
[roads.e]
length = 0.5
lanes = 1
[gates.h]
into = "d"
demand = 5
[exits.z]
from = "e"
"""


@pytest.mark.parametrize("text", [JUNCTION, LOOP], ids=["a junction behind a gate", "roads that nothing joins to them"])
def test_a_network_with_points_has_no_road_from_elsewhere(tmp_path, text):
    (tmp_path / "s.toml").write_text(text)
    report = reported(build(read_study(tmp_path / "s.toml")))
    lines = lay_out(report)
    assert set(lines) == set(report.cells.index)
    for cell, line in lines.items():
        assert math.dist(line[0], line[-1]) <= 1.01 * (report.units.length(cell) or 0.25), cell
    # All stand round the points, some 2 km apart at most, and not at the origin.
    assert all(abs(x - 600) < 4 and abs(y - 5800) < 4 for line in lines.values() for x, y in line)
