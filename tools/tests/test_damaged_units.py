"""Files of units that are damaged: each is refused with its place and cause, or does no harm to what is made of the report."""

import copy
import json
from pathlib import Path

import plain_model
import pytest

from ctmtools import Problem, build, read_report, read_study
from ctmtools.exports.geojson import collection
from ctmtools.runs.outputs import write_network
from ctmtools.pages.content import data_of
from ctmtools.report.by_road import by_road
from ctmtools.report.queues import queues_in
from ctmtools.report.states import states
from ctmtools.report.summary import page
from ctmtools.units import read_units
from ctmtools.yielding.fixed_greens import lost_at_random

STUDY = """title = "Two roads"
step = 10
start = "06:00"
duration = "10 min"
crs = "EPSG:25832"
lane = {free_flow_speed = 72, wave_speed = 18, jam_density = 150, saturation_flow = 1800}
roads.a = {length = 0.4, lanes = 1, points = [[600, 5300], [600.4, 5300]]}
roads.b = {length = 0.4, lanes = 1, points = [[600.4, 5300], [600.8, 5300]]}
gates.in = {into = "a", demand = 900}
exits.out = {from = "b"}
links = [{from = "a", into = "b"}]
signals = [{road = "a", cycle = 60, green = 30}]
"""
GROUP = {"name": "a", "line": "a2", "cells": ["a2"], "all_cells": ["a2"], "saturation": 1800.0}
LOSS = {"name": "a", "vehicles": 3.0, "hours": 0.1, "full": 0}
WRONG = [None, True, -1, 0.5, 10 ** 400, "", "x", "\x1b[2J", [], [1], ["x"], {"x": 1}]


@pytest.fixture
def made(tmp_path):
    """The values of the file of units that stands beside a report and its network."""
    (tmp_path / "two.toml").write_text(STUDY)
    built = build(read_study(tmp_path / "two.toml"))
    write_network(built, tmp_path / "two.csv")
    (tmp_path / "two.report").write_bytes(plain_model.report(built.text.encode(), 1))
    values = json.loads((tmp_path / "two.units.json").read_text())
    del values["seal"]  # as who changes such a file does
    values |= {"lane_groups": [GROUP], "giving_way": [LOSS], "yield_interval": 6, "cycles": {"a2": 6}}
    return values


def used(folder, values):
    """Makes of the report what the commands make, with these values in its file of units."""
    (folder / "two.units.json").write_text(json.dumps(values))
    report = read_report(folder / "two.report")
    for make in (states, by_road, collection, lost_at_random, lambda report: list(page(report))):
        make(report)
    data_of([report])
    list(queues_in(report))


def places(values):
    """The places in nested values, each as the keys that lead there."""
    for key, value in values.items() if isinstance(values, dict) else enumerate(values) if isinstance(values, list) else ():
        yield (key,)
        yield from ((key, *rest) for rest in places(value))


def changed(values, place, new):
    """The values with another at a place; without it where it is Ellipsis."""
    found = copy.deepcopy(values)
    *above, last = place
    inner = found
    for key in above:
        inner = inner[key]
    if new is ...:
        del inner[last]
    else:
        inner[last] = new
    return found


def test_no_damage_ends_in_another_exception(made, tmp_path):
    used(tmp_path, made)
    refused = 0
    for place in places(made):
        if place[0] in ("cells", "points", "roads") and place[1:] and place[1] not in ("a", "a1"):
            continue
        for new in [..., *WRONG]:
            try:
                used(tmp_path, changed(made, place, new))
            except Problem as problem:
                refused += 1
                assert str(problem).startswith(str(tmp_path)) and "\x1b" not in str(problem)
    assert refused > 400


@pytest.mark.parametrize("place, new, line", [
    (("step_seconds",), 0, "step_seconds: expected a number above 0"), (("steps",), "60", "steps: expected a whole number, 0 or more, found a text"),
    (("cells", "a1", "to_km"), [], "cells.a1.to_km: expected a number, found a list"),
    (("cells", "a1", "to_km"), ..., "cells.a1.to_km: expected a value"), (("cells", "a1"), None, "cells.a1: expected a table, found null"),
    (("cells", "a1", "to_km"), 0, "cells.a1.to_km: expected a number above from_km"),
    (("points", "a", 0), [1], "points.a.1: expected 2 entries"), (("roads", "a", 0), "zz", "roads.a: expected cells that stand in cells"),
    (("title",), "\x1b[2J", "title: expected a text in one line, without letters that aren't shown"),
    (("lane_groups", 0, "line"), 1, "lane_groups.1.line: expected a text, found a number"),
    (("network",), "a\0b", "network: expected the name of a file, found a text")])
def test_the_place_and_the_cause_are_named(made, tmp_path, place, new, line):
    path = tmp_path / "two.units.json"
    path.write_text(json.dumps(changed(made, place, new)))
    with pytest.raises(Problem) as refused:
        read_units(path)
    assert str(refused.value) == f"{path}: {line}"


@pytest.mark.parametrize("content", [b"", b"{", b"[]", b"7", b"\xff\xfe", b"[" * 100_000, b'{"a":' * 100_000, b"{\"step_seconds\": NaN}"])
def test_what_is_no_table_is_refused(tmp_path, content):
    path = Path(tmp_path / "x.units.json")
    path.write_bytes(content)
    with pytest.raises(Problem, match="x.units.json: "):
        read_units(path)


def test_an_approach_without_movements_is_refused(tmp_path):
    path = tmp_path / "x.units.json"
    path.write_text(json.dumps({"approaches": [{"name": "a", "road": "m", "last": "m1", "movements": []}]}))
    with pytest.raises(Problem, match=r"approaches.1.movements: expected 1 entries or more"):
        read_units(path)
