"""What a page shows of approaches: their tables, queues over time, where it opens, and what its maker says of it."""

import base64
import json
import os
import re

import pytest

from ctmtools import Problem
from ctmtools.approaches.by_approach import by_approach
from ctmtools.pages.content import Heading, data_of
from ctmtools.pages.html_page import page_of
from ctmtools.imports.road_names import HEADINGS
from ctmtools.pages.networks import DIRECTED, RoadNames, roads_of
from ctmtools.study.network_text import build
from ctmtools.study.reading import read_scenario

from .page_data import cells_of
from .plain_reports import reported
from .test_fixed_greens import APART, APPROACH


@pytest.fixture(scope="module")
def crossing(tmp_path_factory):
    """The report of a quarter of an hour of a junction, each of whose movements has a green of its own."""
    path = tmp_path_factory.mktemp("crossing") / "study.toml"
    path.write_text(APPROACH.format(lanes=2, table="[1, 1, 1]", more=APART).replace('end = "08:00"', 'end = "07:15"'))
    return reported(build(read_scenario(path)))


def test_the_page_has_the_tables_of_approaches_and_movements(crossing):
    approaches, movements = data_of([crossing])["tables"]["approaches"]
    frame = by_approach(crossing).set_index("approach")
    assert approaches["columns"][:4] == ["approach", "demand, vehicles/h", "capacity, vehicles/h", "demand by capacity"]
    assert [row[0] for row in approaches["rows"]] == frame.delay.sort_values(ascending=False).index.tolist()
    assert {row[0]: row[6] for row in approaches["rows"]} == pytest.approx(frame.delay_each.to_dict(), abs=0.001)
    assert {row[0] for row in movements["rows"]} == {"s to east", "s to ahead", "s to west", "n to west"}
    assert all(isinstance(row[7], str) for row in approaches["rows"])


def test_the_page_opens_on_the_road_before_whose_stop_line_most_is_waited(crossing):
    # All wait in the cells of the junction, behind the last cell of their road. In 20 s of 60 each of 400 vehicles/h from the north
    # loses 0.5·60·(2/3)²/(1 - 400/1800) = 17.1 s, of 350 from the south 13.3/(1 - 350/1800) = 16.6 s, and of 50 13.7 s: less in all.
    data = data_of([crossing])
    assert data["opening"]["road"] == "n"
    rows = {row["name"]: row["of"][0][1] for row in data["tables"]["roads"]["rows"]}
    assert rows["n"] > rows["s"] > 0 and not [name for name in rows if name.startswith("junction")]
    assert sum(rows.values()) == pytest.approx(crossing.delay_vehicle_hours, abs=1e-4)


def test_no_internal_name_is_seen(crossing):
    place_of = RoadNames(crossing).place_of
    assert place_of("s-fork1.1") == "s, where its movements part"
    assert place_of("s-west1") == "s, before the stop line, to west" and place_of("s1") == "s1"
    data = data_of([crossing])
    assert all(cell["place"].startswith(("s, ", "n, ", "west, ")) for cell in data["networks"][0]["cells"] if "-" in cell["name"])
    assert data["titles"] == {} and "fork" not in json.dumps([data["tables"], *(cell.get("place", "") for cell in cells_of(data))])


# High Street as an import names it, between Mill Lane and the Ring: its piece of 50 m between the two carriageways of the Ring is a stub.
IMPORTED = """
step = 5
start = "07:00"
end = "07:15"
[lane]
free_flow_speed = 36
wave_speed = 18
jam_density = 150
saturation_flow = 1800
[roads]
"High Street east" = { cells = "High", length = 0.2, lanes = 1 }
"High Street east 2" = { cells = "High-2", length = 0.3, lanes = 1 }
"High Street east 3" = { cells = "High-3", length = 0.05, lanes = 1 }
"High Street east 4" = { cells = "High-4", length = 0.2, lanes = 1 }
"Mill Lane north" = { cells = "Mill", length = 0.2, lanes = 1 }
"Mill Lane north 2" = { cells = "Mill-2", length = 0.2, lanes = 1 }
"Ring north" = { cells = "Ring", length = 0.2, lanes = 1 }
"Ring north 2" = { cells = "Ring-2", length = 0.2, lanes = 1 }
"Ring south" = { cells = "Ring-3", length = 0.2, lanes = 1 }
"motorway_link 17 north" = { cells = "ramp", length = 0.2, lanes = 1 }
[gates]
in-High = { into = "High Street east", demand = 300 }
in-Mill = { into = "Mill Lane north", demand = 500 }
in-Ring = { into = "Ring north", demand = 200 }
in-Ring-3 = { into = "Ring south", demand = 200 }
[exits]
out-High-4 = { from = "High Street east 4" }
out-Mill-2 = { from = "Mill Lane north 2" }
out-Ring-2 = { from = "Ring north 2" }
out-ramp = { from = "motorway_link 17 north" }
[[junctions]]
from = ["High Street east", "Mill Lane north"]
into = ["High Street east 2", "Mill Lane north 2"]
shares = [[3, 1], [1, 3]]
lanes = [[1, 1], [1, 1]]
cycle = 60
offset = 10
phases = [{ movements = [["High Street east", "High Street east 2"], ["High Street east", "Mill Lane north 2"]], green = 30 },
          { movements = [["Mill Lane north", "High Street east 2"], ["Mill Lane north", "Mill Lane north 2"]], green = 20 }]
[[junctions]]
from = ["High Street east 2", "Ring north"]
into = ["High Street east 3", "Ring north 2"]
shares = [[3, 1], [1, 3]]
lanes = [[1, 1], [1, 1]]
[[junctions]]
from = ["High Street east 3", "Ring south"]
into = ["High Street east 4", "motorway_link 17 north"]
shares = [[3, 1], [1, 3]]
lanes = [[1, 1], [1, 1]]
[[closures]]
road = "High Street east 4"
from = 0.1
to = 0.15
start = "07:05"
end = "07:10"
capacity = 0
"""


@pytest.fixture(scope="module")
def town(tmp_path_factory):
    """The report of a street as an import names it."""
    path = tmp_path_factory.mktemp("town") / "town.toml"
    path.write_text(IMPORTED)
    return reported(build(read_scenario(path)))


def test_roads_are_called_by_their_streets_and_stubs_belong_to_theirs(town):
    data, names = data_of([town]), RoadNames(town)
    assert names.chains["High Street east 2"] == ["High Street east 2", "High Street east 3"] and len(names.chains) == 9
    assert data["titles"] == {
        "High Street east": "High Street east, to Mill Lane", "High Street east 2": "High Street, from Mill Lane to Ring",
        "High Street east 3": "High Street, from Mill Lane to Ring", "High Street east 4": "High Street east, from Ring",
        "Mill Lane north": "Mill Lane north, to High Street", "Mill Lane north 2": "Mill Lane north, from High Street",
        "Ring north": "Ring north, to High Street", "Ring north 2": "Ring north, from High Street",
        "Ring south": "Ring south, to High Street", "motorway_link 17 north": "ramp north, from High Street",
        "in-High": "High Street east", "in-Mill": "Mill Lane north", "in-Ring": "Ring north", "in-Ring-3": "Ring south",
        "out-High-4": "High Street east", "out-Mill-2": "Mill Lane north", "out-Ring-2": "Ring north", "out-ramp": "ramp north"}
    assert all(DIRECTED.fullmatch(f"Mill Lane {heading} 2") for heading in HEADINGS) and not DIRECTED.fullmatch("r12")


def test_a_stub_counts_with_its_road(town):
    data, made = data_of([town]), [cell for cell in town.cells.index if cell.startswith(("High-2", "High-3"))]
    row = next(row["of"][0] for row in data["tables"]["roads"]["rows"] if row["name"] == "High Street east 2")
    assert row[0] == pytest.approx(0.35) and row[1] == pytest.approx(town.units.hours(town.cells.wait[made].sum()), abs=1e-6)
    own = [cell for cell in cells_of(data) if cell.get("road") == "High Street east 2"]
    assert [(cell["from"], cell["to"]) for cell in own][-2:] == [(0.25, 0.3), (0.3, 0.35)]
    assert len(roads_of(town)["High Street east 2"]) == 7
    assert sum(row["of"][0][1] for row in data["tables"]["roads"]["rows"]) == pytest.approx(town.delay_vehicle_hours, abs=1e-4)


def test_signals_and_closures_have_their_times(town):
    data = data_of([town])["reports"][0]
    numbers = {cell: i for i, cell in enumerate(town.cells.index)}
    # By the offset a cycle begins 10 s after 07:00: its greens are from 10 to 40 s and from 40 to 60 s of each minute.
    first, second = data["signals"]
    assert [(one["cycle"], one["at"]) for one in (first, second)] == [(60, numbers["High4"]), (60, numbers["Mill4"])]
    assert [(one["zero"], one["greens"]) for one in (first, second)] == [(25210, [[0, 30]]), (25210, [[30, 50]])]
    assert first["junction"] == second["junction"] and first["approach"] == "High Street east, to Mill Lane"
    assert first["name"] == "High Street east, to Mill Lane, into High Street east, Mill Lane north"
    assert data["closures"] == [{"begin": 25500, "end": 25800, "flow": 0, "cells": [numbers["High-4.3"]]}]


def test_who_gives_way_closes_nothing(crossing):
    assert data_of([crossing])["reports"][0]["closures"] == [] and len(data_of([crossing])["reports"][0]["signals"]) == 3


def test_an_imported_town_shows_no_name_of_a_cell(town):
    data = data_of([town])
    told = json.dumps([data["tables"]["approaches"], data["tables"]["greens"], [cell.get("place") for cell in cells_of(data)],
                       data["reports"][0]["queues"]])
    assert not re.search(r"fork|join|High-|Mill-|junctions\[| \d\b(?!\.)", re.sub(r"-?\d+\.\d+|: ?\d+|, \d+", "", told))
    movements = {row[0] for row in data["tables"]["approaches"][1]["rows"]}
    assert {"High Street east, to Mill Lane, into Mill Lane north", "Ring north, to High Street, into High Street east"} <= movements
    assert RoadNames(town).place_of("High-4.1") == "High Street east, from Ring, km 0 to 0.05"


def test_queues_over_time_are_drawn_of_the_approaches_where_they_grow_longest(crossing):
    south, north = data_of([crossing])["reports"][0]["queues"]
    frame = by_approach(crossing).set_index("approach")
    assert max(south["metres"]) == pytest.approx(frame.longest_queue[south["name"]], abs=0.1)
    assert max(south["metres"]) >= max(north["metres"]) > 0 and len(south["metres"]) == len(north["metres"])


def test_title_author_and_logo_are_the_makers_own(crossing, tmp_path):
    logo = tmp_path / "town.svg"
    logo.write_text("<svg/>")
    page = page_of([crossing], library="// d3", heading=Heading("Mill street", "Office of roads <T>", logo))
    assert "<title>Mill street</title>" in page and "data:image/svg+xml;base64," + base64.b64encode(b"<svg/>").decode() in page
    assert "Office of roads \\u003cT>" in page and "img-src data:;" in re.search('content="([^"]*)"', page)[1] + ";"
    with pytest.raises(Problem, match="--logo .*town.txt: expected a picture, .png, .jpg, .jpeg, .svg"):
        data_of([crossing], heading=Heading(logo=tmp_path / "town.txt"))


def test_a_logo_that_may_have_no_end_or_is_large_is_refused_before_it_is_read(crossing, tmp_path, monkeypatch):
    monkeypatch.setattr("ctmtools.pages.content.read_bytes", lambda path: pytest.fail("it is read"))
    os.mkfifo(tmp_path / "pipe.png")
    (tmp_path / "device.png").symlink_to("/dev/zero")
    with open(tmp_path / "large.png", "wb") as file:
        file.truncate(1 << 32)
    for name, fault in [("pipe.png", "is a pipe or a device"), ("device.png", "is a pipe or a device"), ("large.png", "has 4,294,967,296 bytes")]:
        with pytest.raises(Problem, match=f"--logo .*{name}: {fault}"):
            Heading(logo=tmp_path / name).logo_data()
