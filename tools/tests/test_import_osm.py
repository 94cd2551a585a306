"""Maps of OpenStreetMap as studies: what is read of a made town, worked out on paper, and what is refused.

The town's metres to the east of 11.0 are 1/74630 and to the north of 48.0 1/111190 of a degree. Its motorway, A 9, has an
off-ramp and an on-ramp that lead to a roundabout; its streets have signals, carriageways side by side, a pair of one-way
streets, a gap, and some that lead nowhere.
"""

import csv
import datetime
import gzip
import shutil
import subprocess
from math import cos, pi, sin
from pathlib import Path
from types import SimpleNamespace

import pytest

from ctmtools import Problem, build, import_osm, queues_of, read_report, read_study
from ctmtools.imports.osm import Reader, box_of, read_map
from ctmtools.imports.osm_roads import CLASSES, classes_of
from ctmtools.imports.road_names import short_name
from ctmtools.imports.streets import Street

from .examples import EXAMPLES

TOWN = Path(__file__).parent / "maps/town.osm"
HEAD = '<?xml version="1.0"?>\n<osm version="0.6">\n'


def town(classes=CLASSES, box=None):
    """The streets of the town, and what became of it."""
    return read_map(str(TOWN), classes, box, 2)


def east_and_north(place):
    """Where a place lies, in metres."""
    return (place[0] - 11) * 74630, (place[1] - 48) * 111190


def of_kind(places, kind):
    """The streets of a kind of places, with where these lie in whole metres."""
    return [(place.street, tuple(round(value) for value in east_and_north(place.at))) for place in places if place.kind == kind]


def road(highway="primary", name="1", nodes=(1, 2), **tags):
    """A way of a map."""
    tags = {"highway": highway, **{key.replace("__", ":"): value for key, value in tags.items()}}
    return (f'<way id="{name}">' + "".join(f'<nd ref="{node}"/>' for node in nodes) +
            "".join(f'<tag k="{key}" v="{value}"/>' for key, value in tags.items()) + "</way>\n")


def made(path, *ways, nodes=4, step=0.01, west=9.0):
    """A map of some ways, over nodes that stand some degrees apart in a row to the north."""
    path.write_text(HEAD + "".join(f'<node id="{i}" lat="{48 + step * i}" lon="{west}"/>\n' for i in range(1, nodes + 1)) +
                    "".join(ways) + "</osm>\n")
    return str(path)


def streets_of(path):
    return read_map(path, CLASSES, None, 2)[0].streets


def test_lanes_and_speeds_are_as_the_map_says():
    found, _ = town()
    said = {name: (street.lanes, street.speed) for name, street in found.streets.items()}
    assert {name: said[name] for name in ("101", "104", "105", "111", "120#0", "121#0", "-121#0", "125", "130#0")} == {
        "101": (3, 120), "104": (2, 120), "105": (3, 142),  # netconvert has 142 km/h where there is no limit
        "111": (1, 60), "120#0": (1, 50), "121#0": (1, 50), "-121#0": (2, 50),  # 3 lanes, one of them to the east
        "125": (1, 50),  # DE:urban
        "130#0": (1, 48.3)}  # 30 mph
    assert "-151" in said and "151" not in said  # Untere Gasse leads against its way, oneway=-1


def test_what_the_map_does_not_say_is_a_guess_and_told():
    found, places = town()
    assert found.streets["112"].speed == 80 and found.streets["112"].lanes == 1  # a ramp of a motorway
    # A ring of eight sides round 20 m is 8·2·20·sin(22.5°) = 122.5 m, a radius of 19.5 m: 3.6·sqrt(5.5·19.5) = 37.3 km/h.
    assert found.streets["110#0"].speed == pytest.approx(37.3, abs=0.1)
    what = {place.kind: [other.what for other in places if (other.kind, other.street) == (place.kind, "Kreisel")] for place in places}
    assert what["speed"] == ["37 km/h by a radius of 19 m"] and what["lanes"] == ["2 by the class primary"]
    assert what["roundabout"] == ["a ring of 4 streets of 122 m in all"]
    assert {street for street, _ in of_kind(places, "speed")} == {"Untere Gasse", "Am Graben", "Kreisel", "motorway_link 112",
                                                               "Obere Gasse", "Am Tor"}


@pytest.mark.parametrize("arms", [(20,), (20, 24)])
def test_a_roundabout_of_one_or_two_arms_is_one(tmp_path, arms):
    """Eight sides round 32 m are 8·2·32·sin(22.5°) = 195.9 m, a radius of 31.2 m: 3.6·sqrt(5.5·31.2) = 47.2 km/h."""
    ring = {i: (32 * cos(pi * i / 4), 32 * sin(pi * i / 4)) for i in range(8)} | {20: (800, 0), 24: (-800, 0)}
    path = tmp_path / "m.osm"
    path.write_text(HEAD + "".join(f'<node id="{i}" lat="{48 + y / 111190}" lon="{11 + x / 74630}"/>' for i, (x, y) in ring.items()) +
                    road(name="9", nodes=(*range(8), 0), junction="roundabout", lanes="1") +
                    "".join(road(name=str(arm), nodes=(arm, arm % 20), lanes="2", maxspeed="50") for arm in arms) + "</osm>")
    found, places = read_map(str(path), CLASSES, None, 2)
    assert [place.what for place in places if place.kind in ("roundabout", "speed")] == [
        "a ring of 2 streets of 196 m in all", "47 km/h by a radius of 31 m"]
    assert [street.speed for name, street in found.streets.items() if name.startswith("9")] == [pytest.approx(47.2, abs=0.2)] * 2
    entering = {pair: way for pair, way in found.ways.items() if pair[0] in map(str, arms) and pair[1].startswith("9")}
    assert len(entering) == len(arms) and all(way.ring == 1 and len(way.yields) == 1 for way in entering.values())


def test_a_roundabout_of_several_names_has_that_of_its_first_street():
    streets = {name: Street(name, *ends, 0.05, 1, 30, [(11, 48), (11.001, 48)], title=title)
               for name, ends, title in (("8", "ab", "Nordring"), ("9", "ba", "Südring"))}
    ways = dict.fromkeys(streets, SimpleNamespace(tags={"maxspeed": "30"}))
    own = SimpleNamespace(streets=SimpleNamespace(streets=streets), ways=ways, places=[])
    Reader._take_roundabout(own, ["a", "b"])
    assert [(place.kind, place.street) for place in own.places] == [("roundabout", "Nordring")]


def test_what_became_of_the_map_is_told_with_its_place():
    found, places = town()
    assert of_kind(places, "gap") == [("Am Graben", (1300, 196))]
    assert of_kind(places, "roundabout") == [("Kreisel", pytest.approx((420, 400), abs=8))]
    assert {street for street, _ in of_kind(places, "left out")} == {"Am Graben", "Inselweg", "Rundweg", "Am Tor",
                                                                  'Sackgasse "Zur Mühle", Hof'}
    # It is one-way from node 70 on.
    assert dict(of_kind(places, "left out"))['Sackgasse "Zur Mühle", Hof'] == (1300, 700)
    assert of_kind(places, "dead end") == [("Am Graben", (1300, 200))]
    assert of_kind(places, "barred") == [("Privatweg", (900, -1000))]
    assert of_kind(places, "signal") == [("Bahnhofstraße and Münchner Straße", (900, 400)),  # in the order of the network's streets
                                         ("Bahnhofstraße and Ring", pytest.approx((900, -6), abs=7))]
    assert of_kind(places, "signal left out") == [("Münchner Straße", (700, 400))]
    assert of_kind(places, "joined") == [("Bahnhofstraße and Ring", pytest.approx((900, -6), abs=7))]
    assert "1 gaps lie between streets that go on behind them, and stay: Am Graben at 11.01742, 48.00176" in found.notes


def test_streets_lie_where_the_map_has_them():
    found, _ = town()
    assert found.crs == "EPSG:4326"
    assert [east_and_north(point) for point in found.streets["111"].points] == [
        pytest.approx(place, abs=0.1) for place in ((0, 0), (150, 200), (405.86, 385.86))]


def test_who_gives_way_has_the_names_of_the_map(tool):
    _, out, _ = tool("import", "osm", TOWN)
    assert "by the gaps of their kind: Münchner Straße west to Kreisel north-west, " in out
    assert "don't take gaps as on streets: motorway_link 112 north-west to A 9 north 3\n" in out  # a ramp of 80 km/h onto 120 km/h
    text = Path("town.toml").read_text()
    # The ring has four arms, and nobody comes in from the on-ramp.
    assert text.count('kind = "roundabout"') == 3 and 'yields_to = [["Kreisel north-east", "Kreisel north-west"]]' in text


def rows_of(name):
    with open(name) as file:
        return list(csv.DictReader(file))


def test_the_tables_name_each_gate_and_exit_where_its_street_begins_or_ends(tool):
    assert tool("import", "osm", TOWN)[0] == 0
    study = read_study("town.toml")
    lies = {name: [(float(row["longitude"]), float(row["latitude"])) for row in rows_of("town.places.csv")
                   if row["kind"] == kind and row["what"].startswith(f"{name}, ")]
            for kind, names in (("gate", study.gates), ("exit", study.exits)) for name in names}
    into = {gate.into: lies[gate.name] for gate in study.gates.values()}
    out_of = {exit_.source: lies[exit_.name] for exit_ in study.exits.values()}
    nodes = {"A 9 north": (11, 47.9865096), "A 9 south": (10.9996650, 48.0224840), "Ring east": (10.9979901, 47.9998921)}
    assert {name: into[name] for name in nodes} == {name: [pytest.approx(at, abs=1e-5)] for name, at in nodes.items()}
    nodes = {"A 9 north 3": (11, 48.0224840), "A 9 south": (10.9996650, 47.9865096), "Seestraße south": (11.0056278, 47.9910064)}
    assert {name: out_of[name] for name in nodes} == {name: [pytest.approx(at, abs=1e-5)] for name, at in nodes.items()}
    asked = {row["gate"]: (float(row["longitude"]), float(row["latitude"])) for row in rows_of("town.demand.csv")}
    assert asked == {name: lies[name][0] for name in study.gates}


def test_the_table_of_places_has_what_became_of_the_map(tool):
    assert tool("import", "osm", TOWN)[0] == 0
    rows = {(row["kind"], row["street"]): row for row in rows_of("town.places.csv")}
    # Between nodes 81 and 82, 0.0000719 degrees of latitude of each 111.19 km.
    assert rows["gap", "Am Graben"] == {"kind": "gap", "street": "Am Graben", "longitude": "11.01742", "latitude": "48.00176",
                                        "what": "8 m between two ends that the map doesn't join"}
    assert rows["speed", "Obere Gasse"]["what"] == "50 km/h by the class residential"
    assert rows["lanes", "Obere Gasse"]["what"] == "1 by the class residential"


def test_guesses_are_told_with_the_study(tool):
    out, notes = tool("import", "osm", TOWN)[1], read_study("town.toml").remarks
    for words in ("6 ways have no speed on the map, or none that says both directions, and have a guess: Untere Gasse at 11.01742, 48.00684",
                  "8 ways have no number of lanes on the map, or none that says both directions, and have a guess: Seestraße at"):
        assert f"  {words}" in out and any(note.startswith(words) for note in notes)


def filled(name, **vehicles):
    """Fills in the vehicles of the first hour in a table, by the name of a street, or of two for a pair."""
    rows = rows_of(name)
    for row in rows:
        first = row.get("time", row.get("start")) == "06:00"
        street = row["street"] if "street" in row else f"{row['from_street']} to {row['to_street']}"
        row["vehicles"] = vehicles.get(street, 0) if first else 0
    with open(name, "w") as file:
        writer = csv.DictWriter(file, list(rows[0]))
        writer.writeheader()
        writer.writerows(rows)


def test_the_table_filled_in_is_the_demand_of_the_study(tool, program):
    status, out, _ = tool("import", "osm", TOWN, "--step", "5 s")
    assert status == 0 and out.splitlines()[0] == "town.toml: 46 streets, 2 signals"
    filled("town.demand.csv", **{"A 9": 3000, "Ring": 400, "Münchner Straße": 200})
    assert tool("run", "town.toml", "--every", "300")[0] == 0
    report = read_report("town.report")
    assert report.total.entered == pytest.approx(2 * 3000 + 2 * 400 + 200) and report.total.left == pytest.approx(7000)
    # Nobody leaves the motorway to the south, and of the other one lane of four is the off-ramp's.
    assert report.cells.come["out-A-9-4"] == pytest.approx(3000)
    assert report.cells.come[[cell for cell in report.cells.index if cell.startswith("Motorway-lin")]].iloc[0] == \
        pytest.approx(750, rel=0.001)


def test_trips_filled_in_choose_their_ways(tool, program):
    assert tool("import", "osm", TOWN, "--trips", "--roads", "motorway,primary,secondary", "--step", "5 s", "--until", "20 min", "--after",
                "10 min", "-o", "t.toml")[0] == 0
    filled("t.trips.csv", **{"A 9 to Seestraße": 60, "Seestraße to A 9": 40})
    status, out, err = tool("assign", "t.toml", "--iterations", "3")
    assert status == 0, err
    report = read_report("t.assigned.report")
    assert report.total.left == pytest.approx(100, rel=1e-4) and report.cells.come["out-Seestrasse-2"] == pytest.approx(60, rel=0.03)


def test_the_queue_of_a_lane_drop_on_a_map(tool, program):
    """Two lanes pass 2·(3600/(1.5 + 7.5/25) - 1) = 3,998 vehicles/h. 4,998 come for an hour and then 2,998 for one."""
    assert tool("import", "osm", EXAMPLES / "lane-drop.osm", "--until", "2 h", "--headway", "1.5", "--step", "10 s")[0] == 0
    with open("lane-drop.demand.csv") as file:
        text = file.read()
    with open("lane-drop.demand.csv", "w") as file:
        file.write(text.replace("06:00,0", "06:00,4998").replace("07:00,0", "07:00,2998"))
    assert tool("run", "lane-drop.toml")[0] == 0
    report = read_report("lane-drop.report")
    queue, = queues_of(report).itertuples()
    # 1,000 wait an hour later, and nobody two hours later: 1,000 vehicle-hours. In the queue stand 400 - 3,998/18 = 177.9
    # vehicles/km. Its tail moves back at 1,000/(177.9 - 55.5) = 8.17 km/h, until those of 07:00 meet it 7.49 km before the drop,
    # and then forward at 1,000/(177.9 - 33.3) = 6.92 km/h. Who is the first of all comes to the drop 6 min 40 s after 06:00.
    assert report.delay_vehicle_hours == pytest.approx(1000, rel=0.001)
    assert queue.reach == pytest.approx(7.49, abs=0.3) and queue.most_waiting == pytest.approx(1000, rel=0.002)  # cells of 250 m
    assert abs((queue.cleared - datetime.datetime(1900, 1, 1, 8, 6, 40)).total_seconds()) <= 60


def test_a_form_that_is_filled_in_is_not_written_over(tool):
    assert tool("import", "osm", TOWN)[0] == 0 and tool("import", "osm", TOWN)[0] == 0
    filled("town.demand.csv", Ring=400)
    before = {path: path.read_bytes() for path in Path().iterdir()}
    status, _, err = tool("import", "osm", TOWN, "--until", "2 h")
    assert status == 2 and err == ("ctm-tools: town.demand.csv: stands there, and may be filled in; name another study with -o, or "
                                   "move it away\n")
    assert {path: path.read_bytes() for path in Path().iterdir()} == before


def test_the_same_map_gives_the_same_bytes(tool, tmp_path):
    (tmp_path / "town.osm.gz").write_bytes(gzip.compress(TOWN.read_bytes()))
    for folder, source in zip("abc", (TOWN, TOWN, tmp_path / "town.osm.gz")):
        (tmp_path / folder).mkdir()
        assert tool("import", "osm", source, "-o", f"{folder}/town.toml")[0] == 0
    names = ["town.demand.csv", "town.places.csv", "town.toml"]
    one, two, packed = ([(tmp_path / folder / name).read_bytes() for name in names] for folder in "abc")
    assert one == two == packed and sorted(path.name for path in (tmp_path / "a").iterdir()) == names


def test_a_study_of_each_map_is_built(tool):
    assert tool("import", "osm", TOWN)[0] == 0
    built = build(read_study("town.toml"))
    assert built.units.roads["Münchner Straße east"][0] == "Munchner-S-4.01"
    assert built.units.roads['Am Graben north'] and not any("Inselweg" in name for name in built.units.roads)


def test_roads_of_some_classes_with_their_ramps():
    found, places = town(classes_of("motorway"))
    assert {street.title for street in found.streets.values()} == {"A 9", "motorway_link 111", "motorway_link 112"}
    assert of_kind(places, "dead end") == [("motorway_link 112", (406, 414)), ("motorway_link 111", (406, 386))]  # at the roundabout
    found, _ = town(classes_of("motorway,primary"))
    assert {"motorway_link 111", "motorway_link 112", "Kreisel"} <= {street.title for street in found.streets.values()}
    assert classes_of("primary") == ("primary", "primary_link") and classes_of(None) == CLASSES


def test_a_box_of_a_packed_map(tmp_path):
    subprocess.run(["osmium", "cat", TOWN, "-o", tmp_path / "town.osm.pbf"], check=True)
    whole, _ = read_map(str(tmp_path / "town.osm.pbf"), CLASSES, None, 2)
    assert whole.streets == town()[0].streets and whole.title == "town"
    # The box has the crossing of Münchner Straße and Bahnhofstraße, and not the motorway nor the Ring.
    found, places = read_map(str(tmp_path / "town.osm.pbf"), CLASSES, box_of("11.010,48.002,11.013,48.005"), 2)
    assert {street.title for street in found.streets.values()} == {"Münchner Straße", "Bahnhofstraße"}
    assert not of_kind(places, "dead end") and found.programs.keys() == {"40"}


@pytest.mark.parametrize("tags, lanes, speed", [
    ({"lanes": "2;3", "maxspeed": "fast"}, (2, 2), 100), ({"lanes": "0", "maxspeed": "0"}, (2, 2), 100),
    ({"lanes": "5"}, (3, 2), 100), ({"lanes__forward": "3", "lanes__backward": "1", "lanes": "4"}, (3, 1), 100),
    ({"lanes": " 2 ", "maxspeed": " 30 mph "}, (1, 1), 48.3),
    ({"lanes": "4", "maxspeed": "50 mph"}, (2, 2), 80.5), ({"lanes": "4", "maxspeed": "DE:urban"}, (2, 2), 50),
    ({"lanes": "2", "maxspeed": "XX:nowhere"}, (1, 1), 100), ({"lanes": "2", "oneway": "yes", "maxspeed": "30"}, (2,), 30),
    ({"lanes": "2", "oneway": "-1", "maxspeed": "30"}, (2,), 30), ({"junction": "roundabout", "lanes": "1"}, (1,), 100)])
def test_lanes_and_speeds_of_other_words(tmp_path, tags, lanes, speed):
    found = streets_of(made(tmp_path / "m.osm", road(**tags)))
    assert {name: street.lanes for name, street in found.items()} == dict(zip(
        ("-1",) if tags.get("oneway") == "-1" else ("1", "-1"), lanes))
    assert {street.speed for street in found.values()} == {speed}


@pytest.mark.parametrize("tags, kinds", [
    ({"lanes": "2", "maxspeed": "50"}, []), ({"lanes": "2;3", "maxspeed": "fast"}, ["speed", "lanes"]),
    ({"lanes": "3", "maxspeed": "50"}, ["lanes"]), ({"lanes": "3", "oneway": "yes", "maxspeed": "50"}, []),
    ({"lanes": "2", "maxspeed": "XX:nowhere"}, ["speed"]), ({"lanes": "2", "maxspeed": "FR:urban"}, []),
    ({"lanes__forward": "1", "lanes__backward": "1", "maxspeed__forward": "50", "maxspeed__backward": "30"}, []),
    ({"lanes": "2", "maxspeed": "50", "maxspeed__backward": "30"}, []), ({"lanes": "2", "maxspeed__type": "sign"}, ["speed"]),
    ({"lanes": " 2 ", "maxspeed": " 50 "}, []), ({"lanes": "1", "maxspeed": "50"}, ["lanes"]),
    ({"lanes": "4", "lanes__forward": "3", "maxspeed": "50"}, [])])
def test_each_guess_is_told(tmp_path, tags, kinds):
    places = read_map(made(tmp_path / "m.osm", road(**tags)), CLASSES, None, 2)[1]
    assert [place.kind for place in places] == kinds


@pytest.mark.parametrize("tags, kind, what", [
    ({"maxspeed__backward": "50", "lanes": "2"}, "speed", "100 km/h, of the direction of which the map says none"),
    ({"maxspeed__forward": "50", "lanes": "2"}, "speed", "50 km/h, of the direction of which the map says none"),
    ({"maxspeed": "50", "lanes__backward": "3"}, "lanes", "2, of the direction of which the map says none"),
    ({"maxspeed": "50", "lanes__forward": "3"}, "lanes", "2, of the direction of which the map says none")])
def test_a_guess_of_one_direction_is_told_where_that_begins(tmp_path, tags, kind, what):
    places = read_map(made(tmp_path / "m.osm", road(**tags)), CLASSES, None, 2)[1]
    south = pytest.approx((9, 48.01 if any("backward" in key for key in tags) else 48.02))
    assert [(place.kind, place.what, place.at) for place in places] == [(kind, what, south)]


@pytest.mark.parametrize("tags, kept", [
    ({"access": "private"}, False), ({"access": "no", "motor_vehicle": "yes"}, True), ({"motor_vehicle": "no"}, False),
    ({"access": "destination"}, True), ({"motorcar": "no", "access": "yes"}, False), ({"vehicle": "private"}, False),
    ({"access": "no", "vehicle": "yes", "motorcar": "private"}, False)])
def test_who_may_use_a_way(tmp_path, tags, kept):
    path = made(tmp_path / "m.osm", road(), road(name="2", nodes=(2, 3), **tags))
    assert ("2" in streets_of(path)) == kept


def test_lanes_are_joined_as_their_arrows_say(tmp_path):
    path = tmp_path / "m.osm"
    path.write_text(HEAD + '<node id="1" lat="48.0" lon="9.0"/><node id="2" lat="48.01" lon="9.0"/><node id="3" lat="48.02" lon="9.0"/>'
                    '<node id="4" lat="48.01" lon="9.01"/>' +
                    road(oneway="yes", lanes="3", turn__lanes="through|through|right") +
                    road(name="2", nodes=(2, 3), oneway="yes", lanes="2") +
                    road(name="3", nodes=(2, 4), oneway="yes", lanes="1") + "</osm>")
    found = read_map(str(path), CLASSES, None, 2)[0]
    assert {pair: way.lanes for pair, way in found.ways.items()} == {("1", "2"): 2, ("1", "3"): 1}


def test_a_turn_that_is_forbidden(tmp_path):
    path = tmp_path / "m.osm"
    path.write_text(HEAD + '<node id="1" lat="48.0" lon="9.0"/><node id="2" lat="48.01" lon="9.0"/><node id="3" lat="48.02" lon="9.0"/>'
                    '<node id="4" lat="48.01" lon="9.01"/>' + road(lanes="2") + road(name="2", nodes=(2, 3), lanes="2") +
                    road(name="3", nodes=(2, 4), lanes="2") +
                    '<relation id="9"><member type="way" ref="1" role="from"/><member type="node" ref="2" role="via"/>'
                    '<member type="way" ref="3" role="to"/><tag k="type" v="restriction"/><tag k="restriction" v="no_right_turn"/>'
                    "</relation></osm>")
    found = read_map(str(path), CLASSES, None, 2)[0]
    assert ("1", "2") in found.ways and ("1", "3") not in found.ways and ("-2", "3") in found.ways


def test_both_directions_of_a_street_stay_where_one_does(tmp_path):
    path = tmp_path / "m.osm"
    made(path, road(lanes="2", maxspeed="50"), nodes=2)
    path.write_text(path.read_text().replace(HEAD, f'{HEAD}<bounds minlat="47" minlon="8" maxlat="49" maxlon="10"/>'))
    found, places = read_map(str(path), CLASSES, None, 2)
    assert found.streets.keys() == {"1", "-1"}
    assert [(place.kind, place.at) for place in places] == [
        ("dead end", pytest.approx((9, 48 + north))) for north in (.02, .01)]


def test_ways_with_numbers_below_zero(tmp_path):
    path = made(tmp_path / "m.osm", road(name="-7", name_="x").replace("name_", "name"), road(name="-8", nodes=(2, 3)))
    found = streets_of(path)
    assert {name: street.title for name, street in found.items()} == {"-7": "x", "--7": "x", "-8": "primary -8", "--8": "primary -8"}


def test_names_of_all_letters_and_signs(tool, tmp_path):
    names = ["Улица Ленина", 'Weg &quot;A, B&quot;', "東京通り", "Rue de l'Église", "a\\b"]
    ways = [road(name=str(i), nodes=(i, i + 1), name_=name, lanes="2").replace("name_", "name") for i, name in enumerate(names, 1)]
    made(tmp_path / "m.osm", *ways, nodes=6)
    assert tool("import", "osm", "m.osm")[0] == 0
    study = read_study("m.toml")
    assert list(study.roads) == ["a\\b south", "Улица Ленина north"]
    assert [row["street"] for row in csv.DictReader(open("m.demand.csv"))] == ["a\\b"] * 2 + ["Улица Ленина"] * 2
    cells = {road: row[0] for road, row in build(study).units.roads.items()}
    assert cells == {"a\\b south": "A-b001", "Улица Ленина north": "Road001"}


def test_ways_of_no_length_and_over_the_nodes_of_others(tmp_path):
    (tmp_path / "m.osm").write_text(HEAD + "".join(
        f'<node id="{i}" lat="{48 + y}" lon="{9 + x}"/>' for i, x, y in ((1, 0, 0), (2, 0, .01), (3, 0, .01), (4, .01, .01))) +
        road(lanes="2") + road(name="2", nodes=(2, 3), lanes="2") + road(name="3", nodes=(3, 4), lanes="2") +
        road(name="4", nodes=(3, 4), lanes="2", ref="B 4") + "</osm>")
    found, places = read_map(str(tmp_path / "m.osm"), CLASSES, None, 2)
    assert [(place.street, place.what) for place in places if place.kind == "no street"] == [
        ("primary 2", "it has no length"), ("B 4", "primary 3 lies over the same nodes")]
    assert ("1", "3") in found.ways  # on both sides of what has no length


@pytest.mark.parametrize("title, names", [("in-A", ["In-A", "In-A-2"]), ("", ["Road", "Road-2"]), ("Ärger Straße 12", [
    "Arger-Strass", "Arger-Stra-2"]), ("9. Mai", ["9-Mai", "9-Mai-2"])])
def test_short_names(title, names):
    first = short_name(title, set())
    assert [first, short_name(title, {first})] == names


def test_a_way_past_nodes_that_are_not_in_the_file(tmp_path):
    path = made(tmp_path / "m.osm", road(nodes=(1, 99, 3), lanes="2", maxspeed="50"))
    found, places = read_map(path, CLASSES, None, 2)
    assert [(place.kind, place.what) for place in places] == [("missing", "1 of its 3 nodes aren't in the file")]
    assert found.streets["1"].length == pytest.approx(2.22, abs=0.01)


def test_from_python(tmp_path):
    study = import_osm(TOWN, tmp_path / "town.toml", roads="motorway", until="2 h")
    assert study.title == "town" and study.scenario.duration == 9000
    assert {gate.into for gate in study.gates.values()} == {"A 9 north", "A 9 south", "motorway_link 112 north-west"}
    with pytest.raises(Problem, match='--roads: "lane" is no class of road'):
        import_osm(TOWN, tmp_path / "town.toml", roads="lane")


@pytest.mark.parametrize("content, words, cause", [
    ("<html></html>", [], "m.osm: expected <osm>, found <html>"),
    ("lon,lat\n", [], "m.osm: no XML: syntax error: line 1, column 0"),
    ("", [], "m.osm: no XML: no element found: line 1, column 0"),
    (HEAD + '<node id="1" lat="48" lon="9"/>\n</osm>', [], "m.osm: has no roads: 1 node, and no way with the key highway"),
    (HEAD + '<node id="1" lat="48" lon="9"/>\n' + road(nodes=(1,)) + "</osm>", [],
     "m.osm: has no roads that cars may use: of 1 ways of the classes that are asked for 0 are barred to them, and 1 have no two "
     "nodes that are in it"),
    (HEAD + '<node id="1" lat="48" lon="9"/>' * 2 + '<node id="1" lat="48.1" lon="9"/>\n</osm>', [],
     "m.osm: node 1: is there twice, and not alike"),
    (HEAD + road() * 2 + road(nodes=(2, 3)) + "</osm>", [], "m.osm: way 1: is there twice, and not alike"),
    (HEAD + '<node id="1" lat="48"/>\n</osm>', [], 'm.osm: node 1: lon: expected degrees, found ""'),
    (HEAD + '<node id="1" lat="480" lon="9"/>\n</osm>', [], "m.osm: node 1: lat: expected degrees from -90 to 90, found 480"),
    (HEAD + '<node id="1" lat="48" lon="179.9"/><node id="2" lat="48" lon="-179.9"/>' + road() + "</osm>", [],
     "m.osm: reaches from longitude -179.9 to 179.9: a map over the date line can't be kept; take one side of it by --box"),
    (TOWN.read_text(), ["--box", "20,50,21,51"], "m.osm: box 20,50,21,51: has no roads: 0 nodes, and no way with the key highway"),
    (TOWN.read_text(), ["--box", "11,48,11.1"], '--box: expected west,south,east,north in degrees, found "11,48,11.1"'),
    (TOWN.read_text(), ["--box", "179,48,-179,49"], "--box: expected a west below the east from -180 to 180, and a south below the "
     'north from -90 to 90, found "179,48,-179,49"; a box over the date line is two'),
    (TOWN.read_text(), ["--roads", "motorway,street"], f'--roads: "street" is no class of road; there are {", ".join(CLASSES)}'),
    (TOWN.read_text(), ["--roads", "tertiary"], "m.osm: has no roads of the classes tertiary, tertiary_link; the classes of its ways "
     "are residential (9), motorway (5), primary (5), motorway_link (2), secondary (2), footway (1)"),
    (HEAD + "".join(f'<node id="{i}" lat="{48 + y}" lon="{9 + x}"/>' for i, x, y in ((1, 0, 0), (2, .01, 0), (3, .01, .01), (4, 0, .01))) +
     road(nodes=(1, 2, 3, 4, 1), oneway="yes") + "</osm>", [],
     "m.osm: no road leads from an end of a street to another, so no vehicle could drive there"),
    (TOWN.read_text(), ["--until", "30 h"], "--until: with --after it is more than a day, and an hour of the file of demand would "
     "be of two days"),
    (TOWN.read_text(), ["-o", "m.txt"], "m.txt: a study's name ends with .toml")])
def test_what_is_refused(tool, tmp_path, content, words, cause):
    (tmp_path / "m.osm").write_text(content)
    status, out, err = tool("import", "osm", "m.osm", *words)
    assert (status, out, err) == (2, "", f"ctm-tools: {cause}\n")
    assert [path.name for path in tmp_path.iterdir()] == ["m.osm"]


def test_a_map_that_is_not_there(tool):
    assert tool("import", "osm", "m.osm")[2] == "ctm-tools: m.osm: there is no such file\n"


@pytest.mark.parametrize("missing, package, words", [("netconvert", "sumo", []), ("osmium", "osmium-tool", ["--box", "11,48,12,49"])])
def test_a_program_that_is_missing_is_named(tool, tmp_path, monkeypatch, missing, package, words):
    there = tmp_path / "bin"
    there.mkdir()
    for name in {"netconvert", "osmium"} - {missing}:
        (there / name).symlink_to(shutil.which(name))
    monkeypatch.setenv("PATH", str(there))
    assert tool("import", "osm", TOWN, *words)[2] == (
        f"ctm-tools: {missing}, which reads {TOWN}, isn't installed: sudo apt-get install {package}\n")


def test_a_program_that_fails_is_told_in_its_own_words(tool, tmp_path, monkeypatch):
    program = tmp_path / "netconvert"
    program.write_text("#!/bin/sh\necho 'Warning: of little'\necho 'Error: no edges loaded.' >&2\necho 'Quitting (on error).' >&2\nexit 1\n")
    program.chmod(0o755)
    monkeypatch.setenv("PATH", str(tmp_path), prepend=":")
    assert tool("import", "osm", TOWN)[2] == (f"ctm-tools: {TOWN}: netconvert failed with status 1: Error: no edges loaded.; "
                                              "Quitting (on error).\n")
    assert [path.name for path in tmp_path.iterdir()] == ["netconvert"]


def test_a_packed_map_that_is_none(tool, tmp_path):
    (tmp_path / "m.osm.pbf").write_bytes(b"none")
    status, _, err = tool("import", "osm", "m.osm.pbf")
    assert status == 2 and err.startswith("ctm-tools: m.osm.pbf: osmium failed with status 1: ")
