"""Trips of other programs: where vehicles of SUMO begin and end, its matrices, and DTALite's demand between zones."""

import pytest

from ctmtools import assign, import_sumo, read_study
from ctmtools.assignment.assigning import Assignment
from ctmtools.imports.sumo import read_network
from ctmtools.imports.zones import put_trips, read_districts, read_matrix

NET = """<net version="1.9">
<edge id="in" from="a" to="b"><lane id="in_0" index="0" speed="13.89" length="400"/></edge>
<edge id="up" from="b" to="c"><lane id="up_0" index="0" speed="13.89" length="600"/></edge>
<edge id="low" from="b" to="c"><lane id="low_0" index="0" speed="13.89" length="500"/></edge>
<edge id="out" from="c" to="d"><lane id="out_0" index="0" speed="13.89" length="400"/></edge>
<junction id="a" type="dead_end" x="0" y="0"/><junction id="b" type="priority" x="400" y="0"/>
<junction id="c" type="priority" x="900" y="0"/><junction id="d" type="dead_end" x="1300" y="0"/>
<connection from="in" to="up" fromLane="0" toLane="0" dir="s" state="M"/>
<connection from="in" to="low" fromLane="0" toLane="0" dir="s" state="M"/>
<connection from="up" to="out" fromLane="0" toLane="0" dir="s" state="M"/>
<connection from="low" to="out" fromLane="0" toLane="0" dir="s" state="m"/>
</net>"""
TAZ = """<additional><taz id="1" edges="in"/><taz id="2"><tazSource id="in" weight="1"/><tazSink id="out" weight="1"/></taz>
</additional>"""


def demands(path):
    return [(trips.source, trips.into, [(float(flow.start), float(flow.end), float(flow.flow)) for flow in trips.demand])
            for trips in read_study(path).scenario.trips]


@pytest.fixture
def net(tmp_path):
    (tmp_path / "n.net.xml").write_text(NET)
    return tmp_path


@pytest.mark.parametrize("name, route", [("t.trips.xml", 'from="in" to="out"'), ("t.rou.xml", "")])
def test_vehicles_of_sumo_become_trips_and_choose_their_way(tool, net, name, route):
    inner = "" if route else '<route edges="in up out"/>'
    kind = "trip" if route else "vehicle"
    rows = "".join(f'<{kind} id="{i}" depart="{6 * i}" {route}>{inner}</{kind}>' for i in range(150))
    (net / name).write_text(f"<routes>{rows}</routes>")
    status, _, err = tool("import", "sumo", "n.net.xml", "--routes", name, "--trips", "--until", "900", "--interval", "450",
                          "-o", "n.toml")
    assert status == 0, err
    # A vehicle each 6 s: 600 vehicles/h.
    assert demands(net / "n.toml") == [("in-in", "out-out", [(0, 450, 600), (450, 900, 600)])]
    made = Assignment(read_study(net / "n.toml").scenario)
    made.start()
    roads = {road for row in made.rows() for road in row.roads}
    assert "low" in roads and "up" not in roads


@pytest.mark.parametrize("matrix", ["$OR;D2\n0.00 0.15\n1.00\n* a comment\n1 2 100\n2 2 50\n",
                                    "$VMR;D2\n* type\n4\n0.00 0.15\n* factor\n1.00\n2\n1 2\n0 100\n0 50\n",
                                    "$V;D2\n0.00 0.15\n1.00\n2\n1 2\n0 100\n0 50\n"])
def test_a_matrix_of_sumo_becomes_trips(tool, net, matrix):
    (net / "t.taz.xml").write_text(TAZ)
    (net / "m.od").write_text(matrix)
    status, _, err = tool("import", "sumo", "n.net.xml", "--trips", "--taz", "t.taz.xml", "--matrix", "m.od", "--until", "900",
                          "-o", "n.toml")
    assert status == 0, err
    # 150 vehicles in a quarter of an hour.
    assert demands(net / "n.toml") == [("in-in", "out-out", [(0, 900, 600)])]


def test_a_pair_is_parted_by_the_weights_of_its_streets_and_one_without_a_way_is_told(net):
    (net / "t.taz.xml").write_text('<additional><taz id="1"><tazSource id="in" weight="2"/><tazSink id="in" weight="1"/></taz><taz id="2">'
                                   '<tazSource id="up" weight="1"/><tazSink id="up" weight="1"/><tazSink id="low" weight="3"/></taz></additional>')
    found = read_network(net / "n.net.xml")
    # A quarter of 40 goes to up, the others to low; no route leads from up to in.
    put_trips(found, read_districts(found, net / "t.taz.xml"), (0, 900, [("1", "2", 40), ("2", "1", 7)]), "m.od", 900)
    assert [(trip.route, trip.vehicles) for trip in found.trips] == [(["in", "up"], 10), (["in", "low"], 30)]
    assert found.notes[-1] == "m.od: 7 vehicles without a route over the network are left out" and found.said[-1].kept == 40


@pytest.mark.parametrize("matrix, told", [
    ("$V;D2\n0.00 0.15\n1\n2\n1 2\n0 100 0\n", "2 districts need as many names and 4 numbers"),
    ("$V;D2\n0.00 0.15\n1\n2.5\n1 2\n0 9\n0 9\n", 'line 4: expected the number of districts, found "2.5"'),
    ("$V;D2\n0.00 0.15\n1\n2\n1 2\n0 9\n0 nan\n", 'line 7: expected a number of 0 or more, found "nan"'),
    ("$VMR;D2\n0.00 0.15\n1\n2\n1 2\n0 9\n0 9\n", 'line 3: expected two times as hours.minutes, as 7.00 8.30, found "1"'),
    ("$OR;D2\n0.00 0.15\n1\n1 2 -5\n", 'line 4: expected a number of 0 or more, found "-5"'),
    ("$OR;D2\n0.00 0.15\n1\n1 2 nan\n", 'line 4: expected a number of 0 or more, found "nan"'),
    ("$OR;D2\n0.00 0.15\n1\n1 2 1_0\n", 'line 4: expected a number of 0 or more, found "1_0"'),
    ("$OR;D2\n0.00 0.15\ninf\n1 2 5\n", 'line 3: expected a number of 0 or more, found "inf"'),
    ("$OR;D2\n0 1\n1\n1 2 5\n", 'line 2: expected two times as hours.minutes, as 7.00 8.30, found "0 1"'),
    ("$OR;D2\n0.00 1.-5\n1\n1 2 5\n", "line 2: expected two times as hours.minutes"),
    ("$OR;D2\n0.10 0.5\n1\n1 2 5\n", "line 2: the end isn't after the start"),
    ("$OR;D2\n0.00 0.15\n1\n", "ends before its times, its factor and its rows"), ("", "no matrix of SUMO"),
    ("$OR;D2\n0.00 0.15\n1\n1 7 5\n", "there is no zone 7"), ("1 2 3\n", "no matrix of SUMO")])
def test_a_matrix_that_is_none_is_refused(tool, net, matrix, told):
    (net / "t.taz.xml").write_text(TAZ)
    (net / "m.od").write_text(matrix)
    status, _, err = tool("import", "sumo", "n.net.xml", "--trips", "--taz", "t.taz.xml", "--matrix", "m.od", "-o", "n.toml")
    assert status == 2 and "m.od" in err and told in err and not (net / "n.toml").exists()


@pytest.mark.parametrize("times, wanted", [("7.00 8.00", (25200, 28800)), ("7.5 7.30", (25500, 27000)), ("0.00 0.75", (0, 4500)),
                                           ("23.30 25.15", (84600, 90900)), ("0.00 0.15 1.00", (0, 900))])
def test_the_times_of_a_matrix_are_read_as_sumo_reads_them(tmp_path, times, wanted):
    # What stands behind the point are whole minutes: SUMO's od2trips lets vehicles depart between the same seconds.
    (tmp_path / "m.od").write_text(f"$OR;D2\n{times}\n1.00\n1 2 100\n")
    assert read_matrix(tmp_path / "m.od") == (*wanted, [("1", "2", 100)])


@pytest.mark.parametrize("weight", ["-1", "nan", "inf", "x", ""])
def test_a_weight_of_a_district_that_is_none_is_refused(tool, net, weight):
    (net / "t.taz.xml").write_text(TAZ.replace('tazSource id="in" weight="1"', f'tazSource id="in" weight="{weight}"'))
    (net / "m.od").write_text("$OR;D2\n0.00 0.15\n1.00\n1 2 100\n")
    status, _, err = tool("import", "sumo", "n.net.xml", "--trips", "--taz", "t.taz.xml", "--matrix", "m.od", "-o", "n.toml")
    assert status == 2 and not (net / "n.toml").exists()
    assert f't.taz.xml: taz 2, tazSource in: weight: expected a number of 0 or more, found "{weight}"' in err


def test_demand_of_dtalite_becomes_trips(tool, tmp_path):
    folder = tmp_path / "town"
    folder.mkdir()
    (folder / "node.csv").write_text("node_id,zone_id,x_coord,y_coord\n1,1,0,0\n2,,500,0\n3,2,1000,0\n")
    (folder / "link.csv").write_text("link_id,from_node_id,to_node_id,length,lanes,free_speed,directed\n"
                                     "a,1,2,0.5,1,50,1\nb,2,3,0.5,1,50,1\n")
    (folder / "demand.csv").write_text("o_zone_id,d_zone_id,volume\n1,2,300\n")
    status, _, err = tool("import", "gmns", "town", "--trips", "--until", "1800", "-o", "town.toml")
    assert status == 0, err
    assert demands(tmp_path / "town.toml") == [("in-a", "out-a", [(0, 1800, 600)])]


# A street for buses alone and a dead end beside the way.
BESIDE = NET.replace('<edge id="out"', '<edge id="bus" from="A" to="B"><lane index="0" speed="13.89" length="50" '
                     'allow="bus"/></edge><edge id="dead" from="A" to="Z"><lane index="0" speed="13.89" length="50"/></edge>'
                     '<edge id="out"').replace("</net>", "".join(
                         f'<connection from="{one}" to="{two}" fromLane="0" toLane="0" dir="s" state="M"/>' for one, two in
                         (("in", "bus"), ("bus", "out"), ("in", "dead"))) + "</net>")


def test_the_ways_are_those_of_cars_from_end_to_end(tool, net):
    (net / "n.net.xml").write_text(BESIDE)
    (net / "n.rou.xml").write_text('<routes><vType id="b" vClass="bus"/><flow id="1" begin="0" end="900" number="90" from="in" '
                                   'to="out"/><vehicle id="2" type="b" depart="5"><route edges="in bus out"/></vehicle></routes>')
    status, out, err = tool("import", "sumo", "n.net.xml", "--routes", "n.rou.xml", "--trips", "--until", "900", "-o", "n.toml")
    assert status == 0, err
    assert set(read_study(net / "n.toml").roads) == {"in", "up", "low", "out"}
    assert out.startswith("n.toml: 4 streets, 0 signals, 90 vehicles\n")
    assert "1 vehicles without a route over the network are left out, as vehicle 2 over bus" in out


# 100 vehicles in half an hour are 200 vehicles/h, and in ten hours 10.
@pytest.mark.parametrize("end, flow", [("0.30", 200), ("10.00", 10)])
def test_a_matrix_is_cut_where_the_demand_ends(net, end, flow):
    (net / "t.taz.xml").write_text(TAZ)
    (net / "m.od").write_text(f"$OR;D2\n0.00 {end}\n1.00\n1 2 100\n")
    study = import_sumo(net / "n.net.xml", net / "n.toml", trips=True, taz=net / "t.taz.xml", matrices=net / "m.od", until="15 min")
    assert [[(row.start, row.end, row.flow) for row in trips.demand] for trips in study.scenario.trips] == [[(0, 900, flow)]]


def test_an_imported_study_is_assigned_from_python_with_the_columns_of_its_file(net, program, monkeypatch):
    monkeypatch.setenv("CTM_PROGRAM", program)
    (net / "n.rou.xml").write_text('<routes><flow id="1" begin="0" end="900" number="90" from="in" to="out"/></routes>')
    import_sumo(net / "n.net.xml", net / "n.toml", trips=True, routes=net / "n.rou.xml", until=900, interval=900)
    ways = assign(net / "n.toml", net / "a.toml").rows
    assert list(ways.columns) == (net / "a.ways.csv").read_text().splitlines()[0].split(",")
    assert ways[["from", "to"]].drop_duplicates().values.tolist() == [["in-in", "out-out"]]
    assert ways.vehicles.sum() == pytest.approx(90)


@pytest.mark.parametrize("demand, words, wanted", [
    ("o_zone_id,d_zone_id,volume\n1,2,-3\n", ["--trips"], (2, "demand.csv: line 2, volume: expected a number of 0 or more")),
    ("o_zone_id,d_zone_id,volume\n1,7,3\n", ["--trips"], (2, "demand.csv: line 2, d_zone_id: there is no zone 7")),
    ("link_id,start,end,flow\na,0,60,3\n", ["--trips"], (2, "demand.csv: has no trips between zones")),
    ("o_zone_id,d_zone_id,volume\n1,2,3\n", [], (0, "demand.csv has trips between zones, which --trips takes"))])
def test_demand_of_gmns_of_the_other_kind_is_told(tool, tmp_path, demand, words, wanted):
    folder = tmp_path / "town"
    folder.mkdir()
    (folder / "node.csv").write_text("node_id,zone_id,x_coord,y_coord\n1,1,0,0\n2,2,1000,0\n")
    (folder / "link.csv").write_text("link_id,from_node_id,to_node_id,length,lanes,free_speed,directed\na,1,2,1,1,50,1\n")
    (folder / "demand.csv").write_text(demand)
    status, out, err = tool("import", "gmns", "town", *words, "-o", "town.toml")
    assert status == wanted[0] and wanted[1] in (err or out)
