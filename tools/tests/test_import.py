"""Networks of SUMO as studies: streets, lanes for cars, junctions, signals, and traffic by its routes, worked out on paper."""

import subprocess
from fractions import Fraction
from importlib.util import find_spec
from math import inf

import plain_model
import pytest

from ctmtools import Problem, build, read_study
from ctmtools.imports.importing import seconds
from ctmtools.imports.sumo import joined, read_network, streets_of
from ctmtools.imports.speed_limits import RoadLimit, limits_on
from ctmtools.imports.streets import SpeedSpan, Street
from ctmtools.imports.sumo_net import CAR, read_net
from ctmtools.imports.sumo_trips import read_trips
from ctmtools.report.reading import report_of

# Two streets, a and b, meet at J, which has a signal, and go on as c and d; c goes on as e. Only bicycles may use f, and
# one of a's three lanes is for buses.
NET = """<net version="1.9">
    <edge id=":J_0" function="internal"><lane id=":J_0_0" index="0" speed="13.9" length="9"/></edge>
    <edge id="a" from="A" to="J"><lane index="0" speed="12.5" length="250" allow="bus"/>
        <lane index="1" speed="12.5" length="250"/><lane index="2" speed="12.5" length="250"/></edge>
    <edge id="b" from="B" to="J"><lane index="0" speed="12.5" length="250"/></edge>
    <edge id="c" from="J" to="C"><lane index="0" speed="12.5" length="125"/></edge>
    <edge id="d" from="J" to="D"><lane index="0" speed="12.5" length="250"/></edge>
    <edge id="e" from="C" to="E"><lane index="0" speed="12.5" length="125"/></edge>
    <edge id="f" from="C" to="F"><lane index="0" speed="5" length="250" allow="bicycle"/></edge>
    <edge id="g" from="D" to="G"><lane index="0" speed="12.5" length="250"/></edge>
    <tlLogic id="J" type="{sort}" programID="0" offset="10">
        <phase duration="30" state="GGr"/><phase duration="4" state="yyr"/><phase duration="26" state="rrG"/>
    </tlLogic>
    <junction id="J" type="traffic_light" x="0" y="0" intLanes="" incLanes="a_0 a_1 a_2 b_0"/>
    <junction id="C" type="priority" x="125" y="0" intLanes="" incLanes="c_0"/><junction id="A" type="dead_end" x="-250" y="0" intLanes="" incLanes=""/>
    {ends}
    <connection from="a" to="c" fromLane="1" toLane="0" tl="J" linkIndex="0" dir="s" state="O"/>
    <connection from="a" to="d" fromLane="2" toLane="0" tl="J" linkIndex="1" dir="s" state="O"/>
    <connection from="b" to="c" fromLane="0" toLane="0" tl="J" linkIndex="2" dir="s" state="o"/>
    <connection from="c" to="e" fromLane="0" toLane="0" dir="s" state="M"/>
    <connection from="d" to="g" fromLane="0" toLane="0" dir="s" state="M"/>
</net>
"""
ENDS = "".join(f'<junction id="{node}" type="dead_end" x="9" y="9" intLanes="" incLanes=""/>' for node in "BDEFG")


def net(sort="static"):
    """The file of the network, with signals of a sort."""
    return NET.format(sort=sort, ends=ENDS).replace(' length="', ' shape="0,0 9,9" length="')


ROUTES = """<routes>
    <vType id="lorry" length="12"/>
    <route id="straight" edges="a c e"/>
    <flow id="1" route="straight" begin="0" end="3600" vehsPerHour="360"/>
    <flow id="2" begin="900" end="1800" number="90" from="a" to="d"/>
    <flow id="3" begin="0" end="7200" period="20"><route edges="b c"/></flow>
    <vehicle id="4" depart="100"><route edges="a d"/></vehicle>
    <trip id="5" depart="200" from="b" to="e"/>
    <trip id="6" depart="300" from="d" to="a"/>
    <vehicle id="7" depart="9000"><route edges="a d"/></vehicle>
</routes>
"""


@pytest.fixture
def files(tmp_path):
    """The files of the network and of its routes."""
    (tmp_path / "town.net.xml").write_text(net())
    (tmp_path / "town.rou.xml").write_text(ROUTES)
    return tmp_path


def test_streets_ways_and_signals(files):
    found = read_network(files / "town.net.xml")
    assert set(found.streets) == set("abcdeg")
    a = found.streets["a"]
    assert (a.lanes, a.speed, a.length, a.seconds) == (2, 45, 0.25, pytest.approx(20))
    assert a.points == [(-0.25, 0), (0, 0)]
    assert found.ways["a", "c"].lanes == 1 and found.ways["a", "c"].green == [(0, 30)] and found.ways["b", "c"].green == [(34, 60)]
    assert (found.programs["J"].cycle, found.programs["J"].offset) == (60, 10)
    assert found.notes == ["1 edges that cars may not use are left out"]


def test_greens_that_follow_each_other_are_one():
    assert joined([(0, 10), (10, 20), (40, 60)], 60) == [(40, 80)]
    assert joined([(5, 10), (40, 50)], 60) == [(5, 10), (40, 50)] and joined([(0, 60)], 60) == [(0, 60)]


def test_an_actuated_signal_without_a_least_and_a_most_is_told(files):
    (files / "town.net.xml").write_text(net("actuated"))
    assert "1 signals follow traffic otherwise than by a least and a most of their greens (J); the lengths of their phases are " \
        "kept as fixed ones" in read_network(files / "town.net.xml").notes


def test_trips(files):
    found = read_network(files / "town.net.xml")
    read_trips(found, [files / "town.rou.xml"], [], 3600)
    told = {(" ".join(trip.route), trip.begin, trip.end, round(trip.vehicles, 6)) for trip in found.trips}
    assert told == {("a c e", 0, 3600, 360), ("a d", 900, 1800, 90), ("b c", 0, 3600, 180), ("a d", 100, 100, 1),
                    ("b c e", 200, 200, 1)}
    assert "town.rou.xml: 1 vehicles without a route over the network are left out, as trip 6 from d to a, which no connection joins" in \
        found.notes
    assert "vehicles that take 14.5 m take as much as the others" in found.notes


def test_the_study(tool, files):
    status, out, err = tool("import", "sumo", "town.net.xml", "--routes", "town.rou.xml", "--step", "2", "-o", "town.toml")
    assert status == 0 and out.splitlines()[0] == "town.toml: 5 streets, 1 signals, 632 vehicles"
    assert any("1 of 6 streets, on which no vehicle drives, are left out" in line for line in out.splitlines())
    made = build(read_study("town.toml"))
    # A step of 2 s at 12.5 m/s is 25 m: a has 10 cells. Who ends at c leaves there, so that c and e are no one road.
    assert {road: len(cells) for road, cells in made.units.roads.items()} == {
        "a": 10, "b": 10, "c": 5, "d": 10, "e": 5, "a-c": 1, "a-d": 1, "b-c": 1}
    notes = out.splitlines()[out.splitlines().index("  after 01:00:00                 181             0") + 1:]
    assert notes and all(line.strip() in made.remarks for line in notes)
    # The cycle of 30 steps begins at 10 s, step 5: a is green from 5 to 20, and b from 22 to 35. Yellow is no green.
    signals = {line.split(",")[1]: line.split(",")[2:] for line in made.text.splitlines() if line.startswith("signal,")}
    assert signals == {"a10": ["30", "25", "0", "15"], "b10": ["30", "8", "0", "13"]}
    lines = [line for line in made.text.splitlines() if line.startswith(("demand,in-a", "turn,a10"))]
    # Of a come 90 in a quarter of an hour, one more in the first and 90 more in the second.
    per = {"0": 91, "450": 180, "900": 90, "1350": 90}
    assert {line.split(",")[2]: float(line.split(",")[4]) for line in lines if line.startswith("demand")} == \
        pytest.approx({step: count / 450 for step, count in per.items()}, abs=1e-6)
    # In the first 89 of 90 and a bit drive to c; who departs at 900 s is at J 20 s later.
    turns = {line.split(",")[2]: [int(part) for part in line.split(",")[4:]] for line in lines if line.startswith("turn")}
    assert turns["0"][0] / sum(turns["0"]) == pytest.approx(88 / 89, abs=0.002)
    assert turns["450"][0] / sum(turns["450"]) == pytest.approx(90 / (90 + 90 * 880 / 900), abs=0.002)


def test_all_who_come_are_served_where_their_routes_end(tool, files):
    tool("import", "sumo", "town.net.xml", "--routes", "town.rou.xml", "-o", "town.toml")
    made = build(read_study("town.toml"))
    report = report_of(plain_model.report(made.text.encode(), 1))
    exits = report.cells.come[["out-c", "out-d", "out-e"]].tolist()
    # 180 end at c, 91 at d, and 361 at e: they turn by shares, so only nearly so.
    assert report.total.left == pytest.approx(632, abs=0.01) and exits == pytest.approx([180, 91, 361], rel=0.03)


def test_a_movement_that_is_never_green_is_closed(tool, files):
    (files / "town.net.xml").write_text(net().replace('"rrG"', '"rrr"'))
    out = tool("import", "sumo", "town.net.xml", "--routes", "town.rou.xml", "-o", "town.toml")[1]
    assert "1 movements at signals are never green in their program, as b to c; they are closed" in out
    made = build(read_study("town.toml"))
    report = report_of(plain_model.report(made.text.encode(), 1))
    assert report.cells.gone["b-c1"] == 0 and report.cells.gone["a-c1"] > 300


def test_two_streets_that_meet_at_a_signal_and_go_on_as_one_have_its_greens(tool, files):
    text = net().replace('<connection from="a" to="d" fromLane="2" toLane="0"', "<x").replace('"GGr"', '"Grr"')
    (files / "town.net.xml").write_text(text)
    tool("import", "sumo", "town.net.xml", "--routes", "town.rou.xml", "--step", "2", "-o", "town.toml")
    signals = [line.split(",")[1:] for line in build(read_study("town.toml")).text.splitlines() if line.startswith("signal,")]
    # The cycle of 30 steps begins at step 5: a is green for 15 steps, and b from 17 steps on for 13.
    assert signals == [["a10", "30", "25", "0", "15"], ["b10", "30", "8", "0", "13"]]


def test_who_sets_out_where_two_streets_meet_drives_with_them(tool, files):
    (files / "town.rou.xml").write_text(ROUTES.replace("</routes>", '<flow id="8" begin="0" end="3600" number="36" from="c" to="e"/></routes>'))
    (files / "town.net.xml").write_text(net().replace('tl="J"', "").replace('<connection from="a" to="d" fromLane="2" toLane="0"', "<x"))
    tool("import", "sumo", "town.net.xml", "--routes", "town.rou.xml", "-o", "town.toml")
    made = build(read_study("town.toml"))
    report = report_of(plain_model.report(made.text.encode(), 1))
    assert report.cells.come["in-c"] == pytest.approx(36) and report.total.inside == pytest.approx(0, abs=0.01)


def test_a_road_whose_only_way_on_is_never_green_is_closed_in_its_last_cell(tool, files):
    light = '<tlLogic id="D" type="static" programID="0" offset="0"><phase duration="60" state="r"/></tlLogic>'
    text = net().replace('from="d" to="g" fromLane="0" toLane="0"', 'from="d" to="g" fromLane="0" toLane="0" tl="D" linkIndex="0"')
    text = text.replace("<connection", light + "<connection", 1).replace('to="D"><lane index="0" speed="12.5" shape="0,0 9,9" length="250"',
                                                                        'to="D"><lane index="0" speed="12.5" shape="0,0 9,9" length="1000"')
    (files / "town.net.xml").write_text(text)
    (files / "town.rou.xml").write_text('<routes><vehicle id="1" depart="0"><route edges="a d g"/></vehicle></routes>')
    tool("import", "sumo", "town.net.xml", "--routes", "town.rou.xml", "--step", "2", "--until", "60 min", "-o", "town.toml")
    limits = [line.split(",") for line in build(read_study("town.toml")).text.splitlines() if line.startswith("limit")]
    # In 2 s one drives 25 m, a fortieth of 1 km.
    assert [(row[1], row[2], row[4]) for row in limits] == [("d40", "0", "0")]


def test_a_movement_at_a_signal_that_it_does_not_control_is_free(tool, files):
    (files / "town.net.xml").write_text(net().replace('toLane="0" tl="J" linkIndex="2"', 'toLane="0"'))
    out = tool("import", "sumo", "town.net.xml", "--routes", "town.rou.xml", "-o", "town.toml")[1]
    signals = [line.split(",")[1] for line in build(read_study("town.toml")).text.splitlines() if line.startswith("signal,")]
    assert "never green" not in out and signals[0] == "a10"
    green = next(line for line in build(read_study("town.toml")).text.splitlines() if line.startswith("signal,b10"))
    assert green.split(",")[4:] == ["0", "30"]  # all of the cycle of 30 steps


def test_a_merge_a_diverge_and_a_link_have_no_cells_of_their_own(tool, files):
    text = net().replace('tl="J"', "").replace('<connection from="a" to="d" fromLane="2" toLane="0"', "<x")
    (files / "town.net.xml").write_text(text)
    tool("import", "sumo", "town.net.xml", "--routes", "town.rou.xml", "-o", "town.toml")
    made = build(read_study("town.toml"))
    kinds = [line.split(",") for line in made.text.splitlines()]
    # a has the right of way, four times as much as b, over which one lane of a's two comes.
    assert ["merge", "a10", "b10", "c1", "4", "1"] in kinds
    assert [sorted(row[2:4]) for row in kinds if row[:2] == ["diverge", "c5"]] == [["e1", "out-c"]]


def test_without_routes_shares_are_by_lanes(tool, files):
    out = tool("import", "sumo", "town.net.xml", "-o", "town.toml")[1]
    assert out.startswith("town.toml: 6 streets, 1 signals, 0 vehicles")
    study = read_study("town.toml").scenario
    assert sorted(study.gates) == ["in-a", "in-b"] and sorted(study.exits) == ["out-c", "out-d"]
    assert study.crossings[0].shares[0] == [50, 50] and not study.gates["in-a"].demand


@pytest.mark.parametrize("text, wanted", [("<net>", "no XML"), ("<routes/>", "expected <net>, found <routes>")])
def test_another_file_is_refused(tmp_path, text, wanted):
    (tmp_path / "x.net.xml").write_text(text)
    with pytest.raises(Problem, match=wanted):
        read_network(tmp_path / "x.net.xml")


def test_mistakes_in_the_words(tool, files):
    assert "a study's name ends with .toml" in tool("import", "sumo", "town.net.xml", "-o", "town.csv")[2]
    assert "--step: must be 0.1 s or more" in tool("import", "sumo", "town.net.xml", "--step", "0", "-o", "t.toml")[2]
    (files / "late.rou.xml").write_text('<routes><vehicle depart="9000"><route edges="a d"/></vehicle></routes>')
    assert "no vehicle comes in the first 1 h" in tool("import", "sumo", "town.net.xml", "--routes", "late.rou.xml")[2]
    (files / "none.rou.xml").write_text("<routes/>")
    told = tool("import", "sumo", "town.net.xml", "--routes", "late.rou.xml", "--routes", "none.rou.xml")[2]
    assert told == "ctm-tools: late.rou.xml: no vehicle comes in the first 1 h\n"


@pytest.mark.parametrize("words", [["--trips", "--matrix", "m.od"], ["--trips", "--taz", "t.xml"], ["--taz", "t.xml", "--matrix", "m.od"]])
def test_matrices_need_trips_and_districts(tool, files, words):
    status, _, err = tool("import", "sumo", "town.net.xml", *words)
    assert status == 2 and "matrices are taken with --trips and --taz, the file of their districts" in err


SIGNS = """<additional>
    <variableSpeedSign id="v1" lanes="a_1 a_2"><step time="0" speed="8.3"/><step time="1800" speed="12.5"/></variableSpeedSign>
    <variableSpeedSign id="v2" lanes="d_0"><step time="600" speed="8.3"/></variableSpeedSign>
    <inductionLoop id="l" lane="a_1" pos="10" period="60" file="x.xml"/>
    <rerouter id="r" edges="b"/>
</additional>
"""


def limits_in(path):
    """The speed limits of a study: road, from and to in km, from and to in s, and km/h."""
    return [(limit.part.road, limit.part.start_km, limit.part.end_km, limit.part.start, limit.part.end, limit.speed)
            for limit in read_study(path).scenario.speed_limits]


def test_variable_speed_signs_are_speed_limits(tool, files):
    (files / "town.add.xml").write_text(SIGNS)
    words = ["import", "sumo", "town.net.xml", "--routes", "town.rou.xml", "-o", "town.toml"]
    assert tool(*words)[0] == 0 and limits_in("town.toml") == []
    status, out, err = tool(*words, "--additional", "town.add.xml")
    # 8.3 m/s are 29.88 km/h; from 1,800 s on a has its own 12.5 m/s again, and d has its limit to the end of the study, 5,400 s.
    assert status == 0 and limits_in("town.toml") == [("a", 0, None, 0, 1800, Fraction("29.88")), ("d", 0, None, 600, 5400, Fraction("29.88"))]
    assert "town.add.xml: 1 elements rerouter aren't read" in out and "speed sign" not in out
    made = build(read_study("town.toml"))
    assert [line for line in made.text.splitlines() if line.startswith("speed,a01,")] == ["speed,a01,0,900,83,125"]
    assert "expected <routes> or <additional> or <add> or <trips> or <flows>, found <net>" in tool(*words, "--additional", "town.net.xml")[2]


@pytest.mark.parametrize("signs, limits, note", [
    # One of both lanes for cars: the mean of 8.3 and 12.5 m/s, 37.44 km/h.
    ('<variableSpeedSign id="v" lanes="a_1"><step time="600" speed="8.3"/></variableSpeedSign>', [("a", 0, None, 600, 5400, Fraction("37.44"))], ""),
    # A speed of -1, or none, is the lane's own.
    ('<variableSpeedSign id="v" edges="d"><step time="60" speed="5"/><step time="120" speed="-1"/><step time="180" speed="5"/>'
     '<step time="00:04:00"/></variableSpeedSign>', [("d", 0, None, 60, 120, 18), ("d", 0, None, 180, 240, 18)], ""),
    ('<variableSpeedSign id="v" lanes="d_0"><step time="0" speed="20"/></variableSpeedSign>', [],
     "1 speeds of variable speed signs are above the streets' own, which hold then (d)"),
    ('<variableSpeedSign id="v" lanes="a_0 x_0"><step time="0" speed="5"/></variableSpeedSign>', [],
     "2 lanes of variable speed signs aren't for cars here, or aren't there (a_0, x_0)"),
    ('<variableSpeedSign id="v" lanes="d_0" vTypes="lorry"><step time="5000" speed="5"/></variableSpeedSign>', [("d", 0, None, 5000, 5400, 18)],
     "1 variable speed signs are for some types of vehicles, and hold for all here"),
    ('<variableSpeedSign id="v" lanes="d_0" file="steps.xml"/>', [("d", 0, None, 900, 5400, 18)], ""),
    # Of two signs of a lane the later step holds.
    ('<variableSpeedSign id="v" edges="c e"><step time="60" speed="5"/><step time="120" speed="10"/></variableSpeedSign>'
     '<variableSpeedSign id="w" edges="e"><step time="300" speed="4"/></variableSpeedSign>',
     [("c", 0, None, 60, 120, 18), ("c", 0, None, 120, 5400, 36), ("e", 0, None, 60, 120, 18), ("e", 0, None, 120, 300, 36),
      ("e", 0, None, 300, 5400, Fraction("14.4"))], "")])
def test_what_signs_say(tool, files, signs, limits, note):
    (files / "town.add.xml").write_text(f"<additional>{signs}</additional>")
    (files / "steps.xml").write_text('<vss><step time="900" speed="5"/></vss>')
    out = tool("import", "sumo", "town.net.xml", "--routes", "town.rou.xml", "--additional", "town.add.xml", "-o", "town.toml")[1]
    assert limits_in("town.toml") == limits
    assert f"  {note}\n" in out if note else "speed sign" not in out


def test_limits_of_streets_of_one_road():
    """Two streets of 125 m: alike limits are one, and what is shorter than half a step of 2 s is none."""
    streets = [Street(name, "1", "2", 0.125, 1, 50.0) for name in "ce"]
    limits = {"c": [SpeedSpan("c", 60, 120, 18), SpeedSpan("c", 200, 200.6, 18)], "e": [SpeedSpan("e", 60, 120, 18), SpeedSpan("e", 120, inf, 14.4)]}
    assert list(limits_on(streets, limits, 0, 600, 2)) == [RoadLimit(0, None, 60, 120, 18), RoadLimit(0.125, None, 120, 600, 14.4)]
    assert list(limits_on(streets, {"c": limits["c"]}, 0, 600, 2)) == [RoadLimit(0, 0.125, 60, 120, 18)]


@pytest.mark.parametrize("steps, told", [
    ('<step time="x" speed="5"/>', 'town.add.xml: variableSpeedSign v, time: expected seconds or a clock time such as 00:30:00, found "x"'),
    ('<step time="0" speed="fast"/>', 'town.add.xml: variableSpeedSign v, speed: expected a speed in m/s, found "fast"')])
def test_signs_that_are_refused(tool, files, steps, told):
    (files / "town.add.xml").write_text(f'<additional><variableSpeedSign id="v" lanes="d_0">{steps}</variableSpeedSign></additional>')
    status, out, err = tool("import", "sumo", "town.net.xml", "--routes", "town.rou.xml", "--additional", "town.add.xml")
    assert status == 2 and told in err


UTM = "+proj=utm +zone=33 +ellps=WGS84 +datum=WGS84 +units=m +no_defs"
OWN = "+proj=tmerc +lat_0=0 +lon_0=15 +k=0.9996 +x_0=400000 +y_0=0 +ellps=GRS80 +units=m"  # which has no code


@pytest.mark.parametrize("projection, crs, point", [
    (UTM, "EPSG:32633", (391440.03, 5820079.67)), (OWN, "EPSG:4326", (14.873813, 52.530748)),  # by Krueger's series
    ("!", None, (-0.25, 0))])
def test_streets_lie_where_the_projection_has_them(tool, files, projection, crs, point):
    location = f'<location netOffset="-391690.03,-5820079.67" convBoundary="0,0,1,1" origBoundary="0,0,1,1" projParameter="{projection}"/>'
    (files / "town.net.xml").write_text(net().replace('<net version="1.9">', f'<net version="1.9">{location}'))
    found = read_network(files / "town.net.xml")
    assert found.crs == crs and found.streets["a"].points[0] == pytest.approx(point, abs=1e-6)


def test_a_file_of_routes_may_have_speed_signs(tool, files):
    (files / "town.rou.xml").write_text(ROUTES.replace("</routes>", SIGNS.split("\n", 1)[1].replace("</additional>", "</routes>")))
    assert tool("import", "sumo", "town.net.xml", "--routes", "town.rou.xml", "-o", "town.toml")[0] == 0 and len(limits_in("town.toml")) == 2


def test_a_junction_that_does_not_say_its_lanes_is_read(files):
    (files / "town.net.xml").write_text(net().replace(' incLanes="c_0"', ""))
    assert len(read_network(files / "town.net.xml").streets) == 6


def by_ours(found):
    """What the tools read of a network: its streets for cars, who leads where with which signal, the signals, and the rings."""
    cars = {(edge.name, lane.index) for edge in found.edges for lane in edge.lanes if CAR in lane.classes}
    return ({edge.name: (edge.start, edge.end, [(lane.index, lane.length, lane.speed) for lane in edge.lanes if CAR in lane.classes],
                         edge.shape) for edge in found.edges},
            {(link.source, link.lane, link.into, link.signal, link.index, link.state, link.turn) for link in found.links
             if (link.source, link.lane) in cars},
            {logic.name: [(phase.lasting, phase.state) for phase in logic.phases] for logic in found.logics},
            {name: (node.place, node.sort) for name, node in found.nodes.items()}, found.roundabouts, found.ring_nodes)


def by_sumolib(path):
    """The same by SUMO's own library."""
    import sumolib

    found = sumolib.net.readNet(str(path), withPrograms=True)
    edges = [edge for edge in found.getEdges() if edge.getFunction() in ("", "normal")]
    links = [link for edge in edges for lane in edge.getLanes() for link in lane.getOutgoing() if lane.allows(CAR)]
    return ({edge.getID(): (edge.getFromNode().getID(), edge.getToNode().getID(),
                            [(lane.getIndex(), lane.getLength(), lane.getSpeed()) for lane in edge.getLanes() if lane.allows(CAR)],
                            [place[:2] for place in edge.getRawShape()]) for edge in edges},
            {(link.getFrom().getID(), link.getFromLane().getIndex(), link.getTo().getID(), link.getTLSID(), max(0, link.getTLLinkIndex()),
              link.getState(), link.getDirection()) for link in links},
            {signal.getID(): [(phase.duration, phase.state) for phase in program.getPhases()] for signal in found.getTrafficLights()
             for program in signal.getPrograms().values()},
            {node.getID(): (node.getCoord()[:2], node.getType()) for node in found.getNodes()},
            [frozenset(ring.getEdges()) for ring in found.getRoundabouts()], [list(ring.getNodes()) for ring in found.getRoundabouts()])


# In the full check no case may be skipped: where SUMO isn't there, these are none.
if find_spec("sumolib"):
    @pytest.mark.parametrize("kind", ["static", "actuated"])
    def test_sumo_reads_its_network_alike(files, kind):
        path = files / "town.net.xml"
        path.write_text(net(kind).replace("</net>", '<roundabout nodes="C J" edges="c d"/></net>'))
        assert by_ours(read_net(path)) == by_sumolib(path)

    def test_sumo_reads_a_grid_of_its_own_alike(tmp_path):
        path = tmp_path / "grid.net.xml"
        subprocess.run(["netgenerate", "--grid", "--grid.number", "4", "--default.lanenumber", "2", "--tls.guess", "--output-file", path],
                       check=True, capture_output=True)
        ours = by_ours(read_net(path))
        assert ours == by_sumolib(path) and len(ours[0]) == 48 and ours[2]


def test_a_ring_that_no_one_enters_with_priority_changes_no_demand(tool, files):
    (files / "roundabout.net.xml").write_text(net().replace("</net>", '<roundabout nodes="C J" edges="c d"/></net>'))
    status, out, err = tool("import", "sumo", "roundabout.net.xml", "--routes", "town.rou.xml", "-o", "town.toml")
    assert status == 0 and out.startswith("town.toml: 5 streets, 1 signals, 632 vehicles")
    assert tool("import", "sumo", "town.net.xml", "--routes", "town.rou.xml", "-o", "plain.toml")[0] == 0
    assert build(read_study("town.toml")).text.split("\n", 1)[1] == build(read_study("plain.toml")).text.split("\n", 1)[1]


@pytest.mark.parametrize("text, told", [
    ("<net>", "x.net.xml: no XML: no element found: line 1, column 5"), ("<routes/>", "x.net.xml: expected <net>, found <routes>"),
    ('<net><edge id="a" from="A" to="B"><lane index="0" length="long"/></edge></net>',
     "x.net.xml: expected a number: could not convert string to float: 'long'"),
    ('<net><location netOffset="1" projParameter="+proj=utm"/></net>', "x.net.xml: expected a number: ")])
def test_a_file_that_is_no_network_is_refused_with_its_cause(tool, files, text, told):
    (files / "x.net.xml").write_text(text)
    assert f"ctm-tools: {told}" in tool("import", "sumo", "x.net.xml")[2]


def test_the_least_length_of_time_is_taken():
    assert seconds("0", "--after", least=0) == 0 and seconds("0.1 s", "--step") == 0.1


def test_a_street_is_a_tenth_of_a_metre_long_at_least(files):
    text = (files / "town.net.xml").read_text()
    (files / "town.net.xml").write_text(text.replace('length="125"', 'length="0.05"'))
    assert read_network(files / "town.net.xml").streets["c"].length == 0.0001  # as in SUMO, in km
