"""The vehicles of SUMO's route files: times, alternatives, classes and files as SUMO itself takes them.

The numbers of vehicles are SUMO's rules, worked out on paper: a flow's first vehicle departs at its begin, one more each
period while that is before the end, and each takes one of several routes by its probability.
"""

import gzip
from xml.etree.ElementTree import fromstring

import pytest

from ctmtools import Problem, read_study
from ctmtools.imports.streets import Said, Streets
from ctmtools.imports.sumo import read_network
from ctmtools.imports.sumo_routes import Routes
from ctmtools.imports.sumo_trips import read_trips
from ctmtools.imports.traffic import tally
from ctmtools.study import folder

# From a streets lead into b and c, for all, and into v, for vip alone; a's left lane is for buses, which may turn into w.
NET = """<net>
    <edge id="a" from="A" to="J"><lane index="0" speed="12.5" length="250"/><lane index="1" speed="12.5" length="250" allow="bus"/></edge>
    <edge id="b" from="J" to="B"><lane index="0" speed="12.5" length="250" disallow="pedestrian"/></edge>
    <edge id="c" from="J" to="C"><lane index="0" speed="12.5" length="250" allow="all"/></edge>
    <edge id="v" from="J" to="V"><lane index="0" speed="25" length="250" allow="vip"/></edge>
    <edge id="w" from="J" to="W"><lane index="0" speed="12.5" length="250" allow="bus tram"/></edge>
    <edge id="t" from="J" to="T"><lane index="0" speed="12.5" length="250" allow="tram bicycle"/></edge>
    <connection from="a" to="b" fromLane="0" toLane="0" state="M"/><connection from="a" to="c" fromLane="0" toLane="0" state="M"/>
    <connection from="a" to="v" fromLane="0" toLane="0" state="M"/><connection from="a" to="t" fromLane="0" toLane="0" state="M"/>
    <connection from="a" to="w" fromLane="1" toLane="0" state="M"/>
</net>
"""


@pytest.fixture
def imported(tool, tmp_path):
    """What is told of an import of the network with the elements of a route file, by word, and the routes' vehicles."""
    def made(elements, *words, root="routes"):
        (tmp_path / "n.net.xml").write_text(NET)
        (tmp_path / "n.rou.xml").write_text(f"<{root}>{elements}</{root}>")
        status, out, err = tool("import", "sumo", "n.net.xml", "--routes", "n.rou.xml", *words, "-o", "n.toml")
        assert (status, err) == (0, "")
        return out
    return made


def routes_of(tmp_path, elements, until=3600.0):
    """The vehicles of each route by a file's elements, and the notes."""
    (tmp_path / "n.net.xml").write_text(NET)
    (tmp_path / "n.rou.xml").write_text(f"<routes>{elements}</routes>")
    found = read_network(tmp_path / "n.net.xml")
    read_trips(found, [tmp_path / "n.rou.xml"], [], until)
    counts = {}
    for trip in found.trips:
        counts[" ".join(trip.route)] = counts.get(" ".join(trip.route), 0) + trip.vehicles
    return counts, found


FLOW = '<flow id="f" from="a" to="b" {}/>'


@pytest.mark.parametrize("terms, vehicles", [
    ('begin="00:30:00" end="01:00:00" number="600"', 600), ('begin="0:0:30:00" end="3600" vehsPerHour="600"', 300),
    ('begin="0" end="7200" period="7"', 515), ('begin="0" end="1000" vehsPerHour="1000"', 278),
    ('begin="0" end="7200" number="7"', 4), ('begin="100" number="5" period="10"', 5), ('begin="0" end="1.2" period="0.1"', 12),
    ('begin="0" end="3600" probability="0.1"', 360), ('begin="0" end="7200" period="exp(0.1)"', 360), ('number="0"', 0),
    ('begin="100" number="86"', 86), ('begin="100" vehsPerHour="36"', 35), ('begin="4000" number="86"', 0)])
def test_a_flow_has_as_many_vehicles_as_in_sumo(tmp_path, terms, vehicles):
    counts, _ = routes_of(tmp_path, FLOW.format(terms))
    assert sum(counts.values()) == pytest.approx(vehicles)


def test_clock_times_are_kept_in_the_study(imported):
    assert imported(FLOW.format('begin="00:30:00" end="0:45:0" number="600"')).startswith("n.toml: 2 streets, 0 signals, 600 vehicles")
    demand = read_study("n.toml").gates["in-a"].demand
    assert [(row.start, row.end, row.flow) for row in demand] == [(1800, 2700, 2400)]


def test_an_interval_gives_its_time_to_the_flows_in_it(tmp_path):
    counts, found = routes_of(tmp_path, '<interval begin="0:10:00" end="0:20:00"><flow id="f" from="a" to="b" vehsPerHour="600"/>'
                              '<flow id="g" from="a" to="c" begin="900" number="50"/></interval>')
    assert counts == {"a b": 100, "a c": 50}
    assert [(trip.begin, trip.end) for trip in found.trips] == [(600, 1200), (900, 1200)]


ALTERNATIVES = '<routeDistribution{}><route probability="3" edges="a b"/><route probability="1" edges="a c"/></routeDistribution>'


@pytest.mark.parametrize("elements", [
    f'<flow id="f" end="3600" number="400">{ALTERNATIVES.format("")}</flow>',
    "".join(f'<vehicle id="{i}" depart="{i}">{ALTERNATIVES.format(" last=%s1%s" % (chr(34), chr(34)))}</vehicle>' for i in range(400)),
    ALTERNATIVES.format(' id="d"') + '<flow id="f" end="3600" number="400" route="d"/>',
    '<route id="r" edges="a b"/><route id="q" edges="a c"/><routeDistribution id="d" routes="r q" probabilities="3 1"/>'
    '<flow id="f" end="3600" number="400" route="d"/>',
    '<route id="r" edges="a b"/><route id="q" edges="a c"/><routeDistribution id="d"><route refId="r" probability="3"/>'
    '<route refId="q" probability="1"/></routeDistribution><flow id="f" end="3600" number="400" route="d"/>'],
    ids=["in a flow", "in vehicles", "named", "listed", "by reference"])
def test_alternatives_are_taken_by_their_probabilities(tmp_path, elements):
    counts, _ = routes_of(tmp_path, elements)
    assert counts == pytest.approx({"a b": 300, "a c": 100})


# SUMO drives a route once, and once more for each repeat.
@pytest.mark.parametrize("element", ['<route id="r" edges="a b" repeat="2"/><vehicle id="v" route="r" depart="0"/>',
                                     '<vehicle id="v" depart="0"><route edges="a b" repeat="2"/></vehicle>'])
def test_a_route_is_driven_as_often_as_it_repeats(tmp_path, element):
    routes = Routes(Streets("n"))
    for found in fromstring(f"<routes>{element}</routes>"):
        if found.tag == "route":
            routes.take(found, "r.xml")
        else:
            assert routes.of(found, "v") == [(["a", "b"] * 3, 1.0)]


@pytest.mark.parametrize("again", ["-1", "twice", "1001"])
def test_a_repeat_that_is_none_is_refused(again):
    with pytest.raises(Problem, match=f"r.xml: route r: repeat: expected a whole number up to 1,000, found {again}"):
        Routes(Streets("n")).take(fromstring(f'<route id="r" edges="a b" repeat="{again}"/>'), "r.xml")


def test_an_alternative_that_nobody_takes_is_no_street_of_the_study(imported):
    told = imported('<flow id="f" end="3600" number="400"><routeDistribution><route probability="0" edges="a c"/>'
                    '<route probability="2" edges="a b"/></routeDistribution></flow>')
    assert "n.toml: 2 streets, 0 signals, 400 vehicles" in told


def test_classes_are_told_and_only_motor_vehicles_are_kept(imported):
    out = imported('<vType id="bike" vClass="bicycle"/><vTypeDistribution id="mix"><vType id="car" probability="0.75"/>'
                   '<vType id="truck" vClass="truck" probability="0.25"/></vTypeDistribution>'
                   + FLOW.format('type="mix" end="3600" number="200"') +
                   '<flow id="g" type="bike" from="a" to="b" end="3600" number="90"/><person id="p" depart="0"/>')
    assert out.startswith("n.toml: 2 streets, 0 signals, 200 vehicles")
    rows = {line.split()[0]: line.split()[-2:] for line in out.splitlines()}
    assert (rows["passenger"], rows["truck"], rows["bicycle"]) == (["150", "150"], ["50", "50"], ["90", "0"])
    assert "n.rou.xml: 90 vehicles of class bicycle, no motor vehicles, are left out, as flow g" in out
    assert "n.rou.xml: 1 elements person aren't read" in out


def test_vehicles_drive_where_their_class_may(imported):
    out = imported('<vType id="s" vClass="vip"/><vType id="o" vClass="bus"/>'
                   '<flow id="1" from="a" to="v" number="10" end="3600" type="s"/><flow id="2" from="a" to="v" number="20" end="3600"/>'
                   '<flow id="3" number="30" end="3600" type="o"><route edges="a w"/></flow>'
                   '<flow id="4" number="40" end="3600" type="o"><route edges="a t"/></flow>')
    assert out.startswith("n.toml: 3 streets, 0 signals, 40 vehicles")
    assert "2 edges that cars may not use are kept, since others drive there (v, w)" in out
    assert "60 vehicles without a route over the network are left out, as flow 2 from a to v, which no connection joins" in out
    study = read_study("n.toml")
    assert float(study.roads["v"].sections[0].free_flow_speed) == 90 and study.roads["a"].sections[0].lanes == 1


def test_without_routes_nobody_drives_where_cars_may_not(tool, imported, tmp_path):
    imported("<vehicle id='1' depart='0' route='r'/><route id='r' edges='a b'/>")
    assert tool("import", "sumo", "n.net.xml", "-o", "n.toml")[1].startswith("n.toml: 3 streets")


def test_what_is_kept_and_what_the_file_says_by_time(imported):
    out = imported(FLOW.format('end="7200" number="240"') + '<trip id="1" depart="1000" from="b" to="a"/>'
                   '<vehicle id="2" depart="triggered"><route edges="a b"/></vehicle>')
    assert out.splitlines()[1:9] == [
        "  vehicles              in the files  in the study",
        "  passenger                      242           120", "  00:00:00 to 00:15:00            30            30",
        "  00:15:00 to 00:30:00            31            30", "  00:30:00 to 00:45:00            30            30",
        "  00:45:00 to 01:00:00            30            30", "  after 01:00:00                 120             0",
        "  at no time                       1             0"]
    assert "1 vehicles that depart triggered are left out, as vehicle 2" in out


def test_parts_of_vehicles_are_told_in_tenths():
    found = Streets("n")
    found.said.append(Said("car", 0.0, 3600.0, 10.0, 10.0))
    assert tally(found, 900, 3600, lambda time: f"{time:g}")[-1].split() == ["2700", "to", "3600", "2.5", "2.5"]
    # Of more than eight spans two are a row.
    for interval, begin in ((450, "3150"), (400, "3200")):
        assert tally(found, interval, 3600, lambda time: f"{time:g}")[-1].split()[:3] == [begin, "to", "3600"]


def test_vehicles_that_sumo_leaves_out_for_their_order_are_kept_and_told(imported):
    out = imported('<trip id="1" depart="100" from="a" to="b"/><trip id="2" depart="50" from="a" to="b"/>'
                   '<trip id="3" depart="60" from="a" to="c"/><trip id="4" depart="100" from="a" to="c"/>')
    assert ", 4 vehicles" in out
    assert "2 vehicles stand behind others of a later departure, where SUMO leaves them out; they are kept" in out


@pytest.mark.parametrize("root", ["add", "additional", "trips"])
def test_other_roots_than_routes_are_read(imported, root):
    assert ", 5 vehicles" in imported(FLOW.format('number="5"'), root=root)


def test_types_routes_and_vehicles_of_additional_and_included_files_are_read(imported, tmp_path):
    (tmp_path / "t.add.xml").write_text('<add><vType id="o" vClass="bus"/><route id="r" edges="a w"/>'
                                        '<vehicle id="1" depart="0" type="o" route="r"/><include href="more.xml"/></add>')
    (tmp_path / "more.xml").write_text('<routes><trip id="2" depart="5" from="a" to="c"/></routes>')
    out = imported('<flow id="f" number="5" end="3600" type="o" route="r"/>', "--additional", "t.add.xml")
    assert ", 7 vehicles" in out and {line.split()[0]: line.split()[-1] for line in out.splitlines()}["bus"] == "6"


def test_included_files_of_another_folder_are_to_be_allowed(imported, tmp_path, monkeypatch):
    monkeypatch.setattr(folder, "_allowed", {})
    (tmp_path / "t.add.xml").write_text('<add><include href="../other/more.xml"/></add>')
    other = tmp_path.parent / "other"
    other.mkdir()
    (other / "more.xml").write_text('<routes><trip id="2" depart="5" from="a" to="c"/></routes>')
    assert ", 6 vehicles" in imported(FLOW.format('number="5"'), "--additional", "t.add.xml", "--allow-files", str(other))


def test_a_packed_file_is_read(tool, tmp_path):
    for name, text in (("n.net.xml.gz", NET), ("n.rou.xml.gz", f"<routes>{FLOW.format('number=%s5%s' % (chr(34), chr(34)))}</routes>")):
        (tmp_path / name).write_bytes(gzip.compress(text.encode()))
    assert ", 5 vehicles" in tool("import", "sumo", "n.net.xml.gz", "--routes", "n.rou.xml.gz", "-o", "n.toml")[1]
    (tmp_path / "cut.net.xml.gz").write_bytes((tmp_path / "n.net.xml.gz").read_bytes()[:60])
    status, out, err = tool("import", "sumo", "cut.net.xml.gz")
    assert status == 2 and "cut.net.xml.gz: no XML" in err and len(err.splitlines()) == 1


def test_an_import_of_nothing_says_why(tool, imported, tmp_path):
    imported(FLOW.format('number="5"'))
    (tmp_path / "n.rou.xml").write_text('<routes><trip id="1" depart="0" from="b" to="a"/></routes>')
    assert "no vehicle comes in the first 1 h; n.rou.xml: 1 vehicles without a route over the network are left out, as trip 1 from " \
        "b to a, which no connection joins" in tool("import", "sumo", "n.net.xml", "--routes", "n.rou.xml")[2]


@pytest.mark.parametrize("elements, wanted", [
    (FLOW.format('begin="noon" number="3"'), 'flow f: begin: expected seconds or a clock time such as 00:30:00, found "noon"'),
    (FLOW.format('number="-3"'), 'flow f: number: expected a number of 0 or more, found "-3"'),
    (FLOW.format('vehsPerHour="nan"'), 'flow f: vehsPerHour: expected a number of 0 or more, found "nan"'),
    (FLOW.format('period="0"'), "flow f: period: is above 0"), (FLOW.format('vehsPerHour="0"'), "flow f: vehsPerHour: is above 0"), (FLOW.format('begin="100" end="50" number="3"'), "ends at 50 s, before"),
    (FLOW.format('end="100" vehsPerHour="36" probability="0.1"'), "flow f: expected one of number"),
    (FLOW.format('end="100"'), "flow f: expected one of number"), (FLOW.format('end="9" number="3" period="1"'), "and with number and"),
    ('<vehicle id="1" depart="-5"><route edges="a b"/></vehicle>', 'vehicle 1: depart: expected seconds or a clock'),
    ('<vehicle id="1" depart="5" route="r"/>', "vehicle 1: there is no route r; name the file that has it with --additional"),
    (FLOW.format('number="3" type="bike"'), "flow f: there is no vType bike; name the file"),
    (FLOW.format('number="3"') * 2, "flow f: another one of this name stands before it"),
    ('<routeDistribution id="d"><route edges="a b" probability="0"/></routeDistribution><flow id="f" number="3" route="d"/>',
     "flow f: has nothing with a probability above 0"),
    ('<routeDistribution id="d"/><flow id="f" number="3" route="d"/>', "flow f: has nothing with a probability above 0"),
    ('<vType id="t" length="long"/>', 'vType t: length: expected a number of 0 or more, found "long"'),
    ('<include href="n.rou.xml"/>', "includes n.rou.xml, which includes it"),
    ('<include href="../secret.xml"/>', "../secret.xml lies outside of the file's folder; --allow-files "),
    ('<include href="/dev/zero"/>', "/dev/zero lies outside of the file's folder"),
    ('<variableSpeedSign id="v" lanes="a_0" file="../secret.xml"/>', "../secret.xml lies outside of the file's folder")])
def test_what_sumo_refuses_is_refused_with_its_place(tmp_path, elements, wanted):
    with pytest.raises(Problem) as found:
        routes_of(tmp_path, elements)
    assert str(found.value).startswith(f"{tmp_path / 'n.rou.xml'}: ") and wanted in str(found.value)


@pytest.mark.parametrize("text, wanted", [
    (NET.replace('speed="25"', 'speed="fast"'), "n.net.xml: expected a number: could not convert"), ("<net/>", "n: has no street for cars"),
    (NET.replace("<net>", '<net><location netOffset="0,0" projParameter="+proj=none"/>'), "n.net.xml: projParameter: expected a coordinate system"),
    *((NET.replace("<net>", f"<net><location netOffset='0,0' projParameter='{text}'/>"), "n.net.xml: projParameter: names a file") for text in (
        "+init=/dev/zero:x", "+proj=utm +zone=32 +init=secret:x", "+proj=tmerc +ellps=bessel +nadgrids=secret", "+proj=utm +zone=32 +geoidgrids = secret",
        'BOUNDCRS[SOURCECRS[],PARAMETERFILE["shift","secret"]]')),
    (NET.replace("<net>", '<net><location netOffset="0,0" projParameter="+proj=merc +R=1737400"/>'), "n.net.xml: projParameter: no conversion is known from ")])
def test_networks_that_cannot_be_meant_are_refused(tool, tmp_path, text, wanted):
    (tmp_path / "n.net.xml").write_text(text)
    status, out, err = tool("import", "sumo", "n.net.xml")
    assert status == 2 and wanted in err and len(err.splitlines()) == 1 and not (tmp_path / "n.toml").exists()


@pytest.mark.parametrize("kind, may", [("bus", True), ("taxi", True), ("passenger", False), ("ignoring", True)])
def test_who_may_drive_where_buses_and_taxis_do(kind, may):
    assert Routes._may(frozenset({"bus", "taxi"}), kind) == may
