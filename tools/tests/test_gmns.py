"""Networks in GMNS as studies: tables, units, rings of a signal, shares and demand, worked out on paper."""

from pathlib import Path

import plain_model
import pytest

from ctmtools import Problem, build, read_study
from ctmtools.imports.gmns import phase_spans, read_folder
from ctmtools.imports.gmns_tables import Row
from ctmtools.imports.speed_limits import limits_on
from ctmtools.imports.streets import SpeedSpan, Street
from ctmtools.report.reading import report_of

TABLES = {
    "config": "dataset_name,long_length,speed\ntown,mi,mph\n",
    "node": "node_id,x_coord,y_coord\n1,0,0\n2,1609,0\n3,3218,0\n4,1609,1609\n",
    "link": "link_id,from_node_id,to_node_id,directed,length,free_speed,lanes,capacity,allowed_uses\n"
            "a,1,2,1,1,45,2,1500,auto\nb,4,2,1,1,45,1,,auto\nc,2,3,1,1,45,2,,\nd,2,4,true,1,45,1,,auto\ne,2,4,1,1,5,1,,walk\n",
    "movement": "mvmt_id,node_id,ib_link_id,start_ib_lane,end_ib_lane,ob_link_id,ctrl_type,share\n"
                "1,2,a,1,2,c,signal,3\n2,2,a,1,1,d,signal,1\n3,2,b,1,1,c,signal,\n",
    "signal_timing_plan": "timing_plan_id,controller_id,cycle_length\nday,J,60\nnight,J,40\n",
    "signal_timing_phase": "timing_phase_id,timing_plan_id,signal_phase_num,max_green,clearance,ring,barrier,position\n"
                           "p2,day,2,25,5,1,1,1\np4,day,4,25,5,1,2,1\n",
    "signal_phase_mvmt": "timing_phase_id,mvmt_id,protection\np2,1,protected\np2,2,permitted\np4,3,protected\n",
    "signal_coordination": "timing_plan_id,offset\nday,70\n",
    "demand": "link_id,start,end,flow\na,0,1800,1200\nb,0,3600,300\n",
}


DEMAND = "link_id,start,end,flow\na,0,1800,1200\n{}\n"


@pytest.fixture
def folder(tmp_path):
    """A folder of the tables."""
    (tmp_path / "town").mkdir()
    for name, text in TABLES.items():
        (tmp_path / "town" / f"{name}.csv").write_text(text)
    return tmp_path / "town"


def test_links_in_miles(folder):
    found = read_folder(folder)
    assert set(found.streets) == set("abcd") and found.notes[0] == "1 links that cars may not use are left out"
    a = found.streets["a"]
    assert (a.lanes, a.capacity) == (2, 3000) and (a.length, a.speed) == (pytest.approx(1.609344), pytest.approx(72.42048))
    assert a.points == [(0, 0), (1.609, 0)] and found.streets["b"].capacity is None
    assert found.programs["2"].cycle == 60 and found.programs["2"].offset == 10
    assert found.ways["a", "c"].green == [(0, 25)] and found.ways["b", "c"].green == [(30, 55)]
    assert "signal J: plan night is left out, since the first one is kept for the whole time" in found.notes


LINK_TOD = """link_tod_id,link_id,time_day,free_speed,lanes,capacity
1,a,01111100_0600_0900,30,,
2,c,11111111_2200_0200,20,1,1400
3,c,10000010_0600_0900,30,,
4,b,01111100_0600_0900,50,,
5,e,01111100_0600_0900,3,,
"""


def test_speeds_of_working_days_are_speed_limits(tool, folder):
    """30 mph are 48.28 km/h and 20 are 32.19; c's at weekends is left out, and b's, which is above its 45 mph."""
    (folder / "link_tod.csv").write_text(LINK_TOD)
    (folder / "segment_tod.csv").write_text("segment_tod_id,segment_id,time_day,free_speed\n1,s,01111100_0600_0900,30\n")
    status, out, err = tool("import", "gmns", folder, "-o", "town.toml", "--start", "05:30", "--until", "17 h")
    assert status == 0
    assert [(limit.part.road, limit.part.start / 3600, limit.part.end / 3600, float(limit.speed)) for limit in
            read_study("town.toml").scenario.speed_limits] == [("a", 0.5, 3.5, pytest.approx(48.28032)), ("c", 16.5, 17, pytest.approx(32.18688))]
    for note in ("link_tod.csv: 2 speeds by time at links c, b are left out; of links those are kept that hold from Monday to Friday and are "
                 "below the link's own", "segment_tod.csv: 1 speeds by time are left out; of links those are kept that hold from Monday to Friday and "
                 "are below the link's own", "link_tod.csv: 1 rows with lanes by time are left out", "link_tod.csv: 1 rows with capacity by time are "
                 "left out"):
        assert f"  {note}\n" in out, out
    assert read_folder(folder).streets["a"].speed == pytest.approx(72.42048)


def test_a_speed_of_a_segment_is_none_of_its_link(folder):
    (folder / "segment_tod.csv").write_text("segment_tod_id,segment_id,link_id,time_day,free_speed\n1,s,a,01111100_0600_0900,30\n")
    found = read_folder(folder)
    assert not found.limits and any(note.startswith("segment_tod.csv: 1 speeds by time at links a are left out") for note in found.notes)


@pytest.mark.parametrize("start, spans", [("23:00", [(0, 3)]), ("00:00", [(0, 2), (22, 24)]), ("12:00", [(10, 14)])])
def test_a_limit_over_midnight(start, spans):
    limit = SpeedSpan("a", 22 * 3600, 26 * 3600, 20, by_clock=True)
    street = Street("a", "1", "2", 1.0, 1, 50.0)
    found = limits_on([street], {"a": [limit]}, 3600 * int(start[:2]), 24 * 3600 if start != "23:00" else 3 * 3600, 2)
    assert [(one.begin / 3600, one.end / 3600) for one in found] == spans


def test_rings_wait_for_each_other_at_a_barrier():
    rows = [Row(Path("t.csv"), 2, dict(zip(("ring", "barrier", "position", "max_green", "clearance"), row))) for row in (
        ("1", "1", "1", "10", "5"), ("1", "1", "2", "20", "5"), ("2", "1", "1", "15", "5"), ("1", "2", "1", "12", "3"),
        ("2", "2", "1", "10", "5"))]
    assert phase_spans(rows) == [(0, 10), (15, 35), (0, 15), (40, 52), (40, 50)]


def test_the_study_serves_its_demand(tool, folder):
    status, out, err = tool("import", "gmns", folder, "-o", "town.toml", "--until", "2 h")
    assert status == 0 and out.splitlines()[0] == "town.toml: 4 streets, 1 signals, 900 vehicles"
    made = build(read_study("town.toml"))
    signals = {line.split(",")[1]: line.split(",")[2:] for line in made.text.splitlines() if line.startswith("signal,")}
    # Steps of 2 s; the cycle begins at 10 s. 25 s of green are told as 24 s.
    assert {cell[0]: row[:2] for cell, row in signals.items()} == {"a": ["30", "25"], "b": ["30", "10"]}
    report = report_of(plain_model.report(made.text.encode(), 100))
    # 600 come on a, of which three of four drive on to c, and 300 on b.
    assert report.total.left == pytest.approx(900, abs=0.01)
    assert report.cells.come["out-c"] == pytest.approx(450 + 300, abs=0.5)
    assert report.cells.come["out-d"] == pytest.approx(150, abs=0.5)


def test_without_movements_all_ways_but_that_back_are_taken(folder):
    (folder / "movement.csv").unlink()
    found = read_folder(folder)
    assert set(found.ways) == {("a", "c"), ("a", "d"), ("b", "c")}
    assert "there is no movement.csv, so the signals aren't kept: all movements are green at all times" in found.notes


def test_a_link_that_is_not_directed_makes_two_streets(folder):
    (folder / "link.csv").write_text(TABLES["link"].replace("true", "false"))
    found = read_folder(folder)
    assert (found.streets["d_back"].start, found.streets["d_back"].end) == ("4", "2")


@pytest.mark.parametrize("name, text, wanted", [
    ("link", None, "link.csv: no such file"), ("link", "link_id,length\n1,2\n", "has no column from_node_id"),
    ("config", "long_length\nfurlong\n", "long_length: expected km or"),
    ("link", TABLES["link"].replace("a,1,2,1,1,45", "a,1,2,1,x,45"), 'length: expected a number of 0 or more, found "x"'),
    ("link", TABLES["link"].replace("a,1,2,1,1,45,2", "a,1,2,1,1,45,0"), "link a: lanes, free_speed and length must be above 0"),
    # Without a crs the way between the nodes isn't known in km, and the length is all that there is.
    ("link", TABLES["link"].replace("a,1,2,1,1,45,2", "a,1,2,1,0,45,2"), "link a: lanes, free_speed and length must be above 0"),
    ("link", TABLES["link"].replace("a,1,2,1,1,45,2", "a,1,2,1,1,0,2"), "link a: lanes, free_speed and length must be above 0"),
    ("demand", "link_id,flow\nz,5\n", "demand.csv: has no column start"),
    ("demand", DEMAND.format("z,0,1800,5"), "demand.csv: line 3, link_id: there is no link z"),
    ("demand", DEMAND.format("e,0,1800,5"), "demand.csv: line 3, link_id: cars may not use link e"),
    ("demand", DEMAND.format("a,0,1800,nan"), 'demand.csv: line 3, flow: expected a number of 0 or more, found "nan"'),
    ("demand", DEMAND.format("a,0,1800,"), 'demand.csv: line 3, flow: expected a number of 0 or more, found ""'),
    ("demand", DEMAND.format("a,0,1800,-5"), 'demand.csv: line 3, flow: expected a number of 0 or more, found "-5"'),
    ("demand", DEMAND.format("a,1800,0,5"), "demand.csv: line 3, end: expected a time after the start at 1800 s, found 0"),
    ("demand", DEMAND.format("a,0,1800,1,050"), "demand.csv: line 3 has 5 fields, and line 1 has 4"),
    pytest.param("demand", DEMAND.format("a,0,1800,5" + "," * 9997), "demand.csv: line 3 has 10,001 fields; a row may have 10,000",
                 id="many fields"),
    pytest.param("link", "x" + ",x" * 99 + "\n", "has no column link_id, it has x, x, x, x, x, x, x, x, x, x, x, x and 88 more",
                 id="many columns"),
    ("link", TABLES["link"] + "a,1,2,1,1,45,2,1500,auto\n", "link.csv: line 7, link_id: a stands in line 2 too"),
    ("link", TABLES["link"] + ",1,2,1,1,45,2,1500,auto\n", "link.csv: line 7, link_id: is empty"),
    ("link", TABLES["link"] + "f,1,9,1,1,45,2,1500,auto\n", "link.csv: line 7, to_node_id: there is no node 9"),
    ("link", TABLES["link"].replace("true", "maybe"), 'link.csv: line 5, directed: expected 1 or 0, found "maybe"'),
    ("link", TABLES["link"].replace("45,1,,auto", "45,1.5,,auto"), 'link.csv: line 3, lanes: expected a whole number, found "1.5"'),
    ("node", TABLES["node"] + "1,0,0\n", "node.csv: line 6, node_id: 1 stands in line 2 too"),
    ("node", TABLES["node"].replace("1609,0", "west,0"), 'node.csv: line 3, x_coord: expected a number, found "west"'),
    ("movement", TABLES["movement"] + "4,2,a,1,1,z,signal,\n", "movement.csv: line 5, ob_link_id: there is no link z"),
    ("movement", TABLES["movement"] + "4,2,c,1,1,d,signal,\n", "movement.csv: line 5: link c doesn't lead to node 2 at which d begins"),
    ("movement", TABLES["movement"] + "3,2,b,1,1,d,signal,\n", "movement.csv: line 5, mvmt_id: 3 stands in line 4 too"),
    ("movement", TABLES["movement"].replace("d,signal,1", "d,signal,"), "movement.csv: line 3, share: is empty, and other movements from link a"),
    ("movement", TABLES["movement"].replace("signal,3", "signal,-3"), 'movement.csv: line 2, share: expected a number of 0 or more, found "-3"'),
    ("movement", "node_id,ib_link_id,ob_link_id,share\n2,a,c,\n2,a,d,1\n", "movement.csv: has no column mvmt_id"),
    ("movement", TABLES["movement"] + "4,2,a,1,1,c,signal,\n", "movement.csv: line 5, share: is empty, and other movements from link a"),
    ("signal_phase_mvmt", TABLES["signal_phase_mvmt"] + "p4,9,permitted\n", 'line 5, mvmt_id: there is none of this name, "9"'),
    ("signal_phase_mvmt", TABLES["signal_phase_mvmt"] + "p9,3,permitted\n", 'line 5, timing_phase_id: there is none of this name, "p9"'),
    ("signal_timing_phase", TABLES["signal_timing_phase"] + "p5,noon,2,25,5,1,1,1\n", 'line 4, timing_plan_id: there is none of this'),
    ("signal_timing_phase", TABLES["signal_timing_phase"].replace("25,5,1,2", "x,5,1,2"), 'line 3, max_green: expected a number of 0'),
    ("config", "crs\nEPSG:1\n", 'config.csv: crs: expected a coordinate system such as EPSG:25832, found "EPSG:1"')])
def test_mistakes_in_the_tables(folder, name, text, wanted):
    if text is None:
        (folder / f"{name}.csv").unlink()
    else:
        (folder / f"{name}.csv").write_text(text)
    with pytest.raises(Problem) as found:
        read_folder(folder)
    assert wanted in str(found.value)


def test_the_vehicles_of_the_demand_are_told_by_time(tool, folder):
    out = tool("import", "gmns", folder, "-o", "town.toml", "--until", "45 min")[1]
    # 600 vehicles come on a in half an hour, and 225 of 300 on b in 45 minutes.
    assert out.splitlines()[:4] == ["town.toml: 4 streets, 1 signals, 825 vehicles",
                                    "  vehicles              in the files  in the study",
                                    "  all                            900           825",
                                    "  00:00:00 to 00:45:00           825           825"]
    (folder / "demand.csv").unlink()
    assert "there is no demand.csv, so no vehicle comes" in tool("import", "gmns", folder, "-o", "town.toml")[1]


def test_demand_behind_the_end_is_told_and_left_out(tool, folder):
    (folder / "demand.csv").write_text(TABLES["demand"] + "a,7200,9000,600\nb,1800,90000,60\n")
    out = tool("import", "gmns", folder, "-o", "town.toml", "--start", "23:30")[1]
    # In the hour come 600 and 300, and 30 of the 1,470 of the last row.
    assert ", 930 vehicles" in out and "  after 00:30:00               1,740             0" in out.replace("24:30", "00:30")
    gates = build(read_study("town.toml")).text
    assert sum((int(row[3]) - int(row[2])) * float(row[4]) for row in (line.split(",") for line in gates.splitlines())
               if row[0] == "demand") == pytest.approx(930, abs=0.01)


# Two nodes in Berlin, 0.01 degrees of longitude apart: 678.6 m by the series of the UTM, so the links are of 0.68 km or so.
DEGREES = "node_id,x_coord,y_coord\n1,13.40,52.52\n2,13.41,52.52\n3,13.42,52.52\n4,13.41,52.53\n"


def lengths(text, one, two):
    """The table of links with other lengths of those from west to east, and of the others."""
    for ends, length in (("a,1,2,1", one), ("b,4,2,1", two), ("c,2,3,1", one), ("d,2,4,true", two), ("e,2,4,1", two)):
        text = text.replace(f"{ends},1,", f"{ends},{length},")
    return text


@pytest.mark.parametrize("config, length, told", [
    ("crs,long_length\nEPSG:4326,km\n", "0.68", False), ("crs\nWGS84\n", "0.68", False), ("long_length\nm\n", "680", True),
    ("dataset_name\ntown\n", "0.68", True), ("crs,long_length\nEPSG:4326,m\n", "", False)])
def test_degrees_are_kept_as_degrees(tool, folder, config, length, told):
    (folder / "config.csv").write_text(config)
    (folder / "node.csv").write_text(DEGREES)
    (folder / "link.csv").write_text(lengths(TABLES["link"], length, {"0.68": "1.11"}.get(length, "1112")))
    found = read_folder(folder)
    assert (found.crs, found.streets["a"].points) == ("EPSG:4326", [(13.40, 52.52), (13.41, 52.52)])
    assert found.streets["a"].length == pytest.approx(0.6786, abs=0.0015)
    assert any("has no crs; the coordinates are taken as longitude and latitude" in note for note in found.notes) == told


@pytest.mark.parametrize("units, kilometre", [
    (["km", "kilometer", "kilometers", "kilometre", "kilometres"], 1), (["m", "meter", "meters", "metre", "metres"], 0.001),
    (["mi", "mile", "miles"], 1.609344), (["ft", "foot", "feet"], 0.0003048)], ids=lambda it: it[0] if isinstance(it, list) else "")
def test_each_spelling_of_a_unit_of_length(folder, units, kilometre):
    """The international foot is 0.3048 m, and a mile is 5,280 of them."""
    for unit in units:
        (folder / "config.csv").write_text(f"long_length\n{unit}\n")
        assert read_folder(folder).streets["a"].length == pytest.approx(kilometre, rel=1e-12)


@pytest.mark.parametrize("units, kilometre", [(["kph", "km/h", "kmh", ""], 1), (["mph"], 1.609344), (["m/s"], 3.6)],
                         ids=lambda it: it[0] if isinstance(it, list) else "")
def test_each_spelling_of_a_unit_of_speed(folder, units, kilometre):
    for unit in units:
        (folder / "config.csv").write_text(f"long_length,speed\nmi,{unit}\n")
        assert read_folder(folder).streets["a"].speed == pytest.approx(45 * kilometre, rel=1e-12)


# The nodes are 1,609 m apart. Links of half that to twenty times that fit, and such of 300 to 4,000 times are of another unit.
@pytest.mark.parametrize("length, kept", [("0.804", False), ("0.805", True), ("32.17", True), ("32.19", False), ("482.6", False),
                                          ("6437", False)])
def test_how_long_links_may_be_for_the_coordinates_to_be_kept(folder, length, kept):
    (folder / "config.csv").write_text("speed\nmph\n")
    (folder / "link.csv").write_text(lengths(TABLES["link"], length, length))
    assert read_folder(folder).streets["a"].points == ([(0, 0), (1.609, 0)] if kept else [])


@pytest.mark.parametrize("length", ["482.8", "6435"])
def test_links_of_so_many_times_the_way_are_refused(folder, length):
    (folder / "config.csv").write_text("speed\nmph\n")
    (folder / "link.csv").write_text(lengths(TABLES["link"], length, length))
    with pytest.raises(Problem, match="has no long_length, and in km the links are"):
        read_folder(folder)


def test_coordinates_are_written_with_all_their_digits(tool, folder):
    (folder / "config.csv").write_text("crs,long_length,speed\nEPSG:4326,km,km/h\n")
    (folder / "node.csv").write_text(DEGREES.replace("13.40", "13.4012345"))
    (folder / "link.csv").write_text(lengths(TABLES["link"], "0.6", "1.1"))
    tool("import", "gmns", folder, "-o", "town.toml")
    text = Path("town.toml").read_text()
    assert 'crs = "EPSG:4326"' in text and "points = [[13.4012345, 52.52], [13.41, 52.52]]" in text
    units = build(read_study("town.toml")).units
    # Zone 33 of UTM has the second node at 392.11849 km and 5820.06467 km, by Krueger's series.
    assert units.crs == "EPSG:32633" and units.points["a"][1] == pytest.approx([392.11849, 5820.06467], abs=1e-5)


def test_metres_that_would_be_taken_for_km_are_refused(folder):
    (folder / "config.csv").unlink()
    (folder / "link.csv").write_text(lengths(TABLES["link"], "1609", "1609"))
    with pytest.raises(Problem, match="config.csv: has no long_length, and in km the links are 1,000 times as long"):
        read_folder(folder)
    (folder / "node.csv").write_text(DEGREES)
    (folder / "link.csv").write_text(lengths(TABLES["link"], "679", "1112"))
    with pytest.raises(Problem, match="config.csv: has no long_length, and in km the links are 1,00[01] times as long"):
        read_folder(folder)


def test_coordinates_that_fit_nothing_are_left_out_and_told(folder):
    (folder / "node.csv").write_text("node_id,x_coord,y_coord\n1,0,0\n2,1,0\n3,2,0\n4,1,1\n")
    (folder / "link.csv").write_text(TABLES["link"])
    found = read_folder(folder)
    assert found.streets["a"].points == [] and "the coordinates of the nodes aren't kept: by them" in "".join(found.notes)


def test_a_node_without_coordinates_isnt_put_at_the_origin(folder):
    (folder / "node.csv").write_text(TABLES["node"].replace("1,0,0", "1,,"))
    found = read_folder(folder)
    assert found.streets["a"].points == [] and found.streets["c"].points == [(1.609, 0), (3.218, 0)]


def test_a_movement_from_a_link_that_is_not_directed_takes_the_street_to_its_node(folder):
    (folder / "link.csv").write_text(TABLES["link"].replace("d,2,4,true", "d,2,4,0"))
    (folder / "movement.csv").write_text(TABLES["movement"] + "4,2,d,1,1,c,signal,\n")
    assert ("d_back", "c") in read_folder(folder).ways


@pytest.mark.parametrize("start, end, other, wanted", [
    ("-1", "1", "1", 2), ("-2", "2", "1", 4), ("-2", "-1", "1", 2), ("1", "2", "1", 2), ("-1", "1", "0", 3), ("0", "1", "1", 2)])
def test_lanes_to_the_left_are_negative_and_none_has_the_number_0_unless_the_file_has_it(folder, start, end, other, wanted):
    """Lanes are numbered .., -2, -1, 1, 2, ..; in a file that has a lane 0 they are numbered through it."""
    rows = TABLES["movement"].replace("1,2,a,1,2,c", f"1,2,a,{start},{end},c").replace("3,2,b,1,1,c", f"3,2,b,{other},{other},c")
    (folder / "movement.csv").write_text(rows)
    assert read_folder(folder).ways["a", "c"].lanes == wanted
    (folder / "lane.csv").write_text("lane_id,link_id,lane_num\n1,a,0\n")
    assert read_folder(folder).ways["a", "c"].lanes == int(end) - int(start) + 1


# South and west of Johannesburg's zone the numbers grow, and south and west of Prague's: by their own axes.
@pytest.mark.parametrize("crs, here, east, north", [
    ("EPSG:2053", "95000,2899000", "94000,2899000", "95000,2898000"), ("EPSG:5513", "1043000,743000", "1043000,742000", "1042000,743000")])
def test_axes_to_the_south_and_the_west_are_turned(tool, folder, crs, here, east, north):
    """A link of a km to the east and one of a km to the north are drawn so, but for the angle between the meridians of grids."""
    (folder / "config.csv").write_text(f"crs,long_length,speed\n{crs},km,km/h\n")
    (folder / "node.csv").write_text(f"node_id,x_coord,y_coord\n1,{here}\n2,{east}\n3,{north}\n")
    (folder / "link.csv").write_text("link_id,from_node_id,to_node_id,length,free_speed,lanes\na,2,1,1,50,1\nb,1,3,1,50,1\n")
    for name in ("movement", "signal_timing_plan", "signal_timing_phase", "signal_phase_mvmt", "signal_coordination", "demand"):
        (folder / f"{name}.csv").unlink()
    (folder / "demand.csv").write_text("link_id,start,end,flow\na,0,1800,600\n")
    assert tool("import", "gmns", folder, "-o", "town.toml")[0] == 0
    east_end, middle, north_end = build(read_study("town.toml")).units.points["a"]  # the links are one road
    turned = 0.16  # sine of the angle between the grids' norths, of some 8 degrees at Prague
    assert [east_end[i] - middle[i] for i in (0, 1)] == pytest.approx([1, 0], abs=turned)
    assert [north_end[i] - middle[i] for i in (0, 1)] == pytest.approx([0, 1], abs=turned)


def test_movements_by_lanes_from_link_to_link_add_up(folder):
    rows = TABLES["movement"].replace("1,2,a,1,2,c,signal,3", "1,2,a,1,1,c,signal,1\n4,2,a,2,2,c,signal,2")
    (folder / "movement.csv").write_text(rows)
    found = read_folder(folder)
    assert (found.ways["a", "c"].lanes, found.shares["a", "c"], found.shares["a", "d"]) == (2, 3, 1)
