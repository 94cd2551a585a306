"""Reports as GeoJSON: a line for each cell, with what it passed and lost, at the end or by time."""

import json

import pytest

from ctmtools import Problem, read_report
from ctmtools.exports.geojson import collection
from ctmtools.report.by_road import by_road
from ctmtools.study.coordinates import flat

from .corridor import HEAD, corridor
from .examples import save_report
from .plain_reports import at_a_light, reported


def made(tmp_path, **named):
    return reported(corridor(tmp_path, **named))


def test_a_line_for_each_cell_along_the_points(tmp_path):
    report = made(tmp_path)
    report.units.points = {"m": [[0, 0], [0.6, 0.8]]}
    rows = {row["properties"]["cell"]: row for row in collection(report)["features"]}
    assert set(rows) == {"g", "m1", "m2", "m3", "m4", "x"}
    assert rows["m2"]["geometry"] == {"type": "LineString", "coordinates": [[150, 200], [300, 400]]}
    assert {key: rows["m2"]["properties"][key] for key in ("kind", "road", "from_km", "to_km", "lanes")} == \
        {"kind": "road", "road": "m", "from_km": 0.25, "to_km": 0.5, "lanes": 2}
    # 1,000 come in the hour, of whom those of the last three steps stand in the gate, in m1 and in m2 at its end.
    assert rows["m2"]["properties"]["left"] == pytest.approx(1000 - 30 * 1000 / 3600, abs=0.01)


def test_by_quarter_of_an_hour(tmp_path):
    report = made(tmp_path, demand='[["06:00", "06:30", 1440]]')
    rows = [row["properties"] for row in collection(report, 900)["features"] if row["properties"]["cell"] == "m1"]
    assert [row["begin"] for row in rows] == [f"1900-01-01T06:{minute:02d}:00" for minute in (0, 15, 30, 45)]
    # 4 vehicles in each step of 10 s, on m1 from 20 s on: 88 steps of 90, in which it holds 4, 16 vehicles/km.
    assert rows[0]["flow"] == pytest.approx(1440 * 88 / 90) and rows[0]["density"] == pytest.approx(16 * 88 / 90, abs=0.001)
    assert (rows[1]["flow"], rows[1]["density"], rows[1]["speed"], rows[1]["delay"]) == pytest.approx((1440, 16, 90, 0))
    assert rows[3]["flow"] == 0 and rows[3]["speed"] is None
    # It is the same where each sixth step is recorded.
    sparse = collection(reported(corridor(tmp_path, demand='[["06:00", "06:30", 1440]]'), 6), 900)["features"]
    second = [row["properties"] for row in sparse if row["properties"]["cell"] == "m1"][1]
    assert (second["flow"], second["density"], second["speed"], second["delay"]) == pytest.approx((1440, 16, 90, 0))


@pytest.mark.parametrize("every, records", [(900, 1), (900, 6), (700, 7)])
def test_the_delay_of_all_cells_adds_up_to_the_programs(tmp_path, every, records):
    # The bottleneck costs 461.25 vehicle-hours, which is the area between its curves of arrival and departure.
    report = read_report(save_report(tmp_path, "bottleneck", records))
    for rows in (collection(report)["features"], collection(report, every)["features"]):
        delays = [(row["properties"]["kind"], row["properties"]["delay"]) for row in rows]
        assert sum(delay for _, delay in delays) == pytest.approx(461.25, abs=0.01)
        assert all(delay == 0 for kind, delay in delays if kind == "exit")
    assert by_road(report, every).delay.sum() == pytest.approx(461.25, abs=0.01)


def test_steps_and_cells_where_no_units_are_known():
    rows = [row["properties"] for row in collection(at_a_light(0, 3, 7), 10)["features"] if row["properties"]["cell"] == "a"]
    # One goes out in the first ten steps, in which the cell holds 7 vehicle-steps; the two that then stand there go out at once.
    assert [tuple(row[key] for key in ("begin", "end", "flow", "density", "speed")) for row in rows[:2]] == [
        (0, 10, 0.1, 0.7, 0.143), (10, 20, 0.2, 0.2, 1)]


CENTRE = [[13.40, 52.52], [13.41, 52.52]]  # degrees, in Berlin
UTM = [[391440.03, 5820079.67], [392118.49, 5820064.67]]  # the same in zone 33 of UTM, in m, by Krueger's series


@pytest.mark.parametrize("crs, points", [("EPSG:4326", CENTRE), ("EPSG:25833", UTM)])
def test_points_of_a_coordinate_system_are_written_in_degrees(tmp_path, crs, points):
    made = reported(corridor(tmp_path, head=f'crs = "{crs}"\n{HEAD}', lanes=f"2\npoints = {points}"))
    read = collection(made)
    rows = {row["properties"]["cell"]: row["geometry"]["coordinates"] for row in read["features"]}
    assert read["units"]["coordinates"] == "longitude and latitude"
    assert rows["m1"][0] == pytest.approx(CENTRE[0], abs=1e-6) and rows["m4"][-1] == pytest.approx(CENTRE[1], abs=1e-6)
    assert rows["m2"][-1] == pytest.approx([13.405, 52.52], abs=1e-5)


@pytest.mark.parametrize("crs, points, wanted, places", [
    ("EPSG:25833", UTM, "EPSG:25833", UTM), ("EPSG:4326", CENTRE, "EPSG:32633", UTM),
    # A grid in feet of 0.3048006096 m; these are on 74° W, in zone 18.
    ("EPSG:2263", [[984250.0, 200000.0]], "EPSG:32618", None)])
def test_points_in_metres_to_the_east_and_north_stay_as_they_are(crs, points, wanted, places):
    found, moved = flat([(x, y) for x, y in points], crs, "crs")
    assert found == wanted
    if places:
        assert moved == [pytest.approx((x / 1000, y / 1000), abs=1e-5) for x, y in places]


def test_points_without_a_system_are_told_as_local(tmp_path):
    report = made(tmp_path)
    assert collection(report)["units"]["coordinates"] == "local, of a schematic map in km"
    report.units.points = {"m": [[0, 0], [0.6, 0.8]]}
    assert collection(report)["units"]["coordinates"] == "local, in metres"


@pytest.mark.parametrize("crs, points, wanted", [
    ("EPSG:4326", [[52.52, 113.4], [52.53, 113.4]], "roads.m.points: expected a longitude and a latitude in degrees, found 52.52, 113.4"),
    ("EPSG:1", CENTRE, 'crs: expected a coordinate system such as EPSG:25832, found "EPSG:1"'),
    ("WGS84", CENTRE, 'crs: expected a code such as "EPSG:25832"'), ("EPSG:4978", CENTRE, "crs: expected a system of longitude"),
    ("EPSG:25833", [[1e12, 5e6], [2e12, 5e6]], "is no place of EPSG:25833")])
def test_mistakes_in_coordinates(tmp_path, crs, points, wanted):
    with pytest.raises(Problem) as found:
        collection(reported(corridor(tmp_path, head=f'crs = "{crs}"\n{HEAD}', lanes=f"2\npoints = {points}")))
    assert wanted in str(found.value)


def test_the_command(tool, reports, tmp_path):
    status, out, err = tool("export", "geojson", reports("interchange"), "--every", "30 min", "-o", "i.geojson")
    read = json.loads((tmp_path / "i.geojson").read_text())
    assert status == 0 and read["type"] == "FeatureCollection" and out == \
        f"i.geojson: {len(read['features']):,} lines; coordinates are local, of a schematic map in km\n"
    assert read["units"]["density"] == "vehicles/km" and read["features"][0]["geometry"]["type"] == "LineString"
    assert "its name ends with .geojson" in tool("export", "geojson", reports("interchange"), "-o", "i.csv")[2]
    assert "is less than the time from record to record" in tool("export", "geojson", reports("interchange"), "--every", "1")[2]
