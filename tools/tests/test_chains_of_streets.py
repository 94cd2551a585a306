"""Streets in GMNS that follow each other as one road: how they are named in the study, and their lengths, lanes and demand."""

import tomllib

import pytest

from ctmtools.imports.gmns import read_folder


@pytest.fixture
def imported(tool, tmp_path):
    """The text of the study that a row of so many streets of 500 m makes."""
    def make(count, *words):
        tables = {"config": "long_length,speed\nm,kph\n", "node": "node_id\n" + "".join(f"{i}\n" for i in range(count + 1)),
                  "link": "link_id,from_node_id,to_node_id,length,free_speed,lanes\n" + "".join(
                      f"s{i},{i},{i + 1},500,{60 if i % 2 else 90},2\n" for i in range(count)),
                  "demand": "link_id,start,end,flow\ns0,0,1800,720\n"}
        folder = tmp_path / "town"
        folder.mkdir(exist_ok=True)
        for name, text in tables.items():
            (folder / f"{name}.csv").write_text(text)
        status, out, err = tool("import", "gmns", folder, *words)
        assert status == 0, err
        return (tmp_path / "town.toml").read_text()
    return make


@pytest.mark.parametrize("count, comment", [(2, "# s0, s1"), (8, "# s0, s1, s2, s3, s4, s5, s6, s7"), (9, "# s0, s1, s2, s3, s4, s5, s6, s7 and 1 more")])
def test_the_first_eight_streets_of_a_road_are_named(imported, count, comment):
    assert comment in imported(count).splitlines()


def test_a_road_of_two_streets(imported):
    study = tomllib.loads(imported(2, "--step", "6 s", "--start", "06:10", "--until", "30 min"))
    assert (study["step"], study["start"], study["duration"]) == (6, "06:10", 1800)
    road, = study["roads"].values()
    # A lane passes a vehicle in 1.4 s and the time of 7.5 m: 0.3 s at 90 km/h and 0.45 s at 60, and is kept just below.
    assert road["length"] == 1 and road["sections"] == [
        {"from": 0, "lanes": 2, "free_flow_speed": 90, "saturation_flow": int(3600 / 1.7) - 1},
        {"from": 0.5, "lanes": 2, "free_flow_speed": 60, "saturation_flow": int(3600 / 1.85) - 1}]
    assert study["lane"] == {"wave_speed": pytest.approx(7.5 / 1.4 * 3.6, abs=1e-4), "jam_density": pytest.approx(1000 / 7.5, abs=1e-3)}
    gate, = study["gates"].values()
    assert gate["demand"] == [{"start": "06:10:00", "end": "06:40:00", "flow": 720}]


def test_a_study_is_named_for_its_folder_and_ends_with_toml(imported, tool, tmp_path):
    imported(2)
    assert tool("import", "gmns", tmp_path / "town", "-o", "other.csv")[2].count("a study's name ends with .toml") == 1
    assert tool("import", "gmns", tmp_path / "town", "--step", "0.05")[2].count("--step: must be 0.1 s or more") == 1
    assert tool("import", "gmns", tmp_path / "town", "--step", "0.1", "-o", "fine.toml")[0] == 0


@pytest.mark.parametrize("directed, both", [("1", False), ("true", False), ("0", True), ("False", True), ("no", True)])
def test_a_link_without_a_direction_is_two_streets(tmp_path, directed, both):
    (tmp_path / "node.csv").write_text("node_id,x_coord,y_coord\n1,0,0\n2,500,0\n")
    (tmp_path / "link.csv").write_text(f"link_id,from_node_id,to_node_id,directed,length,free_speed,lanes\na,1,2,{directed},0.5,60,2\n")
    found = {name: (street.start, street.end, street.points) for name, street in read_folder(tmp_path).streets.items()}
    there = {"a": ("1", "2", [(0, 0), (0.5, 0)])}
    assert found == ({**there, "a_back": ("2", "1", [(0.5, 0), (0, 0)])} if both else there)


def test_roads_shorter_than_half_a_cell_are_told(imported, tool, tmp_path):
    imported(2)
    links = tmp_path / "town" / "link.csv"
    # In a step of 2 s a cell has 50 m at 90 km/h.
    for length, told in ((12, True), (13, False)):
        links.write_text(links.read_text().replace(",500,", f",{length},").replace(",12,", f",{length},"))
        text = (tmp_path / "town.toml").read_text() if tool("import", "gmns", tmp_path / "town")[0] == 0 else ""
        assert ("1 roads are shorter than half a cell and become one, as 24 m at s0" in text) == told
        assert ("shorter than half a cell" in text) == told and "s0, s1" in text


def test_limits_by_time_of_parts_of_links_are_told(tmp_path):
    (tmp_path / "node.csv").write_text("node_id\n1\n2\n")
    (tmp_path / "link.csv").write_text("link_id,from_node_id,to_node_id,length,free_speed\na,1,2,0.5,60\n")
    (tmp_path / "segment_tod.csv").write_text("segment_tod_id,segment_id,free_speed\n1,s,30\n2,s,\n")
    notes = read_folder(tmp_path).notes
    assert notes[-1].startswith("segment_tod.csv: 1 speeds by time are left out")
