"""The files that a study names: beside it or below, or in a folder that is allowed; what an error tells of them is their header at most."""

import os

import pytest

from ctmtools import Problem, read_study
from ctmtools.assignment.diversion import ways_of_study
from ctmtools.study import folder as folders

HEAD = """step = 10
start = "06:00"
duration = "1 h"
lane = {free_flow_speed = 72, wave_speed = 18, jam_density = 150, saturation_flow = 1800}
roads.m = {length = 1, lanes = 1}
exits.x = {from = "m"}
"""
COUNTS = HEAD + 'gates.g = {into = "m", demand = {counts = NAME, column = "n"}}\n'
LISTED = HEAD + 'gates.g = {into = "m"}\ntrips = {file = NAME}\n'
MATRIX = HEAD + 'gates.g = {into = "m"}\ntrips = {matrices = [{file = NAME}]}\n'
TRIPS = HEAD + 'gates.g = {into = "m"}\ntrips = [{from = "g", to = "x", demand = {counts = NAME, column = "n"}}]\n'
ROWS = {"counts": "time,n\n" + "".join(f"06:{i:02d},10\n" for i in range(0, 60, 15)), "list": "from,to,start,end,vehicles\ng,x,06:00,07:00,10\n",
        "matrix": ",x\ng,10\n"}
KINDS = {"counts": (COUNTS, "counts", "gates.g.demand.counts"), "trips by counts": (TRIPS, "counts", "trips[1].demand.counts"),
         "list": (LISTED, "list", "trips.file"), "matrix": (MATRIX, "matrix", "trips.matrices[1].file")}


@pytest.fixture(autouse=True)
def allowed(monkeypatch):
    """No folder is allowed at the beginning of a test, nor at its end."""
    monkeypatch.setattr(folders, "_allowed", {})


@pytest.fixture(params=KINDS, ids=KINDS)
def kind(request, tmp_path):
    """A sort of key with a file in the study's folder, below it and beside that folder; gives a writer of its study, and the key."""
    text, rows, key = KINDS[request.param]
    for place in ("study/f.csv", "study/below/f.csv", "f.csv", "other/f.csv"):
        (tmp_path / place).parent.mkdir(exist_ok=True)
        (tmp_path / place).write_text(ROWS[rows])

    def write(name):
        path = tmp_path / "study" / "s.toml"
        path.write_text(text.replace("NAME", f'"{name}"'))
        return path
    return write, key


def test_files_beside_a_study_and_below_are_read(kind, tmp_path):
    write, _ = kind
    (tmp_path / "study" / "link.csv").symlink_to("below/f.csv")
    for name in ("f.csv", "below/f.csv", "below/../f.csv", "../study/f.csv", str(tmp_path / "study" / "f.csv"), "link.csv"):
        assert read_study(write(name)).gates["g"].demand


def test_others_are_refused_before_they_are_looked_at(kind, tmp_path):
    write, key = kind
    (tmp_path / "study" / "link.csv").symlink_to("../f.csv")
    (tmp_path / "study" / "folder").symlink_to("../other")
    for name in ("../f.csv", "../none.csv", str(tmp_path / "f.csv"), "/dev/zero", "link.csv", "folder/f.csv", "below/../../f.csv", "../study2/f.csv"):
        with pytest.raises(Problem, match="lies outside of the study's folder; --allow-files ") as refused:
            read_study(write(name))
        assert f"s.toml: {key}: {name} lies" in str(refused.value)


def test_a_pipe_is_no_file(kind, tmp_path):
    write, key = kind
    os.mkfifo(tmp_path / "study" / "pipe")
    with pytest.raises(Problem, match="pipe is a pipe or a device, and a file is wanted") as refused:
        read_study(write("pipe"))
    assert f"{key}: pipe" in str(refused.value)


@pytest.mark.parametrize("name", ["../*.csv", "../other", "*/../../f.csv", "folder", "folder/*.csv", "below*/*.csv"])
def test_nor_do_patterns_and_folders_lead_out(tmp_path, name):
    for place in ("study", "other", "study/below"):
        (tmp_path / place).mkdir(exist_ok=True)
    (tmp_path / "other" / "f.csv").write_text(ROWS["counts"])
    (tmp_path / "study" / "folder").symlink_to("../other")
    (tmp_path / "study" / "below" / "f.csv").symlink_to("../../other/f.csv")
    (tmp_path / "study" / "s.toml").write_text(COUNTS.replace("NAME", f'"{name}"'))
    with pytest.raises(Problem, match="lies outside of the study's folder"):
        read_study(tmp_path / "study" / "s.toml")


def test_a_folder_may_be_allowed(tool, kind, tmp_path):
    write, _ = kind
    path = write("../other/f.csv")
    status, out, err = tool("build", path)
    assert (status, out) == (2, "") and err.count("\n") == 1 and f"--allow-files {tmp_path / 'other'} allows it" in err
    assert tool("build", path, "--allow-files", tmp_path / "study")[0] == 2
    assert "does not exist" in tool("build", path, "--allow-files", tmp_path / "none")[2]
    assert tool("build", path, "--allow-files", tmp_path / "other")[0] in (0, 2)  # where shares follow from trips it isn't built
    assert read_study(path).gates["g"].demand


def test_processes_beside_may_read_what_this_one_may(tool, plain, tmp_path):
    (tmp_path / "study").mkdir()
    (tmp_path / "f.csv").write_text(ROWS["counts"])
    (tmp_path / "study" / "s.toml").write_text(COUNTS.replace("NAME", '"../f.csv"'))
    words = ["sweep", tmp_path / "study" / "s.toml", "--vary", "demand=1,2", "--jobs", "2"]
    assert tool(*words)[0] == 2
    status, out, err = tool(*words, "--allow-files", tmp_path)
    assert status == 0 and "runs failed" not in out, err


def test_the_ways_of_an_assigned_study(tmp_path):
    (tmp_path / "study").mkdir()
    (tmp_path / "w.csv").write_text("secret\n")
    path = tmp_path / "study" / "s.toml"
    path.write_text(HEAD + 'gates.g = {into = "m", demand = 1}\nassigned = {ways = "../w.csv"}\n')
    with pytest.raises(Problem, match="assigned.ways: ../w.csv lies outside"):
        ways_of_study(path)


SECRET = "Zyzzyva"
TERMS = [('column = "n"', "time,n\n06:00,SECRET\n"), ('column = "n"', "time,n\nSECRET,1\n"), ('column = "n"', "time,n\n06:00,1,SECRET\n"),
         ('column = "n"', "station,time,n\nSECRET,06:00,1\nb,06:00,1\n"), ('column = "n", station = "c"', "station,time,n\nSECRET,06:00,1\nb,06:00,1\n"),
         ('column = "n"', "date,time,n\nSECRET,06:00,1\n04/12/2019,06:00,1\n"), ('column = "n", date = "2019-12-04"', "date,time,n\nSECRET,06:00,1\n"),
         ('column = "n", dates = "sundays"', "date,time,n\nSECRET,06:00,1\n"), ('column = "n", zone = "Europe/Berlin"', "date,time,n\nSECRET,06:00Z,1\n"),
         ('column = "n"', "time,n\n\"SECRET,1\n"), ('station = "c"', "time,station,flow\n06:00,SECRET,1\n"), ('per = "hour"', "time,flow\n06:00,SECRET\n"),
         ('column = "n"', "time,n\n06:00,1\n2019-12-04 06:15 SECRET,1\n")]


@pytest.mark.parametrize("terms, rows", TERMS)
def test_no_error_quotes_what_stands_below_the_header(tool, tmp_path, terms, rows):
    (tmp_path / "f.csv").write_text(rows.replace("SECRET", SECRET))
    (tmp_path / "s.toml").write_text(COUNTS.replace("NAME", '"f.csv"').replace('column = "n"', terms))
    status, out, err = tool("build", "s.toml")
    assert (status, out) == (2, "") and err.count("\n") == 1 and SECRET not in err


@pytest.mark.parametrize("kind, rows", [
    ("list", "g,x,06:00,07:00,SECRET"), ("list", "SECRET,x,06:00,07:00,1"), ("list", "g,SECRET,06:00,07:00,1"), ("list", "g,x,SECRET,07:00,1"),
    ("list", "g,x,06:00,SECRET,1"), ("list", "g,x,SECRET"), ("matrix", "SECRET,1"), ("matrix", "g,SECRET"), ("matrix", "SECRET,1,2"),
    ("matrix", "SECRET,1\nSECRET,1")])
def test_nor_do_those_of_trips(tool, tmp_path, kind, rows):
    head = ROWS[kind].splitlines()[0]
    (tmp_path / "f.csv").write_text(f"{head}\n{rows}\n".replace("SECRET", SECRET))
    (tmp_path / "s.toml").write_text(KINDS[kind][0].replace("NAME", '"f.csv"'))
    status, out, err = tool("build", "s.toml")
    assert (status, out) == (2, "") and err.count("\n") == 1 and SECRET not in err


def test_each_command_that_takes_a_study_has_the_option():
    from ctmtools.command_line import COMMANDS, tools

    found = {name for name in COMMANDS for parameter in tools.get_command(None, name).params if "--allow-files" in parameter.opts}
    assert found == {"assign", "branch", "build", "calibrate", "choose", "draw", "meter", "open", "optimise", "run", "sweep"}
