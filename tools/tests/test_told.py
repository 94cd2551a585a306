"""What build and run tell of a study before its results, in the engineer's units, and what commands were given."""

import subprocess

import pytest

from ctmtools.runs.outputs import network_target, report_target
from ctmtools.texts.text_table import first_few
from ctmtools.units import units_path

from .corridor import corridor_text
from .examples import EXAMPLES, TOOLS

STUDY = corridor_text()
# A study that can hardly be meant, and what is told of it.
SLIPS = {
    "metres for kilometres": (STUDY.replace("length = 1\n", "length = 250\n"),
                              'warning: roads.m.length: 250 km, which makes 1,000 cells; are metres meant? Then write "250 m"'),
    "metres a second for km/h": (STUDY.replace("free_flow_speed = 90", "free_flow_speed = 25"),
                                 "warning: roads.m.free_flow_speed: 25 km/h on 2 lanes is hardly what a road has, 40 to 160 "
                                 'km/h; are m/s or mph meant? Then write "25 m/s" or "25 mph"'),
    "a speed too great": (STUDY.replace("free_flow_speed = 90", "free_flow_speed = 324"),
                          "roads.m.free_flow_speed: 324 km/h on 2 lanes is hardly what a road has"),
    "the density of all lanes": (STUDY.replace("jam_density = 144", "jam_density = 288"),
                                 "roads.m.jam_density: 288 vehicles/km in a lane is hardly what a road has, 70 to 250 "
                                 "vehicles/km; it is that of one lane"),
    "the flow of all lanes": (STUDY.replace("saturation_flow = 2160", "saturation_flow = 4320"),
                              "roads.m.saturation_flow: 4,320 vehicles/h in a lane is hardly what a road has"),
    "a flow that the density can't carry": (STUDY.replace("jam_density = 144", "jam_density = 120"),
                                            "warning: road m from km 0 to 1 can carry 3,600 vehicles/h for long by its "
                                            "jam density and its speeds, which is below its saturation flow of 4,320 vehicles/h"),
    "a road without an exit": (STUDY.replace('[exits.x]\nfrom = "m"\n', ""),
                               "warning: road m at km 1 leads neither to an exit nor to a road, so vehicles that come there stay"),
    "a road that nothing leads to": (STUDY + '[roads.n]\nlength = 1\nlanes = 1\n[exits.y]\nfrom = "n"\n',
                                     "warning: no vehicle ever reaches road n from km 0 to 0.25, nor 4 more behind it"),
    "a demand far above the capacity": (STUDY.replace("1000", "50000"),
                                        "warning: the demand of gate g from 06:00 on, 50,000 vehicles/h, is far above its "
                                        "capacity of 4,320 vehicles/h"),
    "demands that overlap": (STUDY.replace("1000", '[["06:00", "06:40", 900], ["06:30", "07:00", 360]]'),
                             "warning: the demands of g overlap from 06:30 on; their amounts add up"),
    "a hole in the demand": (STUDY.replace("1000", '[["06:30", "07:00", 900], ["06:00", "06:20", 900]]'),
                             "warning: gates.g.demand: no vehicle comes from 06:20 to 06:30, a hole between its rows; is a row missing?"),
    "a road shorter than was meant": (STUDY.replace("length = 1\n", "length = 0.9\n"),
                                      "rounded: length of road m: 0.9 km asked, 1 km modelled"),
    "a speed limit that does nothing": (STUDY + '[[speed_limits]]\nroad = "m"\nfrom = 0.5\nstart = "06:15"\nend = "06:45"\nspeed = 100\n',
                                        "speed_limits[1]: road m has 90 km/h there itself, so a limit of 100 km/h does nothing"),
    "closures that overlap": (STUDY + 2 * '[[closures]]\nroad = "m"\nlanes = 1\n',
                              "closures[1] and closures[2] overlap on road m from km 0 to 1, 06:00 to 07:00: 0 of 2 lanes"),
}


def test_of_many_names_three_are_told_and_how_many_more_there_are():
    assert [first_few("abcde"[:count]) for count in (1, 3, 4, 5)] == ["a", "a, b, c", "a, b, c and 1 more", "a, b, c and 2 more"]


@pytest.mark.parametrize("slip", SLIPS)
def test_build_and_run_tell_it_before_the_results(tool, tmp_path, slip, recording_program):
    text, wanted = SLIPS[slip]
    (tmp_path / "s.toml").write_text(text)
    status, out, err = tool("build", "s.toml")
    told = [line[2:] for line in out.splitlines() if line.startswith("  ")]
    assert status == 0 and any(wanted in line for line in told), out
    status, out, err = tool("run", "s.toml", "--every", "0")
    lines = out.splitlines()
    assert status == 0 and lines[:len(told)] == told and lines[len(told)] == ""
    assert lines[len(told) + 1].startswith("s: 06:00 to 07:00")


def test_a_network_has_its_warnings_before_its_results_too(tool, tmp_path, recording_program):
    (tmp_path / "s.toml").write_text(SLIPS["a road without an exit"][0])
    tool("build", "s.toml")
    status, out, err = tool("run", "s.csv", "--every", "0")
    assert out.splitlines()[0].startswith("warning: s.csv: line ") and "leads neither to an exit" in out.splitlines()[0]
    status, out, err = tool("lint", "s.csv")
    assert status == 0 and "road m at km 1 leads neither to an exit" in out


def test_a_cell_that_was_added_to_a_built_network_is_named_as_in_the_file(tool, tmp_path, program):
    (tmp_path / "s.toml").write_text(STUDY.replace("jam_density = 144", "jam_density = 120"))
    tool("build", "s.toml")
    with open("s.csv", "a") as file:
        file.write("road,more,20,12,1,5,0\ngate,new,9,0\n")
    status, out, err = tool("lint", "s.csv")
    assert status == 0 and "the road more is a dead end" in out and "the gate new is a dead end" in out
    assert "road m from km 0 to 1 can carry 3,600" in out and "the road more can carry" in out


def test_a_great_many_cells_are_told(tool, tmp_path):
    (tmp_path / "s.toml").write_text(STUDY.replace("step = 10", "step = 0.1").replace('end = "07:00"', 'duration = "1 min"')
                                     .replace("length = 1\n", "length = 60\n"))
    assert "warning: the study has 24,000 cells, which take long; a longer step gives fewer" in tool("build", "s.toml")[1]


def test_nothing_is_told_that_is_as_it_was_asked(tool):
    status, out, err = tool("build", EXAMPLES / "interchange.toml")
    assert out.splitlines()[1:] == ["  All lengths, flows, times, places and shares are modelled as asked, to 0.1 %."]


@pytest.mark.parametrize("words, told", [
    (["lint", EXAMPLES / "bottleneck.toml"], "this is a study, and a network is wanted; `ctm-tools build` makes its network"),
    (["build", EXAMPLES / "bottleneck.csv"], "this is a network, and a study is wanted; `ctm-tools run` runs it"),
    (["build", EXAMPLES / "bottleneck.report"], "this is a report, and a study is wanted"),
    (["lint", EXAMPLES / "bottleneck.report"], "this is a report, and a network is wanted; `ctm-tools table`"),
    (["run", EXAMPLES / "bottleneck.report"], "this is a report, and a network is wanted"),
    (["lint", TOOLS / "tests" / "studies" / "corridor.saved"], "this is a saved run, and a network is wanted; `ctm resume`")])
def test_another_file_than_is_wanted_is_named(tool, words, told):
    status, out, err = tool(*words)
    assert status == 2 and told in err and err.count("\n") == 1


@pytest.mark.parametrize("old, new, key", [
    ("free_flow_speed = 90", 'free_flow_speed = [["06:00", "06:30", 60]]', "lane.free_flow_speed"),
    ("lanes = 2\n", 'lanes = 2\nfree_flow_speed = { start = "06:00", end = "06:30", speed = 60 }\n', "roads.m.free_flow_speed")])
def test_a_free_flow_speed_by_time_is_refused(tool, tmp_path, old, new, key):
    (tmp_path / "s.toml").write_text(STUDY.replace(old, new, 1))
    status, out, err = tool("run", "s.toml")
    assert status == 2 and f"{key}: a road has one free-flow speed of its own; say a number, and lower speeds by time as [[speed_limits]]" in err and not out


def test_a_study_under_another_name_is_a_study(tool, tmp_path):
    (tmp_path / "s.txt").write_text(STUDY)
    assert "this is a study" in tool("lint", "s.txt")[2] and "this is a study" in tool("run", "s.txt")[2]
    assert tool("build", "s.txt")[0] == 0


def test_git_ignores_what_the_commands_write_at_the_top(tmp_path):
    studies = sorted(EXAMPLES.glob("*.toml"))
    made = [path(study) for study in studies for path in (network_target, report_target)]
    made += [units_path(report_target(study)) for study in studies]
    made += [f"{study.stem}.{folder}" for study in studies for folder in (
        "sweep/results.csv", "choose/plans.csv", "optimise/tried.csv", "calibrate/tried.csv")]
    made += [f"{study.stem}-metered.meter.json" for study in studies]
    made += ["tools/build/lib/ctmtools/units.py", "tools/ctmtools.egg-info/PKG-INFO"]  # of pip
    made += [f"{study.stem}-{plot}.{ending}" for study in studies for plot in ("queue", "time-space", "difference")
             for ending in ("png", "svg", "pdf")]
    made += [f"{study.stem}.{ending}" for study in studies for ending in ("html", "geojson", "saved")]
    made += [f"{study.stem}-metered.{ending}" for study in studies for ending in ("csv", "report", "units.json")]
    subprocess.run(["git", "init", "-q", tmp_path], check=True)
    (tmp_path / ".gitignore").write_bytes((TOOLS.parent / ".gitignore").read_bytes())
    ignored = subprocess.run(["git", "check-ignore", *map(str, made)], cwd=tmp_path, capture_output=True, text=True)
    assert ignored.stdout.splitlines() == [str(name) for name in made]


def test_git_ignores_no_example(tmp_path):
    kept = [f"examples/{path.name}" for path in EXAMPLES.iterdir() if path.is_file()]
    subprocess.run(["git", "init", "-q", tmp_path], check=True)
    (tmp_path / ".gitignore").write_bytes((TOOLS.parent / ".gitignore").read_bytes())
    assert subprocess.run(["git", "check-ignore", *kept], cwd=tmp_path, capture_output=True).stdout == b""
