"""The commands as one calls them: help, pages, pictures, and errors in one line with status 2."""

import os
import subprocess
import sys
from pathlib import Path

import pytest

from ctmtools import Problem
from ctmtools.command_line import COMMANDS
from ctmtools.files.writing import write

from .examples import EXAMPLES, TOOLS

STUDIES = sorted(path.stem for path in EXAMPLES.glob("*.toml") if "[[trips]]" not in path.read_text())
PLOTS = ["time-space", "n-curves", "queue", "delay", "map", "mfd"]


@pytest.mark.parametrize("words", [[], *([name] for name in COMMANDS), *(["plot", name] for name in PLOTS),
                                   ["import", "sumo"], ["import", "gmns"], ["import", "osm"], ["export", "geojson"]],
                         ids=lambda words: " ".join(words) or "all")
def test_help_has_examples(tool, words):
    status, out, err = tool(*words, "--help")
    assert status == 0 and "Example" in out and "ctm-tools" in out and not err


@pytest.mark.parametrize("words, told", [
    (["drive"], "No such command 'drive'"), (["build"], "Missing argument"), (["build", "none.toml"], "no such file"),
    (["run", "none.csv"], "no such file"), (["lint", "none.csv"], "no such file"), (["table", "none.report"],
                                                                                    "no such file"),
    (["plot", "queue", "none.report"], "no such file"), (["plot", "heat", "x"], "No such command"),
    (["compare", "a.report"], "Missing argument"), (["sweep", "x.toml"], "Missing option '--vary'"),
    (["build", "x.toml", "--fast"], "No such option"), (["sweep", "x.toml", "--vary", "demand"], "KEY=FROM:TO:STEP"),
    (["table", EXAMPLES / "bottleneck.csv"], "no report of ctm"), (["table", EXAMPLES / "bottleneck.report"],
                                                                   "no records"),
    (["plot", "time-space", EXAMPLES / "bottleneck.report"], "no records"),
    (["plot", "delay", EXAMPLES / "bottleneck.report", "-o", "x.doc"], "ends with .png"),
    (["build", EXAMPLES / "bottleneck.csv"], "bottleneck.csv"), (["run", EXAMPLES], "is a directory"),
    (["build", EXAMPLES / "bottleneck.toml", "-o", "none/x.csv"], "no such file"),
    (["plot", "delay", EXAMPLES / "bottleneck.report", "--network", EXAMPLES / "event.csv"], "other cells"),
    (["table", EXAMPLES / "bottleneck.report", "--totals", "-o", "none/x.csv"], "no such file"),
    (["plot", "delay", EXAMPLES / "bottleneck.report", "--units", "none.units.json"], "no such file")],
    ids=lambda value: " ".join(Path(word).name for word in value) if isinstance(value, list) else "")
def test_errors_are_one_line(tool, words, told):
    status, out, err = tool(*words)
    assert status == 2 and told.lower() in err.lower()
    assert err.startswith("ctm-tools: ") and err.count("\n") == 1 and err.endswith("\n")


@pytest.mark.parametrize("name", STUDIES)
def test_build_and_lint(tool, name, program):
    status, out, err = tool("build", EXAMPLES / f"{name}.toml")
    assert status == 0 and "modelled as asked" in out
    assert os.path.exists(f"{name}.csv") and os.path.exists(f"{name}.units.json")
    status, out, err = tool("lint", f"{name}.csv")
    assert status == 0 and "no fault and no warning" in out


def test_a_file_of_another_is_not_written_over(tool):
    with open("bottleneck.csv", "w") as file:
        file.write("ctm,1\n")
    status, out, err = tool("build", EXAMPLES / "bottleneck.toml")
    assert status == 2 and "wasn't made by ctm-tools" in err and open("bottleneck.csv").read() == "ctm,1\n"
    status, _, err = tool("build", EXAMPLES / "bottleneck.toml", "-o", "bottleneck.csv")
    assert status == 2 and "or say --force" in err and open("bottleneck.csv").read() == "ctm,1\n"
    assert tool("build", EXAMPLES / "bottleneck.toml", "--force")[0] == 0


@pytest.mark.parametrize("name", ["bottleneck", "event"])
def test_run_prints_a_page(tool, name, recording_program):
    status, out, err = tool("run", EXAMPLES / f"{name}.toml")
    assert status == 0 and "vehicle-hours" in out and "began at" in out and "with each step recorded" in out
    told, page = out.split("\n\n", 1)
    assert "modelled as asked" in told
    status, again, err = tool("run", f"{name}.csv")
    assert status == 0 and again.split("\n\nReport")[0] == page.split("\n\nReport")[0]


def test_the_page_in_the_readme(tool, recording_program):
    status, out, err = tool("run", EXAMPLES / "bottleneck.toml")
    page = (TOOLS.parent / "README.md").read_text().split("The first prints\n\n```\n")[1].split("```")[0]
    assert page in out


def test_run_of_a_hand_written_network(tool, recording_program):
    status, out, err = tool("run", EXAMPLES / "interchange.csv", "--every", "5")
    assert status == 0 and "vehicle-steps" in out and "recorded every 5 steps" in out
    assert tool("plot", "time-space", "interchange.report")[0] == 0


@pytest.mark.parametrize("name", ["interchange", "arterial-0", "event"])
@pytest.mark.parametrize("plot", PLOTS)
def test_pictures(tool, reports, name, plot):
    status, out, err = tool("plot", plot, reports(name))
    assert status == 0, err
    with open(f"{name}-{plot}.png", "rb") as file:
        assert file.read(8) == b"\x89PNG\r\n\x1a\n"
    assert os.path.getsize(f"{name}-{plot}.png") < 150_000


def test_pictures_by_their_options(tool, reports):
    path = reports("interchange")
    for words in (["time-space", path, "--road", "a", "-o", "a.svg"], ["time-space", path, "--first", "m20", "--last",
                                                                       "r2"],
                  ["time-space", path, "--from", "08:00", "--until", "09:00", "--line", "tail: 08:10 6, 08:40 3"],
                  ["n-curves", path, "--cell", "main", "--cell", "m24", "--shifted", "--background", "3600"],
                  ["queue", path, "--road", "m", "-o", "q.pdf"]):
        status, out, err = tool("plot", *words)
        assert status == 0, err
    assert open("a.svg").read().count("vehicles/km")


@pytest.mark.parametrize("words", [["--from", "12:00"], ["--until", "12:00"], ["--from", "08:00", "--until", "07:00"]])
def test_times_outside_the_report(tool, reports, words):
    status, out, err = tool("plot", "queue", reports("interchange"), *words)
    assert status == 2 and "expected times from 06:00 to 10:00" in err


def test_pictures_without_units(tool, reports, tmp_path):
    source = reports("interchange")
    for ending in (".csv", ".report"):
        (tmp_path / f"i{ending}").write_bytes(source.with_suffix(ending).read_bytes())
    for plot in PLOTS:
        status, out, err = tool("plot", plot, "i.report")
        assert status == 0, err


def test_compare(tool, reports):
    status, out, err = tool("compare", reports("arterial-0"), reports("arterial-wave"), "--plot", "d.png", "-o",
                            "d.csv")
    assert status == 0 and "-26.25" in out and "-79.5%" in out and os.path.exists("d.png")
    assert open("d.csv").readline().startswith("cell,delay_first")
    status, out, err = tool("compare", reports("event"), reports("event"))
    assert status == 0 and "No cell differs" in out


def test_table(tool, reports):
    status, out, err = tool("table", reports("arterial-0"), "--cell", "c04", "-o", "t.csv")
    lines = open("t.csv").read().splitlines()
    assert status == 0 and len(lines) == 422 and lines[0].startswith("time,cell,vehicles,flow,density,speed")
    assert lines[61] == "07:10:00,c04,21,3240,168,19.2857143,60,c,0.375,0.5,2"
    status, out, err = tool("table", EXAMPLES / "event.report", "--totals", "--separator", ";", "--decimal", ",")
    assert status == 0 and out.splitlines()[1] == "stadium;8,4e-05;8000;7999,99992;2319858,04"
    status, out, err = tool("table", reports("arterial-0"), "--totals", "--cell", "c04")
    assert out.splitlines() == ["cell,vehicles,entered,left,delay,road,from_km,to_km,lanes",
                                "c04,0,1080,1080,6.75,c,0.375,0.5,2"]


def test_lint_tells_a_fault(tool, program):
    with open("n.csv", "w") as file:
        file.write("# a corridor\nctm,1\nsteps,9\n\ngate,on,18,0\nexit,off,12\nlink,on,of\n")
    status, out, err = tool("lint", "n.csv")
    assert status == 1 and out.splitlines() == [
        "ctm: network: record 5 code 8 Unknown",
        "n.csv: line 7, field 3 (cell downstream), `of`: Unknown; expected a road or an exit that stands above and has no "
        "connector into it yet. Is off meant?", "     7 | link,on,of"]


def launch(*words, **variables):
    return subprocess.run([TOOLS.parent / "ctm-tools", *words], capture_output=True, text=True,
                          env={**os.environ, **variables})


def test_the_launcher_takes_a_python_that_has_the_packages():
    ended = launch("--help", CTM_PYTHON="/bin/false")
    assert ended.returncode == 0 and "lint" in ended.stdout


def test_a_python_without_the_packages_becomes_one_that_has_them(tmp_path):
    subprocess.run([sys.executable, "-m", "venv", "--without-pip", tmp_path / "bare"], check=True)
    ended = subprocess.run([tmp_path / "bare/bin/python", "-I", TOOLS, "lint", "none.csv"], capture_output=True, text=True)
    assert ended.returncode == 2 and ended.stderr == "ctm-tools: none.csv: no such file or directory\n"


def test_a_missing_package_is_named(tmp_path):
    bare = tmp_path / "python3"
    bare.write_text("#!/bin/bash\necho pandas networkx\n")
    bare.chmod(0o755)
    text = (TOOLS / "find-python").read_text().replace("/usr/bin/python3 python3 /usr/local/bin/python3", str(bare))
    script = tmp_path / "find-python"
    script.write_text(text)
    ended = subprocess.run(["bash", script], capture_output=True, text=True)
    assert ended.returncode == 2 and ended.stderr.count("\n") == 1
    assert "apt install python3-pandas python3-networkx" in ended.stderr


def test_a_package_that_is_missed_later_is_named():
    code = ("import sys; sys.modules['distributed'] = None\n"
            "from ctmtools.command_line import main\n"
            f"main(['sweep', r'{EXAMPLES / 'bottleneck.toml'}', '--vary', 'demand=1', '--dask', 'tcp://127.0.0.1:1'])")
    ended = subprocess.run([sys.executable, "-c", code], capture_output=True, text=True, cwd="/tmp",
                           env={**os.environ, "PYTHONPATH": str(TOOLS)})
    assert ended.returncode == 2 and ended.stderr.count("\n") == 1


def test_a_file_that_can_not_be_written_stays_as_it_was(tmp_path, monkeypatch):
    path = tmp_path / "x.report"
    write(path, "old")

    def full(one, two):
        raise OSError(28, "No space left on device")
    monkeypatch.setattr(os, "replace", full)
    with pytest.raises(Problem, match="x.report: no space left on device"):
        write(path, "new")
    assert path.read_text() == "old" and list(tmp_path.iterdir()) == [path]


def test_what_is_written_goes_through_links_and_to_devices(tmp_path):
    (tmp_path / "link").symlink_to(tmp_path / "target")
    write(tmp_path / "link", b"through")
    assert (tmp_path / "link").is_symlink() and (tmp_path / "target").read_text() == "through"
    write("/dev/null", "nothing")
    assert not os.path.isfile("/dev/null")
