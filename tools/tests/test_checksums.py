"""A report is read in the units of its own network alone: those of another one are refused, with what differs."""

import json

import pytest

from ctmtools.network_file.network import network_of
from ctmtools.problem import Problem
from ctmtools.program.calls import ask
from ctmtools.report.reading import read_report, unlike_network

from .corridor import corridor_text
from .plain_reports import plain_report

STUDY = corridor_text()


def study(tmp_path, *changes):
    text = STUDY
    for old, new in changes:
        assert old in text
        text = text.replace(old, new)
    (tmp_path / "s.toml").write_text(text)


def by_hand(folder):
    """A report as `./ctm run --every 1 < s.csv > s.report` writes it."""
    (folder / "s.report").write_bytes(ask(("run", "--every", "1"), (folder / "s.csv").read_bytes()).out)


# Steps, lengths, times and speeds that give other numbers for the same report, and those of which every cell keeps its name.
OTHERS = {
    "another step": [("step = 10", "step = 20")],
    "another duration": [('end = "07:00"', 'end = "08:00"')],
    "another length": [("length = 1\n", "length = 2\n")],
    "a step, a speed and a duration": [("step = 10", "step = 20"), ("speed = 90", "speed = 45"), ("wave_speed = 18", "wave_speed = 9"),
                                       ('end = "07:00"', 'end = "08:00"')],
}


@pytest.mark.parametrize("made", ["by run", "by hand"])
@pytest.mark.parametrize("change", OTHERS)
def test_a_report_is_refused_once_its_study_is_built_otherwise(tool, program, tmp_path, change, made):
    study(tmp_path)
    assert tool("run" if made == "by run" else "build", "s.toml")[0] == 0
    if made == "by hand":
        by_hand(tmp_path)
    assert tool("table", "s.report", "--totals")[0] == 0
    study(tmp_path, *OTHERS[change])
    assert tool("build", "s.toml")[0] == 0
    for words in (["table", "s.report", "--totals"], ["plot", "delay", "s.report"], ["compare", "s.report", "s.report"]):
        status, out, err = tool(*words)
        assert status == 2 and err.startswith("ctm-tools: s.report: is") and "network" in err and err.count("\n") == 1 and not out
    assert tool("run", "s.toml")[0] == 0 and tool("table", "s.report", "--totals")[0] == 0


def test_a_report_made_by_hand_is_read_with_the_units_of_its_network(tool, program, tmp_path):
    study(tmp_path)
    tool("run", "s.toml")
    (tmp_path / "s.report").write_bytes(ask(("run",), (tmp_path / "s.csv").read_bytes()).out)  # as another call than run's
    report = read_report(tmp_path / "s.report")
    assert report.network is not None and report.units.step == 10


def test_a_network_edited_by_hand_keeps_its_units(tool, program, tmp_path):
    study(tmp_path)
    tool("build", "s.toml")
    with open("s.csv", "a") as file:
        file.write("limit,m4,60,120,3\n")
    by_hand(tmp_path)
    assert read_report(tmp_path / "s.report").units.step == 10
    assert tool("run", "s.csv")[0] == 0 and tool("table", "s.report")[0] == 0


def test_a_network_edited_by_hand_after_its_run_is_run_again_first(tool, program, tmp_path):
    study(tmp_path)
    tool("run", "s.toml")
    whole = (tmp_path / "s.csv").read_bytes()
    (tmp_path / "s.csv").write_bytes(whole + b"limit,m4,60,120,1\n")
    for words in (["table", "s.report", "--totals"], ["plot", "queue", "s.report"], ["table", "s.report", "--network", "s.csv"]):
        status, out, err = tool(*words)
        assert (status, out) == (2, "") and err == ("ctm-tools: s.report: is of another network than s.csv, which was changed after it; "
                                                    "run the network again, or build the study as it was\n")
    by_hand(tmp_path)  # which is of the network as it is now
    assert read_report(tmp_path / "s.report").network is not None
    assert tool("run", "s.csv")[0] == 0 and tool("table", "s.report", "--totals")[0] == 0
    tool("run", "s.toml")
    assert (tmp_path / "s.csv").read_bytes() == whole and tool("table", "s.report", "--totals")[0] == 0


def test_a_network_put_in_the_place_of_another_is_not_run_in_its_units(tool, program, tmp_path):
    study(tmp_path, ("step = 10", "step = 20"))
    tool("build", "s.toml", "-o", "other.csv")
    study(tmp_path)
    tool("build", "s.toml")
    (tmp_path / "s.csv").write_bytes((tmp_path / "other.csv").read_bytes())
    for words in (["run", "s.csv"], ["lint", "s.csv"]):
        status, out, err = tool(*words)
        assert status == 2 and "s.units.json: is of another network than s.csv: of 360 steps, and not 180" in err


def test_an_older_file_of_units_is_held_against_its_network(tool, program, tmp_path):
    study(tmp_path)
    tool("run", "s.toml")
    values = json.loads((tmp_path / "s.units.json").read_text())
    for key in ("network_checksum", "report_checksum", "report_network", "steps", "seal"):
        del values[key]
    (tmp_path / "s.units.json").write_text(json.dumps(values))
    assert tool("table", "s.report", "--totals")[0] == 0
    (tmp_path / "s.csv").write_text((tmp_path / "s.csv").read_text().replace("steps,360", "steps,180"))
    assert "isn't of the network s.csv: it has 360 steps, and not 180" in tool("table", "s.report")[2]


def test_a_gate_to_which_nobody_comes_is_as_its_network_has_it():
    text = "ctm,1\nsteps,9\ngate,g,9,0\ngate,h,9,0\nroad,a,60,9,1,5,0\nroad,b,60,9,1,5,0\nexit,x,9\nexit,y,9\nlink,g,a\nlink,h,b\n" \
        "link,a,x\nlink,b,y\ndemand,g,0,4,1\n"
    assert unlike_network(plain_report(text), network_of(text.encode())) is None


def test_a_demand_of_another_day_is_seen_in_what_came(tool, program, tmp_path):
    study(tmp_path)
    tool("build", "s.toml")
    by_hand(tmp_path)
    study(tmp_path, ("demand = 1000", "demand = 1100"))
    tool("build", "s.toml")
    # 1,000 vehicles in 360 steps of 2.777778 are a little more than asked.
    with pytest.raises(Problem, match="isn't of the network .*: to gate g came 1,000 vehicles, and not 1,100"):
        read_report(tmp_path / "s.report")
