"""The program called: its records against the plain recurrences, and what a caller is told where it can't be run."""

import os
import random

import plain_model
import pytest

from ctmtools import __version__
from ctmtools.program import calls as found_in
from ctmtools.problem import Problem
from ctmtools.program.calls import Found, ask, found_program, program_path, recording_step, run_words

from .examples import EXAMPLES


@pytest.mark.parametrize("name", ["interchange", "event", "arterial-wave", "workzone"])
@pytest.mark.parametrize("every", [1, 7, 100_000])
def test_the_records_are_those_of_the_recurrences(name, every, recording_program):
    content = (EXAMPLES / f"{name}.csv").read_bytes()
    assert ask(("run", "--every", str(every)), content).out == plain_model.report(content, every)


def made_network(dice):
    """A network of roads that part, meet and come round, with all that changes by the step."""
    count = dice.randrange(4, 12)
    lines = ["ctm,2", f"steps,{dice.randrange(1, 60)}", "gate,g,5,0", "gate,h,3.5,2", "exit,x,4", "exit,y,1.25"]
    for i in range(count):
        lines.append(f"road,r{i},{dice.choice(['12', '20.5', '7.777777'])},{dice.choice(['3', '4.2'])},"
                     f"{dice.randrange(1, 4)},{dice.randrange(4, 9)},{dice.choice(['0', '1.5', '6'])}")
    ups, downs = ["g", "h", *(f"r{i}" for i in range(count))], ["x", "y", *(f"r{i}" for i in range(count))]
    dice.shuffle(ups)
    dice.shuffle(downs)
    while len(ups) > 1 and len(downs) > 1:
        sort = dice.choice(["link", "link", "merge", "diverge"])
        if sort == "link":
            lines.append(f"link,{ups.pop()},{downs.pop()}")
        elif sort == "merge":
            lines.append(f"merge,{ups.pop()},{ups.pop()},{downs.pop()},{dice.randrange(1, 5)},{dice.randrange(1, 5)}")
        else:
            up = ups.pop()
            lines.append(f"diverge,{up},{downs.pop()},{downs.pop()},{dice.randrange(1, 5)},{dice.randrange(1, 5)}")
            lines.append(f"turn,{up},{dice.randrange(9)},{dice.randrange(10, 30)},2,{dice.randrange(1, 4)}")
    lines += [f"limit,r{dice.randrange(count)},{dice.randrange(9)},{dice.randrange(10, 30)},"
              f"{dice.choice(['0', '1.3', '9'])}",
              f"signal,r{dice.randrange(count)},7,{dice.randrange(7)},1,{dice.randrange(3, 8)}",
              f"demand,g,0,{dice.randrange(1, 50)},{dice.choice(['2', '4.333333'])}", "demand,h,3,20,1.7",
              "demand,h,5,9,1"]
    return "\n".join(lines).encode() + b"\n"


@pytest.mark.parametrize("seed", range(40))
def test_the_reports_of_made_networks(seed, program):
    content = made_network(random.Random(seed))
    assert ask(("run",), content).out == plain_model.report(content)


def test_the_step_between_records_is_the_least_allowed():
    assert recording_step(1440, 32) == 1
    assert recording_step(100_000, 40) == 2
    for steps, cells in ((100_000, 1000), (999, 200_000), (3, 2_000_000), (100_000, 3)):
        every = recording_step(steps, cells)
        recorded = steps // every + 1 + (steps % every > 0)
        assert recorded * cells <= 4_000_000
    assert recording_step(5, 3_000_000) == 0


def test_words_of_a_run_without_records():
    assert run_words(0) == ["run"]


def test_a_program_that_is_none(tmp_path):
    with pytest.raises(Problem):
        ask(("run",), b"", tmp_path / "none")
    script = tmp_path / "ctm"
    script.write_text("#!/bin/bash\necho './ctm: building' >&2\n"
                      "echo './ctm: the build failed, so nothing was run' >&2\nexit 125\n")
    script.chmod(0o755)
    news = []
    with pytest.raises(Problem, match="the build failed"):
        ask(("run",), b"", script, news.append)
    assert news[0] == "./ctm: building"


@pytest.fixture
def searched(tmp_path, monkeypatch):
    """A folder in which the tools are taken to lie, with no program anywhere."""
    monkeypatch.delenv("CTM_PROGRAM", raising=False)
    monkeypatch.setenv("PATH", str(tmp_path / "bin"))
    monkeypatch.setattr(found_in, "TOP", tmp_path / "repository")
    monkeypatch.setattr(found_in, "__file__", str(tmp_path / "lib/python3/dist-packages/ctmtools/program.py"))

    def put(path):
        (tmp_path / path).parent.mkdir(parents=True, exist_ok=True)
        (tmp_path / path).write_text("#!/bin/sh\n")
        (tmp_path / path).chmod(0o755)
        return tmp_path / path
    return put


def test_the_program_is_searched_for_in_four_places(searched, monkeypatch):
    """Each that is added comes before those that are there."""
    with pytest.raises(Problem, match="no program was found: CTM_PROGRAM names none, .* no ctm on the path"):
        program_path()
    for path, by in (("bin/ctm", "ctm on the path"), ("lib/ctm/ctm_program", "the packaged one"),
                     ("repository/ctm", "the repository's own")):
        put = searched(path)
        assert found_program() == Found(put, by)
    named = searched("named")
    monkeypatch.setenv("CTM_PROGRAM", str(named))
    assert found_program() == Found(named, "which CTM_PROGRAM names")
    monkeypatch.setenv("CTM_PROGRAM", str(named.parent / "none"))
    with pytest.raises(Problem, match="none: there is no program there, and CTM_PROGRAM names it"):
        program_path()


def test_no_program_of_the_folder_where_one_stands_is_taken(searched, monkeypatch, tool):
    monkeypatch.chdir(searched("here/ctm").parent)
    monkeypatch.setenv("PATH", ".::../here")
    assert "no ctm on the path" in tool("--version")[2]
    assert os.environ["PATH"] == os.defpath


# Each takes --every of the smallest network, as the tools ask first, and fails at the study's.
FAILING = "read -r _; read -r steps; [ $steps != steps,1 ] || exit 0; "


@pytest.mark.parametrize("script, told", [
    ("exit 1", "PROGRAM takes no --every, so it records nothing; build the newest ctm"),
    (f"{FAILING}exit 7", "a.csv: PROGRAM ended with status 7"),
    (f"{FAILING}echo ctm: no memory >&2; exit 7", "a.csv: ctm: no memory; the program is PROGRAM"),
    (f"{FAILING}echo ctm: words refused >&2; exit 2", "a.csv: ctm: words refused; the program is PROGRAM"),
    (f"{FAILING}echo ctm: network: record 3 code 13 NoCells >&2; exit 3", "a.csv: ctm: network: record 3 code 13 NoCells"),
    (f"{FAILING}echo ctm: too large: record >&2; exit 4", "a.csv: ctm: too large: record"),
    (f"{FAILING}echo ctm: read fault >&2; exit 5", "a.csv: ctm: read fault; the program is PROGRAM"),
    (f"{FAILING}kill -9 $$", "PROGRAM was ended by signal 9"),
    ("exec cat", "a.csv: what PROGRAM wrote is no report of ctm"),
    (None, "PROGRAM: permission denied"),
])
def test_a_program_that_fails_is_told_with_what_says_that_it_is_this_one(script, told, tool, tmp_path, monkeypatch):
    path = tmp_path / "named"
    path.write_text(f"#!/bin/bash\n{script}\n")
    path.chmod(0o755 if script else 0o644)
    monkeypatch.setenv("CTM_PROGRAM", str(path))
    (tmp_path / "a.csv").write_text("ctm,1\nsteps,3\ngate,g,5,0\nexit,x,4\nlink,g,x\n")
    status, _, err = tool("run", "a.csv")
    assert (status, err.splitlines()[-1]) == (2, "ctm-tools: " + told.replace("PROGRAM", f"{path} (which CTM_PROGRAM names)"))


def test_a_program_that_lacks_a_mode_is_told_too(tool, tmp_path, monkeypatch, plain):
    (tmp_path / "a.csv").write_text("ctm,1\nsteps,3\ngate,g,5,0\nexit,x,4\nlink,g,x\n")
    status, _, err = tool("run", "a.csv", "--checkpoint", "1")
    assert status == 2
    assert f"ctm-tools: {plain} (which CTM_PROGRAM names) has no mode save, so a run can't be saved" in err


def test_the_version_tells_which_program_is_called(tool, program):
    status, out, err = tool("--version")
    assert (status, err) == (0, "")
    assert out == f"ctm-tools {__version__}, over {program}, which CTM_PROGRAM names\n"
