"""Runs that are kept in stretches: whenever one is ended, the same call goes on from what was kept, to the same report."""

import os
import signal
import subprocess
import sys
import time
from contextlib import contextmanager
from types import SimpleNamespace

import plain_model
import pytest

from ctmtools import build, read_study
from ctmtools.commands import run
from ctmtools.files.seals import sealed_text, unsealed_text
from ctmtools.moments.moment import read_moment
from ctmtools.runs.stretches import stretch_of
from ctmtools.network_file.records import with_steps
from ctmtools.problem import Problem
from ctmtools.units import Units

from .examples import EXAMPLES, TOOLS

STUDY = EXAMPLES / "interchange.toml"
WORDS = ["run", STUDY, "--checkpoint", "1 h"]  # stretches of 360 of 1,440 steps
CALLS = 6  # of the program: a save at 360, twice two to a later moment, and the report
ENV = {**os.environ, "PYTHONPATH": str(TOOLS)}


@pytest.fixture(scope="module")
def whole():
    """The report of the undivided run, by the plain recurrences."""
    return plain_model.report(build(read_study(STUDY)).text.encode())


def stand_in(folder, program, call, does):
    """A program that is the built one, but does something at one of its calls."""
    path = folder / "stand-in"
    path.write_text(f"#!/bin/bash\ncount=$(($(cat {folder}/count 2>/dev/null || echo 0) + 1))\necho $count > {folder}/count\n"
                    f"if [ $count -eq {call} ]; then {does}; exit 1; fi\nexec {program} \"$@\"\n")
    path.chmod(0o755)
    return str(path)


def started(program, code="from ctmtools.command_line import main"):
    words = [str(word) for word in WORDS]
    return subprocess.Popen([sys.executable, "-c", f"{code}\nmain({words!r})"], env={**ENV, "CTM_PROGRAM": program},
                            stdout=subprocess.PIPE, stderr=subprocess.STDOUT, text=True,
                            preexec_fn=heeds_an_interrupt)


@pytest.mark.parametrize("times, told", [([0, 1, 2], " with each step recorded"), ([0, 6, 12], " recorded every 6 steps")])
def test_it_is_told_how_often_a_run_is_recorded(times, told):
    assert run._recorded(SimpleNamespace(recorded=True, times=times)) == told


@pytest.mark.parametrize("reached, begun", [(None, (0, "at 00:00")), (720, (2, "at 02:00"))])
def test_the_bar_begins_behind_the_stretches_that_were_kept(monkeypatch, tmp_path, reached, begun):
    shown = []

    @contextmanager
    def bar(count, what):
        shown.append((count, what))
        yield lambda more=1, text="": shown.append((more, text))
    monkeypatch.setattr(run, "bar", bar)
    monkeypatch.setattr(run, "runner_of", lambda *_: None)
    monkeypatch.setattr(run, "run_in_stretches", lambda *given: given[-1](1080))
    prepared = SimpleNamespace(units=Units(step=10, start=0), network=SimpleNamespace(steps=1440))
    run._in_stretches(tmp_path / "a.report", prepared, 360, reached and SimpleNamespace(last=reached), None)
    assert shown == [(4, "stretches"), begun, (1, "at 03:00"), (1, "")]


def heeds_an_interrupt():
    """Also where these tests run behind a shell that has interrupts ignored."""
    signal.signal(signal.SIGINT, signal.SIG_DFL)


def test_a_run_in_stretches_has_the_report_of_the_whole_run(tool, program, tmp_path, whole):
    status, out, err = tool(*WORDS)
    assert status == 0 and "No queues are listed" in out and "without records" in out
    assert (tmp_path / "interchange.report").read_bytes() == whole
    assert sorted(os.listdir(tmp_path)) == ["interchange.csv", "interchange.report", "interchange.units.json"]


@pytest.mark.parametrize("every", ["7", "1439", "1440", "5000", "4 h"])
def test_the_length_of_the_stretches_changes_nothing(tool, program, tmp_path, whole, every):
    assert tool("run", STUDY, "--checkpoint", every)[0] == 0
    assert (tmp_path / "interchange.report").read_bytes() == whole


@pytest.mark.parametrize("steps", [1, 2, 5])
def test_a_network_that_is_kept_at_each_step(tool, program, tmp_path, steps):
    content = with_steps((EXAMPLES / "event.csv").read_bytes(), steps)
    (tmp_path / "event.csv").write_bytes(content)
    assert tool("run", "event.csv", "--checkpoint", "1")[0] == 0
    assert (tmp_path / "event.report").read_bytes() == plain_model.report(content)


@pytest.mark.parametrize("call", range(1, CALLS + 1))
def test_a_run_that_is_killed_goes_on(tool, program, tmp_path, whole, call):
    ended = started(stand_in(tmp_path, program, call, "kill -9 $PPID"))
    ended.communicate()
    assert ended.returncode == -signal.SIGKILL and not (tmp_path / "interchange.report").exists()
    kept = {1: None, 2: 360, 3: 360, 4: 720, 5: 720, 6: 1080}[call]
    path = tmp_path / "interchange.saved"
    assert (read_moment(path).steps if path.exists() else None) == (kept and [kept])
    status, out, err = tool(*WORDS)
    assert status == 0 and ("Goes on from" in out) == bool(kept)
    assert (tmp_path / "interchange.report").read_bytes() == whole and not path.exists()


@pytest.mark.parametrize("when", ["before", "behind"])
@pytest.mark.parametrize("file", [1, 3, 4, 5, 6, 7])  # moments, the network, the report, the units
def test_a_run_that_is_killed_as_a_file_is_replaced_goes_on(tool, program, tmp_path, whole, file, when):
    code = f"""
import os
from ctmtools.command_line import main
put, count = os.replace, 0
def replace(*paths):
    global count
    count += 1
    if count == {file} and "{when}" == "before":
        os.kill(os.getpid(), 9)
    put(*paths)
    if count == {file}:
        os.kill(os.getpid(), 9)
os.replace = replace"""
    ended = started(program, code)
    ended.communicate()
    assert ended.returncode == -signal.SIGKILL
    assert tool(*WORDS)[0] == 0
    assert (tmp_path / "interchange.report").read_bytes() == whole
    assert not [name for name in os.listdir(tmp_path) if name.endswith(".saved") or ".ctm-" in name]


def test_a_run_that_is_interrupted_says_from_where_it_goes_on(program, tmp_path, monkeypatch, tool, whole):
    monkeypatch.chdir(tmp_path)
    patient = "from ctmtools.program import interrupt\ninterrupt.PATIENCE = 100\nfrom ctmtools.command_line import main"
    ended = started(stand_in(tmp_path, program, 4, f"touch {tmp_path}/reached; exec sleep 1000"), patient)
    while not (tmp_path / "reached").exists():
        assert ended.poll() is None
        time.sleep(0.02)
    ended.send_signal(signal.SIGINT)
    out, _ = ended.communicate(timeout=600)
    assert ended.returncode == 130 and "ctm-tools: stopped; the same call goes on from 08:00" in out
    status, out, err = tool(*WORDS)
    assert status == 0 and "Goes on from 08:00, which stands in interchange.saved" in out
    assert (tmp_path / "interchange.report").read_bytes() == whole


def test_what_was_kept_of_another_study_is_refused(tool, program, tmp_path):
    started(stand_in(tmp_path, program, 4, "kill -9 $PPID")).communicate()
    saved = (tmp_path / "interchange.saved").read_bytes()
    for old, new, told in ((", 1800]", ", 1440]", "the demand of the gate ramp is 1,440 vehicles/h, and 1,800 vehicles/h in the "
                            "saved one, from 06:30 on"), ("at = 7 ", "at = 6.5 ", "connector"),
                           ('"08:30", 720', '"08:30", 540', "the two differ behind 08:00 alone, where `ctm-tools branch`")):
        (tmp_path / "other").mkdir(exist_ok=True)
        (tmp_path / "other/interchange.toml").write_text(STUDY.read_text().replace(old, new))
        status, out, err = tool("run", "other/interchange.toml", "--checkpoint", "1 h")
        assert status == 2 and "interchange.saved: is a saved run of another network" in err and told in err
    assert (tmp_path / "interchange.saved").read_bytes() == saved and not (tmp_path / "interchange.csv").exists()


@pytest.mark.parametrize("content, told", [
    (b"", "is no saved run"), (b"my notes", "is no saved run"),
    (b"saved,1,1\n", "isn't whole, or `--checkpoint` didn't write it")])
def test_what_is_no_saved_run_is_left_alone(tool, program, tmp_path, content, told):
    (tmp_path / "interchange.saved").write_bytes(content)
    status, out, err = tool(*WORDS)
    assert status == 2 and told in err and (tmp_path / "interchange.saved").read_bytes() == content


def test_rows_that_were_cut_off_are_refused_by_the_program(tool, program, tmp_path):
    started(stand_in(tmp_path, program, 4, "kill -9 $PPID")).communicate()
    path = tmp_path / "interchange.saved"
    text = unsealed_text(path.read_bytes(), path)
    path.write_bytes(sealed_text(text.replace(b"net\n", b"row,0,0,0,0,0,0\nnet\n", 1)))
    status, out, err = tool(*WORDS)
    assert status == 2 and "ctm: saved: code 3 Cutting" in err


def test_the_words(tool, program):
    assert "goes without --every" in tool(*WORDS, "--every", "6")[2]
    assert "must be a step or more" in tool("run", STUDY, "--checkpoint", "0")[2]
    assert "must be a step or more" in tool("run", STUDY, "--checkpoint", "4 s")[2]
    assert "expected a duration" in tool("run", STUDY, "--checkpoint", "soon")[2]
    assert (stretch_of("30 min", Units(step=10)), stretch_of("7", Units(step=10)), stretch_of("7", Units())) == (180, 7, 7)
    with pytest.raises(Problem, match="say a number of steps"):
        stretch_of("30 min", Units())
