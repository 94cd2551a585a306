"""Choices: base and plans of a study, by the program's mode `choose`, beside the runs of each plan by itself."""

import subprocess
from fractions import Fraction

import pandas
import pytest

from ctmtools.plans.choosing import Choice, candidate, delays, question
from ctmtools.problem import Problem
from ctmtools.runs.running import run
from ctmtools.study.network_text import build
from ctmtools.study.reading import read_values
from ctmtools.many_runs.task import Task, study
from ctmtools.many_runs.variations import variation

from .examples import EXAMPLES

STREET = EXAMPLES / "arterial-ten.toml"


@pytest.fixture(autouse=True)
def choosing_program(program):
    if b"words refused" in subprocess.run([program, "choose"], input=b"", stderr=subprocess.PIPE).stderr:
        pytest.skip("the built program has no mode choose")


def choice(source, *varied):
    made = Choice(source, [variation(text) for text in varied])
    return made, list(made.run())


def made(source, **changes):
    return study(Task(read_values(source), str(source), {key.replace("__", "."): value for key, value in changes.items()}, ""))


def test_the_street_has_the_plans_that_were_written_by_hand(program):
    written = subprocess.run([program, "choose"], input=(EXAMPLES / "arterial-ten.plans").read_bytes(), check=True,
                             stdout=subprocess.PIPE).stdout.decode().splitlines()
    found, groups = choice(STREET, "signals.offset=0:150:10")
    assert groups == [16]
    assert [found.delays[i] for i in range(16)] == [Fraction(line.split(",")[2]) for line in written[:16]]
    assert found.results().rows["signals.offset"][0] == 40 and written[16] == "choice,4"


def test_the_base_leaves_out_what_is_varied():
    both = [candidate(made(STREET)), candidate(made(STREET, signals__offset=Fraction(40)))]
    base, one, other = question(both).decode().split("==\n")
    # The first stop line, and the fifth and the ninth, four and eight times 4 steps later, are the same in a cycle of 16.
    assert base.startswith("ctm,1\nsteps,420\ngate,west,9,0\n")
    assert [line.split(",")[1] for line in base.splitlines() if line.startswith("signal")] == ["c04", "c20", "c36"]
    assert one.splitlines()[0] == "signal,c08,16,0,0,8" and other.splitlines()[0] == "signal,c08,16,12,0,8"
    assert len(one.splitlines()) == len(other.splitlines()) == 7
    assert question(both[:1]).decode().split("==\n")[1] == ""


@pytest.mark.parametrize("name, varied", [
    ("bottleneck", "demand=0.9,1,1.1"), ("workzone", "closures.lanes=2,1.5"), ("interchange", "off_ramps.at=3,2"),
    ("event", "demand=0.9,1"), ("meter", "signals.end=08:00,09:00"), ("grid", "junctions.1.offset=0,40"),
    ("four-arms", "junctions.offset=0,20")])
def test_each_plan_has_the_delay_of_its_own_run(name, varied, program):
    source = EXAMPLES / f"{name}.toml"
    found, _ = choice(source, varied)
    assert not found.errors and len({one.records for one in found.candidates.values()}) == len(found.tasks)
    for i, task in enumerate(found.tasks):
        _, report = run(build(study(task)).text.encode(), "the network", None, 0)
        assert report.total.delay == pytest.approx(float(found.delays[i]), abs=1e-6)


def test_more_plans_than_a_call_takes_and_ties(program):
    found, groups = choice(STREET, "signals.offset=40,0,50", "signals.first_green=0:50:10", "title=a")
    assert groups == [16, 2]
    frame = found.results().rows
    assert list(frame.delay_vehicle_hours) == sorted(frame.delay_vehicle_hours)
    # Two texts of the title are one network: of equal delays the first plan is the first.
    found, _ = choice(STREET, "title=b,a", "signals.offset=40,0")
    assert list(found.results().rows.title) == ["b", "a", "b", "a"]


@pytest.mark.parametrize("varied, named, what", [
    (["signals.offset=0,40", "roads.c.lanes=2,3"], "roads.c.lanes", "changes a cell, `gate,west,9,0`"),
    (["roads.c.length=5,6"], "roads.c.length", "changes the number of cells, 42 and 50"),
    (["demand=1,2", "duration=4200,4300"], "duration", "changes the steps, 420 and 430"),
    (["gates.west.first=0,1"], "gates.west.first", "changes a cell, `gate,west,9,0`")])
def test_what_no_plan_can_say_is_refused_by_name(varied, named, what, tool):
    status, out, err = tool("choose", STREET, *(word for text in varied for word in ("--vary", text)))
    assert status == 2 and f"--vary {named}: {what}" in err and "ctm-tools sweep" in err and not out


def test_the_command_tells_the_least_first_and_writes_all(tool):
    status, out, err = tool("choose", STREET, "--vary", "signals.offset=0:60:4", "-o", "c.csv", "--rows", "3")
    rows = out.splitlines()
    assert status == 0 and rows[1].split()[:2] == ["40", "12.83"] and "and 13 more rows" in out
    frame = pandas.read_csv("c.csv")
    assert len(frame) == 16 and frame.delay_vehicle_hours[0] == pytest.approx(4618 / 360, abs=1e-6)
    status, out, err = tool("choose", STREET, "--vary", "signals.offset=x,40")
    # The plan of 40 s stands in the folder of the call before it.
    assert out.splitlines()[0] == "1 of 1 plans stand in arterial-ten.choose/plans.csv already"
    assert status == 0 and out.splitlines()[2].split()[0] == "40" and "failed: " in out.splitlines()[3]
    status, out, err = tool("choose", STREET, "--vary", "signals.ofset=1,2")
    assert status == 2 and "no plan can be built" in err


def test_an_answer_that_isnt_one_is_refused(tmp_path):
    for text, says in (("echo 'ctm: words refused' >&2; exit 2", "no mode choose"), ("exit 7", "status 7"),
                       ("echo plan,0,3.000000; echo choice,0", "answered isn't of 2 plans"),
                       ("echo plan,0,3.000000; echo plan,1,2.000000; echo choice,0", "answered isn't of 2 plans")):
        path = tmp_path / "ctm"
        path.write_text(f"#!/bin/bash\ncat >/dev/null\n{text}\n")
        path.chmod(0o755)
        with pytest.raises(Problem, match=says):
            delays(b"", 2, path)
