"""About how long a run takes: the estimate on paper, and what a terminal shows of it."""

import re

import pytest

from ctmtools.commands import progress
from ctmtools.network_file.network import network_of
from ctmtools.problem import Problem
from ctmtools.runs import running
from ctmtools.runs.running import Prepared, estimated
from ctmtools.units import Units
from ctmtools.commands.progress import lasting, left

from .clusters import wait_until
from .examples import EXAMPLES
from .test_interrupt import on_terminal, stand_in
from .test_recording import Terminal

NETWORK = b"ctm,1\nsteps,%d\ngate,g,5,3\nroad,m,12,4,1,2,0\nexit,x,5\nlink,g,m\nlink,m,x\n"


class Program:
    """A stand-in for runs, with a clock of its own: they take so many seconds for each step, and some beside."""

    def __init__(self, each, beside, monkeypatch):
        self.each, self.beside, self.now, self.asked = each, beside, 0.0, []
        monkeypatch.setattr(running, "run", self.run)
        monkeypatch.setattr(running.time, "monotonic", lambda: self.now)

    def run(self, content, name, units, every, workers, network):
        assert network_of(content).steps == network.steps
        self.asked.append((network.steps, every))
        self.now += self.beside + self.each * network.steps


def prepared(steps):
    content = NETWORK % steps
    return Prepared("n.csv", content, network_of(content), Units(), [])


# 0.1 s a step and 2 s beside: the first twentieth of 200 steps are 10, of 201 are 11, and of records each 15 steps they are 15.
@pytest.mark.parametrize("steps, every, asked, seconds", [
    (200, None, [(1, 1), (10, 1)], 22.0), (201, None, [(1, 1), (11, 1)], 22.1), (200, 0, [(1, 0), (10, 0)], 22.0),
    (200, 15, [(1, 15), (15, 15)], 22.0), (21, 1, [(1, 1), (2, 1)], 4.1), (20, 1, [], None), (14, 15, [], None)])
def test_a_run_is_estimated_by_its_first_steps(monkeypatch, steps, every, asked, seconds):
    stood_in = Program(0.1, 2.0, monkeypatch)
    found = estimated(prepared(steps), every)
    assert (found is None) if seconds is None else found == pytest.approx(seconds)
    assert stood_in.asked == asked


def test_first_steps_that_take_no_time_are_no_less(monkeypatch):
    assert Program(-0.01, 2.0, monkeypatch) and estimated(prepared(200)) == pytest.approx(1.99)


def test_what_is_wrong_with_a_run_is_told_by_the_run_itself(monkeypatch):
    def fails(*_, **__):
        raise Problem("n.csv: ctm: network: record 3 code 13 NoCells")
    monkeypatch.setattr(running, "run", fails)
    assert estimated(prepared(200)) is None


@pytest.mark.parametrize("passed, seconds, shown", [
    (0, 12, "[" + 36 * "-" + "]  about 12 s left"), (3, 12, "[" + 9 * "#" + 27 * "-" + "]  about 9 s left"),
    (11.7, 12, "[" + 35 * "#" + "-]  about 1 s left"), (0, 600, "[" + 36 * "-" + "]  about 10 min left"),
    (12, 12, "[" + 36 * "#" + "]  longer than the estimated 12 s"), (1, 0, "[" + 36 * "#" + "]  longer than the estimated 0 s")])
def test_what_is_left_of_an_estimate(passed, seconds, shown):
    assert left(passed, seconds) == shown


def test_nothing_is_estimated_where_nothing_is_shown(monkeypatch):
    monkeypatch.setattr(progress, "BLINK", 0.01)
    asked = []
    with lasting("ctm is running", lambda: asked.append(1)):
        pass
    assert not asked
    monkeypatch.setattr("sys.stderr", Terminal())
    with lasting("ctm is running", lambda: asked.append(1)):
        wait_until(lambda: "ctm is running, 0 s" in progress.sys.stderr.getvalue())
    assert asked


def test_a_terminal_sees_about_how_long_a_run_takes_still(tmp_path, program):
    slow = stand_in(tmp_path, program, 1, "sleep 1")
    shown = on_terminal(tmp_path, ["run", EXAMPLES / "arterial-0.toml"], slow)
    assert re.search(r"ctm is running  \[#*-+\]  about \d+ s left \x1b\[K", shown), shown
    assert shown.endswith("\r\x1b[K")
