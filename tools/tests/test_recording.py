"""How often a run is recorded, against a search over all it could be, and the sign of life while it runs."""

import io
import re
import time

import pytest

from ctmtools import Problem
from ctmtools.program import calls as program
from ctmtools.commands import progress
from ctmtools.runs import running
from ctmtools.command_line import main
from ctmtools.moments import moment

from .clusters import wait_until


def least(steps, cells):
    """The least number of steps between records with which 4,000,000 values are enough, of 0 up to the steps; 0 for none."""
    for every in range(1, steps + 2):
        recorded = len({*range(0, steps + 1, every), steps})
        if recorded * cells <= 4_000_000:
            return every
    return 0


@pytest.mark.parametrize("steps, cells", [(1440, 30), (10, 1), (1440, 2777), (1440, 2776), (1440, 5000), (3, 1_000_000), (4, 1_000_000), (2, 1_333_334),
                                          (7, 2_000_000), (7, 2_000_001), (1, 2_000_000), (1, 2_000_001), (100, 200_000), (99, 199_999), (50, 1_333_333)])
def test_a_run_is_recorded_as_often_as_the_program_allows(steps, cells):
    assert program.recording_step(steps, cells) == least(steps, cells)


@pytest.mark.parametrize("workers, regions", [(1, "1"), (2, "16"), (64, "512"), (100, "512")])
def test_regions_for_workers_where_the_program_takes_no_word_for_it(monkeypatch, workers, regions):
    monkeypatch.setattr(program, "takes", lambda *_: False)
    assert program.regions_for(workers) == regions


def test_from_a_thousand_cells_on_there_are_as_many_threads_as_are_said(monkeypatch):
    monkeypatch.setattr(running, "processors", lambda: 6)
    assert [running.many_workers(*given) for given in ((999, 3), (1000, 3), (1000, None))] == [1, 3, 6]


@pytest.mark.parametrize("count, wanted", [(3, 3), (None, 1)])
def test_where_a_system_does_not_say_which_processors_a_process_has_all_of_them_count(monkeypatch, count, wanted):
    monkeypatch.delattr("os.sched_getaffinity")
    monkeypatch.setattr("os.cpu_count", lambda: count)
    assert running.processors() == wanted


class Terminal(io.StringIO):
    def isatty(self):
        return True


def test_a_terminal_shows_a_sign_and_the_seconds(monkeypatch):
    monkeypatch.setattr(progress, "BLINK", 0.01)
    shown = Terminal()
    with progress.working("ctm is running", shown):
        wait_until(lambda: shown.getvalue().count(" s ") >= 2)
    first, second, *_, last = shown.getvalue().split("\r")[1:]
    assert re.fullmatch(r"\| ctm is running, \d+ s \x1b\[K", first) and re.fullmatch(r"/ ctm is running, \d+ s \x1b\[K", second)
    assert last == "\x1b[K"


def test_another_stream_gets_nothing(monkeypatch):
    monkeypatch.setattr(progress, "BLINK", 0.01)
    stream = io.StringIO()
    with progress.working("ctm is running", stream):
        time.sleep(0.3)
    assert stream.getvalue() == ""


@pytest.mark.parametrize("missing, package", [("scipy.optimize", "python3-scipy"), ("distributed", "python3-distributed")])
def test_a_module_of_a_missing_package_names_the_package(monkeypatch, capsys, missing, package):
    def fails(*_, **__):
        raise ModuleNotFoundError(f"No module named {missing}", name=missing)
    monkeypatch.setattr("ctmtools.command_line.tools.main", fails)
    with pytest.raises(SystemExit):
        main(["lint"])
    assert capsys.readouterr().err == f"ctm-tools: the Python package {missing} is missing; Debian has it as {package}: apt install {package}\n"


def test_a_program_without_a_mode_is_told(monkeypatch):
    monkeypatch.setattr(moment, "in_words", lambda: "this one")
    for status, line, told in ((2, moment.REFUSED, "this one has no mode save, so a run can't be saved"), (8, "ctm: why", "made: ctm: why")):
        monkeypatch.setattr(moment, "ask", lambda *_, **__: program.Answer(status, b"", line.encode()))
        with pytest.raises(Problem) as found:
            moment.Runner("made")._ask(("save", "--until", "5"), b"")
        assert str(found.value).startswith(told)
