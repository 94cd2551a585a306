"""How a command ends where its output can't be written or something is wrong that no command foresees: one line, never a traceback."""

import os
import subprocess
import sys
from pathlib import Path

import pytest

from ctmtools.command_line import COMMANDS, main

from .examples import EXAMPLES

TOOLS = Path(__file__).resolve().parents[1]
NETWORK = str(EXAMPLES / "bottleneck.csv")
CALLS = [["--help"], ["--version"], *([name, "--help"] for name in COMMANDS), ["import", "sumo", "--help"],
         ["build", str(EXAMPLES / "event.toml"), "-o", "event.csv"]]


def called(words, folder, redirected, **more):
    """The status and standard error of a call whose streams a shell redirects so."""
    script = f'exec "$@" {redirected}'
    done = subprocess.run(["bash", "-c", script, "bash", sys.executable, "-P", "-m", "ctmtools", *words], cwd=folder, timeout=600,
                          stderr=subprocess.PIPE, stdin=subprocess.DEVNULL,
                          env={**os.environ, "PYTHONPATH": str(TOOLS), "CTM_PROGRAM": "/bin/true", **more})
    return done.returncode, done.stderr.decode()


@pytest.mark.parametrize("words", CALLS, ids=lambda words: " ".join(Path(word).name for word in words))
def test_a_full_or_a_closed_standard_output_is_told_in_a_line(words, tmp_path):
    assert called(words, tmp_path, ">/dev/full") == (1, "ctm-tools: standard output: no space left on device\n")
    assert called(words, tmp_path, ">&-") == (1, "ctm-tools: standard output: is closed\n")


def test_nothing_is_begun_without_a_standard_output(tmp_path):
    called(["build", str(EXAMPLES / "event.toml"), "-o", "event.csv"], tmp_path, ">&-")
    assert list(tmp_path.iterdir()) == []


@pytest.mark.parametrize("redirected", ["2>/dev/full", "2>&-"])
def test_the_status_stays_where_standard_error_can_not_be_written_to(redirected, tmp_path):
    assert called(["build", "none.toml"], tmp_path, f">/dev/null {redirected}") == (2, "")
    assert called(["build", str(EXAMPLES / "event.toml"), "-o", "event.csv"], tmp_path, f">/dev/null {redirected}") == (0, "")


def test_letters_that_the_terminal_lacks_are_escaped(tmp_path):
    study = tmp_path / "Łódź.toml"
    study.write_bytes((EXAMPLES / "event.toml").read_bytes())
    status, err = called(["build", study.name], tmp_path, ">out", PYTHONIOENCODING="latin-1")
    assert (status, err) == (0, "") and (tmp_path / "out").read_text("latin-1").startswith("\\u0141ód\\u017a.csv and ")


def broken(monkeypatch, error):
    """Has `build` raise an error that no command foresees."""
    import ctmtools.commands.build as build

    def fail(*_):
        raise error
    monkeypatch.setattr(build, "read_scenario", fail)


@pytest.mark.parametrize("error, status, line", [
    (KeyError("secret"), 1, "a fault of these tools, KeyError in commands/build.py, line "),
    (RecursionError(), 2, "what was given is nested too deeply"), (MemoryError(), 1, "out of memory"),
    (PermissionError(13, "Permission denied", "a/b"), 2, "a/b: permission denied"),
    (OSError(5, "Input/output error"), 1, "input/output error")])
def test_what_no_command_foresees_is_told_in_a_line(tool, monkeypatch, error, status, line):
    broken(monkeypatch, error)
    found, out, err = tool("build", "a.toml")
    assert (found, out) == (status, "") and err.startswith(f"ctm-tools: {line}") and err.count("\n") == 1 and "secret" not in err


def test_a_variable_asks_for_the_traceback(tool, monkeypatch):
    broken(monkeypatch, KeyError("secret"))
    monkeypatch.setenv("CTM_TRACEBACK", "1")
    _, _, err = tool("build", "a.toml")
    assert err.startswith("Traceback") and err.splitlines()[-1].startswith("ctm-tools: a fault of these tools")


def test_an_output_that_ends_early_is_no_fault(capfd, monkeypatch):
    class Broken:
        def write(self, _):
            raise BrokenPipeError(32, "Broken pipe")

        flush = isatty = lambda self: self.write("")
    monkeypatch.setattr(sys, "stdout", Broken())
    with pytest.raises(SystemExit) as ended:
        main(["--help"])
    assert ended.value.code == 1 and "Traceback" not in capfd.readouterr().err
