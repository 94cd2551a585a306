"""What the tests share: the program, a call of the tools in a folder of its own, and reports of the examples."""

import sys

import plain_model
import pytest

from ctmtools import read_report
from ctmtools.command_line import main
from ctmtools.program.calls import ask, program_path, takes
from ctmtools.study import folder

from .examples import save_report

pytest_plugins = ["few"]


@pytest.fixture(scope="session")
def program():
    """The path of the built program."""
    return str(program_path())


@pytest.fixture(scope="session")
def recording_program(program):
    """The path of the built program, where it records."""
    if not takes("--every"):
        pytest.skip("the built program takes no --every")
    return program


@pytest.fixture(scope="session")
def speed_program(program):
    """The path of the built program, where it knows speed records."""
    if ask(("check",), b"ctm,3\nsteps,1\nexit,x,0\n").status:
        pytest.skip("the built program takes no format 3")
    return program


@pytest.fixture(autouse=True)
def allows_no_folders(monkeypatch):
    """What one test allows studies to read is no other's."""
    monkeypatch.setattr(folder, "_allowed", {})


@pytest.fixture
def tool(capsys, tmp_path, monkeypatch):
    """Calls ctm-tools in a folder of its own, and gives status, output and errors."""
    monkeypatch.chdir(tmp_path)

    def call(*words):
        with pytest.raises(SystemExit) as ended:
            main([str(word) for word in words])
        told = capsys.readouterr()
        return ended.value.code, told.out, told.err
    return call


@pytest.fixture(scope="session")
def reports(tmp_path_factory):
    """The path of a study's report with records, each made once."""
    folder, made = tmp_path_factory.mktemp("reports"), {}

    def path_of(name):
        if name not in made:
            made[name] = save_report(folder, name)
        return made[name]
    return path_of


@pytest.fixture
def report(reports):
    """An example's report with records, read."""
    return lambda name: read_report(reports(name))


@pytest.fixture(scope="session")
def plain_program(tmp_path_factory):
    """A program that records, for as long as the built one may not: the plain recurrences, called as it is."""
    path = tmp_path_factory.mktemp("plain") / "ctm"
    path.write_text(f"#!/bin/bash\nexec {sys.executable} {plain_model.__file__} \"$@\"\n")
    path.chmod(0o755)
    return str(path)


@pytest.fixture
def plain(plain_program, monkeypatch):
    """Has the tools call the plain recurrences."""
    monkeypatch.setenv("CTM_PROGRAM", plain_program)
    return plain_program
