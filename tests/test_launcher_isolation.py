"""No code of the folder where one stands is run: neither its modules of Python nor its programs, whatever of the environment
leads there.
"""

import os
import re
import subprocess
import sys

import pytest
from conftest import TOP

# What Python loads as it starts, what the launchers and tools load, and names of their own.
MODULES = ("site", "sitecustomize", "usercustomize", "encodings/__init__", "warnings", "json", "runpy", "argparse", "click",
           "pandas", "pytest", "mkdocs/__init__", "ctmtools/__init__", "crates", "prefix", "word_table", "tokens")
PROGRAMS = ("python3", "find", "sort", "xargs", "sha256sum", "git", "flock", "mktemp", "head", "sed", "rm", "mv", "cat", "nice")
# The least that a call needs, and names that it gives as few chances as may be.
PLAIN = {"PATH": "/usr/bin:/bin", "HOME": "/nonexistent", "CTM_PROGRAM": "none", "CI": "true"}


class Traps:
    """A folder full of modules and programs that note that they were run."""

    def __init__(self, folder):
        self.folder, self.note = folder / "traps", folder / "sprung"
        for name in (*MODULES, "startup"):
            self.lay(f"{name}.py", self.noting(name))
        for name in PROGRAMS:
            self.lay(name, f"#!/bin/sh\necho the program {name} >>{self.note}\nexit 1\n", 0o755)
        own = f"user/lib/python{sys.version_info[0]}.{sys.version_info[1]}/site-packages"
        self.lay(f"{own}/usercustomize.py", self.noting("the site of the user"))

    def noting(self, name):
        """A module that notes its name, by calls of the system, since no text can be written before `encodings` is loaded."""
        note, line = os.fsencode(self.note), f"{name}\n".encode()
        return f"import posix\nposix.write(posix.open({note!r}, posix.O_CREAT | posix.O_APPEND | posix.O_WRONLY), {line!r})\n"

    def lay(self, path, text, mode=0o644):
        (self.folder / path).parent.mkdir(parents=True, exist_ok=True)
        (self.folder / path).write_text(text)
        (self.folder / path).chmod(mode)

    def sprung(self):
        """What was run since this was last asked."""
        found = self.note.read_text().splitlines() if self.note.exists() else []
        self.note.unlink(missing_ok=True)
        return found


@pytest.fixture
def traps(tmp_path):
    return Traps(tmp_path)


def leading_there(traps, around):
    """An environment in which each variable of Python leads to the folder, as an empty entry or by its name."""
    return {**around, "PYTHONPATH": f":{traps.folder}", "PYTHONSTARTUP": f"{traps.folder}/startup.py",
            "PYTHONUSERBASE": f"{traps.folder}/user"}


def searched_there(traps, around):
    """The same, with the folder first on the path, as an empty entry, and last, as a dot."""
    return leading_there(traps, {**around, "PATH": f":{around['PATH']}:."})


def with_a_plain_python(traps, around):
    """An environment in which a virtual environment without packages is first on the path."""
    plain = traps.folder.parent / "venv"
    subprocess.run([sys.executable, "-I", "-m", "venv", "--without-pip", plain], check=True)
    return {**around, "PATH": f"{plain}/bin:{around['PATH']}"}


AROUND = [leading_there, searched_there, with_a_plain_python]


def test_the_traps_are_sprung_where_nothing_is_isolated(traps, tmp_path):
    """So that those that follow show something."""
    searched = searched_there(traps, PLAIN)
    for around in PLAIN, leading_there(traps, PLAIN), {**PLAIN, "PYTHONUSERBASE": searched["PYTHONUSERBASE"]}:
        subprocess.run([sys.executable, "-c", "import json"], cwd=traps.folder, env=around, stderr=subprocess.DEVNULL)
        assert traps.sprung(), around
    subprocess.run(["/bin/bash", "-c", "git --version"], cwd=traps.folder, env=searched)
    assert traps.sprung() == ["the program git"]


def test_a_path_that_leads_here_alone_becomes_the_systems():
    told = subprocess.run(["/bin/bash", "-c", f'. "{TOP}/launcher/path"; echo "$PATH"'], env={"PATH": ".::here"}, capture_output=True, text=True)
    assert told.stdout == "/usr/bin:/bin\n"


@pytest.mark.parametrize("around", AROUND)
def test_the_launchers_run_nothing_of_the_folder(repository, traps, tmp_path, around):
    for path in ("packaging", "docs", "examples", "tools", "README.md", "CHANGELOG.md", "LICENSE-MIT"):
        (repository.top / path).symlink_to(TOP / path)
    repository.trial.write_text("cat; echo 'run=ended status=0 .' >&2\n")
    environment = around(traps, repository.environment)
    there, prefix = repository.top, f"{tmp_path}/prefix"
    for words in ([there / "ctm", "--version"], [there / "ctm", "--help"], [there / "ctm", "--try", "run"], [there / "ctm", "run"],
                  [there / "ctm", "drive"], [there / "ctm", "--path"], [there / "ctm-wait", "2"], [TOP / "ctm-tools", "-h"],
                  [there / "ctm", "--install", prefix], [f"{prefix}/bin/ctm", "--version"], [f"{prefix}/bin/ctm", "drive"],
                  [f"{prefix}/bin/ctm-wait", "-h"], [f"{prefix}/bin/ctm-tools", "-h"], [there / "ctm", "--uninstall", prefix]):
        ended = subprocess.run(words, cwd=traps.folder, env=environment, stdin=subprocess.DEVNULL, capture_output=True, text=True)
        assert (traps.sprung(), ended.returncode) == ([], 2 if words[-1] == "drive" else 0), (words, ended.stderr)


@pytest.mark.parametrize("around", AROUND)
@pytest.mark.parametrize("words", [
    "ctm-tools lint /dev/null", "ctm-tools build /dev/null", "tools/find-python", "tools/find-python no_such_package",
    "tools/package --help", "tools/documents --check CONTRIBUTING.md", "docs/site /dev/null/site",
    "tests/program none --version", "tools/check --version"])
def test_the_tools_run_nothing_of_the_folder(traps, around, words):
    subprocess.run(f"{TOP}/{words}".split(), cwd=traps.folder, env=around(traps, PLAIN), stdin=subprocess.DEVNULL,
                   stdout=subprocess.DEVNULL, stderr=subprocess.DEVNULL)
    assert traps.sprung() == []


@pytest.mark.parametrize("words", ["tests/plays", "tests/plain_model.py run"])
def test_the_scripts_of_python_run_nothing_of_the_folder(traps, words):
    """What `env` finds on a path that leads to the folder isn't theirs to choose."""
    subprocess.run(f"{TOP}/{words}".split(), cwd=traps.folder, env=leading_there(traps, PLAIN), stdin=subprocess.DEVNULL,
                   stdout=subprocess.DEVNULL, stderr=subprocess.DEVNULL)
    assert traps.sprung() == []


# What a first line may have, by which Python takes no modules from the folder, the variables and the site of the user: `-Es`
# where modules of the repository lie beside the script.
ISOLATED = re.compile(r"#!(/usr/bin/env -S python3 -Es|/usr/bin/python3 -I)")
# A call of Python in a script of bash, with the word behind it.
CALL = re.compile(r'(?<![\w/.$-])(?:"\$python"|python3) (-[A-Za-z]+)')


def tracked():
    told = subprocess.run(["git", "ls-files"], cwd=TOP, stdout=subprocess.PIPE, check=True, text=True)
    return [path for path in told.stdout.splitlines() if not path.startswith("crates/") and (TOP / path).is_file()]


def test_each_script_of_python_begins_isolated():
    """But for what launcher/having begins so."""
    first = {path: (TOP / path).read_bytes().partition(b"\n")[0].decode(errors="replace") for path in tracked()}
    scripts = {path: line for path, line in first.items() if line.startswith("#!") and "python" in line}
    assert len(scripts) > 15
    assert [path for path, line in scripts.items() if not ISOLATED.fullmatch(line)] in ([], ["launcher/build"])


def test_each_call_of_python_by_a_script_is_isolated():
    calls = []
    for path in tracked():
        text = (TOP / path).read_bytes()
        if text.startswith((b"#!/usr/bin/env bash", b"#!/bin/bash", b"# shellcheck shell=bash")):
            calls += [(path, word) for word in CALL.findall(text.decode())]
    assert len(calls) > 8
    assert [call for call in calls if call[1] not in ("-I", "-Es")] == []
