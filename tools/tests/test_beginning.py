"""The study and the examples to begin with: `ctm-tools new` and `ctm-tools examples`, which write over nothing."""

import re
import subprocess

import pytest

from ctmtools.commands.examples import KINDS as COPIED
from ctmtools.study.beginning import KEYS, KINDS

from .examples import EXAMPLES

# On paper: in the hour from 07:00 on three quarters of what the lanes carry come and 70 % pass the exit, so a twentieth waits at
# its end; then 40 % come, so these are gone after 10 minutes. The delay is a twentieth of the capacity times 70 minutes / 2.
DELAYS = {"motorway": "116.67", "rural": "46.67", "arterial": "105", "local": "35"}


@pytest.mark.parametrize("kind", KINDS)
def test_a_new_study_runs_as_it_is(tool, kind, program):
    status, out, err = tool("new", "own.toml", "--road", kind)
    assert (status, out, err) == (0, "own.toml: a study to begin with; ctm-tools run own.toml runs it\n", "")
    status, out, err = tool("run", "own.toml")
    assert status == 0 and not err and "modelled as asked" in out and f"\nDelay     {DELAYS[kind]} vehicle-hours" in out
    assert "upstream end" not in out and "0 are still inside" in out


def test_a_new_study_marks_its_values_as_typical_and_names_those_of_other_roads(tool, tmp_path):
    tool("new", "own.toml")
    text = (tmp_path / "own.toml").read_text()
    for key in KEYS:
        assert re.search(rf"^{key} = {getattr(KINDS['motorway'], key)}  # \S+, typical", text, re.MULTILINE)
    for kind, road in KINDS.items():
        values = " +".join(str(getattr(road, key)) for key in KEYS)
        assert re.search(rf"^# +{kind} +{values}$", text, re.MULTILINE)


def test_a_closure_of_a_new_study_can_be_uncommented(tool, tmp_path):
    tool("new", "own.toml")
    study = tmp_path / "own.toml"
    study.write_text(re.sub(r"^# (\[\[closures|road|from|to|lanes|start|end)", r"\1", study.read_text(), flags=re.MULTILINE))
    assert "[[closures]]\nroad" in study.read_text()
    status, out, _ = tool("run", "own.toml")
    assert status == 0 and "Delay     116.67 vehicle-hours" in out  # one lane passes the 1,600 that come from 08:00 to 09:30


@pytest.mark.parametrize("name, told", [
    ("own.toml", "own.toml: stands there already; nothing was written"), ("link.toml", "link.toml: stands there already; nothing was written"),
    ("own.txt", "own.txt: a study's name ends with .toml"), ("none/own.toml", "none/own.toml: no such file or directory")])
def test_a_new_study_is_written_over_nothing(tool, tmp_path, name, told):
    (tmp_path / "own.toml").write_text("mine\n")
    (tmp_path / "link.toml").symlink_to("gone.toml")
    assert tool("new", name) == (2, "", f"ctm-tools: {told}\n")
    assert (tmp_path / "own.toml").read_text() == "mine\n" and {path.name for path in tmp_path.iterdir()} == {"own.toml", "link.toml"}


def tracked():
    listed = subprocess.run(["git", "ls-files", "."], cwd=EXAMPLES, stdout=subprocess.PIPE, check=True, text=True).stdout.splitlines()
    return {name for name in listed if name != "check"}


@pytest.mark.parametrize("empty", [False, True])
def test_the_examples_are_copied_and_run(tool, tmp_path, empty, program):
    if empty:
        (tmp_path / "own").mkdir()
    status, out, err = tool("examples", "own")
    copied = {str(path.relative_to(tmp_path / "own")): path for path in (tmp_path / "own").rglob("*") if path.is_file()}
    assert copied.keys() == tracked() and all(path.read_bytes() == (EXAMPLES / name).read_bytes() for name, path in copied.items())
    assert (status, out, err) == (0, f"own: {len(copied)} files; ctm-tools run own/bottleneck.toml runs the first\n", "")
    status, out, _ = tool("run", "own/bottleneck.toml")
    assert status == 0 and "Delay     461.25 vehicle-hours" in out


def test_each_kind_of_example_is_copied():
    assert {name[name.rindex("."):] for name in tracked()} == COPIED


@pytest.mark.parametrize("name, told", [("own", "own: stands there already; nothing was written"),
                                        ("own/file", "own/file: stands there already; nothing was written"),
                                        ("none/own", "none/own: no such file or directory")])
def test_the_examples_are_copied_over_nothing(tool, tmp_path, name, told):
    (tmp_path / "own").mkdir()
    (tmp_path / "own/file").write_text("mine\n")
    assert tool("examples", name) == (2, "", f"ctm-tools: {told}\n")
    assert [(path.name, path.is_dir() or path.read_text()) for path in sorted(tmp_path.rglob("*"))] == [("own", True), ("file", "mine\n")]


def test_tools_without_examples_say_so(tool, tmp_path, monkeypatch):
    monkeypatch.setattr("ctmtools.commands.examples.examples", lambda: None)
    assert tool("examples", "own") == (2, "", "ctm-tools: there are no examples in a repository or a package of ctm around these tools\n")
