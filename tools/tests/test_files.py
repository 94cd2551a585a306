"""Files are put in the place of others as a whole, whoever else writes there."""

import os
import subprocess
import sys

import pytest

from ctmtools.files.writing import begun_anew, replace, write
from ctmtools.problem import Problem

from .examples import TOOLS

WRITER = """
import sys
from ctmtools.files.writing import replace
content = sys.argv[2].encode() * 500_000
for _ in range(40):
    replace(sys.argv[1], content, lasting=False)
"""


def test_of_two_writers_one_stands_whole(tmp_path):
    path = tmp_path / "a.report"
    replace(path, b"a" * 500_000)
    writers = [subprocess.Popen([sys.executable, "-c", WRITER, path, letter], env={**os.environ, "PYTHONPATH": str(TOOLS)})
               for letter in "ab"]
    while any(writer.poll() is None for writer in writers):
        assert path.read_bytes() in (b"a" * 500_000, b"b" * 500_000)
    assert [writer.returncode for writer in writers] == [0, 0]
    assert os.listdir(tmp_path) == ["a.report"]


@pytest.mark.parametrize("placed", ["link", "folder", "file"])
def test_what_stands_at_a_name_beside_is_not_touched(tmp_path, placed):
    other, part = tmp_path / "other", tmp_path / "a.report.part"
    other.write_text("another's")
    if placed == "link":
        part.symlink_to(other)
    elif placed == "folder":
        part.mkdir()
    else:
        part.write_text("another's")
    write(tmp_path / "a.report", "text")
    assert (tmp_path / "a.report").read_text() == "text" and other.read_text() == "another's"
    assert part.is_dir() if placed == "folder" else part.read_text() == "another's"


KILLED = """
import os, sys
from ctmtools.files.writing import replace
os.replace = lambda *paths: os.kill(os.getpid(), 9)
replace(sys.argv[1], b"new")
"""


def test_what_a_killed_call_left_is_taken_away(tmp_path):
    path = tmp_path / "a.csv"
    path.write_text("old")
    subprocess.run([sys.executable, "-c", KILLED, path], env={**os.environ, "PYTHONPATH": str(TOOLS)})
    assert path.read_text() == "old" and len(os.listdir(tmp_path)) == 2
    write(path, "newer")
    assert os.listdir(tmp_path) == ["a.csv"] and path.read_text() == "newer"


@pytest.mark.parametrize("rights", [0o600, 0o640, 0o664])
def test_a_file_keeps_its_rights(tmp_path, rights):
    path = tmp_path / "a.csv"
    path.write_text("old")
    path.chmod(rights)
    write(path, "new")
    assert path.stat().st_mode & 0o777 == rights
    begun_anew(path, ["one"], []).close()
    assert path.stat().st_mode & 0o777 == rights and path.read_bytes() == b"one\r\n"


def test_a_new_file_has_the_rights_of_the_mask(tmp_path):
    before = os.umask(0o027)
    try:
        write(tmp_path / "a.csv", "new")
    finally:
        os.umask(before)
    assert (tmp_path / "a.csv").stat().st_mode & 0o777 == 0o640


def test_a_folder_in_the_place_of_a_file_is_said(tmp_path):
    (tmp_path / "a.csv").mkdir()
    with pytest.raises(Problem, match=r"a\.csv: "):
        write(tmp_path / "a.csv", "new")
    with pytest.raises(Problem, match=r"none/a\.csv: "):
        write(tmp_path / "none" / "a.csv", "new")
    assert os.listdir(tmp_path) == ["a.csv"]
