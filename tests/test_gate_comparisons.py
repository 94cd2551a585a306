"""What compares in the gate finds each difference: `hold` of the tests of the program, and examples/check."""

import shutil
import subprocess

import pytest
from conftest import TOP, hold

WANTED = (0, b"text", b"")
# A program that writes the report that is stored; going on with a saved text it writes what the text has behind its step.
PROGRAM = """#!/bin/bash
case "$*" in
  *--every*) echo at,0,x; cat {folder}/one.report ;;
  run*) cat {folder}/one.report ;;
  save*) echo "$3"; cat {folder}/one.report ;;
  resume*) tail -n +2 ;;
esac
"""


def test_hold_takes_what_is_wanted():
    hold(WANTED, (0, b"text", b""))


@pytest.mark.parametrize("got", [(1, b"text", b""), (0, b"tex", b""), (0, b"text", b"ctm: write fault\n"), (0, b"text", None)])
def test_hold_fails_on_each_difference(got):
    with pytest.raises(pytest.fail.Exception, match=".+ and not .+"):
        hold(WANTED, got)


@pytest.fixture
def examples(tmp_path):
    """A folder of one example with its check: runs it over a program, of which a part is replaced."""
    shutil.copy(TOP / "examples/check", tmp_path)
    (tmp_path / "one.csv").write_text("ctm,1\nsteps,3\nexit,x,2\n")
    (tmp_path / "one.report").write_text("report,3,1\n")

    def check(old="", new=""):
        text = PROGRAM.format(folder=tmp_path)
        assert old in text
        program = tmp_path / "program"
        program.write_text(text.replace(old, new))
        program.chmod(0o755)
        ended = subprocess.run([tmp_path / "check", program], stdout=subprocess.PIPE, stderr=subprocess.DEVNULL, text=True)
        return ended.returncode, ended.stdout.splitlines()
    return check


def test_the_check_of_examples_passes_where_all_agree(examples):
    assert examples() == (0, ["one: agrees", "examples/check: 1 passed, 0 failed"])


@pytest.mark.parametrize("old, new, told", [
    ("  save*)", "  save*) exit 3 ;;\n  other)", "save --until 0 --workers 4 --regions 1: refused, or another report"),
    ("  resume*)", "  resume*4) echo other ;;\n  resume*)",
     "save --until 0 --workers 4 --regions 1, resume --workers 4: refused, or another report"),
    ("  save*)", "  save*--until\\ 3*64) echo 3; echo other ;;\n  save*)",
     "save --until 3 --workers 4 --regions 64, resume --workers 1: refused, or another report"),
    ("  run*)", "  run*16*512) echo other ;;\n  run*)", "run --workers 16 --regions 512: differs, first here (< stored, > made)"),
    ("echo at,0,x;", "", "run --every 60: differs in other lines than those recorded"),
    ("echo at,0,x;", 'echo "at,0,$*";', "run --every 60: differs by 4 workers in 7 regions"),
])
def test_the_check_of_examples_finds_each_difference(examples, old, new, told):
    status, lines = examples(old, new)
    assert (status, lines[0], lines[-1]) == (1, f"one: {told}", "examples/check: 0 passed, 1 failed")
