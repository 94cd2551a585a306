"""What the lists of .ci/counts hold: nothing of what the gate tries can be hollowed under its name, over a small repository."""

import shutil
import subprocess
import sys

import pytest
from conftest import TOP

EDIT = "file: src/lib.rt\nold: n / 2\nnew: n / 3\n"
CRATE_TESTS = """use crate::half;

fn wanted(n: u8) -> u8 { n }

#[test]
fn four_halved(rt: HostRuntime) { assert_eq!(rt; half(4), wanted(2)); }

// Nothing of nothing.
#[test]
fn none_halved(rt: HostRuntime) { assert_eq!(rt; half(0), 0); }
"""
CASES = '''"""Halves."""

import pytest
from conftest import hold

MOST = 1e-3
ODD = [(1, (0.5, "a")), (3, (1.5, "b"))]


@pytest.fixture
def half():
    return lambda n: n / 2


def close(n, wanted):
    assert abs(n - wanted) <= 0.05 * wanted


@pytest.mark.parametrize("n, wanted", [(2, (1, "a")), (4, (2, "b"))])
def test_even(half, n, wanted):
    assert half(n) == wanted[0]
    close(half(n), wanted[0])


@pytest.mark.parametrize("n, wanted", ODD)
def test_odd(half, n, wanted):
    assert half(n) == pytest.approx(wanted[0], rel=1e-6)
    assert half(n) == pytest.approx(wanted[0], abs=MOST)
    assert abs(half(n) - wanted[0]) < 0.25
    assert round(half(n), 3) == wanted[0]


def test_none(half):
    hold(0, half(0))
    with pytest.raises(TypeError):
        half("")


def test_words(half):
    with pytest.raises(TypeError, match="str"):
        half("")


def test_some(half):
    for n in (6, 8):
        assert half(n) + half(n) == n
'''
SHARED = """def hold(wanted, got):
    assert wanted == got
"""
BY_PYTEST = f'cd "$(dirname "$0")/.." && exec {sys.executable} -B -m pytest -q -p no:cacheprovider tests "${{@:2}}"'
OTHER_PART = 'case "$*" in *--collect-only*) echo "test_other.py::test_one" ;; *) echo 1 passed ;; esac'


class Lists:
    """A repository of which .ci/counts makes the lists."""

    def __init__(self, top):
        self.top = top

    def make(self):
        shutil.copytree(TOP / ".ci", self.top / ".ci", ignore=shutil.ignore_patterns("__pycache__", "*.txt"))
        self.write("crates.txt", "low:\n")
        self.write("crates/low/src/lib.rt", "pub fn half(n: u8) -> u8 { n / 2 }\n")
        self.write("crates/low/src/tests.rt", CRATE_TESTS)
        self.write("crates/low/must-fail/a-third.edit", EDIT)
        self.write("crates/low/stdout", "two\nhalves\n")
        self.write("examples/one.report", "report,1,1\n")
        self.write("tests/conftest.py", SHARED)
        self.write("tests/test_it.py", CASES)
        self.write("tests/program", BY_PYTEST)
        for part in ("tests/launcher", "tools/check"):
            self.write(part, OTHER_PART)
        for script in ("tests/plays", "tools/setup", "tools/find-python", "examples/check", "bench/stress-wait"):
            self.write(script, "echo 1 passed")
        self.call()

    def write(self, path, text):
        path = self.top / path
        path.parent.mkdir(parents=True, exist_ok=True)
        is_script = path.suffix == "" and path.parent.name in ("tests", "tools", "examples", "bench")
        path.write_text(f"#!/bin/bash\n{text}\n" if is_script else text)
        path.chmod(0o755 if is_script else 0o644)

    def call(self, *words):
        """The status of .ci/counts, and its lines."""
        ended = subprocess.run([self.top / ".ci/counts", *words], stdout=subprocess.PIPE, text=True)
        return ended.returncode, ended.stdout.splitlines()

    def lines(self, name="counts"):
        return (self.top / f".ci/{name}.txt").read_text().splitlines()


@pytest.fixture(scope="session")
def made_lists(tmp_path_factory):
    folder = tmp_path_factory.mktemp("lists")
    Lists(folder).make()
    return folder


@pytest.fixture
def lists(tmp_path, made_lists):
    shutil.copytree(made_lists, tmp_path, dirs_exist_ok=True)
    return Lists(tmp_path)


def test_lists_that_are_those_of_what_stands_here_pass(lists):
    status, told = lists.call("--check")
    assert (status, told) == (0, [f"{len(lists.lines())} passed", f"{len(lists.lines('cases'))} passed"])


def test_the_lists_have_each_case_by_its_id_and_how_many_there_are(lists):
    assert lists.lines("cases") == [
        *(f"case tests/program test_it.py {case}" for case in (
            "test_even[2-wanted0]", "test_even[4-wanted1]", "test_odd[1-wanted0]", "test_odd[3-wanted1]", "test_none",
            "test_words", "test_some")),
        "case tests/launcher test_other.py test_one", "case tools/check test_other.py test_one"]
    assert [line for line in lists.lines() if line.startswith("cases ")] == [
        "cases tests/plays 1", "cases tests/program test_it.py 7", "cases tests/launcher test_other.py 1",
        "cases tools/check test_other.py 1", "cases examples/check 1"]


def test_the_lists_say_how_much_each_test_holds_and_within_which_tolerances(lists):
    holds = {words[2]: words[3] for words in (line.split(maxsplit=3) for line in lists.lines()) if words[0] == "holds"}
    even, odd = (holds[name].split(", ") for name in ("test_even", "test_odd"))
    assert holds.keys() == {"hold", "close", "test_even", "test_odd", "test_none", "test_words", "test_some"}
    assert (holds["hold"], holds["test_none"]) == ("1 checks", "2 checks, raises TypeError")
    assert holds["close"] == "1 checks, abs(n - wanted) <= 0.05 * wanted"
    assert (even[0], even[1][:7], len(even)) == ("2 checks", "values ", 2)
    assert (odd[0], odd[1][:7], odd[2:]) == ("4 checks", "values ", [
        "approx rel=1e-6", "approx abs=MOST", "abs(half(n) - wanted[0]) < 0.25", "round to 3"])


def hollowed(path, old, new, *told):
    """Of a list that is as it was these lines are told after this change."""
    return pytest.param(path, old, new, told, id=f"{path}: {old.strip()} -> {new.strip()}")


@pytest.mark.parametrize("path, old, new, told", [
    hollowed("crates/low/must-fail/a-third.edit", "n / 3", "n", "-edit low a-third "),
    hollowed("crates/low/stdout", "two\n", "ten\n", "-run low stdout 2 "),
    hollowed("examples/one.report", "1,1", "1,2", "-file examples/one.report "),
    hollowed("crates/low/src/tests.rt", "{ assert_eq!(rt; half(0), 0); }", "{}", "-test low tests none_halved "),
    hollowed("crates/low/src/tests.rt", "{ assert_eq!(rt; half(0), 0); }", "{ assert_eq!(rt; 0, 0); }", "-test low tests none_halved "),
    hollowed("crates/low/src/tests.rt", "-> u8 { n }", "-> u8 { half(2 * n) }", "-beside-tests low tests "),
    hollowed("tests/test_it.py", "    assert half(n) == wanted[0]\n", "    pass\n", "-holds tests/test_it.py test_even 2 checks"),
    hollowed("tests/test_it.py", "    close(half(n), wanted[0])\n", "    pass\n", "-holds tests/test_it.py test_even 2 checks"),
    hollowed("tests/test_it.py", "    hold(0, half(0))\n", "    assert True\n", "-holds tests/test_it.py test_none 2 checks"),
    hollowed("tests/test_it.py", 'with pytest.raises(TypeError):\n        half("")', "pass", "-holds tests/test_it.py test_none 2 checks"),
    hollowed("tests/test_it.py", "    assert abs(n - wanted) <= 0.05 * wanted", "    pass", "-holds tests/test_it.py close 1 checks"),
    hollowed("tests/conftest.py", "assert wanted == got", "pass", "-file tests/conftest.py ", "-holds tests/conftest.py hold 1 checks",
             "-holds tests/test_it.py test_none 2 checks"),
    hollowed("tests/test_it.py", "    hold(0, half(0))\n", "    return\n    hold(0, half(0))\n", "-holds tests/test_it.py test_none 2 checks"),
    hollowed("tests/test_it.py", "    assert half(n) == wanted[0]\n", '    assert (half(n) == wanted[0], "is the half")\n',
             "-holds tests/test_it.py test_even 2 checks"),
    hollowed("tests/test_it.py", "in (6, 8)", "in (6, 6)", "-holds tests/test_it.py test_some 1 checks, values "),
    *(hollowed("tests/test_it.py", "assert half(n) == wanted[0]\n", f"assert {fixed}\n", "-holds tests/test_it.py test_even 2 checks, values ")
      for fixed in ("half(n) == wanted[0] or True", "not None", "[half(n) == wanted[0]]", 'f"{half(n)} {wanted}"')),
    # Ways past a check.
    *(hollowed("tests/test_it.py", "    assert half(n) == wanted[0]\n", past, "-holds tests/test_it.py test_even 2 checks, values ")
      for past in ("    if n > 9:\n        assert half(n) == wanted[0]\n", "    if n:\n        return\n    assert half(n) == wanted[0]\n",
                   "    while n > 9:\n        assert half(n) == wanted[0]\n",
                   "    try:\n        assert half(n) == wanted[0]\n    except AssertionError:\n        pass\n",
                   "    with contextlib.suppress(AssertionError):\n        assert half(n) == wanted[0]\n")),
    *(hollowed("tests/test_it.py", "in (6, 8):\n", f"in (6, 8):\n        {past}\n", "-holds tests/test_it.py test_some 1 checks, values ")
      for past in ("continue", "break", "return")),
    hollowed("tests/test_it.py", "raises(TypeError)", "raises(Exception)", "-holds tests/test_it.py test_none 2 checks, raises TypeError"),
    hollowed("tests/test_it.py", 'raises(TypeError, match="str")', "raises(TypeError)", "-holds tests/test_it.py test_words 1 checks, raises TypeError match="),
    hollowed("bench/stress-wait", "echo 1", "exit 0; echo 1", "-file bench/stress-wait "),
    # One case twice in place of another: by a value that the id has, and by one that it hasn't.
    hollowed("tests/test_it.py", '(4, (2, "b"))', '(2, (1, "a"))', "-case tests/program test_it.py test_even[4-wanted1]"),
    hollowed("tests/test_it.py", '(4, (2, "b"))', '(4, (1, "a"))', "-holds tests/test_it.py test_even 2 checks, values "),
    hollowed("tests/test_it.py", '(3, (1.5, "b"))', '(3, (1.5, "a"))', "-values tests/test_it.py ODD "),
    hollowed("tests/test_it.py", "MOST = 1e-3", "MOST = 1e-1", "-values tests/test_it.py MOST "),
    hollowed("tests/test_it.py", "rel=1e-6", "rel=1e-4", "-holds tests/test_it.py test_odd 4 checks, "),
    hollowed("tests/test_it.py", "< 0.25", "< 25", "-holds tests/test_it.py test_odd 4 checks, "),
    hollowed("tests/test_it.py", "0.05 * wanted", "5 * wanted", "-holds tests/test_it.py close 1 checks, "),
    hollowed("tests/test_it.py", "half(n), 3)", "half(n), 1)", "-holds tests/test_it.py test_odd 4 checks, "),
    hollowed("tests/test_it.py", "half(n) == wanted[0]\n", "half(n) == pytest.approx(wanted[0])\n",
             "-holds tests/test_it.py test_even 2 checks, "),
    hollowed("tests/test_it.py", "def test_none", "@pytest.mark.xfail\ndef test_none", "-holds tests/test_it.py test_none 2 checks"),
    hollowed("tests/test_it.py", '"b"))]\n\n\n@pytest.fixture', '"b"))]\ndel ODD[1]\n\n\n@pytest.fixture', "+values tests/test_it.py - ",
             "-case tests/program test_it.py test_odd[3-wanted1]"),
    # A part that says what is wanted, with the cases that are wanted, and runs nothing.
    hollowed("tests/program", "cd ", "[[ $* = *--collect-only* ]] || { echo 7 passed in 1.00s; exit; }\ncd ", "-file tests/program "),
    hollowed("tests/plays", "echo 1", "exit 0; echo 1", "-file tests/plays "),
])
def test_what_is_hollowed_under_its_name_is_noticed(lists, path, old, new, told):
    text = (lists.top / path).read_text()
    assert text.count(old) == 1
    (lists.top / path).write_text(text.replace(old, new))
    status, lines = lists.call("--check")
    assert status == 1
    for begin in told:
        assert any(line.startswith(f".ci/counts: {begin}") for line in lines), lines


@pytest.mark.parametrize("path", ["tools/setup", "tools/find-python", "examples/check", "tests/conftest.py"])
def test_a_file_that_is_gone_is_noticed(lists, path):
    if path == "tests/conftest.py":
        (lists.top / "tests/test_it.py").write_text(CASES.replace("from conftest import hold\n", ""))
    (lists.top / path).unlink()
    status, lines = lists.call("--check")
    assert status == 1 and any(line.startswith(f".ci/counts: -file {path} ") for line in lines)


@pytest.mark.parametrize("path", ["pytest.ini", "conftest.py", "tools/pyproject.toml"])
def test_a_file_by_which_pytest_is_told_another_way_is_noticed(lists, path):
    """A hook of it can pass each test without running it."""
    (lists.top / path).write_text("")
    status, lines = lists.call("--check")
    assert status == 1 and any(line.startswith(f".ci/counts: +file {path} ") for line in lines)


@pytest.mark.parametrize("path, old, new", [
    ("crates/low/src/tests.rt", "// Nothing of nothing.", "// The half of none is none."), ("crates/low/src/tests.rt", "{ n }", "{\n    n\n}"),
    ("tests/test_it.py", '"""Halves."""', '"""The halves of numbers."""'), ("tests/test_it.py", "approx(wanted[0], rel=1e-6)", "approx(\n        wanted[0], rel=1e-6)")])
def test_words_and_layout_change_nothing(lists, path, old, new):
    text = (lists.top / path).read_text()
    assert text.count(old) == 1
    (lists.top / path).write_text(text.replace(old, new))
    assert lists.call("--check")[0] == 0


def test_a_long_id_is_cut_and_still_told_apart(lists):
    found = set()
    for last in "xy":
        (lists.top / "tests/test_it.py").write_text(CASES.replace("[(2, (1,", f'[("{last:a>300}", (1,'))
        lists.call()
        found |= {line for line in lists.lines("cases") if " test_even[aaa" in line}
    assert len(found) == 2 and all(len(line) < 130 for line in found)


def test_an_id_that_has_the_folder_of_the_repository_is_refused(lists):
    """Elsewhere the lists would differ."""
    (lists.top / "tests/test_it.py").write_text(CASES.replace("[(2, (1,", "[(__file__, (1,"))
    ended = subprocess.run([lists.top / ".ci/counts"], stdout=subprocess.PIPE, stderr=subprocess.PIPE, text=True)
    assert ended.returncode == 1 and ended.stderr == (
        f".ci/counts: the id of a case would be another in another folder: test_it.py test_even[{lists.top}/tests/test_it.py-wanted0]\n")


def test_cases_that_cannot_be_collected_are_told_in_a_few_lines(lists):
    (lists.top / "tests/test_it.py").write_text("\n".join(f"def test_{n}(): pass" for n in range(99)) + "\nnone_such\n")
    ended = subprocess.run([lists.top / ".ci/counts", "--check"], stdout=subprocess.PIPE, stderr=subprocess.PIPE, text=True)
    assert ended.returncode == 1 and ended.stderr.startswith(".ci/counts: the cases of tests/program can't be counted:\n")
    assert "NameError: name 'none_such'" in ended.stderr and len(ended.stderr.splitlines()) <= 21
