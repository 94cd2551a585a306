"""The gate can't be blinded: .ci/run over a small repository, with a stand-in for `rt ci` and for each check, of which one
thing at a time is broken.
"""

import os
import shutil
import subprocess
from pathlib import Path

import pytest
from conftest import TOP

LOG = """rt: no_memory proved
rt: low proved
rt: trials proved
rt: ctm_program proved
rt: ctm_wait proved
rt: top is kept: an earlier run on this machine proved the same files over the same libraries
rt: must-fail low/one.edit: refused, as it must be: src/lib.rt:1:1: error
rt: must-fail top/two.edit: refused, as it must be
test result: ok. 2 passed; 0 failed; 0 ignored; 0 filtered out
rt: trials: its tests passed
test result: ok. 3 passed; 0 failed; 0 ignored; 0 filtered out
rt: ok; handles allowed: none
4 passed, 0 failed
"""
CHECKS = ["tests/plays", "tests/program", "tests/launcher", "examples/check", "tools/check"]
MADE_RUNS = ["bench/stress-wait", "tests/fuzz"]  # over made input, as long as they run, so no list has how many there are
# What a check does: it passes, and it tells the cases of its test file.
PASSING = """case "$*" in *--collect-only*) printf 'test_it.py::test_%s\\n' {1..90} ;; *) echo 90 passed in 1.00s ;; esac"""
HANDLES = "Handles allowed: Threads, Wait.\n"


class Gate:
    def __init__(self, folder):
        self.top = Path(folder) / "repository"
        self.bin = Path(folder) / "bin"

    def make(self):
        """Makes a gate that passes."""
        for part in (".ci", "launcher"):
            shutil.copytree(TOP / part, self.top / part, ignore=shutil.ignore_patterns("__pycache__"))
        for crate in ("top", "ctm_program", "ctm_wait", "no_memory"):
            self.write(f"crates/{crate}/src/lib.rt", "")
        self.write("crates/low/src/lib.rt", "pub fn half(n: u8) -> u8\n    ensures half { result ≡ n / 2 }\n{ n / 2 }\n")
        self.write("crates/trials/src/lib.rt", "".join(f"#[test]\nfn trial_{at}() {{}}\n" for at in range(5)))
        self.write("crates.txt", "no_memory:\nlow:\ntop: low\ntrials tests_may=Threads: top\nctm_program: top\nctm_wait: top\n")
        self.write(".ci/without-edits", "no_memory\ntrials # tests alone\nctm_program\nctm_wait\n")
        self.write("crates/low/must-fail/one.edit", "")
        self.write("crates/top/must-fail/two.edit", "")
        self.write("docs/inside/PROVED.md", "")
        self.write("HANDLES", HANDLES)
        self.write("crates/top/stdin", "ctm,1\nsteps,2\n")
        self.write("examples/one.report", "")
        self.script("tools/setup", ":")
        self.script("launcher/prove", "mkdir -p crates/$2/out/proved/$2.rlib")
        for check in CHECKS:
            self.script(check, PASSING)
        self.script("examples/check", "echo 1 passed")
        for check in MADE_RUNS:
            self.script(check, "echo 7 passed")
        for script in ("check", "tools/find-python"):
            shutil.copy(TOP / script, self.top / script)
        self.ci()
        for folder in ("tests", "tools/tests"):
            self.write(f"{folder}/left_out_on_trials.txt", "")
        for script in (".ci/contracts", ".ci/counts"):
            subprocess.run([self.top / script], check=True)

    def write(self, path, text):
        path = self.top / path
        path.parent.mkdir(parents=True, exist_ok=True)
        path.write_text(text)
        return path

    def script(self, path, text):
        self.write(path, f"#!/bin/bash\n{text}\n").chmod(0o755)

    def replace(self, path, old, new):
        text = (self.top / path).read_text()
        assert old in text
        self.write(path, text.replace(old, new))

    def ci(self, log=LOG, status=0):
        """What `rt ci` writes and ends with. It builds the programs."""
        self.write("log", log)
        self.script("../bin/rt", '[ "$*" = ci ] || exit 9; for it in ctm_program ctm_wait; do mkdir -p crates/$it/out; '
                    f"cp ../bin/rt crates/$it/out/$it; done; cat log; exit {status}")

    def run(self):
        """The status and the lines of the gate."""
        path = {"PATH": f"{self.bin}:/usr/bin:/bin"}
        ended = subprocess.run([self.top / ".ci/run"], env=path, stdout=subprocess.PIPE, stderr=subprocess.STDOUT, text=True)
        return ended.returncode, ended.stdout.splitlines()


@pytest.fixture(scope="session")
def passing_gate(tmp_path_factory):
    folder = tmp_path_factory.mktemp("gate")
    Gate(folder).make()
    return folder


@pytest.fixture
def gate(tmp_path, passing_gate):
    shutil.copytree(passing_gate, tmp_path, dirs_exist_ok=True)
    return Gate(tmp_path)


def test_a_gate_that_passes_says_how_many_checks_of_each_sort_ran(gate):
    status, told = gate.run()
    assert told[-1] == ("./check: passed: 6 crates proved, 2 edits refused, 5 tests of crates passed, 90 of tests/plays, "
                        "90 of tests/program, 90 of tests/launcher, 1 of examples/check, 90 of tools/check")
    assert status == 0


@pytest.mark.parametrize("program", ["ctm_program", "ctm_wait"])
def test_the_programs_of_the_gate_are_current_for_the_launcher(gate, program):
    gate.run()
    asks = f'top={gate.top}; target={program}; . "$top/launcher/current"; is_current'
    assert subprocess.run(["bash", "-c", asks]).returncode == 0
    gate.write("crates/low/src/lib.rt", "changed")
    assert subprocess.run(["bash", "-c", asks]).returncode == 1


def test_each_check_gets_the_programs_that_were_built_and_knows_that_it_is_in_the_gate(gate):
    for check in CHECKS:
        gate.script(check, f'{PASSING}; echo "$CI $CTM_PROGRAM $CTM_WAIT_PROGRAM $*"')
    told = gate.run()[1]
    program, waits = (f"{gate.top}/crates/{it}/out/{it}" for it in ("ctm_program", "ctm_wait"))
    begin, processes = f"true {program} {waits} ", len(os.sched_getaffinity(0))
    beside = f"-n {processes} --dist loadfile" if processes > 1 else ""
    by_pytest = f"{begin}{program} {beside}".rstrip()
    assert [line for line in told if line.startswith("true")] == [begin, by_pytest, by_pytest, f"{begin}{program}", f"{begin}{beside}"]


def broken(change, told):
    """A gate in which this was changed fails, and says this."""
    return pytest.param(change, told, id=told)


def without(gate, path, part):
    """Takes a text away from a file."""
    gate.replace(path, part, "")


@pytest.mark.parametrize("change, told", [
    broken(lambda gate: gate.ci(LOG, status=1), "FAILED, status 1"),
    broken(lambda gate: gate.ci(""), "low: not proved"),
    broken(lambda gate: gate.ci(LOG.replace("rt: low proved", "rt: low NOT PROVED")), ".ci/edits: low: not proved"),
    broken(lambda gate: gate.ci(LOG.replace("ok. 3 passed", "ok. 2 passed")), "4 tests of crates passed, and 5 are to"),
    broken(lambda gate: gate.ci(LOG.replace("one.edit: refused, as it must be: src/lib.rt:1:1: error",
                                            "one.edit: BAD EDIT: an 'old:' text is in src/lib.rt 0 times, and not once")),
           "low/one.edit: BAD EDIT: an 'old:' text is in src/lib.rt 0 times"),
    *[broken(lambda gate, why=why: gate.ci(LOG.replace("one.edit: refused, as it must be: src/lib.rt:1:1: error",
                                                       f"one.edit: refused, as it must be{why}")), f"low/one.edit: refused, as it must be{why}")
      for why in (" (only because a proof file names what the edit took away, so this says little of the contract)",
                  " (only by a limit of the prover, which gave no verdict)",
                  ": ./proofs/half/Answers.antt:5:9: error: `half-requires`: `goal.half-requires`: module `Rattle.low.proofs.half.Goals`",
                  ": error: 2 declarations that depend on `returns`, which was rejected, were not checked")],
    broken(lambda gate: gate.ci(LOG.replace("rt: must-fail top/two.edit: refused, as it must be\n", "")),
           "top/two.edit: not tried"),
    broken(lambda gate: gate.ci(LOG + "rt: crates/low/must-fail/three.edt: BAD EDIT: an edit stands right in must-fail/\n"),
           "crates/low/must-fail/three.edt: BAD EDIT"),
    broken(lambda gate: gate.write("crates/low/must-fail/more.edit", ""), "low/more.edit: not tried"),
    broken(lambda gate: shutil.rmtree(gate.top / "crates/top/must-fail"), "top has no must-fail edits"),
    broken(lambda gate: gate.write("crates/trials/must-fail/one.edit", ""), "names trials, which has edits"),
    broken(lambda gate: gate.replace(".ci/without-edits", "trials", "gone\ntrials"), "names gone, which is no crate"),
    broken(lambda gate: gate.write("crates/hidden/src/lib.rt", ""), "crates/hidden is in no line of crates.txt"),
    broken(lambda gate: gate.write("HANDLES", HANDLES.replace(".", ", Files.")), "HANDLES isn't the line"),
    broken(lambda gate: without(gate, "crates/low/src/lib.rt", "ensures half { result ≡ n / 2 }"),
           "-low/src/lib.rt half: ensures half { result ≡ n / 2 }"),
    broken(lambda gate: os.rename(gate.top / "crates/low/must-fail/one.edit", gate.top / "crates/low/must-fail/won.edit"),
           "-edit low one "),
    broken(lambda gate: without(gate, "crates.txt", "trials tests_may=Threads: top\n"), "-crate trials"),
    broken(lambda gate: gate.replace("crates/trials/src/lib.rt", "trial_2", "trial_two"), "-test trials lib trial_2 "),
    broken(lambda gate: without(gate, "crates/top/stdin", "steps,2\n"), "-run top stdin 2 "),
    broken(lambda gate: gate.script("tests/program", PASSING.replace("test_it.py", "test_other.py")),
           "-cases tests/program test_it.py 90"),
    broken(lambda gate: os.remove(gate.top / "examples/one.report"), "-cases examples/check 1"),
    broken(lambda gate: os.remove(gate.top / ".ci/counts.txt"), "counts.txt differs"),
    broken(lambda gate: os.remove(gate.top / "contracts.txt"), "contracts.txt differs"),
    broken(lambda gate: gate.script("launcher/prove", "exit 3"), "launcher/prove doesn't prove no_memory: status 3"),
    # A library of an earlier run stands there.
    broken(lambda gate: [gate.write("crates/no_memory/out/proved/no_memory.rlib/earlier", ""), gate.script("launcher/prove", "")],
           "launcher/prove made no library of no_memory"),
    broken(lambda gate: gate.replace("../bin/rt", "cat log;", "echo >>crates/low/src/lib.rt; cat log;"),
           "a source was changed meanwhile, so what stands here isn't what was proved"),
    *[broken(lambda gate, check=check: os.remove(gate.top / check), f"{check}: no cases passed, and") for check in CHECKS],
    *[broken(lambda gate, check=check: gate.script(check, "exit 0"), f"{part}: no cases passed")
      for part, check in (("stress", "bench/stress-wait"), ("fuzz", "tests/fuzz"), ("handles", "launcher/check_handles"))],
    *[broken(lambda gate, check=check: gate.script(check, "echo 0 passed"), f"{part}: no cases passed")
      for part, check in (("small-proof", "launcher/check_small_proof"), ("contracts", ".ci/contracts"))],
    *[broken(lambda gate, check=check: gate.script(check, "echo 7 passed; exit 1"), f"{check} fails") for check in MADE_RUNS],
    broken(lambda gate: gate.script("bench/stress-wait", "echo 8 passed"), "-file bench/stress-wait "),
    broken(lambda gate: gate.script("tests/program", PASSING.replace("90 passed", "89 passed")),
           "tests/program: 89 cases passed, and 90 are to"),
    broken(lambda gate: gate.script("tools/check", PASSING.replace("90 passed", "91 passed")),
           "tools/check: 91 cases passed, and 90 are to"),
    broken(lambda gate: gate.script("tests/launcher", f"{PASSING}; exit 1"), "tests/launcher fails"),
    *[broken(lambda gate, left=left: gate.script("tools/check", PASSING.replace("passed", f"passed, 1 {left}")),
             "tools/check: cases were left out") for left in ("skipped", "deselected", "xfailed")],
    broken(lambda gate: gate.script("tools/setup", "exit 0"), "-file tools/setup "),
])
def test_a_gate_in_which_something_is_broken_fails(gate, change, told):
    change(gate)
    status, lines = gate.run()
    assert status >= 1
    assert lines[-1].startswith("./check: FAILED, status ")
    assert told.endswith(" fails") or any(told in line for line in lines)


def test_a_gate_without_what_sets_it_up_fails(gate):
    os.remove(gate.top / "tools/setup")
    assert gate.run() == (2, ["./check: tools/setup can't be run: No such file or directory; nothing was run"])


def test_the_status_is_the_worst(gate):
    gate.script("tests/program", f"{PASSING}; exit 3")
    gate.script("tools/check", f"{PASSING}; exit 2")
    assert gate.run()[0] == 3


# The tools' own check and the search for a Python, where something is missing

def test_tools_that_cannot_be_tested_fail_in_the_gate_alone(tmp_path):
    shutil.copytree(TOP / "tools", tmp_path / "tools", ignore=shutil.ignore_patterns("__pycache__"))
    (tmp_path / "tools/find-python").write_text("#!/bin/sh\necho missing >&2\nexit 2\n")
    for given, wanted in (({"CI": "true"}, 1), ({}, 0)):
        ended = subprocess.run([tmp_path / "tools/check"], env={"PATH": "/usr/bin:/bin", **given}, stdout=subprocess.PIPE)
        assert (ended.returncode, ended.stdout) == (wanted, b"tools/check: the tests of ctm-tools did not run\n")


def test_a_missing_package_is_named_with_what_installs_it():
    ended = subprocess.run([TOP / "tools/find-python", "no_such_package"], stdout=subprocess.PIPE, stderr=subprocess.PIPE)
    assert (ended.returncode, ended.stdout) == (2, b"")
    assert ended.stderr == (b"ctm-tools: Python packages are missing: tools/setup installs them, or "
                            b"apt install python3-no_such_package\n")


def setup_with(tmp_path, user, sudo="exit 1", install="exit 0"):
    """The status of tools/setup, what it says, and the calls of apt-get, where python3-pytest is missing."""
    stubs = tmp_path / "stubs"
    stubs.mkdir()
    calls = tmp_path / "calls"
    for name, text in {
        "id": f"echo {user}",
        "sudo": sudo,
        "dpkg-query": '[ "${@: -1}" = python3-pytest ] || echo "install ok installed"',
        "apt-get": f'echo "$@" >>{calls}; {install}',
    }.items():
        (stubs / name).write_text(f"#!/bin/bash\n{text}\n")
        (stubs / name).chmod(0o755)
    ended = subprocess.run([TOP / "tools/setup"], env={"PATH": f"{stubs}:/usr/bin:/bin"}, stderr=subprocess.PIPE, text=True)
    return ended.returncode, ended.stderr, calls.read_text().splitlines() if calls.exists() else []


INSTALLED = ["update -qq", "install -qq -y --no-install-recommends -o DPkg::Lock::Timeout=600 python3-pytest"]
BEGUN = "tools/setup: installing 1 packages of Debian\n"


def test_setup_installs_what_is_missing_as_root(tmp_path):
    assert setup_with(tmp_path, user=0, install="echo Unpacking") == (0, BEGUN, INSTALLED)


def test_setup_installs_by_a_sudo_that_asks_for_no_password(tmp_path):
    assert setup_with(tmp_path, user=1000, sudo='[ "$1" = -n ] || "$@"') == (0, BEGUN, INSTALLED)


def test_setup_prints_the_one_line_where_it_may_not(tmp_path):
    assert setup_with(tmp_path, user=1000) == (
        2, "tools/setup: packages are missing: sudo apt-get update && sudo apt-get install -y python3-pytest\n", [])


def test_setup_tells_where_nothing_could_be_installed(tmp_path):
    status, told, _ = setup_with(tmp_path, user=0, install='[ "$1" = update ] || { seq 100; exit 100; }')
    last = "".join(f"{number}\n" for number in range(81, 101))
    assert (status, told) == (2, f"{BEGUN}{last}tools/setup: apt-get could not install python3-pytest\n")
