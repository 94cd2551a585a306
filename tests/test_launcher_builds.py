"""How ./ctm builds: which crates in which order and by how many jobs, what it says, and what it leaves behind."""

import fcntl
import os
import re
import shutil
import signal
import subprocess
import time

import pytest
from conftest import TOP
from launched import JOBS, PATIENCE, heed_signals


def test_crates_are_proved_side_by_side_the_longest_chain_first(repository):
    repository.goes_on_until("low", "began other")
    repository.goes_on_until("long", "began side")
    repository.goes_on_until("side", "began long")
    err = repository.call("run")[2]
    events = repository.events()
    assert [name for kind, name, _ in events if kind == "began"][:2] in (["low", "other"], ["other", "low"])
    assert not [it for it in events if it[0].startswith("lacked") or it[0] == "without-statements"]
    order = [(kind, name) for kind, name, _ in events if kind in ("began", "ended")]
    # `side` is proved while `long` is, though both stand on `low`.
    assert order.index(("began", "side")) < order.index(("ended", "long"))
    assert order.index(("began", "long")) < order.index(("ended", "side"))
    assert ("niced", "side", "1") in events
    assert order.index(("ended", "low")) < order.index(("began", "long"))
    assert "unused" not in dict(order).values()
    begun, first, *rest = err.splitlines()
    assert begun.startswith("./ctm: the program isn't built of the sources that stand here; it is proved and built first")
    # Of 95 s: those of `low`, `long`, `top` and `ctm_program`, one behind the other, by 4 jobs each.
    assert "6 crates, of which 6 are left, takes about 2 min on 4 processors like those of docs/inside/MAP.md" in first
    assert "the first crates show how long it takes on these" in first
    assert "./ctm --try WORDS gives a result meanwhile, without a proof, in about a minute" in first
    assert all(re.search(r"after \d+ min \d+ s; .* left$", line) for line in rest[:-1])


def test_a_crate_that_is_proved_alone_gets_all_processors(repository):
    repository.goes_on_until("long", "ended side", "ended other")
    repository.call("run")
    jobs = {name: int(jobs) for kind, name, jobs in repository.events("began")}
    assert jobs["long"] == jobs["top"] == jobs["ctm_program"] == JOBS
    assert jobs["other"] == jobs["side"] == 1


def test_a_crate_that_fails_is_told(repository):
    repository.edit("long", "// wrong\n")
    status, out, err = repository.call("run")
    assert (status, out) == (125, "")
    assert "long is wrong" in err and "long failed after" in err
    assert err.splitlines()[-1] == "./ctm: the build failed, so nothing was run"
    assert not any(repository.passing.iterdir())
    (repository.top / "crates/long/src/lib.rt").write_text("// long\n")
    repository.events()
    assert repository.call("run")[0] == 0
    assert "low" not in repository.proved()


def test_a_proof_that_memory_is_too_small_for_is_tried_with_one_job(repository):
    (repository.top / "crates/long/src/large").touch()
    assert repository.call("run")[0] == 0
    assert [jobs for kind, name, jobs in repository.events("began") if name == "long"] == [str(JOBS), "1"]


@pytest.mark.parametrize("number, why", [(signal.SIGINT, "interrupted"), (signal.SIGTERM, "ended from outside by SIGTERM"),
                                         (signal.SIGHUP, "ended from outside by SIGHUP")])
def test_a_build_that_is_ended_says_by_what_and_leaves_nothing_behind(repository, number, why):
    (repository.top / "crates/long/src/seconds").write_text("7777\n")
    process = repository.start("run")
    while not repository.log.exists() or "began long" not in repository.log.read_text():
        time.sleep(0.01)
    process.send_signal(number)
    _, err = process.communicate(timeout=PATIENCE)
    assert process.returncode == 125
    assert err.decode().splitlines()[-1] == f"./ctm: {why}, so nothing was run"
    assert not any(repository.passing.iterdir())
    deadline = time.monotonic() + PATIENCE
    while subprocess.run(["pgrep", "-f", f"^sleep {7777 / JOBS:g}$"], stdout=subprocess.DEVNULL).returncode == 0:
        assert time.monotonic() < deadline
        time.sleep(0.05)


def test_a_build_outlives_the_terminal_where_that_is_asked_for(repository):
    """As under nohup, which has a closed terminal ignored."""
    def outlive():
        heed_signals()
        signal.signal(signal.SIGHUP, signal.SIG_IGN)

    repository.goes_on_until("long", "began side")
    process = repository.start("run", preexec_fn=outlive, process_group=0)
    while not repository.log.exists() or "began low" not in repository.log.read_text():
        time.sleep(0.01)
    os.killpg(process.pid, signal.SIGHUP)
    _, err = process.communicate(timeout=PATIENCE)
    assert process.returncode == 0 and b"so nothing was run" not in err


def test_what_begins_is_said_before_the_sources_are_looked_at(repository):
    """Which takes long on a machine that is busy; here as long as the test wants."""
    stuck = repository.bin / "sha256sum"
    stuck.write_text("#!/bin/bash\nexec sleep 1000\n")
    stuck.chmod(0o755)
    process = repository.start("run", process_group=0)
    assert process.stderr.readline().startswith(b"./ctm: the program isn't built of the sources that stand here; it is proved and built")
    os.killpg(process.pid, signal.SIGKILL)
    process.communicate()


def held_by_rt(repository, crate):
    """Locks a crate, as `rt` does that works in it; gives what is to be closed."""
    held = os.open(repository.top / "crates" / crate, os.O_RDONLY)
    fcntl.flock(held, fcntl.LOCK_EX)
    return held


def said(process, line):
    """Reads what a call says until it says a line; whether it does."""
    return line in iter(process.stderr.readline, b"")


def test_a_crate_in_which_rt_works_is_waited_for(repository):
    """`rt ci` locks all crates, and moves what was made in them."""
    held = held_by_rt(repository, "long")
    process = repository.start("run")
    assert said(process, b"./ctm: waiting for rt, which works in crates/long\n")
    assert "long" not in repository.proved()
    os.close(held)
    assert b"6 of 6: ctm_program" in process.communicate(timeout=PATIENCE)[1] and process.returncode == 0


def test_two_calls_at_once_build_once(repository):
    held = held_by_rt(repository, "long")
    first = repository.start("run")
    assert said(first, b"./ctm: waiting for rt, which works in crates/long\n")
    second = repository.start("run")
    assert said(second, b"./ctm: another ./ctm is building here; waiting for it\n")
    os.close(held)
    assert b"another ./ctm" not in first.communicate(timeout=PATIENCE)[1]
    second.communicate(timeout=PATIENCE)
    assert (first.returncode, second.returncode) == (0, 0)
    assert sorted(repository.proved()) == ["ctm_program", "long", "low", "other", "side", "top"]


def test_a_library_that_was_removed_is_made_again_and_what_stands_on_it(built):
    shutil.rmtree(built.top / "crates/long/out/proved/long.rlib")
    built.edit("other")
    assert built.call("run")[0] == 0
    assert sorted(built.proved()) == ["ctm_program", "long", "other", "top"]


def test_the_time_that_is_left():
    """By the costs below on two processors, worked on paper. `a` has two jobs, by which it is 1.3 times as fast as by one, and
    leaves 0.7 of a processor to `c`, which has one. Then `b` has both, or one beside a `c` with a longer chain."""
    left = "seconds_left((), {}, {})"
    assert float(schedule_of_three(left)) == pytest.approx(10 / 1.3 + 20 / 1.3)
    assert float(schedule_of_three(left, c=28)) == pytest.approx(10 / 1.3 + 28 - 10 / 1.3 * 0.7)


SLOW_HOST = """
import random, sys
sys.path.insert(0, "launcher")
from crates import Crates
from pace import Pace
from schedule import Schedule

slower, seed, crates = float(sys.argv[1]), sys.argv[2], Crates(".", "ctm_program")
schedule = Schedule(crates.names, crates.uses, crates.costs(), 4, 8)
draw = random.Random(seed)
host = {name: cost * slower * draw.uniform(0.8, 1.25) for name, cost in schedule.costs.items()}
pace, done, jobs, left, starts, now, told = Pace(schedule, set()), set(), {}, {}, {}, 0, None
while len(done) < len(crates.names):
    start = schedule.next_start(done, jobs)
    if start:
        name, jobs[start[0]] = start
        left[name], starts[name] = host[name], now
        continue
    speeds = schedule.speeds(jobs)
    step = min(left[it] / speeds[it] for it in jobs)
    now += step
    left = {it: left[it] - step * speeds[it] for it in jobs}
    for it in [it for it in jobs if left[it] < 1e-6]:
        done.add(it)
        del jobs[it], left[it]
        if len(done) == 5:
            told = now, pace.seconds_left(done, jobs, {it: now - starts[it] for it in jobs}, now)
print(told[1] / (now - told[0]))
"""


@pytest.mark.parametrize("seed", range(3))
@pytest.mark.parametrize("slower", [0.5, 1, 2, 4])
def test_the_time_that_is_left_on_a_host_of_another_pace(slower, seed):
    """A host that takes so many times the cost of each crate, a fifth more or less. After five crates the time that is left is told
    within a third."""
    told = subprocess.run(["python3", "-B", "-c", SLOW_HOST, str(slower), str(seed)], cwd=TOP, stdout=subprocess.PIPE, check=True)
    assert 2 / 3 < float(told.stdout) < 4 / 3


def test_a_crate_that_comes_first_waits_for_no_other():
    assert schedule_of_three("next_start({'a'}, {'c': 1, 'd': 1})") == "('b', 2)"
    assert schedule_of_three("next_start(set(), {'a': 2, 'd': 1})") == "None"
    assert schedule_of_three("next_start(set(), {'a': 2})") == "('c', 1)"
    assert schedule_of_three("next_start(set(), {'a': 2})", c=29) == "('c', 1)"
    assert schedule_of_three("next_start({'a'}, {'c': 1})", c=29) == "('b', 1)"
    assert schedule_of_three("next_start({'a', 'c'}, {'d': 1})") == "('b', 2)"
    assert schedule_of_three("next_start({'a'}, {})", c=20) == "('b', 1)"


def schedule_of_three(asked, a=10, b=20, c=5):
    """What a schedule on two processors answers, of the crates `a`, `b`, which stands on it, and `c`, with their costs."""
    asks = ("import sys; sys.path.insert(0, 'launcher'); from schedule import Schedule; "
            f"print(Schedule(['a', 'b', 'c', 'd'], {{'a': [], 'b': ['a'], 'c': [], 'd': []}}, {{'a': {a}, 'b': {b}, 'c': {c}, 'd': 0}}, "
            f"2, 9).{asked})")
    return subprocess.run(["python3", "-B", "-c", asks], cwd=TOP, stdout=subprocess.PIPE, check=True, text=True).stdout.strip()


def test_each_crate_of_the_program_has_a_check_time():
    asks = ("import sys; sys.path.insert(0, 'launcher'); from crates import *; crates = Crates('.', 'ctm_program'); "
            "print(*{*crates.names} - {*proof_times('launcher/check_times.csv')})")
    lacking = subprocess.run(["python3", "-B", "-c", asks], cwd=TOP, stdout=subprocess.PIPE, check=True).stdout
    assert lacking.split() == []
