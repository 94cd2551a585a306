"""How ./ctm runs the program, and when it builds it first."""

import os
import resource
import shutil
import subprocess
import time
from pathlib import Path

from conftest import TOP
from launched import PATIENCE


def test_the_first_call_builds_and_runs(repository):
    status, out, err = repository.call("run", given=b"a\n")
    assert (status, out) == (0, "a\ndone\n")
    assert "6 of 6: ctm_program" in err
    status, out, err = repository.call("run", given=b"b\n")
    assert (status, out, err) == (0, "b\ndone\n", "")


def test_the_path_of_the_program(repository):
    status, out, _ = repository.call("--path")
    assert (status, out) == (0, f"{repository.top}/crates/ctm_program/out/ctm_program\n")
    assert subprocess.run([out.strip(), "run"], input=b"", stdout=subprocess.PIPE).stdout == b"done\n"


def test_the_line_of_the_program_comes_first_and_then_why_the_words_are_refused(built):
    status, out, err = built.call("run", "--regions", "513")
    assert (status, out) == (0, "done\n"), "this program takes all options, and then nothing is added"
    status, out, err = built.call("drive")
    assert (status, out) == (2, "")
    assert err.splitlines() == ["ctm: words refused",
                                "./ctm: drive is no mode; the modes are run watch sample save resume choose recut cut check convert; "
                                "./ctm --help shows the words"]


def test_refused_words_build_nothing(repository):
    status, _, err = repository.call("drive")
    assert (status, err.count("\n")) == (2, 1)
    assert "nothing was built or run" in err
    assert repository.events() == []


def test_the_program_takes_the_place_of_the_launcher(built):
    """So a signal to ./ctm reaches the program, and none is left behind."""
    process = built.start("run", stdin=subprocess.PIPE)
    deadline = time.monotonic() + PATIENCE
    while b"out/ctm_program" not in Path(f"/proc/{process.pid}/cmdline").read_bytes():
        assert time.monotonic() < deadline
        time.sleep(0.01)
    process.kill()
    process.communicate()


def test_a_copy_is_built_already(built, tmp_path):
    copy = tmp_path / "copy"
    subprocess.run(["cp", "-r", built.top, copy], check=True)
    built.top = copy
    for _ in range(2):
        assert built.call("run") == (0, "done\n", "")
    assert built.events() == []


def test_times_alone_build_nothing(built):
    for path in built.top.rglob("*.rt"):
        os.utime(path, (2_000_000_000, 2_000_000_000))
    os.utime(built.top / "crates/ctm_program/out/ctm_program", (1, 1))
    assert built.call("run") == (0, "done\n", "")
    assert built.events() == []


def test_an_edit_is_built_and_what_stands_above_it(built):
    path = built.top / "crates/top/src/lib.rt"
    times = path.stat().st_mtime, path.stat().st_mtime
    built.edit("top")
    os.utime(path, times)
    assert built.call("run")[0] == 0
    assert built.proved() == ["top", "ctm_program"]
    assert built.call("run") == (0, "done\n", "")


def test_a_source_that_is_added_or_removed_is_built(built):
    more = built.top / "crates/low/src/more.rt"
    more.write_text("// more\n")
    assert "ctm_program" in built.call("run")[2]
    more.unlink()
    assert "ctm_program" in built.call("run")[2]
    assert built.call("run")[2] == ""


def test_another_program_in_its_place_is_built_again(built):
    program = built.top / "crates/ctm_program/out/ctm_program"
    program.write_text("#!/bin/sh\necho another\n")
    assert "6 of 6: ctm_program" in built.call("run")[2]


def test_an_edit_while_it_builds_is_built_by_the_next_call(repository):
    process = repository.start("run")
    while not repository.log.exists() or "began long" not in repository.log.read_text():
        time.sleep(0.01)
    repository.edit("low", "// changed while it was built\n")
    _, err = process.communicate(timeout=PATIENCE)
    assert process.returncode == 0
    assert b"a source was changed meanwhile" in err
    assert "low" in repository.call("run")[2]
    assert repository.call("run")[2] == ""


def processor_seconds(*calls):
    """The least that each call took in ten tries, of all that it starts. The calls take turns, since others may be at work."""
    def seconds(call):
        before = resource.getrusage(resource.RUSAGE_CHILDREN)
        call()
        after = resource.getrusage(resource.RUSAGE_CHILDREN)
        return after.ru_utime + after.ru_stime - before.ru_utime - before.ru_stime
    return map(min, zip(*([seconds(call) for call in calls] for _ in range(10))))


def test_a_current_program_starts_sooner_than_its_sources_are_read(built):
    """With as many sources as the repository has: a look at their times is enough."""
    for path in (TOP / "crates").rglob("*"):
        if path.suffix in (".rt", ".antt") and "out" not in path.parts:
            to = built.top / "crates/unused" / path.relative_to(TOP / "crates")
            to.parent.mkdir(parents=True, exist_ok=True)
            shutil.copy(path, to)
    assert built.call("run")[0] == 0
    read = ["bash", "-c", "find crates -type f -print0 | xargs -0 sha256sum | sha256sum"]
    started, beside = processor_seconds(lambda: built.call("run"),
                                        lambda: subprocess.run(read, cwd=built.top, stdout=subprocess.DEVNULL, check=True))
    assert started < beside
