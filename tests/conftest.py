"""What the tests share: the built program, calls of it within limits of time and memory, and repositories with ./ctm."""

import os
import resource
import signal
import subprocess
import sys
from pathlib import Path

import pytest
from launched import Repository
from worked import CORRIDOR

TOP = Path(__file__).resolve().parents[1]
sys.path.append(str(TOP / "launcher/checks"))
pytest_plugins = ["few"]
BUILT = TOP / "crates/ctm_program/out/ctm_program"
SECONDS = int(os.environ.get("CTM_TEST_SECONDS", "120"))  # of processor time, for each run
# Of memory, for each run; None for no limit, since a program that is built with checks takes addresses without end.
BYTES = None if os.environ.get("CTM_TEST_BYTES") == "none" else 4 << 30


def pytest_addoption(parser):
    parser.addoption("--program", help="the program under test; by default the one that ./ctm --path builds and names")


@pytest.fixture(scope="session")
def program(request):
    """The path of the program under test."""
    path = request.config.getoption("--program")
    if not path:
        path = subprocess.run([TOP / "ctm", "--path"], stdout=subprocess.PIPE, check=True, text=True).stdout.strip()
    return os.path.realpath(path)


def limit(seconds, most_bytes):
    """Limits the processor time and the memory of this process, which is to become a program."""
    resource.setrlimit(resource.RLIMIT_CPU, (seconds, seconds + 1))
    if most_bytes:
        resource.setrlimit(resource.RLIMIT_AS, (most_bytes, most_bytes))


def ended(command, seconds=SECONDS, most_bytes=BYTES, **streams):
    """Runs a command; gives its status and what is piped of out and err. Fails where it doesn't end within the limits: a
    program that takes no processor time is given ten times as long by the clock, since the machine may have other work.
    """
    streams = {"stdout": subprocess.PIPE, "stderr": subprocess.PIPE, **streams}
    try:
        done = subprocess.run(command, timeout=10 * seconds, preexec_fn=lambda: limit(seconds, most_bytes), **streams)
    except subprocess.TimeoutExpired:
        pytest.fail(f"no end within {10 * seconds} s", pytrace=False)
    if done.returncode == -signal.SIGXCPU:
        pytest.fail(f"no end within {seconds} s of processor time", pytrace=False)
    return done.returncode, done.stdout, done.stderr


@pytest.fixture(scope="session")
def run(program):
    """Runs the program on these words."""
    return lambda words, **streams: ended([program, *words], **streams)


@pytest.fixture(scope="session")
def wait():
    """Runs the program whose workers wait on these words."""
    path = os.environ.get("CTM_WAIT_PROGRAM", TOP / "crates/ctm_wait/out/ctm_wait")
    if not os.path.exists(path):
        pytest.skip("ctm_wait isn't built: ./ctm-wait --path builds it")
    return lambda words, **streams: ended([path, *words], **streams)


@pytest.fixture
def directory():
    """A stream of which each read fails."""
    opened = os.open(TOP, os.O_RDONLY)
    yield opened
    os.close(opened)


@pytest.fixture
def unread(tmp_path):
    """A network as a stream. Fails a test in which any of it is read."""
    path = tmp_path / "unread.csv"
    path.write_bytes(CORRIDOR)
    opened = os.open(path, os.O_RDONLY)
    yield opened
    read = os.lseek(opened, 0, os.SEEK_CUR)
    os.close(opened)
    assert read == 0, f"{read} bytes were read"


def hold(wanted, got):
    """Fails where a status and what was written aren't what is wanted, and shows the beginning of what differs."""
    if wanted != got:
        differences = [f"{what} {shown(have)}, and not {shown(want)}"
                       for what, want, have in zip(("status", "out", "err"), wanted, got) if want != have]
        pytest.fail("; ".join(differences), pytrace=False)


def shown(value):
    return repr(value) if value is None or isinstance(value, int) or len(value) < 200 else repr(value[:200]) + ".."


@pytest.fixture
def repository(tmp_path):
    return Repository(tmp_path)


@pytest.fixture
def built(repository):
    assert repository.call("run")[0] == 0
    repository.events()
    return repository


@pytest.fixture(scope="session")
def without_rt(tmp_path_factory):
    """A repository on a machine without the toolchain: words that are taken end in 125, all others in 2."""
    return Repository(tmp_path_factory.mktemp("without-rt"), has_rt=False)
