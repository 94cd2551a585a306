"""What is gathered from a cluster, whatever becomes of a result between its coming and its being asked for."""

import re
from pathlib import Path

import pytest

from ctmtools.many_runs import workers
from ctmtools.problem import Problem

pytest.importorskip("distributed", reason="python3-distributed is missing")
FOUND = {"delay_vehicle_hours": 1.0, "error": ""}


class Future:
    """Has a status each time that it comes. What is asked for then is there, or an error and the status behind it."""

    def __init__(self, *moments):
        self.moments = list(moments)
        self.status, *self.asked = self.moments.pop(0)

    def come_again(self):
        self.status, *self.asked = self.moments.pop(0)

    def cancelled(self):
        return self.status == "cancelled"

    def result(self):
        if self.asked:
            error, self.status = self.asked
            raise error
        assert self.status == "finished"
        return FOUND


class Client:
    """A client with a scheduler, which gives out these futures."""

    status = "running"

    def __init__(self, futures):
        self.futures = list(futures)
        self.scheduler_comm = self

    def closed(self):
        return False

    def submit(self, *_, **__):
        return self.futures.pop(0)

    def close(self, timeout):
        self.status = "closed"


class Completed:
    """Gives futures at once, and those that are added again with what became of them."""

    def __init__(self, futures):
        self.ready = list(futures)

    def is_empty(self):
        return not self.ready

    def next_batch(self, block):
        batch, self.ready = self.ready, []
        return batch

    def add(self, future):
        if future.moments:
            future.come_again()
        self.ready.append(future)


def gathered(monkeypatch, *futures):
    monkeypatch.setattr("distributed.as_completed", Completed)
    monkeypatch.setattr(workers, "PAUSE", 0)
    return dict(workers._gathered(Client(futures), range(len(futures)), "tcp://x", dict))


OF_THE_SCHEDULER = OSError("Timed out trying to connect to tcp://x")


@pytest.mark.parametrize("moments", [
    [("lost",), ("finished",)], [("lost",), ("lost",), ("finished",)], [("pending",), ("finished",)],
    [("finished", TypeError("exceptions must derive from BaseException"), "lost"), ("finished",)],
    [("finished", OF_THE_SCHEDULER, "finished"), ("finished",)], [("finished", OF_THE_SCHEDULER, "pending"), ("finished",)]])
def test_a_result_that_is_lost_with_its_worker_is_waited_for_again(monkeypatch, moments):
    assert gathered(monkeypatch, Future(("finished",)), Future(*moments), Future(("finished",))) == {0: FOUND, 1: FOUND, 2: FOUND}


@pytest.mark.parametrize("moments", [
    [("cancelled",)], [("lost",), ("cancelled",)], [("finished", TypeError("exceptions must derive from BaseException"), "cancelled")],
    [("finished", OF_THE_SCHEDULER, "cancelled")]])
def test_a_future_that_is_cancelled_is_a_scheduler_that_is_gone(monkeypatch, moments):
    with pytest.raises(Problem, match="--dask tcp://x: the scheduler doesn't answer any more"):
        gathered(monkeypatch, Future(("finished",)), Future(*moments))


@pytest.mark.parametrize("moments", [
    [("error", OSError("no space left"), "error")], [("lost",), ("error", OSError("no space left"), "error")],
    [("finished", OSError("no space left"), "error")], [("finished", ValueError("can't be read"), "finished")]])
def test_a_task_that_fails_is_told_as_it_failed(monkeypatch, moments):
    found = gathered(monkeypatch, Future(*moments), Future(("finished",)))
    assert found[0]["error"] in ("OSError: no space left", "ValueError: can't be read") and found[1] == FOUND


def test_a_client_that_loses_its_scheduler_while_it_is_asked():
    """Its own thread takes the connection away between one look and the next."""
    class Losing(Client):
        looks = 0

        @property
        def scheduler_comm(self):
            self.looks += 1
            return self if self.looks == 1 else None

        @scheduler_comm.setter
        def scheduler_comm(self, _):
            pass

    losing = Losing([])
    assert not workers._is_lost(losing) and workers._is_lost(losing)


TOP = Path(__file__).resolve().parents[2]
DOCUMENTS = [*TOP.glob("*.md"), *TOP.glob("docs/**/*.md"), *TOP.glob("tools/**/*.md"), *TOP.glob("examples/*.md"), *TOP.glob("tools/ctmtools/commands/*.py")]


@pytest.mark.parametrize("word", ["dask-scheduler", "dask-worker"])
def test_examples_bind_to_the_loopback_or_ask_for_certificates(word):
    lines = [line for path in DOCUMENTS for line in path.read_text().splitlines() if line.startswith(word)]
    assert len(lines) >= 2
    for line in lines:
        assert "--host 127.0.0.1" in line or "--tls-ca-file" in line and "--tls-cert" in line and "tls" in line.partition("--tls-ca-file")[0]


def test_examples_name_a_scheduler_on_the_loopback_or_with_certificates():
    addresses = [found for path in DOCUMENTS for found in re.findall(r"--dask ((?:tcp|tls)://\S+)", path.read_text())]
    assert len(addresses) >= 4 and all(one.startswith(("tcp://127.0.0.1:", "tls://")) for one in addresses)
