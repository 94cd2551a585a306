"""Clusters of Dask for the tests, and what befalls them in the middle of a call: at a row, so that no test is a race."""

import os
import signal
import time
from contextlib import contextmanager

from ctmtools.many_runs import workers

PATIENCE = 300  # seconds; a busy machine may take long over what is quick


def wait_until(holds):
    end = time.monotonic() + PATIENCE
    while not holds():
        assert time.monotonic() < end
        time.sleep(0.02)


@contextmanager
def two_workers(monkeypatch):
    """A scheduler in this process and two workers in processes of their own, on the loopback address."""
    from distributed import LocalCluster

    monkeypatch.setattr(workers, "PATIENCE", PATIENCE)
    with LocalCluster(n_workers=2, threads_per_worker=1, processes=True, host="127.0.0.1", dashboard_address=None) as cluster:
        yield cluster


def kill_a_worker(cluster):
    """Kills a worker, and waits until the scheduler knows; what had its results there alone is lost then."""
    nanny = next(iter(cluster.workers.values()))
    address, pid = nanny.worker_address, nanny.pid
    os.kill(pid, signal.SIGKILL)
    wait_until(lambda: address not in cluster.scheduler.workers)


def done_by(cluster):
    """How many results the workers of a cluster have."""
    return sum(task.state == "memory" for task in list(cluster.scheduler.tasks.values()))


def at_row(monkeypatch, results, count, happens):
    """Has something happen behind that row of a class of results."""
    put, rows = results.put, []

    def counted(self, *words):
        put(self, *words)
        rows.append(words)
        if len(rows) == count:
            happens()

    monkeypatch.setattr(results, "put", counted)
