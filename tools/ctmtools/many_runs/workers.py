"""Who does many runs: this process, processes beside it, or a Dask cluster's workers."""

from __future__ import annotations

import gc
import io
import logging
import tempfile
import time
import zipfile
from collections.abc import Callable, Generator, Sequence
from concurrent.futures import ProcessPoolExecutor
from concurrent.futures.process import BrokenProcessPool
from contextlib import suppress
from pathlib import Path
from typing import TYPE_CHECKING, Any

from ..problem import Problem, one_line
from ..program.calls import NEWS
from ..program.interrupt import INTERRUPTS, as_they_end, check, end_group, later, leave_to_the_first
from ..runs.running import processors
from ..study.folder import Allowing, allowed_folders

if TYPE_CHECKING:
    from distributed import Client, Future

PACKAGE = Path(__file__).resolve().parents[1]
TRIES = 3  # so often processes are begun anew where one was ended from outside
PATIENCE = 15  # seconds until a cluster has to answer
PAUSE = 0.05  # seconds between looks at what a cluster has done
LEAVE = 1  # seconds until a cluster that is left has to have said so

Measured = dict[str, Any]  # what was measured of a task, and what went wrong in `error`, an empty text where nothing did
Work = Callable[[Any], dict[str, Any]]  # what is done with a task, and gives what it measured
Done = Generator[tuple[int, Measured], None, None]  # the place of each task and what was measured, as they come


def done(tasks: Sequence[Any], work: Work, jobs: int | None = None, address: str | None = None) -> Done:
    """Does the tasks so many side by side, by default as many as there are processors, or on the cluster at an address.

    The cluster is asked for at once, and the rest is begun when the first result is asked for.
    """
    if address:
        return cluster(tasks, address, work)
    count = side_by_side(len(tasks), jobs)
    return beside(tasks, count, work) if count > 1 else here(tasks, work)


def side_by_side(tasks: int, jobs: int | None = None) -> int:
    """How many of so many tasks are done at once on this machine."""
    return min(jobs or processors(), tasks)


def here(tasks: Sequence[Any], work: Work) -> Done:
    """Does the tasks one by one, and gives the place of each and what it measured."""
    for i, task in enumerate(tasks):
        measured = apart(work, task)
        check()  # a run that was interrupted may have been taken for one that failed
        yield i, measured


def apart(work: Work, task: Any) -> Measured:
    """What is measured of a task, or why it failed: whatever it is, it is this task's, and the others go on."""
    try:
        return {**work(task), "error": ""}
    except Problem as problem:
        return failed(problem)
    except Exception as error:
        return failed(f"{type(error).__name__}: {error}")


def failed(why: object) -> Measured:
    """What is measured of a task that failed."""
    return {"error": one_line(why)}


class Given:
    """The tasks of a process beside the first one, which it has from its beginning."""

    work: Work
    tasks: Sequence[Any]

    @classmethod
    def begin(cls, work: Work, tasks: Sequence[Any]) -> None:
        """Begins a process that has these tasks."""
        leave_to_the_first()
        NEWS.set(None)  # what a build says is said once
        gc.freeze()  # what the first process has is looked through no more
        cls.work, cls.tasks = staticmethod(work), tasks

    @classmethod
    def do(cls, place: int) -> Measured:
        """Does one of them."""
        return apart(cls.work, cls.tasks[place])


def beside(tasks: Sequence[Any], count: int, work: Work) -> Done:
    """Does the tasks on so many processes; where one is ended from outside, what is missing is given out again."""
    missing = set(range(len(tasks)))
    for _ in range(TRIES):
        pool = ProcessPoolExecutor(max_workers=count, initializer=Given.begin, initargs=(_as_here(work), tasks))
        try:
            with later():  # the processes are begun at the first task that is given out
                futures = {pool.submit(Given.do, i): i for i in sorted(missing)}
            INTERRUPTS.groups |= _processes(pool)
            for future in as_they_end(futures):
                result = future.result()
                missing.remove(futures[future])
                yield futures[future], result
            pool.shutdown()  # whoever ends right behind this leaves no thread of it at work
            return
        except BrokenProcessPool:
            continue
        finally:
            _end(pool, at_once=bool(missing))
    for i in sorted(missing):
        yield i, failed(f"its process was ended from outside {TRIES} times")


def _as_here(work: Work) -> Work:
    """Work for another process, in which studies may take the files that they may take in this one."""
    folders = allowed_folders()
    allowing: Work = Allowing(work, folders)
    return allowing if folders else work


def _processes(pool: ProcessPoolExecutor) -> set[int]:
    """The process groups of a pool, which each of its processes begins."""
    return set(pool._processes or ())


def _end(pool: ProcessPoolExecutor, at_once: bool) -> None:
    """Ends the processes of a pool, those that are at work too where nobody waits for them any more."""
    groups = _processes(pool)
    if at_once:
        for group in groups:
            end_group(group)
    INTERRUPTS.groups -= groups
    pool.shutdown(wait=False, cancel_futures=True)


def cluster(tasks: Sequence[Any], address: str, work: Work) -> Done:
    """Does the tasks on the workers of the Dask cluster at an address; a lost worker's are given to the others."""
    from distributed import Client

    _be_quiet()
    try:
        client = Client(address, timeout=PATIENCE)
    except (OSError, TimeoutError, ValueError) as error:
        raise Problem(f"--dask {address}: no scheduler answers there: {one_line(error)}") from None
    _send_package(client)
    return _gathered(client, tasks, address, _as_here(work))


def _be_quiet() -> None:
    """Has Dask write nothing of its own: what is wrong is printed here, in one line."""
    for name in list(logging.root.manager.loggerDict):
        if name.partition(".")[0] == "distributed":
            logging.getLogger(name).setLevel(logging.CRITICAL)


def _gathered(client: Client, tasks: Sequence[Any], address: str, work: Work) -> Done:
    """Gives the tasks to a cluster, and what they measured as it comes; what only a lost worker had is waited for again."""
    from distributed import as_completed as completed

    try:
        futures = {client.submit(apart, work, task, pure=False): i for i, task in enumerate(tasks)}
        waiting = completed(list(futures))
        while not waiting.is_empty():
            batch = waiting.next_batch(block=False)
            if _is_lost(client) or any(future.cancelled() for future in batch):
                raise Problem(f"--dask {address}: the scheduler doesn't answer any more; begin it and its workers again, and the "
                              "same call goes on with what is missing")
            for future in batch:
                measured = _measured(future)
                if measured is None:
                    waiting.add(future)
                else:
                    yield futures[future], measured
            time.sleep(PAUSE)
    finally:
        with suppress(Exception):  # a client that has lost its scheduler can't take leave of it
            client.close(timeout=LEAVE)


def _measured(future: Future) -> dict[str, Any] | None:
    """What was measured, or why it failed; None where it was lost after it had come, with its worker or with the scheduler."""
    if future.status not in ("finished", "error"):
        return None
    try:
        measured: dict[str, Any] = future.result()  # of a result that is lost now it is the one that is computed again
        return measured
    except Exception as error:  # the task's own, or one of asking for its result
        is_asking = future.status == "finished" and isinstance(error, OSError)
        return None if is_asking or future.status not in ("finished", "error") else failed(f"{type(error).__name__}: {error}")


def _is_lost(client: Client) -> bool:
    """Whether a client has lost its scheduler, to which it may try to come back in vain."""
    comm = client.scheduler_comm  # read once, since the client's own thread takes it away
    return client.status != "running" or comm is None or comm.closed()


def _send_package(client: Client) -> None:
    """Sends these tools to all workers, those that come later too."""
    from distributed.diagnostics.plugin import UploadFile

    with tempfile.TemporaryDirectory() as folder:
        path = Path(folder) / "ctmtools.zip"
        path.write_bytes(_zipped())
        try:
            client.register_worker_plugin(UploadFile(str(path)), name="ctmtools")
        except Exception as error:  # whatever a worker's machine lacks comes as its own kind of exception
            client.close()
            raise Problem(f"--dask: the workers don't take the tools: {one_line(error)}") from None


def _zipped() -> bytes:
    """The package as the bytes of an archive."""
    bytes_ = io.BytesIO()
    with zipfile.ZipFile(bytes_, "w") as archive:
        for path in sorted(PACKAGE.rglob("*.py")):
            archive.write(path, Path("ctmtools") / path.relative_to(PACKAGE))
    return bytes_.getvalue()
