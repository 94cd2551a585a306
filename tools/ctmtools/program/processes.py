"""Calls of other programs, which end with their caller; while they are waited for signals are heeded, whenever they come."""

from __future__ import annotations

import signal
import subprocess
import threading
from collections.abc import Callable, Iterator, Sequence
from concurrent.futures import Future
from contextlib import contextmanager, suppress
from pathlib import Path
from typing import Any

from .interrupt import INTERRUPTS, LEAVE, LOOK, Result, as_they_end, end_group


@contextmanager
def called(words: Sequence[str | Path], **terms: Any) -> Iterator[subprocess.Popen[bytes]]:
    """A program that is begun with such words and terms of Popen; where the block is interrupted, it is ended."""
    with INTERRUPTS.start():
        process = subprocess.Popen(words, process_group=0 if INTERRUPTS.own_groups else None, **terms)
        if INTERRUPTS.own_groups:
            INTERRUPTS.groups.add(process.pid)
    try:
        yield process
    except BaseException:
        _end(process)
        raise
    finally:
        INTERRUPTS.groups.discard(process.pid)


def _end(process: subprocess.Popen[bytes]) -> None:
    """Ends a call for whose answer nobody waits any more, and what it began."""
    with suppress(subprocess.TimeoutExpired):
        if INTERRUPTS.own_groups:
            end_group(process.pid, signal.SIGTERM)
            process.wait(LEAVE)  # ./ctm that builds ends what it began
    if INTERRUPTS.own_groups:
        end_group(process.pid)
    process.kill()


def aside(work: Callable[[], Result]) -> Future[Result]:
    """What some work gives, as the reading of a stream, that is done in a thread of its own."""
    done: Future[Result] = Future()

    def do() -> None:
        try:
            done.set_result(work())
        except BaseException as error:
            done.set_exception(error)

    threading.Thread(target=do, daemon=True).start()
    return done


def ended(process: subprocess.Popen[bytes], *streams: Future[Any]) -> int:
    """The status of a call, once its streams have been read and written."""
    for stream in as_they_end(streams):
        stream.result()
    while True:
        with suppress(subprocess.TimeoutExpired):
            return process.wait(LOOK)
