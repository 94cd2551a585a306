"""Ctrl-C: a command ends within two seconds, with one line and status 130, whatever it was at.

The interrupt is raised where the command is, as KeyboardInterrupt. Other code may take it for a fault of a file, or be long
in coming back, so it is also noted here, and what hasn't ended soon after is ended.
"""

from __future__ import annotations

import atexit
import os
import signal
import threading
import time
from collections.abc import Callable, Collection, Iterator
from contextlib import contextmanager, suppress
from queue import Empty, SimpleQueue
from types import FrameType
from typing import TYPE_CHECKING, TypeVar

if TYPE_CHECKING:
    from concurrent.futures import Future

STATUS = 130
ENDS = (signal.SIGTERM, signal.SIGHUP)  # what ends a process from outside, or with its terminal
PATIENCE = 1.3  # seconds from an interrupt until the command is ended from within
LEAVE = 0.4  # seconds for a call of the program to end by itself
LOOK = 0.3  # seconds after which a wait is begun anew, since a signal that comes just before a wait doesn't end it

Result = TypeVar("Result")


class Interrupts:
    """Whether an interrupt came, and the process groups that end with it: of the program's calls and of other processes."""

    def __init__(self) -> None:
        self.came = False
        self.groups: set[int] = set()
        self.own_groups = True  # whether a call of the program begins a group: not where this process ends with its own
        self.is_ending = False  # by a signal from outside, so that nothing is begun any more
        self.starting: set[int] = set()  # the threads that begin a process just now
        self.woken = threading.Event()

    @contextmanager
    def start(self) -> Iterator[None]:
        """Has those who end what was begun wait until the block, which begins a process, is over."""
        thread = threading.get_ident()
        self.starting.add(thread)
        try:
            if self.is_ending:
                raise KeyboardInterrupt
            yield
        finally:
            self.starting.discard(thread)

    def wait_for_starts(self) -> None:
        """Waits until other threads have begun what they begin just now, but no longer than a call has time to end."""
        end = time.monotonic() + LEAVE
        while self.starting - {threading.get_ident()} and time.monotonic() < end:
            time.sleep(0.005)

    def end_groups(self) -> None:
        """Ends all processes that were begun; `./ctm` that builds has time to end what it began."""
        for number, pause in ((signal.SIGTERM, LEAVE), (signal.SIGKILL, 0)):
            self.wait_for_starts()
            groups = list(self.groups)
            for group in groups:
                end_group(group, number)
            if groups:
                time.sleep(pause)

    def note(self, number: int, frame: FrameType | None) -> None:
        """Notes the first interrupt and raises it; those behind it change nothing."""
        if not self.came:
            self.came = True
            self.woken.set()
            raise KeyboardInterrupt

    def pass_on(self, number: int, frame: FrameType | None) -> None:
        """Ends what was begun, and then this process by the signal that came."""
        self.is_ending = True
        self.end_groups()
        signal.signal(number, signal.SIG_DFL)
        os.kill(os.getpid(), number)

    def watch(self, last_word: Callable[[], object]) -> None:
        """Ends this process some time after an interrupt."""
        self.woken.wait()
        if self.came:
            time.sleep(PATIENCE)
            self.end_groups()
            last_word()
            os._exit(STATUS)


INTERRUPTS = Interrupts()


def end_group(group: int, number: int = signal.SIGKILL) -> None:
    """Ends the processes of a group, or sends them another signal."""
    with suppress(ProcessLookupError, PermissionError):
        os.killpg(group, number)


def check() -> None:
    """Raises an interrupt that came and that other code has taken for something else."""
    if INTERRUPTS.came:
        raise KeyboardInterrupt


def as_they_end(futures: Collection[Future[Result]]) -> Iterator[Future[Result]]:
    """The futures as they end; signals are heeded meanwhile, whenever they come."""
    ended: SimpleQueue[Future[Result]] = SimpleQueue()
    for future in futures:
        future.add_done_callback(ended.put)
    left = len(futures)
    while left:
        with suppress(Empty):
            yield ended.get(timeout=LOOK)
            left -= 1


@contextmanager
def heeded(last_word: Callable[[], object]) -> Iterator[None]:
    """Heeds interrupts until the block ends; `last_word` is called where the process has to be ended from within.

    Where interrupts are ignored, as behind a shell's `&`, or where the caller has an answer of its own, they are left so. What
    ends this process from outside, as `timeout` does, ends what it began too.
    """
    if threading.current_thread() is not threading.main_thread():
        yield
    elif signal.getsignal(signal.SIGINT) is not signal.default_int_handler:
        with _passed_on():
            yield
    else:
        with _passed_on(), _noted(last_word):
            yield


@contextmanager
def _passed_on() -> Iterator[None]:
    """Has what ends this process end what it began too."""
    numbers = [number for number in ENDS if signal.getsignal(number) is signal.SIG_DFL]
    for number in numbers:
        signal.signal(number, INTERRUPTS.pass_on)
    try:
        yield
    finally:
        for number in numbers:
            signal.signal(number, signal.SIG_DFL)


@contextmanager
def _noted(last_word: Callable[[], object]) -> Iterator[None]:
    """Has interrupts noted, and this process watched once one came; behind the block they change nothing any more."""
    watcher = threading.Thread(target=INTERRUPTS.watch, args=(last_word,), daemon=True)
    watcher.start()
    atexit.register(signal.signal, signal.SIGINT, signal.SIG_IGN)  # Python's own end takes a while
    signal.signal(signal.SIGINT, INTERRUPTS.note)
    try:
        yield
    finally:
        if not INTERRUPTS.came:
            signal.signal(signal.SIGINT, signal.SIG_IGN)
            INTERRUPTS.woken.set()
            watcher.join()
            INTERRUPTS.woken.clear()
            signal.signal(signal.SIGINT, signal.default_int_handler)


@contextmanager
def later() -> Iterator[None]:
    """Has an interrupt wait until the block ends, as while processes are begun, which have it wait too."""
    before = signal.pthread_sigmask(signal.SIG_BLOCK, {signal.SIGINT})
    try:
        yield
    finally:
        signal.pthread_sigmask(signal.SIG_SETMASK, before)


def leave_to_the_first() -> None:
    """Makes this process one that the first process ends, with all that it begins: in a group of its own."""
    os.setpgid(0, 0)
    INTERRUPTS.own_groups = False
    for number in ENDS:
        signal.signal(number, signal.SIG_DFL)
    signal.signal(signal.SIGINT, signal.SIG_IGN)
    signal.pthread_sigmask(signal.SIG_UNBLOCK, {signal.SIGINT})
