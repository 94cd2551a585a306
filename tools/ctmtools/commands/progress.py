"""What a terminal shows while something takes time: a bar with what is left, or for how long it has been done.

Where standard error is no terminal nothing is shown.
"""

from __future__ import annotations

import sys
import threading
import time
from collections.abc import Callable, Iterator
from contextlib import contextmanager
from functools import partial
from math import ceil
from typing import TYPE_CHECKING, TextIO

import click

if TYPE_CHECKING:
    from click._termui_impl import ProgressBar

BLINK = 0.25  # seconds between signs
WIDTH = 36  # of a bar, as click has it

Done = Callable[..., None]  # takes how much more is done and, where there is more to say, a text


@contextmanager
def working(what: str, stream: TextIO | None = None) -> Iterator[None]:
    """Says what is being done, and for how many seconds, until the block ends."""
    with _shown(lambda sign, passed: f"{sign} {what}, {passed:.0f} s", stream or sys.stderr):
        yield


@contextmanager
def lasting(what: str, estimate: Callable[[], float | None]) -> Iterator[None]:
    """Shows how long what is being done will about take still, until the block ends.

    The estimate, in seconds, is asked for where there is a terminal. Without one it is shown how long it has taken.
    """
    seconds = None
    if sys.stderr.isatty():
        with working(what):
            seconds = estimate()
    with working(what) if seconds is None else _shown(partial(_left_of, what, seconds), sys.stderr):
        yield


def _left_of(what: str, seconds: float, sign: str, passed: float) -> str:
    return f"{what}  {left(passed, seconds)}"


def left(passed: float, seconds: float) -> str:
    """A bar of what lasts about so many seconds, of which these have passed, and what is left."""
    done = min(WIDTH, int(WIDTH * passed / seconds)) if seconds else WIDTH
    text = f"about {_time(seconds - passed)} left" if passed < seconds else f"longer than the estimated {_time(seconds)}"
    return f"[{'#' * done}{'-' * (WIDTH - done)}]  {text}"


def _time(seconds: float) -> str:
    """Some seconds, rounded up, or minutes where there are many."""
    return f"{ceil(seconds)} s" if seconds <= 120 else f"{ceil(seconds / 60)} min"


@contextmanager
def _shown(text: Callable[[str, float], str], stream: TextIO) -> Iterator[None]:
    """Shows a text of a sign that turns and of the seconds that have passed, until the block ends."""
    if not stream.isatty():
        yield
        return
    ended = threading.Event()
    begun = time.monotonic()

    def show() -> None:
        for sign in _signs(ended):
            stream.write(f"\r{text(sign, time.monotonic() - begun)} \x1b[K")
            stream.flush()
        stream.write("\r\x1b[K")
        stream.flush()

    shower = threading.Thread(target=show, daemon=True)
    shower.start()
    try:
        yield
    finally:
        ended.set()
        shower.join()


@contextmanager
def bar(length: int, what: str) -> Iterator[Done]:
    """Shows how many of so many are done and how long the others will take; gives what is called as they are done."""
    if not sys.stderr.isatty():
        yield lambda count=1, text="": None
        return
    shown: ProgressBar[str]
    with click.progressbar(length=length, label=what, show_pos=True, show_eta=True, file=sys.stderr, item_show_func=_item) as shown:
        yield lambda count=1, text="": shown.update(count, text or None)


def _item(text: str | None) -> str | None:
    return text


def _signs(ended: threading.Event) -> Iterator[str]:
    turn = 0
    while not ended.wait(BLINK):
        yield "|/-\\"[turn % 4]
        turn += 1
