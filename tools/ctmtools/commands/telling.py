"""The lines that the commands print, in which names from outside are text, and how a command ends: with one line and a status."""

from __future__ import annotations

import io
import os
import sys
from collections.abc import Callable, Iterator
from contextlib import contextmanager, suppress
from pathlib import Path
from typing import NoReturn, TextIO

import click

from ..problem import Interrupted, Problem, one_line, reason
from ..program.interrupt import STATUS
from ..visible import visible

PROGRAM = "ctm-tools"
TRACEBACK = "CTM_TRACEBACK"  # the variable with which a fault of the tools is printed with its traceback
BAD_INPUT, FAILED = 2, 1
NOTHING = "stopped; nothing is kept"  # where Ctrl-C ends a long command of which nothing is
HERE = Path(__file__).resolve().parents[1]
PACKAGES = {"click": "python3-click", "pandas": "python3-pandas", "numpy": "python3-numpy", "tabulate": "python3-tabulate",
            "matplotlib": "python3-matplotlib", "networkx": "python3-networkx", "distributed": "python3-distributed",
            "scipy": "python3-scipy", "pyproj": "python3-pyproj", "holidays": "python3-holidays", "tomlkit": "python3-tomlkit",
            "openpyxl": "python3-openpyxl", "aiohttp": "python3-aiohttp"}


def tell(*lines: str) -> None:
    """Prints lines on standard output; without any an empty one."""
    click.echo("\n".join(map(visible, lines)))


def note(line: str) -> None:
    """Prints a line on standard error."""
    click.echo(visible(line), err=True)


def put(text: str) -> None:
    """Prints a whole text, as a table's, on standard output; on a terminal each line of it as text."""
    if sys.stdout.isatty():
        text = "\n".join(map(visible, text.split("\n")))
    click.echo(text, nl=False)


def need_streams() -> None:
    """Ends where standard output is closed, and does without a standard error that is; letters that a stream lacks are escaped."""
    if sys.stderr is None:
        sys.stderr = open(os.devnull, "w")
    if sys.stdout is None:
        fail("standard output: is closed", FAILED)
    for stream in (sys.stdout, sys.stderr):
        if isinstance(stream, io.TextIOWrapper):
            stream.reconfigure(errors="backslashreplace")


def fail(line: str, status: int = BAD_INPUT) -> NoReturn:
    """Ends with a line on standard error and a status."""
    say(line)
    sys.exit(status)


def say(line: str, begin: str = "") -> None:
    """Prints the program's name and a line on standard error, where that can be written to."""
    try:
        print(f"{begin}{PROGRAM}: {one_line(line)}", file=sys.stderr, flush=True)
    except OSError:
        _leave(sys.stderr)


def answer(error: Exception) -> NoReturn:
    """Ends with the line that reports an error, and where it is a fault of the tools with its traceback where that is asked for."""
    if isinstance(error, OSError) and _is_of_output(error):
        _leave(sys.stdout)  # Python would try again at its end
        if isinstance(error, BrokenPipeError):  # who reads has what is wanted
            _leave(sys.stderr)
        fail(f"standard output: {reason(error)}", FAILED)
    line, status = told(error)
    if status == FAILED and os.environ.get(TRACEBACK):
        import traceback  # here and below, so that each start is faster

        traceback.print_exception(error)
    fail(line, status)


def _is_of_output(error: OSError) -> bool:
    """Whether it was standard output that couldn't be written: where click prints, or at the end of a command."""
    import traceback

    last = traceback.extract_tb(error.__traceback__)[-1]
    return isinstance(error, BrokenPipeError) or last.name == click.echo.__name__ or Path(last.filename) == HERE / "command_line.py"


def told(error: Exception) -> tuple[str, int]:
    """The line that reports an error, and the status with which a command ends."""
    if isinstance(error, click.exceptions.Abort):
        return "interrupted", STATUS
    if isinstance(error, click.ClickException):
        context = getattr(error, "ctx", None)
        return f"{error.format_message()} ({context.command_path if context else PROGRAM} --help shows more)", BAD_INPUT
    if isinstance(error, Problem):
        return str(error), BAD_INPUT
    package = PACKAGES.get((error.name or "").split(".")[0]) if isinstance(error, ModuleNotFoundError) else None
    if isinstance(error, ModuleNotFoundError) and package is not None:
        return f"the Python package {error.name} is missing; Debian has it as {package}: apt install {package}", BAD_INPUT
    if isinstance(error, OSError):
        return (f"{error.filename}: {reason(error)}", BAD_INPUT) if error.filename is not None else (reason(error), FAILED)
    if isinstance(error, RecursionError):
        return "what was given is nested too deeply", BAD_INPUT
    if isinstance(error, MemoryError):
        return "out of memory", FAILED
    return f"a fault of these tools, {type(error).__name__}{_place(error)}; {TRACEBACK}=1 shows its traceback", FAILED


def _place(error: Exception) -> str:
    """Where in the tools an error arose."""
    import traceback

    frames = [frame for frame in traceback.extract_tb(error.__traceback__) if Path(frame.filename).is_relative_to(HERE)]
    return f" in {Path(frames[-1].filename).relative_to(HERE)}, line {frames[-1].lineno}" if frames else ""


def _leave(stream: TextIO) -> None:
    """Has what is written to a stream go nowhere."""
    with suppress(OSError, ValueError):
        os.dup2(os.open(os.devnull, os.O_WRONLY), stream.fileno())


class Kept:
    """What is kept of a command so far, in a line; at first nothing is."""

    def __init__(self) -> None:
        self.says: Callable[[], str] = lambda: NOTHING


@contextmanager
def stopping() -> Iterator[Kept]:
    """Has an interrupt end the block with what is kept then."""
    kept = Kept()
    try:
        yield kept
    except KeyboardInterrupt:
        raise Interrupted(kept.says()) from None


def left(missing: int, asked: int, what: str) -> str:
    """The line of a command of so many runs, or whatever they are, of which some are missing."""
    return NOTHING if missing == asked else f"stopped with {missing} of {asked} {what} left; the same call goes on with them"


def after(runs: int, earlier: int) -> str:
    """The line of a search after so many runs in this call, and in earlier ones."""
    return f"stopped after {runs} runs; the same call goes on with what is missing" if runs or earlier else NOTHING
