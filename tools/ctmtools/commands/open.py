"""ctm-tools open"""

from __future__ import annotations

import asyncio
import os
import signal
import webbrowser
from contextlib import suppress
from pathlib import Path

import click

from ..files.reading import kind_of, read_bytes
from ..files.writing import write
from ..live.session import Session, read_text
from ..problem import Interrupted, Problem
from ..program.interrupt import ENDS, INTERRUPTS
from ..program.processes import aside
from .options import ALLOW_FILES
from .telling import note, tell

EPILOG = """\b
Examples:
  ctm-tools open examples/bottleneck.toml
  ctm-tools open examples/bottleneck.toml examples/bottleneck-staggered.toml
  ctm-tools open --port 8765 --no-browser own.toml

The page has the pictures and tables of `report`, and beside them the study. What is changed is run and drawn anew at once; Ctrl-S
saves the study with its comments. A second study stands beside the first, which is the one that is changed. Without a study it
begins with a new one.

The server listens on this machine alone, and its address has a secret that others don't know. It ends a minute after its last
page was closed, or by Ctrl-C. It needs Debian's python3-aiohttp and node-d3."""


@click.command(epilog=EPILOG)
@click.argument("studies", metavar="STUDY.toml [STUDY2.toml]", type=click.Path(), nargs=-1)
@ALLOW_FILES
@click.option("--port", metavar="N", type=click.IntRange(0, 65_535), default=0, help="The port to listen on; by default one that is free.")
@click.option("--no-browser", is_flag=True, help="Print the address, and open no browser.")
def command(studies: tuple[str, ...], port: int, no_browser: bool) -> None:
    """Change a study in a browser and see its results while you drag."""
    if len(studies) > 2:
        raise click.UsageError("at most two studies stand side by side")
    for path in studies:
        kind = kind_of(path, read_bytes(path))
        if kind not in (None, "a study"):
            raise Problem(f"{path}: this is {kind}, and a study is wanted")
    session = Session.of_file(Path(studies[0])) if studies else Session.new(_free("study"))
    if not os.access(session.path.resolve().parent, os.W_OK):
        note(f"{session.path.resolve().parent}: can't be written to, so nothing can be saved there")
    against = "as opened"
    if len(studies) > 1:
        against = Path(studies[1]).stem if Path(studies[1]).stem != against else f"{against} (2)"
        session.plans[against] = read_text(Path(studies[1]))
    asyncio.run(_serve(session, against, port, not no_browser))


async def _serve(session: Session, against: str, port: int, browser: bool) -> None:
    """Serves the page until the last one is closed."""
    from ..live.server import Server

    server = Server(session, against)
    address = await server.begin(port)
    came = _ended_by_signals(server.ended)
    tell(f"{session.path} is open at {address}", "Ctrl-C ends it.")
    if browser:
        aside(lambda: _open_browser(address))
    try:
        await server.last()
    finally:
        if not session.is_saved and session.can_undo:  # first, since an interrupt leaves little time
            _keep_unsaved(session.path, session.text)
        await server.end()
    if came:
        INTERRUPTS.pass_on(came[0], None)
    tell("The last page was closed a minute ago.")


def _ended_by_signals(ended: asyncio.Event) -> list[int]:
    """Has what ends this process from outside end the server first; gives the signals that came."""
    came: list[int] = []

    def end(number: int) -> None:
        came.append(number)
        ended.set()

    for number in ENDS:
        if signal.getsignal(number) is not signal.SIG_IGN:  # as of nohup
            asyncio.get_running_loop().add_signal_handler(number, end, number)
    return came


def _open_browser(address: str) -> None:
    """Opens the address in the user's browser; one that would take the terminal counts as none."""
    try:
        found = webbrowser.get()
        opened = type(found) is not webbrowser.GenericBrowser and found.open(address)
    except webbrowser.Error:
        opened = False
    if not opened:
        note("no browser was found; open the address in one")


def _free(stem: str) -> Path:
    """A name in this folder under which no file stands."""
    names = (f"{stem}{f'-{i}' if i > 1 else ''}.toml" for i in range(1, 10_000))
    return next(path for name in names if not (path := Path(name)).exists())


def _keep_unsaved(path: Path, text: str) -> None:
    """Keeps changes that weren't saved beside the study, and prints where."""
    kept = next(one for i in range(1, 10_000) if not (one := path.with_name(f"{path.stem}.unsaved-{i}.toml")).exists())
    try:
        write(kept, text, lasting=True)
    except Problem as problem:
        raise Interrupted(f"changes weren't saved, and can't be kept: {problem}") from None
    with suppress(OSError):  # the terminal may be closed
        note(f"changes that weren't saved are kept in {kept}")
