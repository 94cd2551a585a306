"""Options that several commands have: of studies, of reports, of many runs, and of the files that they write."""

from __future__ import annotations

from collections.abc import Callable
from math import isfinite
from pathlib import Path
from typing import Any

import click

from ..files.written_over import FORCED, guard_output

VARIED = click.option("--vary", "varied", metavar="KEY=VALUES", multiple=True, required=True,
                      help="A key and its values; may be given again.")
JOBS = click.option("-j", "--jobs", metavar="N", type=click.IntRange(1, 256),
                    help="Runs side by side; by default as many as processors.")
CLUSTER = click.option("--dask", "address", metavar="ADDRESS", help="The scheduler of a Dask cluster.")
EVERY = click.option("--every", metavar="E", type=click.IntRange(1, 100_000), help="Record each E-th step.")
ROWS = click.option("--rows", default=20, show_default=True, type=click.IntRange(1), help="How many rows are listed.")

Command = Callable[..., Any]


def _allow(context: click.Context, _: click.Parameter, folders: tuple[str, ...]) -> None:
    if not context.resilient_parsing:
        from ..study.folder import allow_files

        allow_files(*folders)


ALLOW_FILES = click.option("--allow-files", metavar="FOLDER", type=click.Path(exists=True, file_okay=False), multiple=True, expose_value=False,
                           callback=_allow, help="Let the study, or the map, take files of this folder too, and not of its own alone; may "
                           "be given again.")


def on_reports(command: Command) -> Command:
    """Gives a command the options of units and network."""
    command = click.option("--network", metavar="NET.csv", type=click.Path(),
                           help="The network of the report, where it doesn't stand beside it.")(command)
    return click.option("--units", metavar="FILE.units.json", type=click.Path(),
                        help="The units of the report, where they don't stand beside it.")(command)


class Finite(click.FloatRange):
    """A number within a range that is neither infinity nor nan, which a range of click takes."""

    def convert(self, value: Any, param: click.Parameter | None, ctx: click.Context | None) -> Any:
        """The number that a text spells."""
        number = super().convert(value, param, ctx)
        if not isfinite(number):
            self.fail(f"{value!r} is not a finite number.", param, ctx)
        return number


class OutputFile(click.Path):
    """A file that is written: nothing is written over that isn't of its sort, where that isn't forced."""

    def convert(self, value: Any, param: click.Parameter | None, ctx: click.Context | None) -> Any:
        """The path, which is looked at before anything is worked out."""
        path = super().convert(value, param, ctx)
        if ctx is None or not ctx.resilient_parsing:
            guard_output(path)
        return path


OUTPUT_FILE = OutputFile()


def guard_folder_of(folder: Path, *names: str) -> None:
    """Refuses a folder in which files of others have the names of those that a command writes there."""
    for name in names:
        guard_output(folder / name)


def _force(context: click.Context, _: click.Parameter, forced: bool) -> None:
    FORCED.set(forced and not context.resilient_parsing)


FORCE = click.option("--force", is_flag=True, is_eager=True, expose_value=False, callback=_force,
                     help="Write over files that stand there, whatever they are.")
