"""ctm-tools branch"""

from __future__ import annotations

from collections.abc import Iterator, Sequence
from pathlib import Path
from typing import TYPE_CHECKING

import click

from ..moments.moment import read_moment
from ..report.comparability import mismatches
from ..report.comparing import side_by_side
from ..report.summary import number_text
from ..runs.stretches import futures_of, reports_of
from ..texts.text_table import table
from ..units import Units
from .compare import signed
from .options import ALLOW_FILES, Finite
from .progress import bar
from .telling import note, tell

if TYPE_CHECKING:
    import pandas

EPILOG = """\b
Example:
  ctm-tools build examples/bottleneck.toml
  ctm save --until 720 < bottleneck.csv > eight.saved
  ctm-tools branch eight.saved examples/bottleneck.toml closed.toml

The saved moment is near the asked step, at most four steps past it. Up to there each study has to have the cells and
connectors of the saved network, and at each step the same capacity, green, demand and turning shares; one that differs
earlier is refused, with what differs and from when on. Runs that go on from a moment aren't recorded; with -o their reports
are written, for `ctm-tools compare`."""


@click.command(epilog=EPILOG)
@click.argument("saved", metavar="SAVED", type=click.Path())
@click.argument("sources", metavar="STUDY.toml|NET.csv..", type=click.Path(), nargs=-1, required=True)
@ALLOW_FILES
@click.option("-o", "--output", metavar="FOLDER", type=click.Path(), help="Write the reports there.")
@click.option("-j", "--jobs", metavar="N", type=click.IntRange(1, 256), help="Runs side by side; else as many as processors.")
@click.option("--value-of-time", metavar="MONEY", type=Finite(0), help="What an hour of delay costs.")
def command(saved: str, sources: tuple[str, ...], output: str | None, jobs: int | None, value_of_time: float | None) -> None:
    """Run several futures of one saved moment, and compare their delays with the first one's."""
    moment = read_moment(saved)
    futures = futures_of(moment, saved, sources)
    with bar(len(futures), "futures") as done:
        reports = reports_of(moment, futures, jobs, Path(output) if output else None, note, done)
    (name, first), *others = reports.items()
    tell(f"{saved}: saved at {_when(moment.steps, first.units)}, {len(reports)} futures")
    for other, report in others:
        for line in mismatches(first, report):
            tell(f"warning: A is {name}, B is {other}: {line}")
    tell()
    tell(*beside_each_other(side_by_side(reports, value_of_time), "future"))
    if output:
        tell("", f"Reports in {output}")


def _when(steps: Sequence[int], units: Units) -> str:
    """The moment by its clock time, or the first and the last of those of its regions."""
    return " to ".join(dict.fromkeys(units.clock(step, True) for step in (min(steps), max(steps))))


def beside_each_other(frame: pandas.DataFrame, what: str) -> Iterator[str]:
    """The lines of a table of reports, a row for each."""
    heads = [what, "entered", "left", "inside", f"delay, {frame.attrs['units']['delay']}", f"against {frame.index[0]}", ""]
    rows = []
    for name, row in frame.iterrows():
        part = f"{row.part:+.1%}" if abs(row.part) >= 0.0005 else ""
        rows.append([str(name), *map(number_text, (row.entered, row.left, row.inside, row.delay)), signed(row.rise), part])
        if "cost" in frame:
            rows[-1].append(number_text(row.cost))
    rows[0][5] = ""
    return table([heads + ["cost"] * ("cost" in frame), *rows], right=range(1, 8))
