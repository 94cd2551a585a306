"""ctm-tools choose"""

from __future__ import annotations

from pathlib import Path
from typing import TYPE_CHECKING

import click

from ..files.writing import write
from ..many_runs.task import study
from ..many_runs.variations import shown, variation
from ..plans.choosing import Choice
from ..problem import one_line
from ..report.summary import number_text
from ..study.messages import warned_before_runs
from ..texts.cells import frame_text
from ..texts.text_table import table
from .options import ALLOW_FILES, FORCE, OUTPUT_FILE, ROWS, VARIED
from .progress import bar
from .sweep import rest_lines, rounded_in_all
from .telling import left, stopping, tell

if TYPE_CHECKING:
    import pandas

EPILOG = """\b
Examples:
  ctm-tools choose examples/arterial-ten.toml --vary signals.offset=0:150:10
  ctm-tools choose examples/grid.toml --vary junctions.2.offset=0:75:5 --vary junctions.3.offset=0,40

Keys and values are those of `ctm-tools sweep`. The program's mode `choose` gets what all plans have as the base and what
is varied as plans behind it, up to 16 in a call: signals, closures, shares, priorities, limits and demands. What changes
cells or steps, as roads.m.lanes or step, can't stand behind a base; `sweep` takes it, and has queues and travel times
too.

The delays are kept in STUDY.choose/plans.csv as they come. Called again after it was stopped, it asks for those that are
missing."""


@click.command(epilog=EPILOG)
@click.argument("source", metavar="STUDY.toml", type=click.Path())
@ALLOW_FILES
@VARIED
@FORCE
@click.option("-o", "--output", metavar="FILE.csv", type=OUTPUT_FILE, help="Write all rows there.")
@ROWS
def command(source: str, varied: tuple[str, ...], output: str | None, rows: int) -> None:
    """Have the program choose among all combinations of varied values, and list them, the least delay first.

    Of equal delays the first combination is the first.
    """
    with stopping() as kept:
        choice = Choice(source, [variation(text) for text in varied], Path(Path(source).stem + ".choose"))
        kept.says = lambda: left(len(choice.candidates) - len(choice.delays), len(choice.candidates), "plans")
        first = next(iter(choice.candidates))
        for line in warned_before_runs(study(choice.tasks[first])):
            tell(line)
        count = len(choice.candidates) - choice.earlier
        if choice.earlier:
            tell(f"{choice.earlier} of {len(choice.candidates)} plans stand in {choice.kept.path} already")
        with bar(count, f"{count} plans") as done:
            for judged in choice.run():
                done(judged)
    frame = choice.results().rows
    _tell(choice, frame, rows)
    if output:
        for key in choice.keys:
            frame[key] = frame[key].map(shown)
        write(output, frame_text(frame, index=False, float_format="%.6f"))
        tell("", str(Path(output)))


def _tell(choice: Choice, frame: pandas.DataFrame, rows: int) -> None:
    """Prints the best rows."""
    same = rounded_in_all(frame)
    lines = [(*choice.keys, "delay (vehicle-hours)", "")]
    for _, row in frame.head(rows).iterrows():
        remark = f"failed: {one_line(row.error)}" if row.error else \
            f"rounded: {row.rounded}" if row.rounded not in ("", same) else ""
        lines.append((*(shown(row[key]) for key in choice.keys), "" if row.error else number_text(row.delay_vehicle_hours), remark))
    tell(*table(lines, right=range(len(choice.keys) + 1)), *rest_lines(len(frame) - rows, same))
