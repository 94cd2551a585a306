"""ctm-tools sweep"""

from __future__ import annotations

from collections.abc import Sequence
from pathlib import Path
from typing import TYPE_CHECKING

import click

from ..files.writing import write
from ..many_runs.variations import Variation, shown, variation
from ..problem import Problem
from ..report.summary import kilometre, number_text
from ..sweeps.sweeping import Sweep
from ..texts.cells import frame_text
from ..texts.text_table import table
from .options import ALLOW_FILES, CLUSTER, EVERY, FORCE, JOBS, ROWS, VARIED, guard_folder_of
from .progress import bar
from .telling import left, stopping, tell
from .travel_time import figure

if TYPE_CHECKING:
    import pandas

EPILOG = """\b
Examples:
  ctm-tools sweep examples/arterial-0.toml --vary signals.offset=0:110:10
  ctm-tools sweep examples/bottleneck.toml --vary demand=0.8:1.2:0.1 --vary roads.m.lanes=3,4
  ctm-tools sweep study.toml --vary demand=0.8:1.2:0.1 --vary "signals.offset=0:60:10" --dask tcp://127.0.0.1:8786

A key is one of the study, such as step, lane.wave_speed, roads.m.length, signals.offset (of all signals) or
signals.2.offset (of the second). demand multiplies all demands, demand.GATE those of a gate. Values are
FROM:TO:STEP, both ends included, or VALUE,VALUE,.. and are in the key's unit.

The rows are kept in FOLDER/results.csv as they come. Called again after it was stopped, a sweep does what is missing
and tries again what failed. With --dask the runs are given to the cluster whose scheduler has that address; its
machines need Debian's python3-distributed, python3-pandas, python3-networkx and python3-click, and the program at the
path that it has here."""


@click.command(epilog=EPILOG)
@click.argument("source", metavar="STUDY.toml", type=click.Path())
@ALLOW_FILES
@VARIED
@JOBS
@CLUSTER
@FORCE
@click.option("-o", "--output", metavar="FOLDER", type=click.Path(),
              help="Where the results go; else STUDY.sweep here.")
@click.option("--over", metavar="KEY", multiple=True,
              help="Draw over this key, or over two; else the first two varied.")
@EVERY
@ROWS
def command(source: str, varied: tuple[str, ...], jobs: int | None, address: str | None, output: str | None,
            over: tuple[str, ...], every: int | None, rows: int) -> None:
    """Build and run a study with every combination of varied values, and list them, the least delay first.

    Each row has the total delay, the longest queue, the vehicles that left and the mean travel time along the longest route
    from a gate; a run that failed says why.
    """
    variations = [variation(text) for text in varied]
    drawn = _drawn(over, variations)
    folder = Path(output or Path(source).stem + ".sweep")
    guard_folder_of(folder, "table.csv", "plot.png")
    with stopping() as kept:
        sweep = Sweep(source, variations, every, folder)
        kept.says = lambda: left(len(sweep.missing), len(sweep.tasks), "runs")
        done = len(sweep.tasks) - len(sweep.missing)
        if done:
            tell(f"{done} of {len(sweep.tasks)} runs stand in {sweep.rows.path} already")
        for line in sweep.warnings():
            tell(line)
        _do(sweep, jobs, address)
        _tell(sweep, rows, folder, drawn)


def _drawn(over: Sequence[str], variations: Sequence[Variation]) -> list[str]:
    """The keys that the plot is over."""
    keys = [one.key for one in variations]
    for key in over:
        if key not in keys:
            raise Problem(f"--over {key}: isn't varied; varied are {', '.join(keys)}")
    if len(over) > 2:
        raise Problem("--over: one key or two")
    return list(over) or [one.key for one in variations if len(one.values) > 1][:2] or keys[:1]


def _do(sweep: Sweep, jobs: int | None, address: str | None) -> None:
    """Does the runs that are missing, and shows how many are done and how many are left."""
    missing = len(sweep.missing)
    if not missing:
        return
    count = sweep.side_by_side(jobs)
    where = f"at {address}" if address else f"on {count} process{'es'[:2 * (count > 1)]}"
    with bar(missing, f"{missing} runs {where}") as done:
        for _ in sweep.run(jobs, address):
            done()


def _tell(sweep: Sweep, rows: int, folder: Path, drawn: Sequence[str]) -> None:
    """Prints the best rows, and writes the table and the plot."""
    frame, keys = sweep.rows.frame(), sweep.keys
    same = rounded_in_all(frame)
    lines = [(*keys, "delay (vehicle-hours)", "longest queue (km)", "most waiting", "left", "inside",
              "travel time (min)", "")]
    for _, row in frame.head(rows).iterrows():
        figures = ("",) * 6 if row.error else (number_text(row.delay_vehicle_hours), kilometre(row.longest_queue_km),
                                               f"{row.most_waiting_vehicles:,.0f}", number_text(row.left_vehicles),
                                               number_text(row.inside_vehicles), figure(row.travel_time_min))
        lines.append((*(shown(row[key]) for key in keys), *figures, _remark(row, same)))
    tell(*table(lines, right=range(len(keys) + 6)), *rest_lines(len(frame) - rows, same))
    path = folder / "table.csv"
    write(path, frame_text(frame.drop(columns="fingerprint"), index=False, float_format="%.6f"))
    picture = folder / "plot.png"
    failures = int((frame.error != "").sum())
    if failures:
        tell(f"{failures} of {len(frame)} runs failed; the same call tries them again")
    if failures == len(frame):
        raise Problem(f"no run of the sweep succeeded; the first: {frame.error.iloc[0]}")
    from ..plots.figure import save
    from ..plots.sweep import draw

    save(draw(frame, drawn, sweep.title), picture)
    tell("", f"{path}, {picture}")


def rounded_in_all(frame: pandas.DataFrame) -> str:
    """What was rounded, where that is the same in all rows of several."""
    return str(frame.rounded.iloc[0]) if len(frame) > 1 and frame.rounded.nunique() == 1 else ""


def rest_lines(more: int, same: str) -> list[str]:
    """What stands below the rows that are printed: how many more there are, and what was rounded in all."""
    return [f"  and {more} more rows"] * (more > 0) + [f"  Rounded in each of them: {same}"] * bool(same)


def _remark(row: pandas.Series, same: str) -> str:
    """What stands behind the figures of a row: why it failed, what was rounded, where that isn't so in all rows, and a queue
    that reaches the upstream end of the model."""
    if row.error:
        return f"failed: {row.error}"
    upstream = f"a queue reaches the upstream end: {row.waiting_upstream_vehicles:,.0f} wait in a gate behind it" \
        if row.waiting_upstream_vehicles >= 1 else ""
    return "; ".join(filter(None, [upstream, f"rounded: {row.rounded}" if row.rounded not in ("", same) else ""]))
