"""ctm-tools run"""

from __future__ import annotations

from contextlib import ExitStack
from pathlib import Path

import click

from ..moments.actuated_signals import kept_path as greens_path
from ..moments.moment import Moment
from ..problem import Interrupted
from ..report.held_branches import held_lines
from ..report.reading import Report
from ..report.summary import page
from ..runs.outputs import guard_report, report_target
from ..runs.running import Prepared, estimated, opened, placed, run_into
from ..runs.stretches import kept_moment, kept_path, run_in_stretches, runner_of, stretch_of
from ..units import units_path
from ..yielding.messages import green_lines
from .options import ALLOW_FILES, FORCE
from .progress import bar, lasting
from .telling import note, tell

EPILOG = """\b
Examples:
  ctm-tools run examples/bottleneck.toml
  ctm-tools run examples/arterial-wave.toml -o wave.report
  ctm-tools run examples/interchange.csv --every 6
  ctm-tools run examples/bottleneck.toml --checkpoint "1 h"
  ctm-tools run examples/village-stop.toml --seeds 10

A study is built first; where streams give way or greens follow traffic, runs beforehand work out what passes. The
network and units go beside the report. Without -o the report is written into the folder one
is in. Each step is recorded where the program's limit of 4,000,000 recorded values allows, else each E-th.
CTM_PROGRAM names another program than that of the repository or the package.

With --seeds vehicles come at random in runs beside that of the report: whole ones, as many in each step as a Poisson draw has, and
streams that give way have gaps at random. Their delay and longest queue stand below the page by approach, as mean and interval.

With --checkpoint the run goes in stretches, and the moment that was reached stands in FILE.saved beside the report. The same
call goes on from there where the run was ended, by Ctrl-C or otherwise, and takes the file away once the report is written.
Such a run isn't recorded, so no queues are listed; its report is that of --every 0."""


@click.command(epilog=EPILOG)
@click.argument("source", metavar="STUDY.toml|NET.csv", type=click.Path())
@ALLOW_FILES
@FORCE
@click.option("-o", "--output", metavar="FILE.report", type=click.Path(), help="Where the report goes.")
@click.option("--every", metavar="E", type=click.IntRange(0, 100_000), help="Record each E-th step; 0 records none.")
@click.option("--workers", metavar="N", type=click.IntRange(1, 16), help="Threads; by default as many as processors.")
@click.option("--seeds", metavar="N", type=click.IntRange(2, 1000), help="Draw arrivals N times too, and print means and intervals.")
@click.option("--checkpoint", metavar="EVERY", help="Keep the run each such time, as \"30 min\", or number of steps.")
def command(source: str, output: str | None, every: int | None, workers: int | None, seeds: int | None,
            checkpoint: str | None) -> None:
    """Run a study or a network by ctm, write its report with records, and print a page.

    Before the page stands what `build` prints of the study, or the warnings of `lint` of the network. The page has the
    vehicles that left, the delay, for each queue where it began, how far it reached and when, and when it
    cleared, and what is still inside at the end. Below it stands what vehicles lose at the fixed greens of a study by
    coming at random, which is no part of the delay. `report`, `table` and `compare` print it too.
    """
    target = report_target(source, output)
    if checkpoint is not None and every:
        raise click.UsageError("--checkpoint: such a run isn't recorded, so it goes without --every")
    if seeds is not None and (checkpoint is not None or every == 0):
        raise click.UsageError("--seeds: goes with records, so without --checkpoint and --every 0")
    guard_report(target)
    prepared = _opened(source, greens_path(target))
    stretch, begun = 0, None
    if checkpoint is not None:
        stretch = stretch_of(checkpoint, prepared.units)
        begun = kept_moment(kept_path(target), prepared.network, prepared.units)
    prepared = placed(prepared, target)
    if told := prepared.told:
        tell(*told, "")
    if not stretch:
        with lasting("ctm is running", lambda: estimated(prepared, every, workers)):
            report = run_into(target, prepared, every, workers, note)
    else:
        report = _in_stretches(target, prepared, stretch, begun, workers)
    greens_path(target).unlink(missing_ok=True)
    drawn = _drawn(prepared, seeds, report) if seeds is not None else []
    for line in [*page(report), *green_lines(report), *held_lines(report), *drawn]:
        tell(line)
    tell("", f"Report {target}{_recorded(report)}, units {units_path(target)}, network {prepared.path}")


def _opened(source: str, kept: Path) -> Prepared:
    """The network of the source, with what runs settle of it; an interrupt keeps what was reached of greens."""
    try:
        with ExitStack() as stack:
            prepared = opened(source, lambda count: stack.enter_context(bar(count, "giving way and signals")), kept)
        return prepared
    except KeyboardInterrupt:
        if not kept.exists():
            raise
        raise Interrupted(f"stopped; the same call goes on from the greens in {kept}") from None


def _drawn(prepared: Prepared, seeds: int, report: Report) -> list[str]:
    """What runs with arrivals at random show."""
    from ..uncertainty.seeds import seed_lines, seeded  # here, so that other runs don't load pandas

    with bar(seeds, "draws of arrivals") as done:
        frame = seeded(prepared, seeds, done=done)
    return list(seed_lines(frame, report))


def _in_stretches(target: Path, prepared: Prepared, stretch: int, begun: Moment | None, workers: int | None) -> Report:
    """Runs in stretches, and prints from where it goes on."""
    clock, path = prepared.units.clock, kept_path(target)
    reached = begun.last if begun else 0
    if begun:
        tell(f"Goes on from {clock(begun.last)}, which stands in {path}", "")

    shown = range(stretch, prepared.network.steps, stretch)
    try:
        with bar(len(shown) + 1, "stretches") as done:
            done(sum(step <= reached for step in shown), f"at {clock(reached)}")

            def keep(step: int) -> None:
                nonlocal reached
                reached = step
                done(1, f"at {clock(step)}")

            report = run_in_stretches(target, prepared, stretch, begun, runner_of(prepared, workers, note), keep)
            done()
            return report
    except KeyboardInterrupt:
        kept = f"the same call goes on from {clock(reached)}" if reached else "nothing is kept yet"
        raise Interrupted(f"stopped; {kept}") from None


def _recorded(report: Report) -> str:
    if not report.recorded:
        return " without records"
    every = report.times[1] - report.times[0]
    return " with each step recorded" if every == 1 else f" recorded every {every} steps"
