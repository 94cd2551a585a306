"""ctm-tools assign"""

from __future__ import annotations

from collections.abc import Iterator, Sequence
from contextlib import closing
from pathlib import Path
from typing import Any

import click
import pandas

from ..assignment.assigning import Assignment, Round
from ..assignment.diversion import ways_of_study
from ..assignment.messages import not_settled, pair_lines, rounded_lines, settled_lines
from ..assignment.task import MEASURES, AssignTask, begun, measure_assigned, measures, step_of
from ..assignment.writing import places_of, written
from ..files.reading import read_bytes
from ..files.writing import guard_folder, write
from ..files.written_over import FORCED
from ..many_runs.workers import done
from ..plots.assignment import drawn
from ..problem import Problem
from ..program.calls import program_path
from ..report.held_branches import held_lines
from ..report.summary import number_text
from ..study.messages import built_lines as told_of_study
from ..study.reading import read_values, scenario_of
from ..study.trips import part_of_drivers
from ..texts.cells import frame_text
from ..texts.quantities import exact
from ..texts.text_table import table
from .options import ALLOW_FILES, FORCE, Finite
from .progress import bar
from .telling import NOTHING, stopping, tell

COLUMNS = ("informed", *MEASURES, "error")  # of the table of several shares

EPILOG = """\b
Examples:
  ctm-tools assign examples/bypass.toml
  ctm-tools assign examples/bypass-closed.toml --from bypass.assigned.toml --informed 0.3
  ctm-tools assign examples/bypass-closed.toml --from bypass.assigned.toml --informed 0,0.3,1 --after 07:40

Written are the study with the shares that came out, NAME.assigned.toml, which `run`, `sweep`, `optimise` and `branch` take,
its network, its report, the routes of each pair and interval as NAME.assigned.ways.csv, and pictures of the gap and of the routes.
With several shares of informed drivers a table is printed, and written where -o names a CSV file.

The traffic is the program's: one run a round. tools/docs/routes.md has the method, its limits and its sources."""


@click.command(epilog=EPILOG)
@click.argument("source", metavar="STUDY.toml", type=click.Path())
@ALLOW_FILES
@click.option("--from", "earlier", metavar="OPEN.assigned.toml", type=click.Path(),
              help="An earlier assignment, whose routes the drivers have.")
@click.option("--informed", metavar="PART[,PART..]", help="The part of the drivers who choose; else the study's.")
@click.option("--after", metavar="TIME", help="Only drivers who depart in an interval of choice from then on choose anew.")
@click.option("--gap", default=0.01, show_default=True, type=Finite(0, min_open=True),
              help="The relative gap below which it ends.")
@click.option("--iterations", default=50, show_default=True, type=click.IntRange(1, 10_000), help="The most rounds.")
@FORCE
@click.option("-o", "--output", metavar="FILE.toml", type=click.Path(), help="Where the study goes; the rest beside it.")
@click.option("--workers", metavar="N", type=click.IntRange(1, 16), help="Threads of a run; else as many as processors.")
@click.option("-j", "--jobs", metavar="N", type=click.IntRange(1, 256), help="Of several shares, how many side by side.")
@click.option("--dask", "address", metavar="ADDRESS", help="Of several shares: the scheduler of a Dask cluster.")
def command(source: str, earlier: str | None, informed: str | None, after: str | None, gap: float, iterations: int,
            output: str | None, workers: int | None, jobs: int | None, address: str | None) -> None:
    """Let the drivers of a study's trips choose their routes, until hardly any would gain by another one."""
    values = read_values(source)
    study = scenario_of(values, Path(source))
    if after is not None and earlier is None:
        raise click.UsageError("--after: goes with --from; without it no driver has a route yet")
    rows = ways_of_study(earlier) if earlier else None
    tasks = [AssignTask(values, source, str(program_path()), rows, part, step_of(after, study), gap, iterations)
             for part in _parts(informed)]
    if len(tasks) > 1:
        with stopping():
            _tell_table(tasks, _done(tasks, jobs, address), output)
        return
    if address is not None:
        raise click.UsageError("--dask: a cluster makes several assignments, as for --informed 0,0.3,1; this is one")
    places = places_of(source, output)
    places.guard(Path(source), Path(earlier) if earlier else None)
    rounds: list[Round] = []
    with stopping() as kept:
        kept.says = lambda: f"{NOTHING} of {len(rounds)} round{'s'[:len(rounds) != 1]}"
        assignment = begun(tasks[0], workers)
        for line in told_of_study(assignment.shared.built):
            tell(line)
        _go(assignment, gap, iterations, rounds)
        best = assignment.best
        kept.says = lambda: f"stopped as {places.study} was written; the same call makes it and what stands beside it anew"
        made = written(assignment, best, values, places)
        drawn(rounds, made.rows, made.report, assignment.departures.width, places)
    _tell(assignment, [*(rounds[:-1] if best is rounds[-1] else rounds), made.last], gap, made.rows, made.passing)
    for line in settled_lines(assignment.study, best, made.last):
        tell(line)
    for line in held_lines(made.report):
        tell(line)
    tell("", f"{places.study}, {places.report}, {places.ways}, {', '.join(map(str, places.pictures))}")


def _parts(text: str | None) -> list[float | None]:
    """The parts of the drivers who are informed."""
    if text is None:
        return [None]
    found: list[float | None] = []
    for one in text.split(","):
        try:
            value: Any = exact(one.strip())
        except ValueError:
            value = one
        found.append(float(part_of_drivers(value, "--informed")))
    return found


def _go(assignment: Assignment, gap: float, iterations: int, rounds: list[Round]) -> None:
    """Goes from round to round, each of which is added, with a bar on a terminal, and prints what each came to."""
    with bar(iterations, "rounds at most") as shown:
        for each in assignment.rounds(gap, iterations):
            rounds.append(each)
            shown(1, f"gap {each.gap.relative:.4f}")
    heads = ("round", "gap", "delay (vehicle-hours)", "changed", "moved between branches")
    lines = [(f"{each.number}", f"{each.gap.relative:.5f}", number_text(each.delay), f"{each.changed:,.1f}", f"{each.moved:.2%}")
             for each in rounds]
    tell("", *table([heads, *lines], right=range(5)))


def _tell(assignment: Assignment, rounds: Sequence[Round], gap: float, ways: Sequence[Any], passing: Sequence[str]) -> None:
    """Prints how it ended: the gap, what rounding did, what passes of those who give way, and the ways of the pairs."""
    found = measures(assignment, rounds[-1])
    tell("", f"Vehicles  {number_text(found['left_vehicles'])} left, {number_text(found['inside_vehicles'])} are still "
         "inside")
    tell(f"Time      {number_text(found['travel_vehicle_hours'])} vehicle-hours, {number_text(found['mean_minutes'])} min for each, of "
         f"which the delay is {number_text(found['delay_vehicle_hours'])} vehicle-hours", "")
    for line in [*not_settled(assignment, rounds, gap), *rounded_lines(assignment), *passing]:
        tell(line)
    for line in pair_lines(ways):
        tell(line)


def _done(tasks: Sequence[AssignTask], jobs: int | None, address: str | None) -> Iterator[tuple[int, dict[str, Any]]]:
    """What each task measured, as it comes, with a bar on a terminal."""
    with closing(done(tasks, measure_assigned, jobs, address)) as found, bar(len(tasks), f"{len(tasks)} assignments") as shown:
        for one in found:
            shown()
            yield one


def _guard_table(path: Path) -> None:
    """Refuses a place for the table where it is no CSV file, or one that isn't such a table."""
    if path.suffix != ".csv":
        raise Problem(f"{path}: the table of several shares is a CSV file, whose name ends with .csv")
    guard_folder(path)
    if path.exists() and not FORCED.get() and not read_bytes(path).startswith(",".join(COLUMNS).encode() + b"\n"):
        raise Problem(f"{path}: stands there and isn't a table of several shares; name another file with -o, or say --force")


def _tell_table(tasks: Sequence[AssignTask], done: Iterator[tuple[int, dict[str, Any]]], output: str | None) -> None:
    """Prints a row for each share of informed drivers."""
    if output is not None:
        _guard_table(Path(output))
    found = dict(done)
    frame = pandas.DataFrame([{"informed": tasks[i].informed, **found[i]} for i in sorted(found)], columns=COLUMNS)
    lines: list[tuple[str, ...]] = [("informed", "rounds", "gap", "delay (vehicle-hours)", "all time (vehicle-hours)",
                                     "mean (min)", "left", "inside", "")]
    for _, row in frame.iterrows():
        figures = [f"{row.rounds:.0f}", f"{row.gap:.5f}", *(number_text(row[name]) for name in MEASURES[2:])] if not row.error else \
            [""] * len(MEASURES)
        lines.append((f"{row.informed:g}", *figures, f"failed: {row.error}" if row.error else ""))
    tell(*table(lines, right=range(8)))
    if output is not None:
        write(output, frame_text(frame, index=False, float_format="%.6f"))
        tell("", str(output))
    if (frame.error != "").all():
        raise Problem(f"no assignment succeeded; the first: {frame.error.iloc[0]}")
