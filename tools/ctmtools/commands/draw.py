"""ctm-tools draw"""

from __future__ import annotations

from collections.abc import Iterator
from pathlib import Path

import click

from ..files.writing import write
from ..problem import Problem
from ..study.times import Times
from ..texts.cells import frame_text
from ..texts.text_table import table
from ..uncertainty.drawn_runs import DrawnRuns, Wanted
from ..uncertainty.messages import HEADS, compared_lines, plan_lines, spread_rows
from ..uncertainty.reliability import within
from ..uncertainty.results import Draws, results_of, write_results
from ..uncertainty.task import Asked
from .options import ALLOW_FILES, CLUSTER, EVERY, FORCE, JOBS, guard_folder_of
from .progress import bar
from .telling import left, stopping, tell

EPILOG = """\b
Examples:
  ctm-tools draw examples/uncertain.toml --runs 500 --seed 1
  ctm-tools draw examples/uncertain.toml examples/uncertain-shoulder.toml --queue-past m.9 --queue-after 07:20
  ctm-tools draw study.toml --with uncertain.toml --runs 5000 --until-within 2% --dask tcp://127.0.0.1:8786

\b
What is uncertain stands in the study, or by itself in the file of --with:
  [[uncertain]]
  key = "demand"           # or another key of the study, as sweep has it
  factor = "normal"        # or value; or lognormal, uniform, triangular, given
  mean = 1
  deviation = 0.1
  [[uncertain]]
  arrivals = "random"      # as in run --seeds
tools/docs/uncertainty.md has the rest: values drawn together, and incidents.

A draw depends on the seed, its number and the keys alone: it is the same for each plan and by any number of workers.
The runs are kept in FOLDER/runs.csv as they come; called again, draw makes those that are missing."""


@click.command(epilog=EPILOG)
@click.argument("sources", metavar="STUDY.toml [OTHER.toml..]", nargs=-1, required=True, type=click.Path())
@ALLOW_FILES
@click.option("--runs", metavar="N", default=100, show_default=True, type=click.IntRange(1, 1_000_000),
              help="Draws of each plan.")
@click.option("--seed", metavar="S", default=1, show_default=True, type=click.IntRange(0), help="What the draws begin at.")
@click.option("--with", "given", metavar="FILE.toml", type=click.Path(),
              help="What is uncertain, in place of what the study says.")
@click.option("--route", "routes", metavar="FROM TO", nargs=2, multiple=True,
              help="Print the travel time of a route too, from place to place as travel-time has them.")
@click.option("--queue-past", "places", metavar="PLACE", multiple=True,
              help="Print how probable it is that a queue passes ROAD.KM.")
@click.option("--queue-after", "times", metavar="TIME", multiple=True,
              help="Print how probable it is that a queue lasts past a clock time.")
@click.option("--until-within", "narrow", metavar="X",
              help="Stop once the 95 % interval of the mean delay, or of the difference, is +-X vehicle-hours, or X%.")
@JOBS
@CLUSTER
@FORCE
@click.option("-o", "--output", metavar="FOLDER", type=click.Path(), help="Where the results go; else STUDY.draw here.")
@EVERY
def command(sources: tuple[str, ...], runs: int, seed: int, given: str | None, routes: tuple[tuple[str, str], ...],
            places: tuple[str, ...], times: tuple[str, ...], narrow: str | None, jobs: int | None, address: str | None,
            output: str | None, every: int | None) -> None:
    """Run a study over draws of what is uncertain of it, and print how delay and travel times are distributed.

    Of several plans each gets the same draws, and the second and those behind it are compared with the first draw by draw.
    """
    folder = Path(output or Path(sources[0]).stem + ".draw")
    guard_folder_of(folder, "summary.csv")
    wanted = Wanted(runs, seed, None if given is None else Path(given), Asked(routes, places), every, within(narrow) if narrow else None)
    with stopping() as kept:
        drawn_runs = DrawnRuns(sources, wanted, folder)
        asked = runs * len(drawn_runs.plans)
        kept.says = lambda: left(drawn_runs.missing, asked, "runs")
        ends = {time: float(Times(drawn_runs.plans[0].study).after_start(time, "--queue-after")) for time in times}
        if drawn_runs.missing < asked:
            tell(f"{asked - drawn_runs.missing} of {asked} runs stand in {folder / 'runs.csv'} already")
        for line in drawn_runs.warnings():
            tell(line)
        _do(drawn_runs, jobs, address)
        _tell(results_of(drawn_runs, ends), folder, drawn_runs.is_narrow)


def _do(drawn_runs: DrawnRuns, jobs: int | None, address: str | None) -> None:
    """Runs the plans as they stand and then what is missing, and shows how much is left."""
    drawn_runs.as_it_stands()
    missing = drawn_runs.missing
    with bar(missing, f"{missing} runs") as done:
        for _ in drawn_runs.run(jobs, address):
            done()


def _tell(results: Draws, folder: Path, is_narrow: bool) -> None:
    """Prints what the draws show, and writes the tables and the picture."""
    write_results(results, folder)
    failed = results.rows[results.rows.error != ""]
    if len(failed):
        tell(f"{len(failed)} of {len(results.rows)} runs failed; the same call tries them again; the first, draw "
             f"{failed.draw.iloc[0]} of {failed.plan.iloc[0]}: {failed.error.iloc[0]}")
    if len(failed) == len(results.rows):
        raise Problem("no run succeeded")
    for line in _lines(results, is_narrow):
        tell(line)
    write(folder / "summary.csv", frame_text(results.summary, index=False, float_format="%.9g"))
    from ..plots.draws import draw
    from ..plots.figure import save

    save(draw(results), folder / "plot.png")
    tell("", f"{folder / 'draws.csv'}, {folder / 'summary.csv'}, {folder / 'plot.png'}")


def _lines(results: Draws, is_narrow: bool) -> Iterator[str]:
    """What the draws show, as lines."""
    stopped = f", where the interval was narrow enough; {results.asked_for} were asked for" \
        if results.count < results.asked_for else ""
    random = ", arrivals at random" * results.arrivals
    yield f"{results.title}: {results.count} draw{'s'[:results.count != 1]}, seed {results.seed}{random}{stopped}"
    if not is_narrow:
        yield "The interval isn't as narrow as was asked for; more --runs go on from here"
    for plan in results.plans:
        yield ""
        if len(results.plans) > 1:
            yield f"{plan}:"
        if not len(results.own(plan)):
            yield "  No run succeeded."
            continue
        yield from table([("", *HEADS), *spread_rows(results, plan)], right=range(1, 9))
        for line in plan_lines(results, plan):
            yield f"  {line}"
    for second in results.plans[1:]:
        first, *more = compared_lines(results, second)
        yield from ("", first, *(f"  {line}" for line in more))
