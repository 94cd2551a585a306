"""ctm-tools optimise"""

from __future__ import annotations

from fractions import Fraction
from pathlib import Path
from typing import Any

import click

from ..many_runs.task import Task
from ..many_runs.workers import apart
from ..plans.searching import BEST, Search, best_study
from ..plans.timing import Point
from ..problem import Problem
from ..report.comparing import LEAST_WHOLE
from ..report.summary import kilometre, number_text
from ..study.reading import read_values
from ..sweeps.sweeping import measure
from ..texts.quantities import duration, exact
from ..texts.text_table import table
from .options import ALLOW_FILES, FORCE, guard_folder_of
from .progress import bar
from .telling import after, stopping, tell

EPILOG = """\b
Examples:
  ctm-tools optimise examples/arterial-ten.toml --signals --generations 10
  ctm-tools optimise examples/grid.toml --signals --least-green 15 --seed 3 -o grid.search

Varied in whole steps are when each stop line of `signals` turns green, when the cycle of each junction with phases
begins, and how its phases part the green among them; cycles, the time between greens and the greens of `signals` stay.
The search is scipy's differential evolution, with the program's delays as its measure; what it finds needn't be the best
plan there is.

What was tried is kept in FOLDER/tried.csv and isn't run again: the same call goes on where it was stopped, and with more
generations beyond its end. FOLDER/best.toml is the study with the best plan of all that were tried."""


@click.command(epilog=EPILOG)
@click.argument("source", metavar="STUDY.toml", type=click.Path())
@ALLOW_FILES
@click.option("--signals", is_flag=True, required=True, help="Vary the timing of the signals.")
@click.option("--generations", default=30, show_default=True, type=click.IntRange(1, 100_000),
              help="How often plans are made of the best so far.")
@click.option("--population", default=48, show_default=True, type=click.IntRange(5, 10_000), help="Plans in each of them.")
@click.option("--seed", default=1, show_default=True, type=click.IntRange(0, 2**32 - 1), help="Where the draws start.")
@click.option("--least-green", metavar="TIME", default="10", show_default=True, help="Of each phase of a junction, in s.")
@FORCE
@click.option("-o", "--output", metavar="FOLDER", type=click.Path(), help="Where it goes; else STUDY.optimise here.")
def command(source: str, signals: bool, generations: int, population: int, seed: int, least_green: str,
            output: str | None) -> None:
    """Search for the timing of a study's signals with the least delay, and write the study with it."""
    folder = Path(output or Path(source).stem + ".optimise")
    guard_folder_of(folder, BEST)
    with stopping() as kept:
        search = Search(source, folder, _least(least_green))
        kept.says = lambda: after(search.runs, search.earlier)
        if search.earlier:
            tell(f"{search.earlier} plans stand in {search.tried.path} already")
        with bar(generations, f"{generations} generations") as done:
            best = search.run(generations, population, seed, lambda generation, runs, hours: done(
                1, f"{runs} runs, least delay {number_text(hours)} vehicle-hours"))
        best_study(search, best, folder)
        _tell(search, best, source, folder / BEST)


def _least(text: str) -> Fraction:
    try:
        value: Any = exact(text)
    except ValueError:
        value = text
    return duration(value, "--least-green")


def _tell(search: Search, best: Point, source: str, target: Path) -> None:
    """Prints what the best plan changes, and the measures before and after it."""
    start = search.timing.start
    rows: list[tuple[str, ...]] = [("", "turns green at (s)", "now", "green (s)", "now")]
    for (place, first, greens), (_, now, split) in zip(search.timing.rows(start), search.timing.rows(best)):
        rows.append((place, number_text(float(first)), number_text(float(now)), *(
            "/".join(number_text(float(green)) for green in each) for each in (greens, split))))
    tell(*table(rows, right=range(1, 5)))
    before, after = (_measured(path, str(search.program)) for path in (source, str(target)))
    rows = [("", "before", "after")]
    for name, label in (("delay_vehicle_hours", "delay (vehicle-hours)"), ("longest_queue_km", "longest queue (km)"),
                        ("most_waiting_vehicles", "most waiting"), ("left_vehicles", "left"),
                        ("inside_vehicles", "inside"), ("travel_time_min", "travel time (min)")):
        shown = kilometre if name == "longest_queue_km" else number_text
        rows.append((label, *("-" if one[name] != one[name] else shown(one[name]) for one in (before, after))))
    tell("", *table(rows, right=(1, 2)))
    old, new = before["delay_vehicle_hours"], after["delay_vehicle_hours"]
    part = f"{1 - new / old:.1%} less delay" if old >= LEAST_WHOLE else "No delay before"
    tell("", f"{part}; {search.runs} runs in this call, {len(search.tried.delays)} plans tried in all",
         f"{search.tried.path}, {target}")


def _measured(path: str, program: str) -> dict[str, Any]:
    """The measures of a study's run."""
    found = apart(measure, Task(read_values(path), path, {}, program))
    if found["error"]:
        raise Problem(found["error"])
    return found
