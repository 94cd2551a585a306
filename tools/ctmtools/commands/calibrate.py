"""ctm-tools calibrate"""

from __future__ import annotations

from pathlib import Path
from typing import Unpack

import click

from ..calibration.fitting import FILE, Calibration, by_place, fitted, most_runs, range_of
from ..calibration.observed import read_observed
from ..detectors.options import StationOptions, wanted_by
from ..files.written_over import guard_output
from ..problem import Problem
from ..report.summary import number_text
from ..study.reading import read_scenario
from ..texts.text_table import table
from .detector_options import detector_options
from .options import ALLOW_FILES, FORCE, OUTPUT_FILE
from .progress import bar
from .telling import after, stopping, tell
from .travel_time import figure

EPILOG = """\b
Examples:
  ctm-tools calibrate study.toml --observed detectors.csv --vary lane.saturation_flow=1800:2400
  ctm-tools calibrate study.toml --observed det.csv --vary lane.saturation_flow=1800:2400 --vary demand=0.9:1.1
  ctm-tools calibrate study.toml --observed "d04_*.txt.gz" --at 400001=m.1.5 --dates weekdays --average median \
    --leave-out all --vary lane.saturation_flow=1800:2400

The file of detectors has the columns place (ROAD.KM), start, end (clock times), flow (vehicles/h) and, where it is
known, speed (km/h); or it is in a format of tools/docs/detectors.md, of one day or the mean or median of several, and --at
says where each station stands. A key is one that `sweep` varies. What is made small is the root mean square of flows and speeds,
each by its mean. Runs of a grid over all ranges come first, and scipy's search of Nelder and Mead goes down from several of
them. Values do as well that add no more than 5 % to the distance, while the other keys stay; they take up to 12 runs more
for each key.

The distances are kept in STUDY.calibrate/tried.csv. Called again after it was stopped, the search goes on with what is
missing."""


@click.command(epilog=EPILOG)
@click.argument("study", metavar="STUDY.toml", type=click.Path())
@ALLOW_FILES
@click.option("--observed", metavar="FILE.csv", type=click.Path(), required=True, multiple=True,
              help="What detectors saw; may be given again.")
@click.option("--at", "places", metavar="STATION=ROAD.KM", multiple=True, help="Where a station stands; may be given again.")
@detector_options
@click.option("--vary", "varied", metavar="KEY=LOW:HIGH", multiple=True, required=True,
              help="A key and the range of its value; may be given again.")
@click.option("--runs", default=80, show_default=True, type=click.IntRange(2, 10_000), help="The most runs.")
@click.option("--first", default=16, show_default=True, type=click.IntRange(1, 10_000),
              help="Of them so many values, or combinations, of a grid come first.")
@click.option("--starts", default=3, show_default=True, type=click.IntRange(1, 100),
              help="From so many of these, those that are nearer than all beside them, a search goes down.")
@click.option("-j", "--jobs", default=1, show_default=True, type=click.IntRange(1, 256),
              help="Runs side by side, where none needs another.")
@click.option("--dask", "address", metavar="ADDRESS", help="The scheduler of a Dask cluster that makes them.")
@FORCE
@click.option("-o", "--output", metavar="FILE.png|svg|pdf", type=OUTPUT_FILE, help="Where the plot goes.")
def command(study: str, observed: tuple[str, ...], places: tuple[str, ...], varied: tuple[str, ...], runs: int, first: int,
            starts: int, jobs: int, address: str | None, output: str | None, **terms: Unpack[StationOptions]) -> None:
    """Find the values of a study's keys by which it comes nearest to what detectors saw.

    Prints the values, the range of each that fits as well, for each detector GEH and root mean square errors, and plots
    modelled over observed flows.
    """
    from ..plots.calibration import against
    from ..plots.figure import picture_file, save

    picture = guard_output(picture_file(output or Path(study).stem + "-calibration.png"))
    ranges = [range_of(text) for text in varied]
    with stopping() as kept:
        seen = read_observed(observed, wanted_by(**terms), _places(places), read_scenario(study))
        if seen.lines:
            tell(*seen.lines, "")
        folder = Path(Path(study).stem + ".calibrate")
        begun = Calibration(study, seen, ranges, jobs, address, folder)
        kept.says = lambda: after(begun.runs, begun.earlier)
        if begun.earlier:
            tell(f"{begun.earlier} runs stand in {folder / FILE} already", "")
        with bar(most_runs(runs, len(ranges)), "runs at most") as done:
            begun.news = lambda count, values, off: done(1, f"distance {off:.4f} with {_values(values)}")
            found = fitted(begun, runs, first, starts)
    for key, value in found.values.items():
        low, high = found.as_well[key]
        tell(f"{key} = {value:g}" + (f"  # {low:g} to {high:g} do as well" if low < high else ""))
    tell("", f"Distance {found.distance:.4f}, with the study as it stands {found.before:.4f}; {found.runs} runs", "")
    rows = [("detector", "rows", "GEH, mean", "GEH below 5", "RMSE flow, vehicles/h", "RMSE speed, km/h")]
    for place, row in by_place(found.modelled, seen).iterrows():
        rows.append((str(place), f"{row['rows']:.0f}", f"{row.geh:.2f}", f"{row.below_5:.0%}", number_text(row.rmse_flow),
                     figure(row.rmse_speed)))
    tell(*table(rows, right=range(1, 6)))
    save(against(found.modelled, seen, f"{Path(study).stem}: {_values(found.values)}"), picture)
    tell("", str(picture))


def _places(texts: tuple[str, ...]) -> dict[str, str]:
    """The place of each station by what STATION=ROAD.KM says."""
    pairs = [text.partition("=") for text in texts]
    for text, (station, equals, place) in zip(texts, pairs):
        if not (station and equals and place):
            raise Problem(f"--at {text}: expected STATION=ROAD.KM")
    return {station: place for station, _, place in pairs}


def _values(values: dict[str, float]) -> str:
    return ", ".join(f"{key} = {value:g}" for key, value in values.items())
