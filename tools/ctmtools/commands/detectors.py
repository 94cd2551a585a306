"""ctm-tools detectors"""

from __future__ import annotations

from pathlib import Path
from typing import Unpack

import click

from ..detectors.options import DetectorOptions, wanted_by
from ..detectors.reading import read, text_of
from ..detectors.rules import RULES
from ..files.writing import write
from ..problem import Problem
from ..texts.text_table import table
from .detector_options import detector_options
from .options import FORCE, OUTPUT_FILE, Finite
from .telling import tell

EPILOG = """\b
Examples:
  ctm-tools detectors d04_text_station_5min_2019_12_04.txt.gz
  ctm-tools detectors d04_*.txt.gz --station 400001 --dates weekdays --leave-out all -o 400001.csv
  ctm-tools detectors loops.csv --per interval --speed-unit mph --average median -o day.csv

The format is recognised: PeMS's Station 5-Minute, a row a station and time, a column a station, or a row a vehicle. A
file that is none of these is refused with the columns that are missing. tools/docs/detectors.md has the formats and the rules."""


@click.command(epilog=EPILOG)
@click.argument("files", metavar="FILE..", nargs=-1, required=True, type=click.Path())
@detector_options
@click.option("--lanes", type=Finite(0.1), help="Of each station, where the files don't say it.")
@FORCE
@click.option("-o", "--output", metavar="FILE.csv", type=OUTPUT_FILE, help="Where the rows go that are left, in one format.")
def command(files: tuple[str, ...], output: str | None, **terms: Unpack[DetectorOptions]) -> None:
    """Read files of detectors, and print what is in them, what is left out by which rule, and what is missing."""
    if output is not None and output in files:
        raise Problem(f"{output}: is one of the files that are read")
    found = read(files, wanted_by(**terms))
    tell(*found.lines)
    rows = [("station", "rows", "left out", *RULES, "day", "mean flow, vehicles/h")]
    for station in dict.fromkeys([*found.rows.station, *found.left.station]):
        own, left = found.rows[found.rows.station == station], found.left[found.left.station == station]
        counts = left.rule.value_counts()
        rows.append((str(station) or "-", f"{len(own):,}", f"{len(left):,}", *(f"{counts.get(rule, 0):,}" for rule in [*RULES, "day"]),
                     f"{own.flow.mean():,.0f}" if len(own) else "-"))
    kept = [i for i in range(len(rows[0])) if i < 3 or i == len(rows[0]) - 1 or any(row[i] != "0" for row in rows[1:])]
    tell("", *table([tuple(row[i] for i in kept) for row in rows], right=range(1, len(kept))))
    if output is not None:
        write(output, text_of(found))
        tell("", str(Path(output)))
