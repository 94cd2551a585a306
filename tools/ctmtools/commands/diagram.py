"""ctm-tools diagram"""

from __future__ import annotations

from pathlib import Path
from typing import Unpack

import click

from ..calibration.diagram import fit, read_states
from ..detectors.options import StationOptions, wanted_by
from ..files.written_over import guard_output
from ..problem import Problem
from .detector_options import detector_options
from .options import FORCE, OUTPUT_FILE, Finite
from .telling import tell

EPILOG = """\b
Examples:
  ctm-tools diagram detector.csv
  ctm-tools diagram detector.csv --lanes 3 -o a7.png
  ctm-tools diagram "d04_*.txt.gz" --station 400001 --leave-out all

The file has the columns flow (vehicles/h) and density (vehicles/km), or flow and speed (km/h); or it is in a format of
tools/docs/detectors.md. What it prints are keys of a
study's [lane]."""


@click.command(epilog=EPILOG)
@click.argument("detectors", metavar="FILE..", nargs=-1, required=True, type=click.Path())
@click.option("--lanes", type=Finite(0.1), help="Of how many lanes its flows are, where the file doesn't say it; else 1.")
@click.option("--vehicle-length", "length", metavar="METRES", type=Finite(0.1, 100),
              help="Of a vehicle and the detector, by which an occupancy is a density.")
@detector_options
@FORCE
@click.option("-o", "--output", metavar="FILE.png|svg|pdf", type=OUTPUT_FILE, help="Where the plot goes.")
def command(detectors: tuple[str, ...], lanes: float | None, length: float | None, output: str | None, **terms: Unpack[StationOptions]) -> None:
    """Fit the triangle of flow and density to a detector's data, and plot both."""
    from ..plots.calibration import triangle
    from ..plots.figure import picture_file, save

    detector = detectors[0]
    picture = guard_output(picture_file(output or Path(detector).stem + "-diagram.png"))
    states = read_states(detectors, lanes, wanted_by(**terms), length)
    try:
        found = fit(states)
    except Problem as problem:
        raise Problem(f"{detector}: {problem}") from None
    if states.attrs["lines"]:
        tell(*states.attrs["lines"], "")
    tell(f"free_flow_speed = {found.speed:.4g}  # km/h", f"wave_speed = {found.wave:.4g}  # km/h",
         f"jam_density = {found.jam:.4g}  # vehicles/km", f"saturation_flow = {found.capacity:.5g}  # vehicles/h")
    tell("", f"{found.rows} rows, {found.queued} of them of queued traffic; misses {found.rmse:,.0f} vehicles/h in the root mean square")
    if found.warning:
        tell(found.warning)
    save(triangle(states, found, f"{Path(detector).stem}: flow and density"), picture)
    tell("", str(picture))
