"""ctm-tools export"""

from __future__ import annotations

import json
from pathlib import Path

import click

from ..files.writing import write
from ..files.written_over import guard_output
from ..imports.importing import seconds
from ..problem import Problem
from ..report.reading import read_report
from .options import FORCE, OUTPUT_FILE, on_reports
from .telling import tell

EPILOG = """\b
Examples:
  ctm-tools export geojson bottleneck.report -o bottleneck.geojson
  ctm-tools export geojson bottleneck.report --every "15 min" -o quarters.geojson
  ctm-tools export geojson four-arms.report --by approach -o approaches.geojson"""


@click.group("export", epilog=EPILOG)
def command() -> None:
    """Write a report in the format of another program."""


@command.command("geojson", epilog="""\b
Example:
  ctm-tools export geojson bottleneck.report --every "15 min" -o quarters.geojson

A line for each cell, with its road, kilometres and lanes, the vehicles that went out of it and its delay. With --every a
line for each cell and each such time, with flow, density, speed and delay, and begin and end, by which QGIS's temporal
controller shows them one after the other. With --by approach or --by movement a point at the stop line of each, with
demand, capacity, control delay, level of service and queues, as `table` has them. Coordinates are longitude and latitude where the study says its points' crs; else
they are local, and the file says so.""")
@click.argument("report", metavar="REPORT", type=click.Path())
@click.option("-o", "--output", metavar="FILE.geojson", type=OUTPUT_FILE, help="Where it goes.")
@click.option("--every", metavar="TIME", help="The state in each such time, as \"15 min\"; it needs records.")
@click.option("--by", type=click.Choice(["cell", "approach", "movement"]), default="cell", show_default=True,
              help="What a feature is of.")
@FORCE
@on_reports
def geojson(report: str, output: str | None, every: str | None, by: str, units: str | None, network: str | None) -> None:
    """Write the cells with their flow, density and delay as GeoJSON, for QGIS."""
    from ..exports.geojson import by_service, collection

    target = output or Path(report).stem + ".geojson"
    if Path(target).suffix.lower() not in (".geojson", ".json"):
        raise Problem(f"{target}: its name ends with .geojson or .json")
    guard_output(target)
    read, span = read_report(report, units, network), seconds(every, "--every") if every else None
    made = collection(read, span) if by == "cell" else by_service(read, span, by)
    write(target, json.dumps(made) + "\n")
    where = made["units"]["coordinates"]
    tell(f"{target}: {len(made['features']):,} {'lines' if by == 'cell' else 'points'}" + (f"; coordinates are {where}" if "local" in where else ""))
