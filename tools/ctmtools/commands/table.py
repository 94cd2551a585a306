"""ctm-tools table"""

from __future__ import annotations

from typing import TYPE_CHECKING, Any

import click

from ..approaches.by_approach import by_approach
from ..exports.table_file import kind_of, table_bytes
from ..files.writing import write
from ..report.by_road import by_road
from ..report.reading import Report, read_report
from ..report.states import states, totals
from ..texts.cells import frame_text
from ..texts.quantities import duration
from ..yielding.fixed_greens import by_lane_group
from .options import FORCE, OUTPUT_FILE, Finite, on_reports
from .telling import put, tell

if TYPE_CHECKING:
    import pandas

LANE_GROUP = "lane-group"
SERVICE = ("approach", "movement")

EPILOG = """\b
Examples:
  ctm-tools table bottleneck.report -o bottleneck-table.csv
  ctm-tools table bottleneck.report --cell m20 --cell m21
  ctm-tools table bottleneck.report --by road --interval "15 min" --value-of-time 20
  ctm-tools table four-arms.report --by approach --interval "15 min" -o approaches.xlsx
  ctm-tools table bottleneck.report --separator ";" --decimal ","
  ctm-tools table bottleneck.report -o bottleneck-table.xlsx

Columns: time, cell, vehicles (in it), flow (vehicles/h), density (vehicles/km), speed (km/h), step, road, from_km,
to_km, lanes. Flow, density and speed are those from the time to the next one, and empty at the last. Where the units
aren't known, flow is in vehicles a step, density in vehicles a cell, speed in cells a step, and time is the step.
With --by road a row for each road and gate, and each --interval: time, step, road, left (vehicles), flow, density
(vehicles/km in a lane), level (of service by density, as the Highway Capacity Manual has it for motorways), speed, delay
(vehicle-hours), delay_each (s), queue (km); with --value-of-time cost too. With --by ramp the same of each route from a gate to
the merge that it leads to, with what waits in the gate.
With --by approach a row for each approach of a junction and each stop line of a study, with --by movement for each movement
of it, and each --interval: demand (vehicles/h that come), left (vehicles), capacity (vehicles/h), ratio (of demand and
capacity, of an approach that of its busiest lanes), delay_even (s for each vehicle, as the run has it, where vehicles come
evenly), delay_random (s, what the Highway Capacity Manual adds where they come at random), delay_each (s, both: the control
delay), level (of service by it), delay (vehicle-hours), queue and longest_queue (m, on so many lanes), and where there are
pockets over_pocket (vehicles that they can't hold at once); with --value-of-time cost too.
With --by lane-group what vehicles lose at fixed greens by coming at random, which is no part of the delay and `run` prints:
lane_group, vehicles (that come while no queue stands), part (of those that may pass), lost_each (s), lost (vehicle-hours),
queue_stands (min); with --value-of-time cost too. It needs fixed greens of a study, and records.
A workbook, FILE.xlsx, has the units in its first row; FILE.parquet has them in its schema, and needs the Python package
pyarrow.
With --totals: cell, vehicles (in it), entered, left (vehicles), delay (vehicle-hours), road, from_km, to_km, lanes at the end; with
--value-of-time cost too."""


@click.command(epilog=EPILOG)
@click.argument("report", metavar="REPORT", type=click.Path())
@FORCE
@click.option("-o", "--output", metavar="FILE", type=OUTPUT_FILE,
              help="Where it goes: a workbook, FILE.xlsx, Parquet, FILE.parquet, else CSV; without it CSV to standard output.")
@click.option("--totals", "ends", is_flag=True, help="The cells at the end, one row each; it needs no records.")
@click.option("--by", type=click.Choice(["cell", "road", "ramp", *SERVICE, LANE_GROUP]), default="cell", show_default=True, help="What a row is of.")
@click.option("--interval", metavar="TIME", help="By road, ramp, approach or movement: the span of a row, as \"15 min\"; else the whole time.")
@click.option("--value-of-time", metavar="MONEY", type=Finite(0),
              help="By anything but cells, or with --totals: what an hour costs.")
@click.option("--cell", "cells", metavar="CELL", multiple=True, help="These cells alone; may be given again.")
@click.option("--separator", default=",", show_default=True, help="What stands between fields.")
@click.option("--decimal", default=".", show_default=True, help="The decimal sign.")
@on_reports
def command(report: str, output: str | None, ends: bool, by: str, interval: str | None, value_of_time: float | None,
            cells: tuple[str, ...], separator: str, decimal: str, units: str | None, network: str | None) -> None:
    """Write a report as a tidy table with a header, for pandas, R and Excel."""
    kind = kind_of(output)
    if kind and (separator, decimal) != (",", "."):
        raise click.UsageError(f"--separator and --decimal are of CSV, and {output} is none")
    read = read_report(report, units, network)
    if by != "cell" and (ends or cells) or by == "cell" and (interval or value_of_time is not None and not ends):
        raise click.UsageError("--interval and --value-of-time go with --by road and --by ramp, approach and movement, --totals and "
                               f"--cell with --by cell, and --value-of-time with --by {LANE_GROUP} and --totals too")
    if by == LANE_GROUP and interval:
        raise click.UsageError(f"a row of --by {LANE_GROUP} is of the whole time, so it goes without --interval")
    frame = _frame(read, by, ends, interval, value_of_time)
    if cells:
        for cell in cells:
            if cell not in read.cells.index:
                raise click.UsageError(f"there is no cell {cell}")
        frame = frame[frame.cell.isin(cells)]
    if len(separator) != 1 or len(decimal) != 1 or separator == decimal:
        raise click.UsageError("the separator and the decimal sign are one character each, and differ")
    if "step" in frame and read.units.known and not kind:
        frame["time"] = read.units.stamps(frame.step)
    named = ", ".join(f"{column} in {unit}" for column, unit in frame.attrs["units"].items() if column != "time")
    terms: dict[str, Any] = {"sep": separator, "decimal": decimal, "index": False, "float_format": "%.9g", "lineterminator": "\n"}
    if output:
        write(output, table_bytes(frame, output) if kind else frame_text(frame, **terms))
        tell(f"{output}: {len(frame)} rows; {named}")
    else:
        put(frame_text(frame, **terms))


def _frame(report: Report, by: str, ends: bool, interval: str | None, value_of_time: float | None) -> pandas.DataFrame:
    """The rows that are asked for."""
    if by == LANE_GROUP:
        return by_lane_group(report, value_of_time)
    every = float(duration(interval, "--interval")) if interval else None
    if by in SERVICE:
        return by_approach(report, every, by, value_of_time)
    if by != "cell":
        return by_road(report, every, value_of_time, by)
    return totals(report, value_of_time) if ends else states(report)
