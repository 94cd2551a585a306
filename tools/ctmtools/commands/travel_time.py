"""ctm-tools travel-time"""

from __future__ import annotations

from typing import TYPE_CHECKING

import click

from ..files.writing import write
from ..problem import Problem
from ..report.reading import Report, read_report
from ..report.summary import number_text, where
from ..report.travel import chain_of, travel_times
from ..texts.cells import frame_text
from ..texts.quantities import duration
from ..texts.text_table import table
from .options import FORCE, OUTPUT_FILE, on_reports
from .telling import tell

if TYPE_CHECKING:
    import pandas

EPILOG = """\b
Examples:
  ctm-tools travel-time bottleneck.report
  ctm-tools travel-time bottleneck.report --road m --every "15 min"
  ctm-tools travel-time bottleneck.report --from m.0 --to m.5 --every "15 min" --plot travel.png

A place is ROAD.KM, the nearest boundary of cells; or a gate, with the wait in it, or an exit. The route between
two places is that of the fewest cells. A row is of the vehicles that depart in its time: how many, and the mean, the least
and the most time that they need. Columns of the CSV: time, entered (vehicles), mean, least, most, free, delay (min), speed (km/h),
step; where the units aren't known, places are cells and times are steps."""


@click.command("travel-time", epilog=EPILOG)
@click.argument("report", metavar="REPORT", type=click.Path())
@click.option("--road", metavar="ROAD", help="The road from its beginning to its end; else the longest route.")
@click.option("--from", "begin", metavar="PLACE", help="Where the route begins.")
@click.option("--to", "end", metavar="PLACE", help="Where it ends.")
@click.option("--every", metavar="TIME", help="A row for each such time, as \"15 min\"; else one for all.")
@FORCE
@click.option("-o", "--output", metavar="FILE.csv", type=OUTPUT_FILE, help="Write the rows there.")
@click.option("--plot", "picture", metavar="FILE.png|svg|pdf", type=OUTPUT_FILE,
              help="Draw the travel time by departure, over time.")
@on_reports
def command(report: str, road: str | None, begin: str | None, end: str | None, every: str | None, output: str | None,
            picture: str | None, units: str | None, network: str | None) -> None:
    """Print the travel times along a road or a route, by time of departure.

    They come from the curves of arrival and departure, since the vehicle that comes first leaves first. Flows are taken as even
    between records, also within a step.
    """
    read = read_report(report, units, network)
    cells = chain_of(read, begin, end, road)
    frame = travel_times(read, cells, _seconds(read, every))
    for line in told_times(read, cells, frame):
        tell(line)
    if output:
        write(output, frame_text(frame, index=False, float_format="%.6g"))
    if picture:
        from ..plots.figure import save, target
        from ..plots.travel import draw

        save(draw(read, begin, end, road), target(read, "travel-time", picture))
        tell("", str(picture))


def _seconds(report: Report, every: str | None) -> float | None:
    """The length of a row in seconds, or in steps where the units aren't known."""
    if every is None:
        return None
    try:
        bare = float(every)
    except ValueError:
        if not report.units.known:
            raise Problem(f"--every {every}: the units aren't known, so say a number of steps") from None
        bare = float(duration(every, "--every"))
    if bare < (report.units.step or 1):
        raise Problem(f"--every {every}: must be a step or more")
    return bare


def told_times(report: Report, cells: list[str], frame: pandas.DataFrame) -> list[str]:
    """The rows of travel times, below a line on the way."""
    unit = frame.attrs["units"]["mean"]
    head = f"{report.title}: from {where(report, cells[0], True)} to {where(report, cells[-1])}"
    if frame.empty:
        return [head, "", "No vehicle departs there."]
    rows: list[tuple[str, ...]] = [("departure from", "vehicles", f"mean, {unit}", "least", "most", "km/h")]
    for row in frame.itertuples():
        clock = report.units.clock(row.step) if report.units.known else f"{row.step:g}"
        rows.append((clock, number_text(row.entered), *map(figure, (row.mean, row.least, row.most, row.speed))))
    return [f"{head}, {_free(report, cells, frame)}", "", *table(rows, right=range(1, 6))] + _late(frame)


def _free(report: Report, cells: list[str], frame: pandas.DataFrame) -> str:
    """The travel time at free flow; where speed limits hold it may be another in each row."""
    unit, bounds = frame.attrs["units"]["mean"], [number_text(bound) for bound in (frame["free"].min(), frame["free"].max())]
    if report.network is None or not any(cell in report.network.paces for cell in cells):
        return f"{bounds[0]} {unit} at free flow, {len(cells)} steps"
    return f"{' to '.join(dict.fromkeys(bounds))} {unit} at free flow by the speed limits in force, {len(cells)} cells"


def figure(value: float) -> str:
    """A figure as tables show it, also one that isn't known."""
    return number_text(value) if value == value else "-"


def _late(frame: pandas.DataFrame) -> list[str]:
    late = int(frame["mean"].isna().sum())
    return [f"  - where not all have arrived by the end, in {late} row{'s'[:late > 1]}"] if late else []
