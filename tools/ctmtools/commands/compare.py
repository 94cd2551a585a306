"""ctm-tools compare"""

from __future__ import annotations

from collections.abc import Iterator
from typing import TYPE_CHECKING

import click

from ..approaches.by_approach import compared
from ..assignment.comparing import pair_changes
from ..exports.table_file import kind_of, table_bytes
from ..files.writing import write
from ..report.comparability import mismatches, names_of, other_lanes_and_speeds
from ..report.comparing import compare, part_of, totals, travel
from ..report.reading import Report, read_report
from ..report.summary import number_text
from ..texts.cells import frame_text
from ..texts.text_table import table
from ..yielding.fixed_greens import lost_at_random
from .options import FORCE, OUTPUT_FILE, Finite, on_reports
from .telling import tell

if TYPE_CHECKING:
    import pandas

EPILOG = """\b
Examples:
  ctm-tools compare arterial-0.report arterial-wave.report
  ctm-tools compare plan-a.report plan-b.report --plot difference.png
  ctm-tools compare plan-a.report plan-b.report --by movement -o movements.xlsx
  ctm-tools compare plan-a.report plan-b.report -o cells.csv --value-of-time 12

Where routes that `assign` wrote stand beside both, it prints by pair which drivers gained and which lost.

With --plot both reports need records, and the cells of the route are those that both have."""

LEAST_WAIT = 0.05  # s of control delay, by which an approach has to differ to be printed
MOST_ROADS = 6  # so many roads are printed with their travel time


@click.command(epilog=EPILOG)
@click.argument("first", metavar="A", type=click.Path())
@click.argument("second", metavar="B", type=click.Path())
@click.option("--rows", default=10, show_default=True, type=click.IntRange(0), help="How many cells are listed.")
@FORCE
@click.option("-o", "--output", metavar="FILE", type=OUTPUT_FILE,
              help="Write the rows of all cells there, or of all of --by: a workbook, FILE.xlsx, Parquet, else CSV.")
@click.option("--by", type=click.Choice(["cell", "approach", "movement"]), default="cell", show_default=True,
              help="What a row of -o is of.")
@click.option("--plot", "picture", metavar="FILE.png|svg", type=OUTPUT_FILE,
              help="Draw the difference of the densities, B less A, as a time-space diagram.")
@click.option("--road", metavar="ROAD", help="The road to draw; else the longest route.")
@click.option("--value-of-time", metavar="MONEY", type=Finite(0), help="What an hour of delay costs.")
@on_reports
def command(first: str, second: str, rows: int, output: str | None, by: str, picture: str | None, road: str | None,
            value_of_time: float | None, units: str | None, network: str | None) -> None:
    """Compare two reports: delay, vehicles that left and travel times, the greatest changes first.

    A cell's delay counts where vehicles waited, so a shorter queue shows at the cells that it no longer reaches.
    """
    one, two = read_report(first, units, network), read_report(second, units, network)
    frame, sums = compare(one, two), totals(one, two, value_of_time)
    unit = frame.attrs["units"]["delay"]
    for letter, name, path in zip("AB", names_of((one, two)), (first, second)):
        tell(f"{letter}  {name}" + (f" ({path})" if name != path else ""))
    for line in mismatches(one, two):
        tell(f"warning: {line}")
    for line in other_lanes_and_speeds(one, two):
        tell(line)
    tell()
    lines = [("", "A", "B", "B - A", "")]
    for name, row in sums.iterrows():
        part = part_of(row.rise, row["first"])
        change = f"{part:+.1%}" if abs(part) >= 0.0005 else ""
        of = {"delay": f", {unit}", "cost of the delay": ""}.get(str(name), ", vehicles")
        lines.append((f"{name}{of}", number_text(row["first"]), number_text(row["second"]), signed(row.rise), change))
    tell(*table(lines, right=(1, 2, 3, 4)))
    for line in [*_at_random(one, two), *_approaches(one, two, rows), *_travel(travel(one, two)), *pair_changes(one, two)]:
        tell(line)
    changed = frame[(frame.delay_rise.abs() >= 0.005) | (frame.left_rise.abs() >= 0.005)]
    if changed.empty:
        tell("", "No cell differs.")
    else:
        tell("", f"The greatest changes of delay, {min(rows, len(changed))} of {len(changed)} cells that differ, "
             f"in {unit}; vehicles that left:", "")
        heads = ("cell", "A", "B", "B - A", "left A", "left B", "B - A")
        cells = [(cell, *map(_told, (row.delay_first, row.delay_second)), signed(row.delay_rise),
                  *map(_told, (row.left_first, row.left_second)), signed(row.left_rise))
                 for cell, row in changed[:rows].iterrows()]
        tell(*table([heads, *cells], right=range(1, 7)))
    if output:
        _write(output, frame if by == "cell" else compared(one, two, by))
    if picture:
        from ..plots.difference import draw
        from ..plots.figure import save, target

        save(draw(one, two, road), target(two, "difference", picture))
        tell("", str(picture))


def _write(output: str, frame: pandas.DataFrame) -> None:
    """Writes the rows by the ending of the file's name."""
    rows = frame.reset_index()
    rows.attrs = frame.attrs
    write(output, table_bytes(rows, output) if kind_of(output) else frame_text(frame, float_format="%.6f"))


def _at_random(first: Report, second: Report) -> Iterator[str]:
    """What is lost by coming at random beside the delays, where it is known of both."""
    one, two = lost_at_random(first), lost_at_random(second)
    if one is None or two is None or not any([*one.values(), *two.values()]):
        return
    yield from ("", "Lost by coming at random, by the Highway Capacity Manual and no part of the delay, in vehicle-hours:", "")
    rows = [(where, f"{one[where]:,.2f}", f"{two[where]:,.2f}", signed(two[where] - one[where])) for where in one
            if one[where] or two[where]]
    yield from table([("", "A", "B", "B - A"), *rows], right=(1, 2, 3))


def _approaches(first: Report, second: Report, rows: int) -> Iterator[str]:
    """The approaches whose control delay differs."""
    if not all(report.recorded and report.network and report.units.known and report.units.approaches for report in (first, second)):
        return
    frame = compared(first, second)
    changed = frame[(frame.delay_each_rise.abs() >= LEAST_WAIT) | (frame.level_first != frame.level_second)]
    if changed.empty:
        return
    yield from ("", f"Control delay of each vehicle in s, level of service and demand by capacity, {min(rows, len(changed))} of "
                f"{len(changed)} approaches that differ:", "")
    lines = [(name, f"{row.delay_each_first:,.1f}", f"{row.delay_each_second:,.1f}", signed(round(row.delay_each_rise, 1)),
              f"{row.level_first} {row.level_second}", f"{row.ratio_first:.2f}", f"{row.ratio_second:.2f}")
             for name, row in changed[:rows].iterrows()]
    yield from table([("approach", "A", "B", "B - A", "level A B", "d/c A", "d/c B"), *lines], right=(1, 2, 3, 5, 6))


def _travel(frame: pandas.DataFrame) -> Iterator[str]:
    """The roads whose mean travel time differs."""
    changed = frame[frame.rise.abs() >= 0.005]
    if changed.empty:
        return
    yield from ("", f"Mean travel time from end to end in min, {min(MOST_ROADS, len(changed))} of {len(changed)} roads that "
                "differ:", "")
    rows = [(road, number_text(row["first"]), number_text(row["second"]), signed(row.rise))
            for road, row in changed[:MOST_ROADS].iterrows()]
    yield from table([("road", "A", "B", "B - A"), *rows], right=(1, 2, 3))


def _told(value: float) -> str:
    return "none" if value != value else number_text(value)


def signed(value: float) -> str:
    """A difference with its sign."""
    text = number_text(abs(value))
    return "0" if text == "0" else ("+" if value > 0 else "-") + text
