"""ctm-tools plot"""

from __future__ import annotations

from typing import Any

import click

from ..files.written_over import guard_output
from ..report.reading import read_report
from .options import FORCE, OUTPUT_FILE, Command, Finite, on_reports
from .telling import tell

EPILOG = """\b
Examples:
  ctm-tools plot time-space bottleneck.report -o bottleneck.png
  ctm-tools plot time-space interchange.report --road m --from 08:00 --until 09:30
  ctm-tools plot n-curves bottleneck.report --cell m01 --cell m20 --shifted
  ctm-tools plot queue interchange.report -o queue.svg
  ctm-tools plot delay examples/bottleneck.report
  ctm-tools plot map interchange.report

Axes are in clock time and kilometres where a file of units stands beside the report, as `run` writes it, and else in
steps and cells. time-space, n-curves and queue need records."""


@click.group(epilog=EPILOG)
def command() -> None:
    """Draw a report: time-space, n-curves, queue, delay, map or mfd.

    The picture goes where -o says, else into this folder under the report's name; its ending says the format.
    """


def on_picture(command: Command) -> Command:
    """The argument and the options of each plot."""
    command = FORCE(on_reports(command))
    command = click.option("-o", "--output", metavar="FILE.png|svg|pdf", type=OUTPUT_FILE,
                           help="Where the picture goes.")(command)
    return click.argument("report", metavar="REPORT", type=click.Path())(command)


def draw(kind: str, report: str, output: str | None, units: str | None, network: str | None, **options: Any) -> None:
    """Draws the picture of a kind into its file, and prints that file's name."""
    from ..plots.figure import save, target
    from ..plots.pictures import picture

    read = read_report(report, units, network)
    path = guard_output(target(read, kind, output))
    save(picture(read, kind, **options), path)
    tell(str(path))


def on_time(command: Command) -> Command:
    """The options of a part of the time."""
    command = click.option("--until", metavar="TIME", help="Draw to this time of day (or step).")(command)
    return click.option("--from", "begin", metavar="TIME", help="Draw from this time of day (or step) on.")(command)


@command.command("time-space", epilog="""\b
Examples:
  ctm-tools plot time-space bottleneck.report
  ctm-tools plot time-space interchange.report --first m20 --last r2
  ctm-tools plot time-space workzone.report --line "tail, by theory: 10:00:10 5, 14:13:20 1" """)
@on_picture
@on_time
@click.option("--road", metavar="ROAD", help="The road to draw; else the longest route from a gate.")
@click.option("--first", metavar="CELL", help="The first cell of the chain.")
@click.option("--last", metavar="CELL", help="The last cell of the chain.")
@click.option("--of", type=click.Choice(["density", "speed", "flow"]), default="density", show_default=True,
              help="What is shaded.")
@click.option("--line", "lines", metavar="TEXT", multiple=True, help="Draw a line as theory or observation has it, "
              "`LABEL: TIME KM, TIME KM, ..`; may be given again.")
def time_space(**named: Any) -> None:
    """Density, speed or flow over time and place along a chain of cells, with queues outlined."""
    draw("time-space", **named)


@command.command("n-curves", epilog="""\b
Examples:
  ctm-tools plot n-curves bottleneck.report --cell on --cell m20 --shifted
  ctm-tools plot n-curves bottleneck.report --background 3600""")
@on_picture
@on_time
@click.option("--cell", "cells", metavar="CELL", multiple=True, help="A cell; may be given again.")
@click.option("--background", metavar="FLOW", type=Finite(0), help="Take off this flow, in vehicles/h.")
@click.option("--shifted", is_flag=True, help="Move each curve on by the free-flow time to the last cell.")
def n_curves(**named: Any) -> None:
    """Cumulative curves: all vehicles that have left chosen cells, over time."""
    draw("n-curves", **named)


@command.command("queue", epilog="""\b
Examples:
  ctm-tools plot queue bottleneck.report
  ctm-tools plot queue interchange.report --road m --road r""")
@on_picture
@on_time
@click.option("--road", "roads", metavar="ROAD", multiple=True,
              help="Draw the queues that stand on this road alone; may be given again.")
def queue(**named: Any) -> None:
    """How far the most costly queues reach back and how many vehicles wait in each, over time."""
    draw("queue", **named)


@command.command("delay", epilog="""\b
Example:
  ctm-tools plot delay bottleneck.report""")
@on_picture
def delay(**named: Any) -> None:
    """The delay of each cell, as bars along the roads. It needs no records."""
    draw("delay", **named)


@command.command("map", epilog="""\b
Example:
  ctm-tools plot map interchange.report""")
@on_picture
def network_map(**named: Any) -> None:
    """The network drawn with its delays. It needs no records."""
    draw("map", **named)


@command.command("mfd", epilog="""\b
Example:
  ctm-tools plot mfd grid.report --interval "5 min\"""")
@on_picture
@click.option("--interval", metavar="TIME", help="The span of a point; by default 5 min.")
def mfd(**named: Any) -> None:
    """The network's fundamental diagram: mean flow over mean density of all lanes, from span to span."""
    draw("mfd", **named)
