"""The options that say how files of detectors are read, of each command that reads some."""

from __future__ import annotations

from collections.abc import Callable
from typing import Any, TypeVar

import click

from ..detectors.days import ORDERS
from ..detectors.rules import RULES

Command = TypeVar("Command", bound=Callable[..., Any])
OPTIONS = [
    click.option("--station", metavar="NAME", help="The station that is taken."),
    click.option("--dates", multiple=True, metavar="DATE|all|weekdays|monday..",
                 help="The days that are taken; may be given again. By default all."),
    click.option("--date-order", type=click.Choice(ORDERS), help="Of dates as 03/12/2019, where the files don't show it."),
    click.option("--average", type=click.Choice(["mean", "median"]), help="Of each time the mean or the median of the days."),
    click.option("--leave-out", multiple=True, metavar="all|RULE|RULE=LIMIT",
                 help=f"Rows of broken detectors: {', '.join(RULES)}, day; may be given again."),
    click.option("--holidays", multiple=True, metavar="DATE|COUNTRY", help="Days that are left out; may be given again."),
    click.option("--missing", type=click.Choice(["error", "zero", "interpolate"]), help="What intervals without a flow are."),
    click.option("--per", type=click.Choice(["interval", "hour"]), help="Of what flows are, where the file doesn't say it."),
    click.option("--speed-unit", type=click.Choice(["km/h", "mph", "m/s"]), help="Of speeds, where the file doesn't say it."),
    click.option("--occupancy-unit", type=click.Choice(["%", "share"]), help="Of occupancies, where the file doesn't say it."),
    click.option("--interval", metavar="TIME", help="How long an interval lasts, as \"5 min\"."),
    click.option("--zone", metavar="ZONE", help="The time zone of the road, as Europe/Berlin, which shows days of 23 and 25 hours."),
    click.option("--separator", metavar="SIGN", help="Between fields, where the first line doesn't show it."),
    click.option("--decimal", type=click.Choice([".", ","]), help="The decimal sign, where it is a comma."),
]


def detector_options(command: Command) -> Command:
    """Adds the options to a command, which takes them together as keywords."""
    for option in reversed(OPTIONS):
        command = option(command)
    return command
