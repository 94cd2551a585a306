"""ctm-tools lint"""

from __future__ import annotations

import click

from ..files.reading import read_as
from ..network_file.warnings import examine, shortened
from ..units import read_units, units_path
from .telling import note, tell

EPILOG = """\b
Examples:
  ctm-tools lint examples/interchange.csv
  ctm-tools lint --strict my-network.csv

The status is 0 where the program accepts the file, 1 where it has a fault (or, with --strict, a warning), and 2 where
it couldn't be looked at."""


@click.command(epilog=EPILOG)
@click.argument("network", metavar="NET.csv", type=click.Path())
@click.option("--all", "complete", is_flag=True, help="Print every warning, and not only the first few of each kind.")
@click.option("--strict", is_flag=True, help="End with status 1 for a warning too.")
def command(network: str, complete: bool, strict: bool) -> int:
    """Print what `ctm check` says of a network file, explain its first fault, and warn of what no refusal covers.

    Of the fault it prints the line of the file, the field, its value, what was expected, and what may be meant.
    """
    findings = examine(read_as(network, "a network"), network, note, read_units(units_path(network)))
    tell(findings.answer)
    if findings.fault:
        tell(f"{network}: {findings.fault}")
        if findings.shown:
            tell(findings.shown)
        return 1
    lines = [f"line {warning.line}: {warning.text}" for warning in findings.warnings] if complete \
        else shortened(findings.warnings)
    for line in lines:
        tell(f"{network}: warning: {line}")
    if not lines:
        tell(f"{network}: no fault and no warning")
    return 1 if strict and lines else 0
