"""ctm-tools build"""

from __future__ import annotations

import click

from ..runs.outputs import guard_network, network_target, write_network
from ..study.messages import built_lines
from ..study.network_text import build
from ..study.reading import read_scenario
from ..units import units_path
from ..yielding.fixed_greens import note_losses
from .options import ALLOW_FILES, FORCE
from .telling import tell

EPILOG = """\b
Examples:
  ctm-tools build examples/bottleneck.toml
  ctm-tools build examples/interchange.toml -o /tmp/interchange.csv

tools/README.md lists the study's keys. Without -o the network is written into the folder one is in. A file that
these tools haven't made is written over only where -o names it."""


@click.command(epilog=EPILOG)
@click.argument("study", type=click.Path())
@ALLOW_FILES
@FORCE
@click.option("-o", "--output", metavar="NET.csv", type=click.Path(), help="Where the network goes.")
def command(study: str, output: str | None) -> None:
    """Make the network file of STUDY.toml, and beside it the file of its units, NET.units.json.

    What had to be rounded to whole cells, steps and parts by more than 0.1 % is printed: the length or flow asked for
    against that modelled. So is what closures leave where they overlap, and what in the study can hardly be meant.
    """
    found = read_scenario(study)
    built = build(found)
    note_losses(found, (), built)
    target = network_target(study, output)
    guard_network(target)
    write_network(built, target)
    lines = built.text.count("\n")
    tell(f"{target} and {units_path(target)}: {lines} lines, a step of {built.units.step:g} s")
    for line in built_lines(built):
        tell(f"  {line}")
