"""ctm-tools new"""

from __future__ import annotations

from pathlib import Path

import click

from ..files.writing import create
from ..problem import Problem
from ..study.beginning import KINDS, beginning
from .telling import tell

EPILOG = """\b
Examples:
  ctm-tools new own.toml
  ctm-tools new street.toml --road arterial
  ctm-tools run own.toml

Its comments have values that are typical of a motorway, a rural road, an arterial and a local street, and are marked as
typical. Put yours in their place. Nothing is written over."""


@click.command(epilog=EPILOG)
@click.argument("study", metavar="FILE.toml", type=click.Path())
@click.option("--road", "kind", type=click.Choice(list(KINDS)), default="motorway", show_default=True, help="The kind of road.")
def command(study: str, kind: str) -> None:
    """Write a study to begin with: a road with a junction at its end, with comments and typical values."""
    if not study.endswith(".toml"):
        raise Problem(f"{study}: a study's name ends with .toml")
    create(Path(study), beginning(kind))
    tell(f"{study}: a study to begin with; ctm-tools run {study} runs it")
