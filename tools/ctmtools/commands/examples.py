"""ctm-tools examples"""

from __future__ import annotations

from pathlib import Path

import click

from ..files.writing import copy_folder
from ..problem import Problem
from ..program.calls import examples
from .telling import tell

KINDS = {".csv", ".md", ".osm", ".plans", ".report", ".toml", ".txt"}
EPILOG = """\b
Examples:
  ctm-tools examples my-examples
  ctm-tools run my-examples/bottleneck.toml

What each is of, and its figures on paper, is in my-examples/README.md. Nothing is written over: the folder must be new
or empty."""


@click.command(epilog=EPILOG)
@click.argument("folder", type=click.Path())
def command(folder: str) -> None:
    """Copy the examples into FOLDER: studies, networks, their reports, and what they read."""
    source = examples()
    if not source:
        raise Problem("there are no examples in a repository or a package of ctm around these tools")
    paths = [path.relative_to(source) for path in sorted(source.rglob("*")) if path.is_file() and path.suffix in KINDS]
    copy_folder(source, Path(folder), paths)
    tell(f"{folder}: {len(paths)} files; ctm-tools run {Path(folder) / 'bottleneck.toml'} runs the first")
