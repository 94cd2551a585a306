"""Where the files that the commands make stand: beside each other, by default in the folder one is in."""

from __future__ import annotations

from pathlib import Path

from ..files.writing import beside, write
from ..files.written_over import FORCED
from ..network_file.checksums import checksum
from ..problem import Problem
from ..study.network_text import MADE, Built
from ..units import OfNetwork, Units, read_units, units_path, units_text

REPORT = b"report,"  # begins a report
STANDS = "stands there and wasn't made by ctm-tools; name another file with -o, or say --force"


def network_target(source: str | Path, output: str | Path | None = None) -> Path:
    """Where the network of a study goes: where it is asked for, else the study's name with .csv in this folder."""
    return Path(output) if output else Path(Path(source).stem + ".csv")


def report_target(source: str | Path, output: str | Path | None = None) -> Path:
    """Where a report goes: where it is asked for, else the study's or network's name with .report in this folder."""
    return Path(output) if output else Path(Path(source).stem + ".report")


def guard_network(path: Path) -> None:
    """Refuses to write over a network file that these tools haven't made."""
    if path.is_file() and not FORCED.get() and not path.read_bytes()[:len(MADE)] == MADE.encode():
        raise Problem(f"{path}: {STANDS}")


def guard_report(path: Path) -> None:
    """Refuses to write over what is no report, or one beside which no units stand, which these tools haven't made."""
    if path.is_file() and not FORCED.get() and not (units_path(path).exists() and path.read_bytes()[:len(REPORT)] in (b"", REPORT)):
        raise Problem(f"{path}: {STANDS}")


def write_network(built: Built, target: Path) -> None:
    """Writes a built network, and its units beside it, which keep what the old ones say of the report and the ways there."""
    path, units = units_path(target), built.units
    try:
        old = read_units(path)
    except Problem:  # what is no file of units is written over
        old = Units()
    units.network = OfNetwork(beside(target, path), built.network.steps, checksum(built.network.content))
    units.report, units.ways = old.report, old.ways
    write(target, built.text)
    write_units(path, units)


def write_units(path: str | Path, units: Units) -> None:
    """Writes the file of units."""
    write(path, units_text(units))
