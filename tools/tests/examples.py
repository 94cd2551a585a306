"""The examples, and their reports by the plain recurrences."""

from pathlib import Path

import plain_model

from ctmtools.runs.outputs import write_units
from ctmtools.study.network_text import build
from ctmtools.study.reading import read_scenario
from ctmtools.units import OfNetwork, units_path

TOOLS = Path(__file__).resolve().parents[1]
EXAMPLES = TOOLS.parent / "examples"


def study_path(name):
    """The file of a study: an example, or one of the tests."""
    example = EXAMPLES / f"{name}.toml"
    return example if example.exists() else TOOLS / "tests" / "studies" / f"{name}.toml"


def save_report(folder, name, every=1):
    """Builds a study into a folder and runs it by the plain recurrences; gives the report's path."""
    built = build(read_scenario(study_path(name)))
    path = Path(folder) / f"{name}.report"
    path.with_suffix(".csv").write_text(built.text)
    path.write_bytes(plain_model.report(built.text.encode(), every))
    built.units.network = OfNetwork(f"{name}.csv")
    write_units(units_path(path), built.units)
    return path
