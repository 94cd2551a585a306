"""What an assignment is written as: the study with its shares, its network, its report, its ways and its pictures."""

from __future__ import annotations

from dataclasses import dataclass
from pathlib import Path
from typing import Any

from ..files.writing import guard_folder, write
from ..files.written_over import guard_output
from ..network_file.checksums import checksum
from ..plans.searching import moved_to
from ..problem import Problem
from ..report.reading import Report
from ..runs.outputs import guard_network, guard_report, write_units
from ..runs.running import opened, placed, run_into
from ..study.writing import study_text
from ..units import OfWays, units_path
from .assigned_study import AssignedStudy
from .assigning import Assignment, Round
from .ways_file import WayRow, ways_path, ways_text


@dataclass(frozen=True)
class Places:
    """Where all of it goes: beside the study, under its name."""

    study: Path

    @property
    def report(self) -> Path:
        """The report; the network and the units go beside it."""
        return self.study.with_suffix(".report")

    @property
    def ways(self) -> Path:
        """The ways."""
        return ways_path(self.report)

    @property
    def pictures(self) -> tuple[Path, Path]:
        """The pictures of the gap and of the ways."""
        return self.study.with_suffix(".gap.png"), self.study.with_suffix(".ways.png")

    def guard(self, source: Path, earlier: Path | None) -> None:
        """Refuses to write over the study that is assigned or the earlier one, or over what these tools haven't made."""
        if self.study.suffix != ".toml":
            raise Problem(f"{self.study}: a study's name ends with .toml")
        guard_folder(self.study)
        for study, what in ((source, "is the study that is assigned"), (earlier, "is the assignment whose routes the drivers have")):
            if study is not None and self.study.resolve() == study.resolve():
                raise Problem(f"{self.study}: {what}; name another file with -o")
        guard_output(self.study)
        guard_network(self.report.with_suffix(".csv"))
        guard_report(self.report)


def places_of(source: str | Path, output: str | Path | None = None) -> Places:
    """Where an assignment goes: where it is asked for, else the study's name with .assigned.toml in this folder."""
    return Places(Path(output) if output else Path(Path(source).stem + ".assigned.toml"))


@dataclass(frozen=True)
class Written:
    """What was written: the last round as the run of the study has it, its report, the ways, and what is reported of those who give way."""

    last: Round
    report: Report
    rows: list[WayRow]
    passing: list[str]


def written(assignment: Assignment, last: Round, values: dict[str, Any], places: Places) -> Written:
    """Writes the study, runs it, and writes its network, its report and its ways; the pictures aren't drawn.

    What passes of those who give way is worked out anew there, as `run` does, and so are greens that follow traffic. Then gap and
    times are of that run too.
    """
    study = assignment.study
    made = AssignedStudy(study, values, assignment.forks, assignment.parts, assignment.bounds)
    values = moved_to(made.made(places.ways.name, assignment.let_through), study.path, places.study)
    write(places.ways, ways_text(assignment.rows()))
    write(places.study, study_text(values, f"{study.path.name} with the shares that ctm-tools assign found"))
    prepared = opened(places.study)
    told = [*prepared.built.remarks, *(f"warning: {line}" for line in prepared.built.warnings)] if prepared.built else []
    begun = {*assignment.shared.built.remarks, *(f"warning: {line}" for line in assignment.shared.built.warnings)}
    report = run_into(places.report, placed(prepared, places.report), None, assignment.workers)
    if study.yields or study.actuated:
        last = assignment.by_run_of(report, last)
    rows = assignment.rows()
    _mark_ways(report, places, ways_text(rows), assignment.departures.width)
    return Written(last, report, rows, [line for line in told if line not in begun] if assignment.yielding else [])


def _mark_ways(report: Report, places: Places, text: str, width: int) -> None:
    """Writes the ways of a report, and in its units that they are its own."""
    write(places.ways, text)
    units = report.units
    units.ways = OfWays(checksum(text.encode()), units.network.checksum, width)
    write_units(units_path(places.report), units)
