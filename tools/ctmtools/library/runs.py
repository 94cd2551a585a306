"""Studies built, run, metered and compared."""

from __future__ import annotations

from collections.abc import Sequence
from dataclasses import replace
from pathlib import Path
from typing import TYPE_CHECKING

from ..problem import Problem
from ..report.comparing import compare as compare_reports
from ..runs.running import placed, run_into
from ..study.network_text import Built
from ..study.network_text import build as build_network
from ..study.plan import Meter, Scenario
from ..study.study import StudySource, scenario_from
from .report import Report
from .sources import NetworkSource, ReportSource, prepared_from, ran, report_from

if TYPE_CHECKING:
    import pandas

    from ..runs.metered_run import MeteredRun


def build(study: StudySource | Scenario) -> Built:
    """The network of a study: its `text`, `units` and `rounding`."""
    return build_network(scenario_from(study))


def run(source: NetworkSource, output: str | Path | None = None, every: int | None = None, workers: int | None = None) -> Report:
    """The report of a study or of a network file, run by the program.

    `every` is the number of steps from record to record, 0 for none, by default the least that the program allows;
    `workers` the number of threads. With `output` the report is written there, and its units and the network of a study
    beside it.
    """
    if output is None:
        return Report.of(ran(source, every, workers))
    return Report.of(run_into(Path(output), placed(prepared_from(source), Path(output)), every, workers))


def meter(study: StudySource | Scenario, output: str | Path | None = None, meters: Sequence[Meter] = ()) -> MeteredRun:
    """A study run without its ramp meters and with them: both reports, and the rates by time.

    `meters` stand in the place of the study's `[[meters]]`. With `output` the report with meters is written there, its network
    and units beside it.
    """
    from ..runs.metered_run import metered_run

    read = scenario_from(study)
    chosen = list(meters) or read.meters
    if not chosen:
        raise Problem(f"{read.path}: has no [[meters]]")
    done = metered_run(build_network(replace(read, meters=[])), read.path, chosen, None if output is None else Path(output))
    return replace(done, without=Report.of(done.without), report=Report.of(done.report))


def compare(first: ReportSource, second: ReportSource) -> pandas.DataFrame:
    """A row for each cell of two reports: delay and gone of each and their rise, the greatest changes of delay first.

    Each is a report, a file of one, or a study, which is run. Delay is in vehicle-hours where both steps are known, else in
    vehicle-steps; gone is in vehicles, for an exit what has come to it.
    """
    return compare_reports(report_from(first), report_from(second))
