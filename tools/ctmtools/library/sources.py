"""What public functions take: a study or a report as one has it, or a file of it."""

from __future__ import annotations

from pathlib import Path

from ..report.reading import Report, read_report
from ..runs.running import Prepared, is_study, opened
from ..runs.running import run as run_network
from ..study.plan import Scenario
from ..study.study import Study, StudySource, scenario_from

NetworkSource = StudySource | Scenario  # a study, its text, or a file of one or of a network
ReportSource = Report | NetworkSource  # a report, a file of one, or a study that is run


def is_of_study(source: ReportSource) -> bool:
    """Whether what is given is a study, its text, or a file of one."""
    return isinstance(source, (Study, Scenario)) or isinstance(source, (str, Path)) and ("\n" in str(source) or is_study(source))


def prepared_from(source: NetworkSource) -> Prepared:
    """The network of a study, which is built, or that of a file."""
    return opened(str(source) if isinstance(source, (str, Path)) and not is_of_study(source) else scenario_from(source))


def ran(source: NetworkSource, every: int | None = None, workers: int | None = None) -> Report:
    """The report of a study or of a network file, which is called as its source is, for titles and pictures."""
    prepared = prepared_from(source)
    report = run_network(prepared.content, str(prepared.path), prepared.units, every, workers, network=prepared.network)[1]
    report.name = str(prepared.path)
    return report


def report_from(source: ReportSource) -> Report:
    """A report as one has it: itself, that of a file, or that of a study, which is run."""
    if isinstance(source, Report):
        return source
    return read_report(str(source)) if isinstance(source, (str, Path)) and not is_of_study(source) else ran(source)
