"""Runs of the program over studies and networks, recorded as finely as the program allows, and about how long they take."""

from __future__ import annotations

import dataclasses
import os
import time
from collections.abc import Callable, Sequence
from pathlib import Path
from typing import TypedDict, Unpack

from ..files.reading import read_as
from ..files.writing import beside, write
from ..moments.actuated_signals import ActuatedSignals
from ..moments.moment import Runner
from ..network_file.checksums import checksum, marked, units_of
from ..network_file.network import Network, network_of
from ..network_file.records import with_steps
from ..network_file.warnings import shortened, warnings_of
from ..problem import Problem
from ..program.calls import News, ask, in_words, recording_step, run_words, why
from ..report.reading import Report, report_of
from ..study.messages import built_lines
from ..study.network_text import Built
from ..study.plan import Scenario
from ..study.reading import read_scenario
from ..units import OfReport, Units, units_path
from ..yielding.fixed_greens import note_losses
from ..yielding.settling import MOST_RUNS, Done as Done, Settled, settled
from .outputs import guard_network, write_network, write_units

Shown = Callable[[int], Done]  # takes how many runs there may be, and gives what is called after each

PART = 20  # a run is estimated by its first part of so many


class Calling(TypedDict, total=False):
    """What a run of bytes is called with: another program, what gets news of it, and the network of the bytes, where it is read."""

    program: str | None
    news: News | None
    network: Network | None


def run(content: bytes, name: str, units: Units | None = None, every: int | None = None, workers: int | None = None,
        **calling: Unpack[Calling]) -> tuple[bytes, Report]:
    """The text of the report of a network's bytes, and the report itself with its units and its network.

    `every` is the number of steps from record to record, by default the least that the program's limit allows;
    `workers` the number of threads, by default that of the processors, where the program takes that option. `network`
    is that of the bytes, where it has been read already.
    """
    program, network = calling.get("program"), calling.get("network") or network_of(content, name)
    cells = len(network.kinds)
    if every is None:
        every = recording_step(network.steps, cells)
    answer = ask(run_words(every, many_workers(cells, workers), program), content, program, calling.get("news"))
    if answer.status:
        raise Problem(f"{name}: {why(answer, program)}")
    try:
        report = report_of(answer.out, name)
    except Problem:
        raise Problem(f"{name}: what {in_words(program)} wrote is no report of ctm") from None
    report.network = network
    if units is not None:
        report.units = units
    return answer.out, report


def settled_by_runs(study: Scenario, workers: int | None = None, program: str | None = None, done: Done | None = None,
                    kept: Path | None = None) -> Settled:
    """The network of a study, with what runs of the program settle: what passes of those who give way, and greens that follow
    traffic.

    Where it has both, each of the runs has greens that follow its traffic. With a file what was reached of greens is kept there.
    """
    def followed(built: Built, done: Done | None = None) -> Built:
        return ActuatedSignals(built, study, Runner(str(study.path)), kept).run(done) if study.actuated else built

    def run_built(built: Built, every: Sequence[int]) -> dict[int, Report]:
        built = followed(built)
        return {steps: run(built.network.content, str(study.path), built.units, steps, workers, program=program, network=built.network)[1]
                for steps in every}

    found = settled(study, run_built, done)
    return dataclasses.replace(found, built=followed(found.built, None if study.yields else done))


@dataclasses.dataclass
class Prepared:
    """A network file that is to be run: its path, its bytes, the network in them, and its units as the report has them.

    `built` is what was built of a study, and `settled` what runs settled of it.
    """

    path: Path
    content: bytes
    network: Network
    units: Units
    built: Built | None = None
    settled: Settled | None = None

    @property
    def told(self) -> list[str]:
        """The lines that are printed before the results: what `build` prints of a study, or the warnings of a network."""
        if self.built is not None:
            return list(built_lines(self.built))
        return [f"warning: {self.path}: {line}" for line in shortened(warnings_of(self.network, self.units))]


def opened(source: str | Path | Scenario, shown: Shown | None = None, kept: Path | None = None) -> Prepared:
    """The network of a study, which is built, or that of a file. Nothing is written.

    What passes of those who give way, and greens that follow traffic, are worked out by runs; `shown` gets how many of them,
    or steps, there may be, once. With a file what was reached of greens is kept there.
    """
    if isinstance(source, Scenario) or is_study(source):
        study = source if isinstance(source, Scenario) else read_scenario(source)
        count = MOST_RUNS if study.yields else round(study.duration / study.step) if study.actuated else 0
        found = settled_by_runs(study, done=shown(count) if shown and count else None, kept=kept)
        built = found.built
        note_losses(found.study, found.waits, built)
        return Prepared(study.path, built.network.content, built.network, built.units, built, found)
    path = Path(source)
    content = read_as(path, "a network")
    network = network_of(content, str(path))
    return Prepared(path, content, network, units_of(network, path))


def placed(prepared: Prepared, target: Path) -> Prepared:
    """A network with its place beside the report that is to come; one that was built is written there with the report."""
    if prepared.built is None:
        network = dataclasses.replace(prepared.units.network, path=beside(prepared.path, target))
        return dataclasses.replace(prepared, units=dataclasses.replace(prepared.units, network=network))
    path = target.with_suffix(".csv")
    guard_network(path)
    return dataclasses.replace(prepared, path=path)


def run_into(target: Path, prepared: Prepared, every: int | None = None, workers: int | None = None,
             news: News | None = None) -> Report:
    """Runs a prepared network, writes its report and units, and gives the report."""
    text, report = run(prepared.content, str(prepared.path), prepared.units, every, workers, news=news,
                       network=prepared.network)
    return kept(target, prepared, text, report)


def kept(target: Path, prepared: Prepared, text: bytes, report: Report) -> Report:
    """The report of a prepared network, which is written to a place with its units, and with the network that was built."""
    report.records.read()
    units = prepared.units
    if prepared.built is not None:
        write_network(prepared.built, prepared.path)
    write(target, text, lasting=True)
    marked(units, prepared.content, prepared.network.steps)
    units.report = OfReport(checksum(text), units.network.checksum)
    write_units(units_path(target), units)
    report.name, report.units, report.network = str(target), units, prepared.network
    return report


def many_workers(cells: int, workers: int | None) -> int:
    """The threads that so many cells are worth, as many as there are processors where they aren't said."""
    return (workers or processors()) if cells >= 1000 else 1


def is_study(source: str | Path) -> bool:
    """Whether a file is a study, by its ending, and not a network."""
    return Path(source).suffix.lower() == ".toml"


def processors() -> int:
    """How many processors this process may use."""
    return len(os.sched_getaffinity(0)) if hasattr(os, "sched_getaffinity") else os.cpu_count() or 1


def estimated(prepared: Prepared, every: int | None = None, workers: int | None = None) -> float | None:
    """About how many seconds a run of a prepared network takes, recorded each `every` steps; none of one of few steps.

    The program itself says nothing before its end, so its first steps are run before. What these take stands
    for all, so a run in which traffic grows on empty roads takes longer.
    """
    steps = prepared.network.steps
    every = recording_step(steps, len(prepared.network.kinds)) if every is None else every
    first = -(-steps // (PART * max(1, every))) * max(1, every)
    if not 1 < first < steps:
        return None
    try:
        one, more = (_seconds(prepared, count, every, workers) for count in (1, first))
    except Problem:  # the run itself shows it
        return None
    return one + max(0.0, more - one) * (steps - 1) / (first - 1)


def _seconds(prepared: Prepared, steps: int, every: int, workers: int | None) -> float:
    """The seconds that so many steps take, with what a run takes beside them."""
    content, network = with_steps(prepared.content, steps), dataclasses.replace(prepared.network, steps=steps)
    begun = time.monotonic()
    run(content, str(prepared.path), prepared.units, every, workers, network=network)
    return time.monotonic() - begun
