"""A study run without its meters and with them, both to the end."""

from __future__ import annotations

from collections.abc import Callable, Sequence
from dataclasses import dataclass, replace
from pathlib import Path
from typing import TYPE_CHECKING


from ..moments.metering import Gauge, Metered, gauge_of, intervals, meter
from ..moments.moment import Runner
from ..problem import Problem
from ..program.calls import News
from ..report.reading import Report
from ..study.network_text import Built
from ..study.plan import Meter
from .running import Prepared, placed, run_into
from .running import run as run_network

if TYPE_CHECKING:
    import pandas

KEPT = ".meter.json"  # the ending of what is kept of a run that isn't done

Shown = Callable[[int], Callable[[], object]]  # takes how many intervals there are, and gives what is called after each


@dataclass
class MeteredRun:
    """The report without meters and that with them, the meters, and their rates.

    `rates` has a row for each interval and meter: `time`, `step`, `ramp`, `occupancy`, that in per cent which the detector saw in
    the interval before, and `rate` in vehicles/h.
    """

    without: Report
    report: Report
    gauges: Sequence[Gauge]
    rates: pandas.DataFrame


def kept_path(target: Path) -> Path:
    """Where what was reached of a metered run is kept: beside its report."""
    return target.with_suffix(KEPT)


def metered_run(built: Built, path: Path, meters: Sequence[Meter], target: Path | None = None, news: News | None = None,
                shown: Shown | None = None) -> MeteredRun:
    """The runs of a built study, whose file is at a path, without and with some meters.

    With a target the report with meters, its network and units are written there; until then what was reached is kept beside it,
    and the same call goes on from there.
    """
    try:
        gauges = [gauge_of(one, built.network, built.units) for one in meters]
        own = [replace(gauge) for gauge in gauges]  # their rates change
        done = shown(len(intervals(built, gauges))) if shown else None
        without = run_network(built.network.content, str(path), built.units, network=built.network)[1]
        found = meter(built, own, Runner(str(path), news=news), kept_path(target) if target else None, done)
        report = _report(found, path, target, news)
    except Problem as problem:
        raise Problem(f"{path}: {str(problem).removeprefix(f'{path}: ')}") from None
    if target:
        kept_path(target).unlink(missing_ok=True)
    rates = found.rates.copy()
    rates.insert(0, "time", report.units.stamps(rates.step))
    return MeteredRun(without, report, gauges, rates)


def _report(found: Metered, path: Path, target: Path | None, news: News | None) -> Report:
    """The report of the network with all rates in it."""
    built = found.built
    if target is None:
        return run_network(built.network.content, str(path), built.units, news=news, network=built.network)[1]
    prepared = Prepared(path, built.network.content, built.network, built.units, built)
    return run_into(target, placed(prepared, target), news=news)
