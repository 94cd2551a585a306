"""ctm-tools meter"""

from __future__ import annotations

from collections.abc import Iterator
from contextlib import ExitStack
from dataclasses import replace
from fractions import Fraction
from pathlib import Path
from typing import Any

import click

from ..files.writing import write
from ..problem import Interrupted, Problem
from ..report.routes import roads_and_gates
from ..report.comparing import side_by_side
from ..report.reading import Report
from ..report.summary import number_text, where
from ..runs.metered_run import MeteredRun, kept_path, metered_run
from ..runs.outputs import guard_report
from ..study.messages import built_lines as told_of
from ..study.network_text import build
from ..study.plan import Meter, Scenario
from ..study.reading import read_scenario
from ..texts.cells import frame_text
from ..texts.quantities import duration
from ..texts.text_table import table
from ..units import units_path
from .branch import beside_each_other
from .compare import signed
from .options import ALLOW_FILES, FORCE, OUTPUT_FILE, Finite
from .progress import bar
from .telling import note, tell

EPILOG = """\b
Examples:
  ctm-tools meter examples/feedback.toml
  ctm-tools meter examples/feedback.toml --gain 80 --plot rates.png --rates rates.csv
  ctm-tools meter examples/meter.toml --ramp ramp --occupancy 15

A study's [[meters]] have the keys ramp (a road or a gate), road and at (km) of the detector, gain, occupancy, interval,
least, most, start and end. Occupancies are in per cent of the jam density. Without a detector's place it is the cell behind
the merge; without a set point it is the occupancy at which the detector's cell carries the most.

What was reached stands in NAME-metered.meter.json until the report is written: the same call goes on from there where it was
ended."""
MOST_PLACES = 6  # so many roads and gates are printed with their change of delay


@click.command(epilog=EPILOG)
@click.argument("source", metavar="STUDY.toml", type=click.Path())
@ALLOW_FILES
@click.option("--ramp", metavar="RAMP", help="The metered ramp, where the study has no [[meters]].")
@click.option("--gain", metavar="K", type=Finite(0, min_open=True),
              help="Vehicles/h for each per cent of occupancy; by default 70.")
@click.option("--occupancy", metavar="PERCENT", type=Finite(0, 100, min_open=True, max_open=True), help="The set point.")
@click.option("--interval", metavar="TIME", help="From one rate to the next; by default 1 min.")
@click.option("--least", metavar="RATE", type=Finite(0), help="The least rate, vehicles/h; by default 240.")
@click.option("--most", metavar="RATE", type=Finite(0), help="The greatest; by default what the ramp can pass.")
@FORCE
@click.option("-o", "--output", metavar="FILE.report", type=click.Path(), help="Where the report of the metered run goes.")
@click.option("--rates", metavar="FILE.csv", type=OUTPUT_FILE, help="Write the rates and occupancies there.")
@click.option("--plot", "picture", metavar="FILE.png|svg|pdf", type=OUTPUT_FILE, help="Draw them over time.")
@click.option("--value-of-time", metavar="MONEY", type=Finite(0), help="What an hour of delay costs.")
def command(source: str, ramp: str | None, output: str | None, rates: str | None, picture: str | None,
            value_of_time: float | None, **figures: Any) -> None:
    """Run a study with ramp meters that follow the occupancy behind them, by ALINEA, beside one without.

    The run goes from moment to moment: at each the program's saved run is gone on with under the rate that follows from
    what the detector saw. The report is that of the network with all rates in it.
    """
    target = Path(output or Path(source).stem + "-metered.report")
    guard_report(target)
    study = read_scenario(source)
    meters = _meters(study, ramp, figures)
    built = build(replace(study, meters=[]))
    for line in told_of(built):
        tell(line)
    try:
        with ExitStack() as stack:
            done = metered_run(built, study.path, meters, target, note,
                               lambda count: stack.enter_context(bar(count, "intervals")))
    except KeyboardInterrupt:
        raise Interrupted("stopped; the same call goes on from the last interval" if kept_path(target).exists() else
                          "stopped; nothing is kept yet") from None
    tell()
    for line in _page(done, value_of_time):
        tell(line)
    if picture:
        from ..plots.figure import save, target as picture_target
        from ..plots.rates import draw

        save(draw(done.report, done.rates, done.gauges), picture_target(done.report, "rates", picture))
        tell("", str(picture))
    if rates:
        write(rates, frame_text(done.rates, index=False, float_format="%.6g"))
    tell("", f"Report {target}, units {units_path(target)}, network {target.with_suffix('.csv')}")


def _meters(study: Scenario, ramp: str | None, figures: dict[str, Any]) -> list[Meter]:
    """The meters of a study, or that of a ramp, with the figures that are said on the command line."""
    if ramp is not None and study.meters:
        raise Problem("--ramp: the study says its [[meters]]; take them away, or leave --ramp")
    if ramp is None and not study.meters:
        raise Problem(f"{study.path}: has no [[meters]]; say a ramp with --ramp")
    said: dict[str, Any] = {key: Fraction(value) if isinstance(value, float) else value
                            for key, value in figures.items() if value is not None}
    if "interval" in said:
        said["interval"] = duration(said["interval"], "--interval")
    return [replace(one, **said) for one in (study.meters or [Meter(ramp or "", place="--meter")])]


def _page(done: MeteredRun, value_of_time: float | None) -> Iterator[str]:
    """What is reported of a metered run."""
    without, report = done.without, done.report
    yield f"{without.title}: ramp meters with feedback, ALINEA"
    yield ""
    heads = ("ramp", "detector", "set point, %", "gain", "rates, vehicles/h", "least set")
    rows = [(gauge.meter.ramp, where(report, gauge.detector), f"{gauge.wanted:.4g}", f"{float(gauge.meter.gain):g}",
             f"{gauge.least:,.6g} to {gauge.most:,.6g}", number_text(done.rates[done.rates.ramp == gauge.meter.ramp].rate.min()))
            for gauge in done.gauges]
    yield from table([heads, *rows], right=range(2, 6))
    yield ""
    frame = side_by_side({"without": without, "metered": report}, value_of_time)
    yield from beside_each_other(frame, "")
    yield ""
    yield from _places(without, report)
    yield ""
    rise, unit = frame.rise["metered"], frame.attrs["units"]["delay"]
    if rise <= -0.005:
        yield f"The meters lower the delay by {number_text(-rise)} {unit}, {-frame.part['metered']:.1%}."
    elif rise >= 0.005:
        yield f"The meters don't lower the delay: it rises by {number_text(rise)} {unit}."
    else:
        yield "The meters don't lower the delay: it is the same."


def _places(without: Report, report: Report) -> Iterator[str]:
    """The delay of the roads and gates in which it changes most."""
    changes = []
    for name, cells in roads_and_gates(report).items():
        one, two = (report.units.hours(float(each.cells.wait[cells].sum())) for each in (without, report))
        if abs(two - one) >= 0.005:
            changes.append((abs(two - one), name, one, two))
    rows = [(name, number_text(one), number_text(two), signed(two - one)) for _, name, one, two in sorted(changes, reverse=True)]
    if rows:
        yield from table([("delay, vehicle-hours", "without", "metered", ""), *rows[:MOST_PLACES]], right=(1, 2, 3))
