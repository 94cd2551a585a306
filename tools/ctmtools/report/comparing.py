"""Reports side by side: delay and vehicles that left, in all and, of two, cell by cell."""

from __future__ import annotations

from collections.abc import Mapping

import pandas

from ..problem import Problem
from .reading import Report
from .travel import road_times

LEAST_WHOLE = 0.005  # what is less is printed as 0, and nothing is printed as a part of 0
MOST_TIMES = 100  # what rises to more than so many times and one had next to none before, so how many times says nothing


def compare(first: Report, second: Report) -> pandas.DataFrame:
    """A row for each cell of both reports: delay and vehicles left of each and their rise, the greatest changes of delay first.

    Delay is in vehicle-hours where both steps are known, else in vehicle-steps; `left` is in vehicles, and of an exit those that
    have entered it.
    """
    known = first.units.known and second.units.known
    columns = {}
    for name, report in (("first", first), ("second", second)):
        delay = report.units.hours(report.cells.wait) if known else report.cells.wait
        columns[f"delay_{name}"], columns[f"left_{name}"] = delay, _left(report)
    frame = pandas.DataFrame(columns)
    frame["delay_rise"] = frame.delay_second.fillna(0) - frame.delay_first.fillna(0)
    frame["left_rise"] = frame.left_second.fillna(0) - frame.left_first.fillna(0)
    frame.index.name = "cell"
    order = frame.delay_rise.abs().sort_values(ascending=False, kind="stable").index
    frame = frame.loc[order, ["delay_first", "delay_second", "delay_rise", "left_first", "left_second", "left_rise"]]
    frame.attrs["units"] = {"delay": first.units.delay_unit if known else "vehicle-steps", "left": "vehicles"}
    return frame


def _left(report: Report) -> pandas.Series:
    """The vehicles that have left each cell; of one that nothing leaves, as an exit, those that have entered it."""
    return report.cells.gone.where(report.cells.gone > 0, report.cells.come)


def totals(first: Report, second: Report, value_of_time: float | None = None) -> pandas.DataFrame:
    """Vehicles that entered, left and are still inside, and the delay, of both reports, and the rise.

    With a value of time, in money an hour, there is a row of what the delay costs.
    """
    rows = side_by_side({"first": first, "second": second}, value_of_time)
    frame = rows[["entered", "left", "inside", "delay", *(["cost"] if value_of_time is not None else [])]].T
    frame = frame.rename(index={"inside": "inside at the end", "cost": "cost of the delay"})
    frame["rise"] = frame["second"] - frame["first"]
    return frame


def side_by_side(reports: Mapping[str, Report], value_of_time: float | None = None) -> pandas.DataFrame:
    """A row for each report, by its name: what entered, left and is inside at the end, the delay, and its rise.

    The rise is that over the first one's delay, in all and as a part of it, as `part_of` has it. With a value of time, in
    money an hour, `cost` is what the delay costs.
    """
    known = all(report.units.known for report in reports.values())
    if value_of_time is not None and not known:
        raise Problem("--value-of-time: the units aren't known, so the delay has no cost")
    rows = [(total.entered, total.left, total.inside, total.delay) for total in (report.total for report in reports.values())]
    frame = pandas.DataFrame(rows, index=list(reports), columns=["entered", "left", "inside", "delay"])
    if known:
        frame["delay"] = [report.units.hours(report.total.delay) for report in reports.values()]
    first = frame.delay.iloc[0]
    frame["rise"] = frame.delay - first
    frame["part"] = [part_of(rise, first) for rise in frame.rise]
    if value_of_time is not None:
        frame["cost"] = frame.delay * value_of_time
    frame.attrs["units"] = {"delay": "vehicle-hours" if known else "vehicle-steps"}
    return frame


def part_of(rise: float, first: float) -> float:
    """A rise as a part of what was first; lacking where that is printed as 0, or is next to nothing beside the rise."""
    return rise / first if first >= LEAST_WHOLE and rise <= MOST_TIMES * first else float("nan")


def travel(first: Report, second: Report) -> pandas.DataFrame:
    """The mean travel time in minutes of each road of both reports, of those who arrived, the greatest changes first.

    Reports without records, or whose steps aren't known, have none.
    """
    rows = {}
    for name, report in (("first", first), ("second", second)):
        times = road_times(report) if report.recorded and report.units.step is not None else []
        rows[name] = pandas.Series({time.road: time.mean * (report.units.step or 0) / 60 for time in times}, dtype=float)
    frame = pandas.DataFrame(rows).dropna()
    frame["rise"] = frame["second"] - frame["first"]
    frame.index.name = "road"
    return frame.loc[frame.rise.abs().sort_values(ascending=False, kind="stable").index]
