"""Runs of one network with arrivals drawn anew in each: delays and queues by approach, as mean and interval."""

from __future__ import annotations

import re
from collections.abc import Iterator

import pandas

from ..approaches.by_approach import by_approach
from ..approaches.capacity import Stages
from ..report.by_road import by_road
from ..report.reading import Report
from ..report.routes import roads_and_gates
from ..runs.arrivals import Draw, drawn_network
from ..runs.running import Done, Prepared, run
from ..texts.quantities import HOUR
from ..texts.text_table import table
from .reliability import of_mean

MOST_TOLD = 12
METRES = 1000
GATE = "gate "
PART = re.compile(r"-(?:pocket|lanes)[0-9]+$")
COLUMNS = ["road", "left", "delay", "delay_each", "queue"]
HEADS = ("approach or road", "vehicles", "delay of each, even", "at random", "longest queue, even", "at random")


def seeded(prepared: Prepared, count: int, seed: int = 1, done: Done | None = None) -> pandas.DataFrame:
    """A row for each draw, from 1 on, and each approach or road: `left` vehicles, `delay` in vehicle-hours, `delay_each` in s, and
    `queue`, the longest in m. `attrs["delays"]` has the delay of all in each draw.
    """
    yields = prepared.settled.study.yields if prepared.settled else []
    found, delays = [], []
    for number in range(1, count + 1):
        network = drawn_network(prepared.network, yields, prepared.units, Draw(seed, number))
        _, report = run(network.content, str(prepared.path), prepared.units, network=prepared.network)
        found.append(parts_of(report).assign(draw=number))
        delays.append(report.units.hours(report.sums.delay))
        if done:
            done(1, f"draw {number}")
    frame = pandas.concat(found, ignore_index=True)
    frame.attrs["delays"] = delays
    return frame


def parts_of(report: Report) -> pandas.DataFrame:
    """A row for each approach, with all that waits before its stop line, and for each other road or gate.

    It has what the run has alone: what the manual adds for arrivals at random would count them twice where they are drawn.
    """
    own = _approaches(report)
    found = pandas.concat([own, _others(report)], ignore_index=True)
    owners = [_owner(name, report) for name in found.road]
    sums = found.assign(road=owners).groupby("road", sort=False).agg({"left": "max", "delay": "sum", "queue": "max"}).reset_index()
    several = own.assign(road=owners[:len(own)]).groupby("road").left.sum()  # an approach with pockets has its vehicles in parts
    sums["left"] = sums.road.map(several).fillna(sums.left)
    sums["delay_each"] = (sums.delay * HOUR / sums.left).where(sums.left > 0)
    return sums[COLUMNS]


def _owner(name: str, report: Report) -> str:
    """What a part belongs to: pockets, and lanes beside them, to the road before them, and a gate to the road that it leads into."""
    units = report.units
    if name.startswith(GATE):
        downs = report.need_network().downs[name.removeprefix(GATE)]
        roads = {str(units.cells[cell]["road"]) for cell in downs if cell in units.cells}
        name = roads.pop() if len(roads) == 1 else name
    road = PART.sub("", name)
    return road if road in units.roads else name


def _approaches(report: Report) -> pandas.DataFrame:
    if not report.units.approaches:
        return pandas.DataFrame(columns=COLUMNS)
    frame = by_approach(report, drawn=True).drop(columns="queue").rename(columns={"approach": "road", "longest_queue": "queue"})
    return frame[COLUMNS]


def _others(report: Report) -> pandas.DataFrame:
    """The roads and gates of which no cell is of an approach."""
    known = {cell for approach in report.units.approaches for cell in Stages(report, approach).cells}
    others = [name for name, cells in roads_and_gates(report).items() if known.isdisjoint(cells)]
    frame = by_road(report)
    return frame[frame.road.isin(others)].assign(queue=frame.queue * METRES)[COLUMNS]


def seed_lines(frame: pandas.DataFrame, report: Report) -> Iterator[str]:
    """What draws show beside the run with even arrivals: the delay of all, and a row for each approach, the greatest delay first."""
    even, delays = parts_of(report).set_index("road"), pandas.Series(frame.attrs["delays"])
    yield ""
    yield (f"Arrivals at random, {len(delays)} draws: {_mean(delays, 2)} vehicle-hours of delay, with even arrivals "
           f"{report.units.hours(report.sums.delay):,.2f}; intervals hold the mean with 95 %")
    yield ""
    order = frame.groupby("road").delay.mean().sort_values(ascending=False, kind="stable").index
    rows = [_row(road, frame[frame.road == road], even.loc[road]) for road in order[:MOST_TOLD]]
    yield from table([HEADS, *rows], right=(1, 2, 3, 4, 5))
    if len(order) > MOST_TOLD:
        yield f"  and {len(order) - MOST_TOLD} more with less delay"


def _row(road: str, draws: pandas.DataFrame, even: pandas.Series) -> tuple[str, ...]:
    each = draws.delay_each.fillna(0)
    return (road, f"{draws.left.mean():,.0f}", f"{even.delay_each:.1f} s" if even.delay_each == even.delay_each else "",
            f"{_mean(each, 1)} s", f"{even.queue:,.0f} m", f"{_mean(draws.queue, 0)} m")


def _mean(values: pandas.Series, digits: int) -> str:
    """A mean with its interval, which isn't below 0."""
    low, high = of_mean(values.tolist())
    if len(values) < 2:
        return f"{values.mean():,.{digits}f}"
    return f"{values.mean():,.{digits}f} ({max(0.0, low):,.{digits}f} to {high:,.{digits}f})"
