"""How far queues reach back over time, and the vehicles that wait in them: the figures of the page."""

from __future__ import annotations

from collections.abc import Iterator, Sequence
from typing import TYPE_CHECKING, Any

import numpy
from matplotlib.axes import Axes
from matplotlib.figure import Figure

from ..report.queues import SLOW, Queue, course, cycle_of, is_short, queues_in, reach_of_part
from ..report.reading import Report
from ..report.routes import cells_of_road
from ..report.summary import length, number_text, spilled, where
from ..report.upstream import spills
from .figure import drawing, figure, head, legend_below, moments, named, note, span_of, style, time_axis

if TYPE_CHECKING:
    import pandas

MOST_LINES = 5


@drawing
def draw(report: Report, roads: Sequence[str] = (), begin: str | None = None, until: str | None = None) -> Figure:
    """Draws for each of the most costly queues how far it reaches back from where it began, and who wait in it.

    Where a part that began elsewhere and joined it reaches farther, that part's reach is drawn too.
    """
    report.need_records()
    report.need_network()
    first, last = span_of(report, begin, until)
    queues, rest = _chosen(report, roads)
    drawn, (upper, lower) = figure(2, size=(8, 5.4), sharex=True)
    for i, queue in enumerate(queues):
        run, look = _by_cycle(report, queue), style(i)
        if queue.reach:
            _stairs(report, upper, run.reach, look)
        part = max(queue.others, key=lambda other: other.reach, default=None)
        if part is not None and part.reach > queue.reach:
            _stairs(report, upper, reach_of_part(report, queue, part),
                    {**look, "linewidth": 0.8, "label": f"from {where(report, part.cell)}, which joined it"})
        _stairs(report, lower, run.waiting, {**look, "label": f"from {where(report, queue.origin)}"})
    upper.set_ylabel(f"Reach back ({'km' if report.units.known else 'cells'})")
    lower.set_ylabel("Vehicles that wait")
    head(upper, f"{report.title}: queues")
    for axes in (upper, lower):
        axes.set_ylim(bottom=0)
    time_axis(lower, report, first, last)
    for line in _notes(report, queues, rest):
        note(lower, line)
    if queues:
        legend_below(drawn, named(lower, upper))
    return drawn


def _chosen(report: Report, roads: Sequence[str]) -> tuple[list[Queue], list[Queue]]:
    """The queues to draw, the most costly of all or of those that stand on some roads, and the others.

    Short ones are drawn only where there are no longer ones.
    """
    cells = {cell for road in roads for cell in cells_of_road(report, road)}
    found = [queue for queue in queues_in(report) if not roads or cells & queue.spans.keys()]
    long = [queue for queue in found if not is_short(report, queue)]
    drawn = (long or found)[:MOST_LINES]
    return drawn, [queue for queue in found if all(queue is not other for other in drawn)]


def _by_cycle(report: Report, queue: Queue) -> pandas.DataFrame:
    """The course of a queue; of one that comes with the cycles of a signal the most in each of them."""
    run = course(report, queue)
    return run if queue.spells == 1 else run.groupby(run.index // cycle_of(report, queue.origin)).transform("max")


def _stairs(report: Report, axes: Axes, values: pandas.Series, look: dict[str, Any]) -> None:
    """Draws values that hold from each recorded step to the next, but not where they stay at zero."""
    known = numpy.append(values.to_numpy(), values.iloc[-1])
    here = known > 1e-6
    near = here | numpy.append(here[1:], False) | numpy.insert(here[:-1], 0, False)
    axes.plot(moments(report, report.times), numpy.where(near, known, numpy.nan), drawstyle="steps-post", **look)


def _notes(report: Report, queues: list[Queue], rest: list[Queue]) -> Iterator[str]:
    """What stands below the axes: how queues are seen, and what isn't drawn."""
    cycles = ", the most in each cycle of a signal" if any(queue.spells > 1 for queue in queues) else ""
    yield f"Reach in whole cells, slower than {SLOW:.0%} of free flow{cycles}"
    for queue in queues:
        for spill in spills(report, queue):
            yield spilled(report, spill)
    if rest:
        far = max(rest, key=lambda queue: queue.reach)
        yield (f"Not drawn: {len(rest)} more, the longest {length(report, far.reach)} from {where(report, far.origin)}; "
               f"{number_text(report.units.hours(sum(queue.delay for queue in rest)))} {report.units.delay_unit} in all")
