"""What stands beside a route and along it: junctions, signals, limits and speed limits, as marks on a time-space diagram."""

from __future__ import annotations

from collections.abc import Iterator, Mapping, Sequence
from typing import TYPE_CHECKING, Any

from matplotlib.axes import Axes
from matplotlib.collections import LineCollection
from matplotlib.patches import Rectangle

from ..report.reading import Report
from .figure import moments, note

if TYPE_CHECKING:
    import pandas

LEAST_APART = 0.035  # of the height of a diagram between two names beside it
RED = "#c00000"
LIMIT = "#00518a"  # of speed limits


def junctions(report: Report, cells: Sequence[str]) -> list[tuple[int, str]]:
    """The places of a route where another road joins or leaves: the index of the cell behind it, and what it says."""
    network = report.need_network()
    own = set(cells)
    marks: list[tuple[int, str]] = []
    for i in range(1, len(cells)):
        up, down = cells[i - 1], cells[i]
        for other in network.graph.predecessors(down):
            if other not in own:
                marks.append((i, f"{_road(report, other)} joins"))
        for other in network.graph.successors(up):
            if other not in own:
                marks.append((i, f"{_road(report, other)} leaves"))
        lanes = [report.units.cells.get(cell, {}).get("lanes") for cell in (up, down)]
        if None not in lanes and lanes[0] != lanes[1]:
            marks.append((i, f"{lanes[0]} to {lanes[1]} lanes"))
    return marks


def _road(report: Report, cell: str) -> str:
    return report.units.cells.get(cell, {}).get("road", cell)


def draw_junctions(axes: Axes, report: Report, cells: Sequence[str], bounds: Sequence[float]) -> None:
    """Marks the junctions of a diagram, and writes what they are beside its right edge where there is room."""
    named: dict[float, list[str]] = {}
    for i, text in junctions(report, cells):
        named.setdefault(bounds[i], []).append(text)
    height = bounds[-1] - bounds[0]
    last, left_out = -height, 0
    for place, texts in sorted(named.items()):
        axes.axhline(place, color="#555555", linewidth=0.6, linestyle=(0, (4, 3)))
        if place - last < LEAST_APART * height:
            left_out += 1
            continue
        axes.annotate(", ".join(texts), (1, place), xycoords=("axes fraction", "data"), xytext=(4, 0),
                      textcoords="offset points", va="center", fontsize=8, annotation_clip=False)
        last = place
    if left_out:
        note(axes, f"{left_out} {'junctions' if left_out > 1 else 'junction'} beside others not named")


def draw_signals(axes: Axes, report: Report, cells: Sequence[str], bounds: Sequence[float], begin: float,
                 end: float) -> bool:
    """Draws the red phases of the signals of a route at their stop lines. Returns whether there are any."""
    signals = report.need_network().signals.set_index("cell")
    lines = []
    for i, cell in enumerate(cells):
        if cell in signals.index:
            lines += [[(moment, bounds[i + 1]) for moment in moments(report, span)]
                      for span in _reds(signals.loc[cell], begin, end)]
    axes.add_collection(LineCollection(lines, colors=RED, linewidths=2.2, capstyle="butt"))
    return bool(lines)


def _reds(row: pandas.Series, begin: float, end: float) -> Iterator[tuple[float, float]]:
    """The spans of steps within a range in which a signal is red."""
    cycle, offset, green_from, green_to = (int(row[name]) for name in ("cycle", "offset", "from", "to"))
    start = (int(begin) // cycle - 1) * cycle - offset
    while start < end:
        for red_from, red_to in ((start, start + green_from), (start + green_to, start + cycle)):
            first, last = max(red_from, begin), min(red_to, end)
            if first < last:
                yield first, last
        start += cycle


def draw_limits(axes: Axes, report: Report, cells: Sequence[str], bounds: Sequence[float]) -> bool:
    """Outlines where and when limits take capacity from a route's cells. Returns whether there are any."""
    limits = report.need_network().limits
    capacity = report.need_network().cells.Q
    spans: dict[tuple[int, int], list[int]] = {}
    for row in limits[limits.cell.isin(cells)].itertuples(index=False):
        cell, begin, end, most, _ = row
        if most < capacity[cell] and begin < report.steps:
            spans.setdefault((begin, min(end, report.steps)), []).append(cells.index(cell))
    _outline(axes, report, spans, bounds, edgecolor="#333333", hatch="//")
    return bool(spans)


def draw_speed_limits(axes: Axes, report: Report, cells: Sequence[str], bounds: Sequence[float]) -> bool:
    """Outlines where and when speed limits hold on a route's cells, and says them where the units are known."""
    paces = report.need_network().paces
    spans: dict[tuple[int, int, str], list[int]] = {}
    for i, cell in enumerate(cells):
        own = report.units.cells.get(cell, {}).get("free_flow_kmh")
        for begin, end, part in paces[cell].slower() if cell in paces else ():
            spans.setdefault((begin, end, f"{own * part:.6g} km/h" if own else ""), []).append(i)
    for (begin, end, speed), places in spans.items():
        _outline(axes, report, {(begin, end): places}, bounds, edgecolor=LIMIT, linestyle=(0, (1, 1.5)), hatch="...")
        left, right = moments(report, [begin, end])
        axes.annotate(speed, ((left + right) / 2, bounds[max(places) + 1]), xytext=(0, -3), textcoords="offset points", ha="center",
                      va="top", fontsize=8, color=LIMIT, clip_on=True)
    return bool(spans)


def _outline(axes: Axes, report: Report, spans: Mapping[tuple[int, int], Sequence[int]], bounds: Sequence[float], **look: Any) -> None:
    """Outlines spans of steps of some places of a route."""
    for (begin, end), places in spans.items():
        for first, last in _stretches(sorted(set(places))):
            left, right = moments(report, [begin, end])
            axes.add_patch(Rectangle((left, bounds[first]), right - left, bounds[last + 1] - bounds[first], fill=False,
                                     linewidth=0.9, alpha=0.55, **look))


def _stretches(places: Sequence[int]) -> Iterator[tuple[int, int]]:
    """Rising numbers as stretches without gaps."""
    begins = [place for i, place in enumerate(places) if i == 0 or place > places[i - 1] + 1]
    ends = [place for i, place in enumerate(places) if i == len(places) - 1 or place < places[i + 1] - 1]
    yield from zip(begins, ends)
