"""Where the parts of a queue are headed: the cells behind which nobody waits, and at a closure the cell before it.

A closure changes what its cells pass and not what they hold, so while it passes all it can they keep what stood in them when
it began. Where that is much they are slow too, down to its end, though it is before the closure that vehicles come to wait.
"""

from __future__ import annotations

from collections.abc import Mapping
from math import inf

from ..network_file.network import Network
from .reading import Report

FULL = 0.99  # a cell passes all that its closure leaves where it passes so much of it

Span = tuple[int, int]  # the numbers of recorded steps [from, to)
Spans = Mapping[str, list[Span]]  # when each cell of a queue stood in it


def heads(report: Report, spans: Spans) -> list[tuple[int, str]]:
    """The cells from which the parts of a queue reach back, each with when its part began, the earliest first."""
    found: dict[str, int] = {}
    for begin, cell in _origins(spans, report.need_network()):
        before = [up for up in before_closure(report, begin, cell) if up in spans]
        found.setdefault(min(before, key=lambda up: spans[up][0], default=cell), begin)
    return sorted((begin, cell) for cell, begin in found.items())


def _origins(spans: Spans, network: Network) -> list[tuple[int, str]]:
    """The cells where a part of the queue began by itself, and when: no cell behind it stood in the queue then."""
    firsts: dict[str, int] = {}
    for cell, own in spans.items():
        for begin, _ in own:
            behind = any(first <= begin <= last
                         for down in network.downs[cell] for first, last in spans.get(down, ()))
            if not behind and cell not in firsts:
                firsts[cell] = begin
    if not firsts:  # a ring that is full all round
        cell = min(spans, key=lambda name: spans[name][0][0])
        firsts[cell] = spans[cell][0][0]
    return sorted((begin, cell) for cell, begin in firsts.items())


def before_closure(report: Report, begin: int, cell: str) -> list[str]:
    """The cells before the closure that holds a cell up from a recorded step on; none where no closure does.

    A cell that passes less than its closure leaves is held up by something else. A closure goes on upstream as far as
    cells pass as little as the one behind them or less.
    """
    left = _left(report, begin, cell)
    if left == inf or report.passed[begin, report.place(cell)] < FULL * left * report.lasting[begin, 0]:
        return []
    ups, found, passed, waiting = report.need_network().ups, [], {cell}, [cell]
    while waiting:
        within = waiting.pop()
        for up in ups[within]:
            if _left(report, begin, up) > _left(report, begin, within):
                found.append(up)
            elif up not in passed:
                passed.add(up)
                waiting.append(up)
    return found


def _left(report: Report, begin: int, cell: str) -> float:
    """What a closure leaves of a cell's capacity from a recorded step to the next, in vehicles a step, or infinity.

    The red of a signal that runs for a part of the time is made of limits too, and is no closure.
    """
    network, (first, last) = report.need_network(), report.times[begin:begin + 2]
    if network.kinds[cell] != "road" or cell in report.units.cycles:
        return inf
    holding = [most for start, end, most in network.limits_of.get(cell, ()) if start < last and first < end]
    return holding[-1] if holding and holding[-1] < network.capacities[cell] else inf
