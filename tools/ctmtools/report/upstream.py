"""Queues that reach the upstream end of the model: behind them vehicles wait in gates, which have no length."""

from __future__ import annotations

from collections.abc import Sequence
from dataclasses import dataclass

import numpy

from ..arrays import first_greatest
from .queue_heads import Span
from .queues import Queue, grown_from, queues_in, stands
from .reading import Report


@dataclass(frozen=True)
class Spill:
    """A gate that a queue reached from the cell where it began: at which step, and the most vehicles that waited, and when first."""

    origin: str
    gate: str
    start: int
    most: float
    most_at: int


def spills(report: Report, queue: Queue) -> list[Spill]:
    """The gates that a queue grew back into; a queue that began in a gate and that no other one reached is no such one."""
    kinds, found = report.need_network().kinds, []
    began = {queue.origin, *(other.cell for other in queue.others)}
    for gate, spans in queue.spans.items():
        if kinds[gate] != "gate":
            continue
        origin, own = _met(report, queue, gate) if gate in began else (queue.origin, spans)
        if own:
            waits = report.waiting.waited[:, report.waiting.place(gate)] / report.lasting[:, 0]
            steps = numpy.concatenate([numpy.arange(begin, end) for begin, end in own])
            most = steps[first_greatest(waits[steps])]
            found.append(Spill(origin, gate, int(report.times[own[0][0]]), float(waits[most]), int(report.times[most])))
    return found


def _met(report: Report, queue: Queue, gate: str) -> tuple[str, list[Span]]:
    """The part of a queue that grew back to a gate where vehicles waited already, by where it began, and when both stood."""
    parts = [(queue.origin, queue.start), *((other.cell, other.start) for other in queue.others)]
    for origin, start in parts:
        cells = grown_from(report, origin, queue.spans, start) if origin != gate else {}
        both = [(max(one[0], two[0]), min(one[1], two[1])) for down in report.need_network().downs[gate]
                for one in cells.get(down, ()) for two in queue.spans[gate]]
        met = sorted((begin, end) for begin, end in both if begin < end)
        if met:
            return origin, met
    return gate, []


def spilled_queues(report: Report) -> list[tuple[Queue, Spill]]:
    """The queues that reached gates, with these; where nobody waits in a gate no queue is looked for."""
    gates = [cell for cell, kind in report.need_network().kinds.items() if kind == "gate"]
    if not stands(report)[:, report.places(gates)].any():
        return []
    return [(queue, spill) for queue in queues_in(report) for spill in spills(report, queue)]


def waiting_upstream(report: Report, queues: Sequence[Queue]) -> float:
    """The most vehicles that waited in one gate behind a queue that reached it."""
    return max((spill.most for queue in queues for spill in spills(report, queue)), default=0.0)
