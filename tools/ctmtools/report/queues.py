"""The queues of a report: where each began, how far it reached and when, when it cleared, what it cost."""

from __future__ import annotations

from collections.abc import Iterable, Iterator, Sequence
from dataclasses import dataclass, field
from itertools import pairwise
from typing import TYPE_CHECKING

import numpy

from ..arrays import Flags, Numbers, first_greatest
from .queue_heads import Span, Spans, before_closure, heads
from .reading import Report

if TYPE_CHECKING:
    import pandas

SLOW = 0.8  # a cell is in a queue where its traffic moves slower than this part of the free-flow speed
LEAST = 0.1  # vehicles; a cell that holds less is empty
CYCLES = 2  # of a signal; a queue that comes back within so many of them is the same queue
SHORT = 120  # seconds; a queue that has cleared within them is a short one
SHORT_STEPS = 12  # the same where the length of a step isn't known

Node = tuple[str, int]  # a cell and the number of one of its spans


@dataclass(frozen=True)
class Origin:
    """A cell where a part of a queue began by itself, at which step, and how far back from it the queue reached."""

    cell: str
    start: int
    reach: float


@dataclass
class Queue:
    """A queue: the cells that stood in it, joined in space and time.

    `start`, `end` and `reached` are steps; `end` is None where the queue still stands at the last step. `reach` is in
    km where lengths are known, else in cells; gates count nothing. `delay` is in vehicle-steps, `most` in vehicles, and `most_at` is
    when so many first wait; where a speed limit holds both are beyond driving at it.
    `spells` says how often it came, as at a signal in each cycle. `reach` is that of the cells to which it grew from its
    origin, and `longest_reach` that from any of its origins through what stood there before and what it touched.
    """

    origin: str
    start: int
    end: int | None
    farthest: str
    reach: float
    reached: int
    delay: float
    most: float
    most_at: int
    spells: int
    longest_reach: float
    spans: Spans = field(repr=False)
    others: list[Origin] = field(default_factory=list)


def standing(report: Report) -> pandas.DataFrame:
    """Whether each cell stands in a queue, from each recorded step to the next: a frame of truth values.

    Where a speed limit holds, that is the free-flow speed.
    A cell that has waited for less than one such step makes it never did, though means over several steps may look so
    where vehicles come in platoons.
    """
    import pandas  # here and below, so that a run of which no frame is asked doesn't load it

    found = stands(report)
    return pandas.DataFrame(found, index=report.times[:-1], columns=report.names)


def stands(report: Report) -> Flags:
    """The truth values of `standing` alone: a row from each recorded step to the next, a column for each cell."""
    own = stands_in(report.waiting)
    found = numpy.zeros((len(own), len(report.names)), dtype=bool)
    found[:, report.places(report.waiting.names)] = own
    return found


def stands_in(report: Report) -> Flags:
    """The same of the cells of a report alone; of others than those in which anyone has waited none does."""
    kinds, spent = report.need_network().kinds, report.spent
    found: Flags = (spent >= LEAST * report.lasting) & (report.passed < SLOW * report.free_parts * spent)
    waited = report.amounts.wait - report.slowed.sum(axis=0)
    found[:, numpy.array([kinds[cell] == "exit" for cell in report.names], dtype=bool) | (waited < (1 - SLOW) * LEAST)] = False
    return found


def queues_in(report: Report) -> list[Queue]:
    """The queues of a report, the most costly first."""
    found, cells = stands_in(report.waiting), report.waiting.names
    runs = _runs(found, cells)
    joined = Joined((cell, i) for cell, spans in runs.items() for i in range(len(spans)))
    for up in runs:
        for down in report.need_network().downs[up]:
            joined.join(((up, i), (down, j)) for i, j in _touching(runs[up], runs.get(down, [])))
    _join_closures(report, joined, runs)
    spells = _join_returning(report, joined, runs)
    queues, waits = [], vehicles_waiting(report.waiting)
    for nodes in joined.parts():
        spans = _spans(sorted(nodes, key=lambda node: (report.place(node[0]), node[1])), runs)
        queues.append(_queue(report, spans, waits, sum(spells[node] for node in nodes)))
    return sorted(queues, key=lambda queue: -queue.delay)


def is_short(report: Report, queue: Queue) -> bool:
    """Whether a queue has cleared so soon that it is one of many at junctions and of little account."""
    if queue.end is None:
        return False
    lasting = queue.end - queue.start
    return lasting * report.units.step < SHORT if report.units.step is not None else lasting < SHORT_STEPS


def cycle_of(report: Report, cell: str) -> int:
    """The cycle of a cell's signal in steps, also of one that runs for a part of the time; 0 without signals.

    Where the cell has no signal, traffic comes to it as others let it go, so the longest cycle of them is given.
    """
    cycles = {**report.units.cycles, **report.need_network().cycles}
    return int(cycles[cell] if cell in cycles else max(cycles.values(), default=0))


def course(report: Report, queue: Queue) -> pandas.DataFrame:
    """How far a queue reaches back from its origin and how many vehicles wait in it, from each recorded step on.

    `reach` is in the unit of the queue's, `waiting` in vehicles.
    """
    import pandas

    times = report.times[:-1]
    waiting, waits = numpy.zeros(len(times)), vehicles_waiting(report.waiting)
    for cell, spans in queue.spans.items():
        waits_here = waits[:, report.waiting.place(cell)]
        for begin, end in spans:
            waiting[begin:end] += waits_here[begin:end]
    return pandas.DataFrame({"reach": _reach_over_time(report, queue.origin, queue.spans, 0), "waiting": waiting}, index=times)


def reach_of_part(report: Report, queue: Queue, part: Origin) -> pandas.Series:
    """How far a part that joined a queue reaches back from its own origin, from each recorded step on."""
    import pandas

    return pandas.Series(_reach_over_time(report, part.cell, queue.spans, part.start), index=report.times[:-1])


def _reach_over_time(report: Report, origin: str, spans: Spans, start: int) -> Numbers:
    """How far the cells to which a queue grew from an origin reach back, from each recorded step on."""
    reach, ways = numpy.zeros(len(report.times) - 1), _ways(report, origin, spans)
    for cell, own in grown_from(report, origin, spans, start).items():
        if report.need_network().kinds[cell] == "road":
            for begin, end in own:
                reach[begin:end] = numpy.maximum(reach[begin:end], ways[cell])
    return reach


def grown_from(report: Report, origin: str, spans: Spans, start: int) -> dict[str, list[Span]]:
    """The spans of the cells to which a queue grew from an origin, from a step on: each began no sooner than one behind it.

    What stood there before it came is another's, which began elsewhere.
    """
    ups = report.need_network().ups
    waiting = [(origin, span) for span in spans[origin] if report.times[span[1]] >= start]
    seen = set(waiting)
    while waiting:
        cell, (begin, end) = waiting.pop()
        for up in ups[cell]:
            for span in spans.get(up, ()):
                if begin <= span[0] <= end and (up, span) not in seen:
                    seen.add((up, span))
                    waiting.append((up, span))
    found: dict[str, list[Span]] = {}
    for cell, span in sorted(seen, key=lambda node: node[1]):
        found.setdefault(cell, []).append(span)
    return found


def vehicles_waiting(report: Report) -> Numbers:
    """The vehicles of each cell that wait from each recorded step to the next, beyond those who drive at free flow.

    They add up to no more than what the program says of the cell, however seldom it is recorded.
    """
    waits: Numbers = numpy.clip((report.waited - report.slowed) / report.lasting, 0, None)
    return waits


def _runs(flags: Flags, cells: Sequence[str]) -> dict[str, list[Span]]:
    """The spans over which the flags of each cell are true, where any is."""
    edges = numpy.zeros((flags.shape[1], len(flags) + 2), dtype=numpy.int8)
    edges[:, 1:-1] = flags.T
    changes = numpy.diff(edges)
    (places, begins), ends = numpy.nonzero(changes == 1), numpy.nonzero(changes == -1)[1]
    found: dict[str, list[Span]] = {}
    for place, begin, end in zip(places.tolist(), begins.tolist(), ends.tolist()):
        found.setdefault(cells[place], []).append((begin, end))
    return found


def _touching(one: list[Span], two: list[Span]) -> Iterator[tuple[int, int]]:
    """The pairs of spans of two lists that overlap or meet."""
    j = 0
    for i, (begin, end) in enumerate(one):
        while j < len(two) and two[j][1] < begin:
            j += 1
        k = j
        while k < len(two) and two[k][0] <= end:
            yield i, k
            k += 1


def _spans(nodes: list[Node], runs: Spans) -> dict[str, list[Span]]:
    spans: dict[str, list[Span]] = {}
    for cell, i in nodes:
        spans.setdefault(cell, []).append(runs[cell][i])
    return spans


def _join_closures(report: Report, joined: Joined, runs: Spans) -> None:
    """Joins what is slow in a closure with the queue before it, though cells between them may be fast enough."""
    network = report.need_network()
    for cell, i in [node for node in joined.beside if node[0] in network.limits_of]:
        if any(other in network.ups[cell] for other, _ in joined.beside[cell, i]):
            continue  # what it is joined to upstream is joined to the queue before the closure
        span = runs[cell][i]
        for up in before_closure(report, span[0], cell):
            joined.join(((cell, i), (up, j)) for _, j in _touching([span], runs.get(up, [])))


def _join_returning(report: Report, joined: Joined, runs: Spans) -> dict[Node, int]:
    """Joins the queues that began at one cell and came back within two cycles.

    Gives for each node 1 where it stands for a queue as it was before, and else 0.
    """
    times = report.times
    spells = dict.fromkeys(joined.beside, 0)
    came: dict[str, list[tuple[int, int, Node]]] = {}
    for nodes in list(joined.parts()):
        spans = _spans(sorted(nodes), runs)
        begin, origin = heads(report, spans)[0]
        first = min(nodes)
        spells[first] = 1
        came.setdefault(origin, []).append((begin, _end(spans), first))
    for origin, own in came.items():
        pause = CYCLES * cycle_of(report, origin)
        for (_, end, one), (begin, _, two) in pairwise(sorted(own)):
            if pause and times[begin] - times[end] <= pause:
                joined.join([(one, two)])
    return spells


def _end(spans: Spans) -> int:
    return max(span[1] for own in spans.values() for span in own)


class Joined:
    """Spans of cells, and for each those `beside` it that are of the same queue."""

    def __init__(self, nodes: Iterable[Node]) -> None:
        self.beside: dict[Node, set[Node]] = {node: set() for node in nodes}

    def join(self, pairs: Iterable[tuple[Node, Node]]) -> None:
        """Puts both of each pair into one queue."""
        for one, two in pairs:
            self.beside[one].add(two)
            self.beside[two].add(one)

    def parts(self) -> Iterator[set[Node]]:
        """The spans of each queue."""
        seen: set[Node] = set()
        for node in self.beside:
            part, waiting = set(), [node]
            while waiting:
                one = waiting.pop()
                if one not in seen:
                    seen.add(one)
                    part.add(one)
                    waiting += self.beside[one]
            if part:
                yield part


def _queue(report: Report, spans: Spans, waits: Numbers, spells: int) -> Queue:
    """The queue of the spans of cells that hang together."""
    times = report.times
    origins = heads(report, spans)
    (begin, origin), end = origins[0], _end(spans)
    farthest, reach, reached = _reach(report, origin, spans, 0)
    sums = numpy.zeros(end - begin)
    for cell, own in spans.items():
        waits_here = waits[:, report.waiting.place(cell)]
        for first, last in own:
            sums[first - begin:last - begin] += waits_here[first:last]
    most = first_greatest(sums)
    others = [Origin(cell, int(times[first]), _reach(report, cell, spans, int(times[first]))[1]) for first, cell in origins[1:]]
    return Queue(origin, int(times[begin]), None if end == len(times) - 1 else int(times[end]), farthest, reach,
                 int(times[reached]), float((sums * numpy.diff(times)[begin:end]).sum()), float(sums[most]),
                 int(times[begin + most]), spells, max(_longest(report, cell, spans) for _, cell in origins), spans, others)


def _ways(report: Report, origin: str, spans: Spans) -> dict[str, float]:
    """For each cell of the queue upstream of its origin the way from there to the cell's upstream end."""
    units, kinds, ups = report.units, report.need_network().kinds, report.need_network().ups

    def length(cell: str) -> float:
        if kinds[cell] != "road":
            return 0.0
        return (units.length(cell) if units.known else 1.0) or 0.0

    ways, waiting = {origin: length(origin)}, [origin]
    while waiting:
        cell = waiting.pop()
        for up in ups[cell]:
            if up in spans and up not in ways:
                ways[up] = ways[cell] + length(up)
                waiting.append(up)
    return ways


def _reach(report: Report, origin: str, spans: Spans, start: int) -> tuple[str, float, int]:
    """The cell that lies farthest upstream of those to which a queue grew, the way to its upstream end, and when it came."""
    ways, kinds, grown = _ways(report, origin, spans), report.need_network().kinds, grown_from(report, origin, spans, start)
    farthest = max((cell for cell in grown if kinds[cell] == "road"), key=lambda cell: ways[cell], default=origin)
    return farthest, ways[farthest], grown[farthest][0][0]


def _longest(report: Report, origin: str, spans: Spans) -> float:
    """The way from an origin to the upstream end of the farthest cell of the queue upstream of it."""
    kinds = report.need_network().kinds
    return max((way for cell, way in _ways(report, origin, spans).items() if kinds[cell] == "road"), default=0.0)
