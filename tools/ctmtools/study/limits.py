"""What a cell lets pass at each step: closures, openings, limits of gates and exits, speed limits, and the red of timed signals."""

from __future__ import annotations

from collections.abc import Callable, Iterator, Sequence
from dataclasses import dataclass
from fractions import Fraction
from functools import partial
from itertools import pairwise
from typing import Any

from ..network_file.kinds import Record, record
from ..problem import Problem
from ..texts.amounts import rounded_parts
from ..texts.quantities import HOUR
from ..units import clock_text
from .junctions import Junctions
from .layout import RoadCell
from .plan import Closure, Exit, Gate, Opening, Scenario, Section, Yield
from .scale import Scale, rounded_text


@dataclass(frozen=True)
class Change:
    """What changes the capacity of a cell from a step to another: lanes closed or opened, or a most in vehicles/h.

    `saturation_flow`, in vehicles/h, is that of each lane left open by a closure, or of each lane of an opening, where
    it is less than the road's. In a red light nothing passes. `place` is where the study says it. Who gives way passes `by_gaps`.
    A speed limit has a `speed` in km/h alone.
    """

    begin: int
    end: int
    place: str
    closed: Fraction = Fraction(0)
    opened: Fraction = Fraction(0)
    saturation_flow: Fraction | None = None
    capacity: Fraction | None = None
    red: bool = False
    by_gaps: bool = False
    speed: Fraction | None = None


# The stretches of road in which changes overlap, each as its cells with these changes, by the places of the changes,
# their time and the section.
Stretches = list[list[tuple[RoadCell, list[Change]]]]
Overlaps = dict[tuple[str, str, tuple[str, int]], Stretches]
Span = tuple[int, int, list[Change]]  # the steps from and to which some changes hold


def spans(changes: Sequence[Change]) -> Iterator[tuple[int, int, list[Change]]]:
    """The steps in which the same changes hold, in order: from, to, and those that hold, in the order of the study."""
    waiting = sorted(enumerate(changes), key=lambda pair: pair[1].begin, reverse=True)
    holding: list[tuple[int, Change]] = []
    for begin, end in pairwise(sorted({step for change in changes for step in (change.begin, change.end)})):
        while waiting and waiting[-1][1].begin == begin:
            holding.append(waiting.pop())
        holding = [(i, change) for i, change in holding if change.end > begin]
        if holding:
            yield begin, end, [change for _, change in sorted(holding, key=lambda pair: pair[0])]


def lanes_left(section: Section, changes: Sequence[Change]) -> tuple[Fraction, Fraction]:
    """The lanes that are left of a section's own and of the opened ones where all these changes hold.

    Closed lanes add up. Those beyond the road's own are taken from the opened ones.
    """
    own = section.lanes - sum((change.closed for change in changes), Fraction(0))
    opened = sum((change.opened for change in changes), min(Fraction(0), own))
    return max(Fraction(0), own), max(Fraction(0), opened)


def flow_left(section: Section, changes: Sequence[Change]) -> Fraction:
    """The vehicles/h that pass a section where all these changes hold.

    Of its own lanes pass at most the least `capacity`; what opened lanes carry is added to that.
    """
    if any(change.red for change in changes):
        return Fraction(0)
    own, opened = lanes_left(section, changes)
    each = min([section.saturation_flow, *_told(changes, "saturation_flow", opening=False)])
    beside = min([each, *_told(changes, "saturation_flow", opening=True)])
    return min([own * each, *_told(changes, "capacity", opening=False)]) + opened * beside


def least(changes: Sequence[Change]) -> Fraction:
    """The vehicles/h that a gate or an exit lets pass where all these changes hold."""
    return Fraction(0) if any(change.red for change in changes) else min(_told(changes, "capacity", opening=False))


def _told(changes: Sequence[Change], name: str, opening: bool) -> list[Fraction]:
    """What closures, or openings, say under a name."""
    found = (getattr(change, name) for change in changes if (change.opened > 0) == opening)
    return [value for value in found if value is not None]


def most_opened(changes: Sequence[Change]) -> Fraction:
    """The most lanes that openings add to a cell at one time."""
    return max((sum((change.opened for change in holding), Fraction(0)) for _, _, holding in spans(changes)),
               default=Fraction(0))


class Limits:
    """What changes the capacity of gates, exits and cells, and the records of limits that this makes.

    The records of a cell never overlap: each has what is left where all hold that hold at its steps.
    """

    def __init__(self, study: Scenario, junctions: Junctions, scale: Scale) -> None:
        self.study, self.junctions, self.scale = study, junctions, scale
        self.changes: dict[str, list[Change]] = {}  # for each gate, exit and cell what changes its capacity
        self._nodes()
        for closure in study.closures:
            self._on_cells(closure, closed=closure.lanes or Fraction(0), capacity=closure.capacity)
        for opening in study.openings:
            self._on_cells(opening, opened=opening.lanes)
        for one in study.yields:
            self._gives_way(one)
        for cell in self._cells():
            self._widen(cell)

    def add(self, name: str, change: Change) -> None:
        """Puts a change on a gate, an exit or a cell."""
        self.changes.setdefault(name, []).append(change)

    def records(self) -> Iterator[Record]:
        """A record for each span of steps in which a gate, an exit or a cell has another capacity than its own."""
        for name in [*self.study.gates, *self.study.exits]:
            yield from self._records_of(name, least)
        for cell in self._cells():
            yield from self._records_of(cell.name, partial(flow_left, cell.section))

    def overlaps(self) -> Iterator[str]:
        """What is left where closures, openings or limits overlap, in a line for each such place and time."""
        for name in [*self.study.gates, *self.study.exits]:
            for begin, end, holding in self._overlapping(name):
                yield f"{_places(holding)} overlap {self._clock(begin, end)}: {_flow(least(holding))} are left"
        for (places, span, _), stretches in self._overlapping_cells().items():
            for cells in stretches:
                section, holding = cells[0][0].section, cells[0][1]
                own, opened = lanes_left(section, holding)
                beside = f" and {rounded_text(opened)} opened" if opened else ""
                yield (f"{places} overlap on road {cells[0][0].road} from km {rounded_text(cells[0][0].start)} to "
                       f"{rounded_text(cells[-1][0].end)}, {span}: {rounded_text(own)} of {section.lanes} lanes{beside} and "
                       f"{_flow(flow_left(section, holding))} are left")

    def _nodes(self) -> None:
        """The limits that gates and exits say."""
        nodes: list[tuple[str, Gate | Exit]] = [(f"gates.{gate.name}", gate) for gate in self.study.gates.values()]
        nodes += [(f"exits.{exit_.name}", exit_) for exit_ in self.study.exits.values()]
        for place, node in nodes:
            for i, limit in enumerate(node.limits, 1):
                what = f"{place}.limits[{i}]"
                self.add(node.name, Change(*self.scale.span(what, limit.start, limit.end), what, capacity=limit.flow))

    def _gives_way(self, one: Yield) -> None:
        """Puts what passes of those who give way on the cell that they leave."""
        name = self.junctions.end_of(one.road, one.place)
        for limit in one.capacities or ():
            span = self.scale.span(one.place, limit.start, limit.end)
            self.add(name, Change(*span, one.place, capacity=limit.flow, by_gaps=True))

    def _on_cells(self, work: Closure | Opening, **terms: Any) -> None:
        """Puts what a closure or an opening changes on each cell of its part of the road."""
        part = work.part
        span = self.scale.span(part.place, part.start, part.end)
        for cell in self.junctions.cells_of(part):
            if terms.get("closed", 0) > cell.section.lanes:
                raise Problem(f"{part.place}.lanes: the road has {cell.section.lanes} there")
            self.add(cell.name, Change(*span, part.place, saturation_flow=work.saturation_flow, **terms))

    def _cells(self) -> list[RoadCell]:
        """The cells of roads whose capacity changes, in the order of the network."""
        return [cell for row in self.junctions.layout.cells.values() for cell in row if cell.name in self.changes]

    def _widen(self, cell: RoadCell) -> None:
        """Gives a cell the room of the lanes that are opened there too, since a cell has one room at all times."""
        holding = [flow_left(cell.section, holding) for _, _, holding in spans(self.changes[cell.name])]
        cell.most = max(cell.most, rounded_parts(max(holding) * self.scale.step / HOUR))
        cell.opened = most_opened(self.changes[cell.name])
        lanes = cell.section.lanes + cell.opened
        cell.room = rounded_parts(cell.section.jam_density * lanes * (cell.end - cell.start))

    def _records_of(self, name: str, flow_of: Callable[[Sequence[Change]], Fraction]) -> Iterator[Record]:
        """The records of a cell, with spans of one capacity that follow each other joined."""
        last: tuple[int, int, int] | None = None
        for begin, end, holding in spans(self.changes.get(name, ())):
            parts = self.scale.flow(f"{_places(holding)}: what is left", flow_of(holding))
            if last and last[1:] == (begin, parts):
                last = last[0], end, parts
                continue
            if last:
                yield record("limit", name, *last)
            last = begin, end, parts
        if last:
            yield record("limit", name, *last)

    def _overlapping(self, name: str) -> list[Span]:
        """The spans of a cell in which several closures, openings or limits hold; red lights and gaps aren't reported."""
        works = [change for change in self.changes.get(name, ()) if not change.red and not change.by_gaps]
        return [span for span in spans(works) if len(span[2]) > 1]

    def _overlapping_cells(self) -> Overlaps:
        """The overlaps on roads: by their places, their time and their section the stretches of cells that have them."""
        found: Overlaps = {}
        for cell in self._cells():
            for begin, end, holding in self._overlapping(cell.name):
                key = _places(holding), self._clock(begin, end), (cell.road, id(cell.section))
                stretches = found.setdefault(key, [])
                if not stretches or stretches[-1][-1][0].end != cell.start:
                    stretches.append([])
                stretches[-1].append((cell, holding))
        return found

    def _clock(self, begin: int, end: int) -> str:
        start, step = self.study.start, self.scale.step
        return " to ".join(clock_text(float(start + step * time)) for time in (begin, min(end, self.scale.steps)))


def _places(holding: Sequence[Change]) -> str:
    return " and ".join(dict.fromkeys(change.place for change in holding))


def _flow(flow: Fraction) -> str:
    return f"{rounded_text(flow)} vehicles/h"
