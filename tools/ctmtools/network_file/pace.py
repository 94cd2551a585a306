"""How fast one drives on a road at free flow: a cell a step, or less where a speed limit holds."""

from __future__ import annotations

from collections.abc import Iterator, Sequence
from dataclasses import dataclass

import numpy

from ..arrays import Numbers, Wholes


@dataclass(frozen=True)
class Pace:
    """How many cells long who drives at free flow has come in a road at each of some steps, between which the speed is one.

    `parts` are the parts of the road's own speed from each of these steps to the next. Behind the last one the speed stays.
    """

    steps: Numbers
    parts: Numbers
    cells: Numbers

    def driven(self, moments: Numbers | Wholes) -> Numbers:
        """The cells that are driven until some moments."""
        within = numpy.interp(moments, self.steps, self.cells)
        driven: Numbers = within + numpy.maximum(moments - self.steps[-1], 0) * self.parts[-1]
        return driven

    def left(self, entered: Numbers) -> Numbers:
        """When those leave the cell who enter it at some moments, at free flow."""
        wanted = self.driven(entered) + 1
        within = numpy.interp(wanted, self.cells, self.steps)
        left: Numbers = within + numpy.maximum(wanted - self.cells[-1], 0) / self.parts[-1]
        return left

    def slower(self) -> Iterator[tuple[int, int, float]]:
        """The steps from and to which a speed limit holds, each with its part of the road's own speed."""
        for begin, end, part in zip(self.steps, self.steps[1:], self.parts):
            if part < 1:
                yield int(begin), int(end), float(part)

    def mean(self, moments: Numbers | Wholes) -> Numbers:
        """The mean part of the road's own speed from each moment to the next."""
        part: Numbers = numpy.diff(self.driven(moments)) / numpy.diff(moments)
        return part


def pace_of(speeds: Sequence[tuple[int, int, float]], steps: int) -> Pace:
    """The pace of a road by its speeds, of which the last one holds: from, to and the part of its own free-flow speed."""
    bounds = numpy.unique([0, steps, *(min(bound, steps) for begin, end, _ in speeds for bound in (begin, end))])
    parts = numpy.ones(len(bounds) - 1)
    for begin, end, part in speeds:
        first, last = numpy.searchsorted(bounds, [min(begin, steps), min(end, steps)])
        parts[first:last] = part
    return Pace(bounds.astype(float), parts, numpy.concatenate([[0.0], numpy.cumsum(parts * numpy.diff(bounds))]))
