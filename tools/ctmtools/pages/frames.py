"""The frames of a page: the recorded steps between which means are shown, and the measures of a report's cells over them."""

from __future__ import annotations

import base64
from collections.abc import Sequence
from functools import cached_property
from typing import Any

import numpy

from ..arrays import Flags, Numbers
from ..report.measures import Measures, measured
from ..report.queues import stands
from ..report.reading import Report

MOST_DATA = 3_200_000  # bytes of all reports together, which are a third more as text
EACH = 2 + 2 + 1 / 8  # bytes of a cell in a frame: density, flow, and whether it stands in a queue
TIME = 24  # bytes of the time of a frame
MOST = 65535  # the number that stands for the most of a cell


def bounds_of(reports: Sequence[Report]) -> list[int]:
    """The bounds of the frames: steps that are recorded in each report, as many as the page has room for."""
    shared = sorted(set.intersection(*({int(step) for step in report.times} for report in reports)))
    room = max(1, int(MOST_DATA / (EACH * sum(len(report.cells) for report in reports) + TIME)))
    each = -(-(len(shared) - 1) // room)
    return [*shared[:-1:each], shared[-1]]


class Frames:
    """What each cell holds, passes and is in from frame to frame: a row for each frame, a column for each cell.

    Density is in vehicles/km, or in vehicles where lengths aren't known, and in a gate or an exit; flow is in vehicles/h,
    or in vehicles a step.
    """

    def __init__(self, report: Report, bounds: Sequence[int], measured: bool) -> None:
        self.report, self.bounds, self.measured = report, bounds, measured

    @cached_property
    def _measures(self) -> Measures:
        units = self.report.units
        lengths = numpy.array([(units.length(cell) if self.measured else None) or 1.0 for cell in self.report.cells.index])
        return measured(self.report, self.bounds, lengths=lengths)

    @property
    def density(self) -> Numbers:
        """The density in each frame."""
        return self._measures.density

    @property
    def flow(self) -> Numbers:
        """The flow out of each cell in each frame."""
        return self._measures.flow

    @cached_property
    def queued(self) -> Flags:
        """Whether each cell stands in a queue for half of the frame or longer."""
        rows = numpy.searchsorted(self.report.times, self.bounds[:-1])
        steps = numpy.add.reduceat(stands(self.report) * self.report.lasting, rows, axis=0)
        return 2 * steps >= numpy.diff(self.bounds)[:, None]

    def data(self) -> dict[str, Any]:
        """The frames for the page: of each cell the most, and numbers of 16 bits in parts of it; queues as bits."""
        bits = numpy.packbits(self.queued.T.ravel()).tobytes()
        return {"density": _numbers(self.density), "flow": _numbers(self.flow), "queued": _text(bits)}


def _numbers(rows: Numbers) -> dict[str, Any]:
    most = rows.max(axis=0)
    parts = numpy.rint(rows.T / numpy.where(most > 0, most, 1)[:, None] * MOST)
    return {"most": [round(float(value), 6) for value in most], "text": _text(parts.astype("<u2").tobytes())}


def _text(content: bytes) -> str:
    return base64.b64encode(content).decode()
