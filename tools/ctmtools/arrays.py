"""Arrays of numbers, and cumulative curves among them: how many have passed a place until each recorded step."""

from __future__ import annotations

from typing import Any, TypeAlias

import numpy

Numbers: TypeAlias = "numpy.ndarray[Any, numpy.dtype[numpy.float64]]"
Wholes: TypeAlias = "numpy.ndarray[Any, numpy.dtype[numpy.int64]]"  # numbers of steps, cells and parts of vehicles
Flags: TypeAlias = "numpy.ndarray[Any, numpy.dtype[numpy.bool_]]"

DUST = 1e-9  # what sums of floating-point numbers may differ by that are the same


def first_greatest(values: Numbers) -> int:
    """The number of the greatest value, and of several that are as great the first one's."""
    return int((values >= values.max() - DUST).argmax())


def left_at(recorded: Numbers | Wholes, departed: Numbers, numbers: Numbers) -> Numbers:
    """When so many have left, by curves of departures at the recorded steps, a row for each; lacking where they haven't."""
    count = departed.shape[1]
    behind = places(departed, numbers)
    found = numpy.minimum(numpy.maximum(behind, 1), count - 1)
    curves, ends = departed.ravel(), found + count * numpy.arange(len(departed))[:, None]
    before, after = curves[ends - 1], curves[ends]
    with numpy.errstate(invalid="ignore", divide="ignore"):
        part = numpy.minimum(numpy.maximum((numbers - before) / (after - before), 0), 1)
    left = numpy.where(behind == 0, recorded[0], recorded[found - 1] + part * (recorded[found] - recorded[found - 1]))
    return numpy.where(behind == count, numpy.nan, left)


def places(rows: Numbers, values: Numbers) -> Wholes:
    """How many of each row, in which they rise, are below each of its values; all of them where the value is lacking.

    The rows are laid end to end, each above the one before it, so that all of them are searched at once.
    """
    if len(rows) == 1:
        return numpy.asarray(numpy.searchsorted(rows[0], values[0])[None])
    highest = max(numpy.fmax.reduce(each, axis=None, initial=0) for each in (rows, values))
    lowest = min(numpy.fmin.reduce(each, axis=None, initial=0) for each in (rows, values))
    above = (highest - lowest + 1) * numpy.arange(len(rows))[:, None]
    found = numpy.searchsorted((rows + above).ravel(), (values + above).ravel()).reshape(values.shape)
    own: Wholes = found - rows.shape[1] * numpy.arange(len(rows))[:, None]
    return numpy.minimum(own, rows.shape[1])
