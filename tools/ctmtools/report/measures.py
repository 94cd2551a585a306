"""Density, flow and speed by Edie's generalised definitions: the one place where they are worked out.

L. C. Edie (1963) takes any area of place and time, and of it the distance that all vehicles drive there and the time that they
spend there. Flow is distance by area, density is time by area, and speed is distance by time. Here an area is of some cells, from
a recorded step to another one. Who leaves a cell has driven its length.
"""

from __future__ import annotations

from collections.abc import Sequence
from typing import NamedTuple

import numpy

from ..arrays import Numbers, Wholes
from .reading import Report


class Measures(NamedTuple):
    """Density, flow and speed, lacking where they aren't known; a speed also where nobody is."""

    density: Numbers
    flow: Numbers
    speed: Numbers


def edie(distance: Numbers, spent: Numbers, area: Numbers, hour: float) -> Measures:
    """The measures of areas by the distance driven and the time spent in each, both times in steps, of which an hour has so many."""
    with numpy.errstate(invalid="ignore", divide="ignore"):
        flow, speed = distance / area, distance / spent
        flow *= hour
        speed[spent <= 0] = numpy.nan
        speed *= hour
        return Measures(spent / area, flow, speed)


def measured(report: Report, bounds: Sequence[int] | Wholes | None = None, cells: Sequence[str] | None = None,
             lengths: Numbers | None = None) -> Measures:
    """The measures of each cell from each of some recorded steps to the next: a row for each of these, a column for each cell.

    They are in vehicles/km, vehicles/h and km/h, or in vehicles in a cell, vehicles in a step and cells in a step. By default all
    recorded steps are taken, all cells, and the lengths that the units have. A cell without a length, as a gate, has a flow alone.
    """
    places: Wholes | slice = slice(None) if cells is None else report.places(cells)
    own = report.lengths[places] if lengths is None else lengths
    passed, spent = (_sums(report, values, bounds) for values in (report.passed[:, places], report.spent[:, places]))
    lasting = _sums(report, report.lasting, bounds)
    lacking = numpy.isnan(own)
    driven = numpy.where(lacking, 1.0, own)
    found = edie(passed * driven, spent, lasting * driven, hour_of(report))
    found.density[:, lacking] = found.speed[:, lacking] = numpy.nan
    return found


def measured_together(report: Report, bounds: Sequence[int] | Wholes, cells: Sequence[str], lanes: Numbers,
                      lengths: Numbers | None = None) -> Measures:
    """The measures of some cells as one area from each of some recorded steps to the next: density and flow in a lane, and speed.

    Cells without a length don't count; where none has one nothing is known.
    """
    places = report.places(cells)
    own = report.lengths[places] if lengths is None else lengths
    driven = numpy.where(numpy.isnan(own), 0.0, own)
    passed, spent = (_sums(report, values, bounds) for values in (report.passed[:, places], report.spent[:, places] * (driven > 0)))
    return edie(passed @ driven, spent.sum(axis=1), _sums(report, report.lasting, bounds)[:, 0] * (driven * lanes).sum(), hour_of(report))


def hour_of(report: Report) -> float:
    """The steps in an hour; 1 where the seconds of a step aren't known."""
    return 1.0 if report.units.step is None else 3600 / report.units.step


def _sums(report: Report, values: Numbers | Wholes, bounds: Sequence[int] | Wholes | None) -> Numbers:
    """What values between recorded steps add up to between each of the bounds and the next."""
    if bounds is None:
        return numpy.asarray(values)
    rows = numpy.searchsorted(report.times, bounds)
    sums: Numbers = numpy.add.reduceat(values[:rows[-1]], rows[:-1], axis=0)
    return sums
