"""What a draw has: its random numbers, and incidents, as many as the vehicle-kilometres of a run and their rate make.

Values are drawn by the seed, the number of the draw and the key alone. So a draw is the same for each plan and any number of
workers, and another key or more draws leave it as it is.
"""

from __future__ import annotations

from collections.abc import Iterator, Sequence
from fractions import Fraction
from typing import Any
from zlib import crc32

import numpy

from ..arrays import Numbers
from ..problem import Problem
from ..report.reading import Report
from ..report.routes import cells_of_road
from ..study.plan import Closure, Scenario
from ..study.times import RoadPart
from ..study.uncertainty import Incidents, Together, Uncertainty

DIGITS = 9  # of a number that is drawn
MILLION = 1_000_000
MOST = 1000  # incidents that are to be expected of one entry in a run
STRETCH = 1e-9  # km by which a cell may lie beyond a part of a road


def generator(seed: int, number: int, name: str) -> numpy.random.Generator:
    """The generator of what is drawn under a name in a draw."""
    return numpy.random.default_rng([seed, number, crc32(name.encode())])


def drawn(uncertainty: Uncertainty, seed: int, number: int) -> dict[str, Any]:
    """The value or factor of each key that varies, in a draw: numbers as fractions, of nine digits."""
    scores = {one.key: float(generator(seed, number, one.key).standard_normal()) for one in uncertainty.varying}
    for group in uncertainty.together:
        scores.update(zip(group.keys, _correlated(group, [scores[key] for key in group.keys])))
    return {one.key: _exact(one.distribution.at(scores[one.key])) for one in uncertainty.varying}


def _correlated(group: Together, scores: Sequence[float]) -> list[float]:
    """Independent scores made to have the correlations of a group, by the symmetric root of these, a Gaussian copula."""
    roots, vectors = numpy.linalg.eigh(numpy.array(group.correlations))
    root = (vectors * numpy.sqrt(numpy.clip(roots, 0, None))) @ vectors.T
    return [float(score) for score in root @ numpy.array(scores)]


def _exact(value: Any) -> Any:
    return Fraction(f"{value:.{DIGITS}g}") if isinstance(value, float) else value


def happened(entries: Sequence[Incidents], report: Report, study: Scenario, seed: int, number: int) -> list[Closure]:
    """The closures of a draw's incidents, by the vehicle-kilometres of a report without them."""
    return [closure for i, entry in enumerate(entries, 1)
            for closure in _of_entry(entry, report, study, generator(seed, number, f"incidents {i}"))]


def _of_entry(entry: Incidents, report: Report, study: Scenario, random: numpy.random.Generator) -> Iterator[Closure]:
    """The closures of one entry: a Poisson process, in which vehicle-kilometres are the clock."""
    cells = _cells(entry, report)
    driven = _driven(entry, report, cells)
    expected = numpy.concatenate([[0.0], numpy.cumsum(driven.sum(axis=1))]) * entry.rate / MILLION
    if expected[-1] > MOST:
        raise Problem(f"{entry.part.place}.rate: makes {expected[-1]:,.0f} incidents in a run; it is for a million vehicle-km")
    step, reached = float(study.step), random.exponential()
    while reached < expected[-1]:
        row = int(numpy.searchsorted(expected, reached, side="right")) - 1
        part = (reached - expected[row]) / (expected[row + 1] - expected[row])
        begin = report.times[row] + part * (report.times[row + 1] - report.times[row])
        sums = numpy.cumsum(driven[row])
        place = int(numpy.searchsorted(sums, random.random() * sums[-1], side="right"))
        steps = max(1, round(float(entry.lasting.at(random.standard_normal())) / step))
        lanes = Fraction(f"{float(entry.lanes.at(random.standard_normal())):.9g}")
        cell = cells[min(place, len(cells) - 1)]
        span = int(begin) * study.step, min((int(begin) + steps) * study.step, study.duration)
        yield Closure(_part(entry, report, cell, span), lanes, None, entry.saturation_flow)
        reached += random.exponential()


def _cells(entry: Incidents, report: Report) -> list[str]:
    """The cells of an entry's part of a road."""
    part, rows = entry.part, report.units.cells
    end = float("inf") if part.end_km is None else float(part.end_km)
    found = [cell for cell in cells_of_road(report, part.road)
             if rows[cell]["from_km"] >= float(part.start_km) - STRETCH and rows[cell]["to_km"] <= end + STRETCH]
    if not found:
        raise Problem(f"{part.place}: road {part.road} has no whole cell from km {float(part.start_km):g} to {end:g}")
    return found


def _driven(entry: Incidents, report: Report, cells: Sequence[str]) -> Numbers:
    """The vehicle-kilometres in each recorded step (rows) and cell, 0 outside the entry's time."""
    lengths = numpy.array([report.units.length(cell) or 0.0 for cell in cells])
    driven: Numbers = report.passed[:, report.places(cells)] * lengths
    seconds = numpy.asarray(report.times[:-1]) * (report.units.step or 0.0)
    driven[(seconds < float(entry.part.start)) | (seconds >= float(entry.part.end))] = 0
    return driven


def _part(entry: Incidents, report: Report, cell: str, span: tuple[Fraction, Fraction]) -> RoadPart:
    """The part of a road and the time that an incident in a cell is of."""
    rows, road = report.units.cells, entry.part.road
    start_km = Fraction(str(rows[cell]["from_km"]))
    end_km = Fraction(str(rows[cell]["to_km"]))
    if entry.length is not None:
        end_km = min(start_km + entry.length, Fraction(str(rows[report.units.roads[road][-1]]["to_km"])))
    return RoadPart(road, start_km, end_km, *span, entry.part.place)
