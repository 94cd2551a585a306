"""Closed roads behind a diverge: what a closure lets through there, so that it doesn't hold up who drives past it.

A branch of a diverge gets at least 1 in 1,001, and one that takes nothing holds back the other. So a closure that leaves
nothing on a branch is given the capacity that those need whom the least share leads there.
"""

from __future__ import annotations

import math
from collections.abc import Iterator
from dataclasses import replace
from fractions import Fraction

from ..study.network_text import Builder
from ..study.plan import Closure, Scenario
from ..texts.amounts import PARTS
from ..texts.quantities import HOUR

SHARE = 1000  # the least share is a little less than 1 in so many


def let_through(study: Scenario) -> dict[str, Fraction]:
    """Gives such closures of a study their capacity; by their places what they let through, in vehicles/h."""
    if not study.closures:
        return {}
    found = dict(_closed(study))
    study.closures = [replace(closure, lanes=None, capacity=found[closure.part.place]) if closure.part.place in found
                      else closure for closure in study.closures]
    return found


def _closed(study: Scenario) -> Iterator[tuple[str, Fraction]]:
    """The closures that leave nothing on a branch of a diverge that goes by the trips, and what comes there at most."""
    builder = Builder(study)
    capacities = {cell.name: cell.most for cells in builder.layout.cells.values() for cell in cells}
    before: dict[str, list[str]] = {}
    for up, (downs, _) in builder.junctions.out_of.items():
        for down in downs:
            before.setdefault(down, []).append(up)
    for closure in study.closures:
        cell = builder.junctions.cells_of(closure.part)[0]
        diverge = _diverge_before(cell.name, builder, before)
        if diverge is not None and _leaves_nothing(closure, cell.section.lanes):
            most = capacities.get(diverge, max(capacities.values()))
            yield closure.part.place, Fraction(math.ceil(Fraction(most * HOUR, PARTS * SHARE) / study.step))


def _diverge_before(cell: str, builder: Builder, before: dict[str, list[str]]) -> str | None:
    """The cell before the diverge by the trips from which links lead to a cell; None where something else lies between."""
    seen = set()
    while cell not in seen and len(before.get(cell, ())) == 1:
        seen.add(cell)
        cell = before[cell][0]
        downs, place = builder.junctions.out_of[cell]
        if len(downs) == 2:
            return cell if place in builder.study.by_trips else None
    return None


def _leaves_nothing(closure: Closure, lanes: int) -> bool:
    return closure.capacity == 0 if closure.lanes is None else closure.lanes == lanes
