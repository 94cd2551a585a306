"""Queues before diverges one branch of which is free: who drives there waits as well, since a diverge holds up all.

So where drivers choose, none of them gains by the free branch, and an equilibrium may have a delay that others would not.
"""

from __future__ import annotations

from collections.abc import Iterator
from dataclasses import dataclass

import numpy

from ..arrays import Flags, Numbers
from .queues import stands, vehicles_waiting
from .reading import Report
from .summary import number_text, where

FULL, FREE = 0.99, 0.9  # a cell passes all that it may from the one part on, and has room below the other
LEAST_PART = 0.05  # of the delay of a run, below which what is waited isn't reported
MOST_TOLD = 3


@dataclass(frozen=True)
class Held:
    """What is waited before a diverge, in vehicle-steps, while its branch `full` passes all that it may and `free` has room."""

    before: str
    full: str
    free: str
    delay: float


def held_branches(report: Report) -> list[Held]:
    """The diverges whose queue stands while one branch is free, the most costly first."""
    downs, standing, waits = report.need_network().downs, stands(report), vehicles_waiting(report)
    found = []
    for cell in [report.names[place] for place in numpy.flatnonzero(standing.any(axis=0)).tolist()]:
        branches = list(downs[cell])
        for full, free in (branches, branches[::-1]) if len(branches) == 2 else ():
            held = standing[:, report.place(cell)] & _is_full(report, standing, full) & _is_free(report, standing, free)
            if held.any():
                delay = _waited(report, cell, held[:, None] & standing, waits)
                found.append(Held(cell, full, free, delay))
    return sorted(found, key=lambda one: -one.delay)


def held_lines(report: Report) -> Iterator[str]:
    """What is waited before diverges with a free branch, where that is much of a run's delay."""
    least = max(1.0, LEAST_PART * report.sums.delay)
    costly = [one for one in held_branches(report) if one.delay >= least] if report.recorded and report.network else []
    for one in costly[:MOST_TOLD]:
        yield (f"Before {where(report, one.before)} {number_text(report.units.hours(one.delay))} {report.units.delay_unit} are waited for "
               f"{one.full} while {one.free} is free: vehicles bound for that one wait too, since a diverge holds up all")


def _waited(report: Report, cell: str, standing: Flags, waits: Numbers) -> float:
    """What is waited in a queue from a cell back, at some times."""
    ups, seen, left = report.need_network().ups, {cell}, [cell]
    while left:
        for up in ups[left.pop()]:
            if up not in seen and standing[:, report.place(up)].any():
                seen.add(up)
                left.append(up)
    places = [report.place(one) for one in seen]
    return float((waits[:, places] * report.lasting * standing[:, places]).sum())


def _is_full(report: Report, standing: Flags, cell: str) -> Flags:
    """When a branch stands in a queue, or passes all that it may."""
    full: Flags = standing[:, report.place(cell)] | (report.passed[:, report.place(cell)] >= FULL * _passable(report, cell))
    return full


def _is_free(report: Report, standing: Flags, cell: str) -> Flags:
    """When a branch stands in no queue, and could pass more."""
    free: Flags = ~standing[:, report.place(cell)] & (report.passed[:, report.place(cell)] < FREE * _passable(report, cell))
    return free


def _passable(report: Report, cell: str) -> Numbers:
    """How many vehicles may leave a cell from each recorded step to the next, by its capacity and limits."""
    network = report.need_network()
    most = numpy.full(report.steps, network.capacities[cell])
    for begin, end, capacity in network.limits_of.get(cell, ()):
        most[begin:end] = capacity
    passable: Numbers = numpy.add.reduceat(most, numpy.asarray(report.times[:-1], dtype=int))
    return passable
