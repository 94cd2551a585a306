"""The places at which the trips part, each diverge and each approach of a junction, and their shares as whole numbers.

A share is a ratio of whole numbers up to 1,000, so none is less than 1 in 1,001. What comes to a branch in a span of time is
first parted in millionths; the numbers of the program's records follow from these as from a study's own shares.
"""

from __future__ import annotations

from collections.abc import Iterator, Sequence
from dataclasses import dataclass
from fractions import Fraction
from functools import lru_cache

import networkx
import numpy

from ..arrays import Flags, Numbers
from ..problem import Problem
from ..study.network_text import Builder
from ..study.plan import Crossing
from ..study.scale import TOLD
from .legs import END, Legs

WHOLE = 1_000_000  # what the parts of a fork are together
SAME = 50  # of the whole; parts that differ by less are the same
LEAST_COMING = 1e-6  # vehicles; where fewer come in a span it has the shares of the one before it


@dataclass(frozen=True)
class Fork:
    """A place at which trips part: where the study says it, the row of its shares there, and its branches.

    `branches` are the legs into which trips part there, `columns` their places in the row, and `cells` the cells before the
    diverges that part them one by one: the first branch from the others, and so on.
    """

    place: str
    row: int
    branches: tuple[int, ...]
    columns: tuple[int, ...]
    cells: tuple[str, ...]


def forks_of(builder: Builder, legs: Legs) -> list[Fork]:
    """The forks of a study whose shares follow from the trips, in the order of the study."""
    firsts = {road: cells[0].name for road, cells in builder.layout.cells.items()}
    crossings = {crossing.place: crossing for crossing in builder.study.crossings}
    found = []
    for up, (downs, place) in builder.junctions.out_of.items():
        if len(downs) == 2 and place in builder.study.by_trips and place not in crossings:
            found.append(Fork(place, 0, tuple(legs.of_start[down] for down in downs), (0, 1), (up,)))
    for crossing in builder.study.crossings:
        if crossing.by_trips:
            found += _approaches(crossing, builder, legs, firsts)
    return found


def _approaches(crossing: Crossing, builder: Builder, legs: Legs, first: dict[str, str]) -> Iterator[Fork]:
    """The forks of a junction: one for each approach from which several movements lead."""
    for row, source in enumerate(crossing.sources):
        columns = tuple(j for j, share in enumerate(crossing.shares[row]) if share)
        if len(columns) < 2:
            continue
        cells = [source if source in builder.study.gates else builder.layout.cells[source][-1].name]
        cells += [first[f"{source}-fork{number}"] for number in range(1, len(columns) - 1)]
        branches = tuple(legs.of_start[first[f"{source}-{crossing.into[column]}"]] for column in columns)
        yield Fork(crossing.place, row, branches, columns, tuple(cells))


def refuse_shares(builder: Builder, legs: Legs) -> None:
    """Refuses a diverge that has shares of its own where trips part."""
    study = builder.study
    gates = {legs.gates[trips.source]: trips for trips in reversed(study.trips)}
    exits = {(END, trips.into) for trips in study.trips} & set(legs.graph)
    before = set(exits).union(*(networkx.ancestors(legs.graph, node) for node in exits))
    places = {up: place for up, (downs, place) in builder.junctions.out_of.items() if len(downs) == 2}
    for gate, trips in gates.items():
        reached = {gate, *networkx.descendants(legs.graph, gate)} & before
        parting = [legs.legs[node] for node in reached if not isinstance(node, tuple) and legs.legs[node].follows]
        own = {places[leg.end] for leg in parting if leg.end is not None} - set(study.by_trips)
        if own:
            raise Problem(f"{study.path}: {min(own)}.shares: trips part here, as those from {trips.source} of {trips.place}, "
                          "so it has no shares of its own; leave them out")


def exits_ahead(legs: Legs, exits: Sequence[str]) -> Flags:
    """For each leg the steps at free flow to the nearest of some exits; infinite where none is ahead."""
    back = legs.graph.reverse(copy=False)
    targets = {(END, name) for name in exits} & set(back)
    found = networkx.multi_source_dijkstra_path_length(back, targets, weight="steps") if targets else {}
    return numpy.array([float(found.get(number, numpy.inf)) for number in range(len(legs.legs))])


def parts_of(fork: Fork, counts: Numbers, ahead: Flags) -> Numbers:
    """What of a million goes into each branch in each span, as whole numbers: a row for each branch.

    Where nobody comes in a span the one before it counts, at first the one behind. Where nobody ever comes but those whom
    rounding leads there, they go to the nearest exit.
    """
    coming = numpy.maximum(counts[list(fork.branches)], 0)
    totals = coming.sum(axis=0)
    known = numpy.flatnonzero(totals > LEAST_COMING)
    if not len(known):
        ways = ahead[list(fork.branches)]
        parts = numpy.where(numpy.arange(len(ways)) == ways.argmin(), WHOLE, 1)
        return numpy.repeat(parts[:, None], counts.shape[1], axis=1)
    latest = numpy.searchsorted(known, numpy.arange(counts.shape[1]), side="right") - 1
    taken = known[numpy.maximum(latest, 0)]
    parts = WHOLE * coming[:, taken] / totals[taken]
    return numpy.maximum(numpy.rint(_steadied(parts)), 1).astype(int)


def _steadied(parts: Numbers) -> Numbers:
    """Parts of spans that follow each other, which stay as they are until they differ by more than the curves show."""
    if not numpy.abs(numpy.diff(parts, axis=1)).any():
        return parts
    steady = parts.copy()
    for span in range(1, parts.shape[1]):
        if numpy.abs(parts[:, span] - steady[:, span - 1]).max() <= SAME:
            steady[:, span] = steady[:, span - 1]
    return steady


@lru_cache(maxsize=1_000_000)
def pair_of(first: int, second: int) -> tuple[int, int]:
    """Two whole numbers, 1 to 1,000, in the ratio of two parts or next to it."""
    less, more = sorted((first, second))
    ratio = Fraction(less, more).limit_denominator(1000)
    low, high = (ratio.numerator, ratio.denominator) if ratio else (1, 1000)
    return (low, high) if first <= second else (high, low)


def pairs_of(parts: Numbers) -> Iterator[list[tuple[int, int]]]:
    """For each diverge of a fork, by its parts, the pair of its shares in each span."""
    for branch in range(len(parts) - 1):
        others = parts[branch + 1:].sum(axis=0)
        yield [pair_of(int(one), int(other)) for one, other in zip(parts[branch], others)]


@dataclass
class Rounded:
    """What the rounding of shares does: in how many spans of diverges, the greatest change, and who goes astray."""

    intervals: int = 0
    of: int = 0
    greatest: float = 0.0  # of a share, as a part of all that come
    where: str = ""
    vehicles: float = 0.0

    def note(self, fork: Fork, counts: Numbers, parts: Numbers) -> None:
        """Notes the shares of a fork."""
        coming = numpy.maximum(counts[list(fork.branches)], 0)
        for branch, pairs in enumerate(pairs_of(parts)):
            total = coming[branch:].sum(axis=0)
            for one, all_, (first, second) in zip(coming[branch], total, pairs):
                if all_ > LEAST_COMING:
                    self._note(fork, float(one / all_), first / (first + second), float(all_))

    def _note(self, fork: Fork, asked: float, modelled: float, vehicles: float) -> None:
        change = abs(asked - modelled)
        self.of += 1
        self.vehicles += change * vehicles
        self.intervals += change > float(TOLD) * min(asked, 1 - asked)
        if change > self.greatest:
            self.greatest, self.where = change, fork.place
