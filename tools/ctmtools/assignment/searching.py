"""The ways of the least time by the time of setting out: shortest paths over the legs in slots of time, by scipy."""

from __future__ import annotations

from collections.abc import Iterable, Iterator, Sequence

import numpy
from scipy.sparse import csr_matrix
from scipy.sparse.csgraph import dijkstra

from ..arrays import Numbers, Wholes
from .legs import RouteLegs
from .passing import Passing

MOST_NODES = 40_000  # legs times slots
MOST_SLOTS = 96
MOST_VALUES = 20_000_000  # of one call of scipy's: exits times nodes
LEAST = 1e-6  # steps; a branch that is an exit takes none, and an edge has to have a length


class Search:
    """The legs at each slot of time as a graph, each joined to those that follow at the slot of its end, turned round.

    An exit has no slots, so from there all legs at all slots are reached in one call, each by its least time to go.
    """

    def __init__(self, passing: Passing, steps: int) -> None:
        self.passing, self.legs = passing, passing.legs
        count = max(2, min(MOST_SLOTS, steps, MOST_NODES // max(1, len(self.legs.legs))))
        self.slots = numpy.linspace(0, steps, count)
        exits = sorted({leg.end for leg in self.legs.legs if leg.end is not None and not leg.follows})
        self.exits = {name: len(self.legs.legs) * count + number for number, name in enumerate(exits)}
        self.graph = self._graph()

    def _graph(self) -> csr_matrix:
        count, width = len(self.slots), self.slots[1]
        legs = self.legs.legs
        left = self.passing.through(numpy.arange(len(legs)), numpy.tile(self.slots, (len(legs), 1)))
        behind = numpy.minimum(numpy.rint(left / width), count - 1).astype(int)
        times = numpy.maximum(left - self.slots, LEAST)
        nodes = numpy.arange(len(legs) * count).reshape(len(legs), count)
        ups, downs = self._numbers((number, following) for number, leg in enumerate(legs) for following in leg.follows)
        lasts, exits = self._numbers((number, self.exits[leg.end]) for number, leg in enumerate(legs)
                                     if leg.end is not None and not leg.follows)
        rows = numpy.concatenate([(downs[:, None] * count + behind[ups]).ravel(), numpy.repeat(exits, count)])
        own = numpy.concatenate([ups, lasts])
        size = len(legs) * count + len(self.exits)
        return csr_matrix((times[own].ravel(), (rows, nodes[own].ravel())), (size, size))

    @staticmethod
    def _numbers(pairs: Iterable[tuple[int, int]]) -> Wholes:
        """The first numbers of pairs, and the second ones."""
        return numpy.array(list(pairs), dtype=int).reshape(-1, 2).T

    def ways(self, wanted: Sequence[tuple[str, Sequence[tuple[str, float]]]]) -> Iterator[list[RouteLegs | None]]:
        """For each exit the ways of the least time into it from each gate at each moment; None where there is none.

        As many exits as there is memory for are asked for in one call of scipy's.
        """
        at_once = max(1, MOST_VALUES // self.graph.shape[0])
        for first in range(0, len(wanted), at_once):
            group = wanted[first:first + at_once]
            known = [self.exits[into] for into, _ in group]
            _, behind = dijkstra(self.graph, indices=known, return_predecessors=True)
            for (into, starts), row in zip(group, behind):
                yield [self._way(row, self.exits[into], gate, moment) for gate, moment in starts]

    def _way(self, behind: Numbers, target: int, gate: str, moment: float) -> RouteLegs | None:
        """The legs from a gate at a moment on, by what stands behind each in the tree of an exit."""
        count = len(self.slots)
        slot = min(int(round(moment / self.slots[1])), count - 1)
        node = self.legs.gates[gate] * count + slot
        way = []
        while node != target:
            if node < 0:
                return None
            way.append(node // count)
            node = int(behind[node])
        return tuple(way)
