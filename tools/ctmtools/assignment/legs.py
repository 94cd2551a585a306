"""A network as legs: from a gate, or from a branch of a diverge, to the next diverge or to an exit.

Who is on a leg has nothing to choose until its end. It goes over chains, rows of cells that links join; a merge ends one
chain and begins the next, which several legs may have.
"""

from __future__ import annotations

from collections.abc import Sequence
from dataclasses import dataclass, field
from fractions import Fraction
from functools import cached_property
from itertools import islice

import networkx
import numpy

from ..network_file.network import Network

FINEST = 1_000_000  # of the steps of a cell with a speed limit
END = "end"  # before the name of an exit among the nodes of the graph


@dataclass
class Leg:
    """A leg: its first cell, its chains by their numbers, and the diverge's cell or the exit that it ends at.

    `follows` are the legs behind the diverge; a leg that ends nowhere has no end.
    """

    start: str
    chains: list[int] = field(default_factory=list)
    end: str | None = None
    follows: tuple[int, ...] = ()


RouteLegs = tuple[int, ...]  # the numbers of legs that follow each other, from a gate to an exit


class Legs:
    """All legs of a network, those of the gates first, and its chains."""

    def __init__(self, network: Network) -> None:
        self.network = network
        self.kinds = network.kinds
        self._out: dict[str, tuple[str, list[str]]] = {}
        for up, down, kind in zip(*(network.links[name] for name in ("up", "down", "kind"))):
            self._out.setdefault(up, (kind, []))[1].append(down)
        self.chains: list[list[str]] = []
        self._chain_of: dict[str, int] = {}  # by its first cell
        starts = [cell for cell, kind in self.kinds.items() if kind == "gate"]
        self.gates = {cell: number for number, cell in enumerate(starts)}
        self.diverges = [up for up, (kind, _) in self._out.items() if kind == "diverge"]
        starts += [down for up in self.diverges for down in self._out[up][1]]
        self.legs = [Leg(start) for start in starts]
        self.of_start = {leg.start: number for number, leg in enumerate(self.legs)}
        for leg in self.legs:
            self._walk(leg)

    def _walk(self, leg: Leg) -> None:
        """Follows a leg over its chains to its end."""
        cell = leg.start
        while True:
            if self.kinds[cell] == "exit":
                leg.end = cell
                return
            chain = self._chain(cell)
            if chain in leg.chains:
                return  # round and round
            leg.chains.append(chain)
            last = self.chains[chain][-1]
            kind, downs = self._out.get(last, ("", []))
            if kind == "diverge":
                leg.end, leg.follows = last, tuple(self.of_start[down] for down in downs)
                return
            if not downs:
                return
            cell = downs[0]

    def _chain(self, first: str) -> int:
        """The number of the chain that begins with a cell."""
        if first not in self._chain_of:
            cells, seen = [first], {first}
            while self._out.get(cells[-1], ("", []))[0] == "link":
                following = self._out[cells[-1]][1][0]
                if self.kinds[following] == "exit" or following in seen:
                    break
                cells.append(following)
                seen.add(following)
            self._chain_of[first] = len(self.chains)
            self.chains.append(cells)
        return self._chain_of[first]

    def cells(self, way: RouteLegs) -> list[str]:
        """The cells of a way in their order."""
        return [cell for leg in way for chain in self.legs[leg].chains for cell in self.chains[chain]]

    def along(self, cells: Sequence[str]) -> RouteLegs:
        """The way whose cells from a gate to an exit these are."""
        diverges = set(self.diverges)
        return self.gates[cells[0]], *(self.of_start[down] for up, down in zip(cells, cells[1:]) if up in diverges)

    def steps(self, leg: int) -> int | Fraction:
        """The steps that a leg takes at free flow: one for each cell, or more by the mean of its speed limits over the run."""
        cells = [cell for chain in self.legs[leg].chains for cell in self.chains[chain]]
        return len(cells) + sum(self._slow[cell] - 1 for cell in cells if cell in self._slow)

    @cached_property
    def _slow(self) -> dict[str, Fraction]:
        """The steps at free flow of each cell that has a speed limit at some time, exact enough that ways alike stay alike."""
        run = numpy.array([0.0, self.network.steps])
        return {cell: Fraction(1 / pace.mean(run)[0]).limit_denominator(FINEST) for cell, pace in self.network.paces.items()}

    @cached_property
    def graph(self) -> networkx.DiGraph:
        """The legs, and behind the last ones the exits, each edge with the steps that its leg takes at free flow."""
        graph = networkx.DiGraph()
        graph.add_nodes_from(range(len(self.legs)))
        for number, leg in enumerate(self.legs):
            if leg.end is not None:
                behind = leg.follows or ((END, leg.end),)
                graph.add_edges_from(((number, node) for node in behind), steps=max(1, self.steps(number)))
        return graph

    def free_ways(self, source: str, into: str, most: int) -> list[RouteLegs]:
        """The ways of the least steps from a gate to an exit, at most so many; none where no way leads there."""
        target = END, into
        if target not in self.graph:
            return []
        try:
            found = networkx.all_shortest_paths(self.graph, self.gates[source], target, "steps")
            return [tuple(way[:-1]) for way in islice(found, most)]
        except networkx.NetworkXNoPath:
            return []

    def farthest(self, source: str) -> str:
        """The last cell that is reached from a gate, by the steps from there."""
        reached: dict[int | tuple[str, str], int | Fraction] = networkx.single_source_dijkstra_path_length(
            self.graph, self.gates[source], weight="steps")
        driven = [node for node in reached if not isinstance(node, tuple) and self.legs[node].chains]
        last = self.legs[max(driven, key=reached.__getitem__)]
        return self.chains[last.chains[-1]][-1]
