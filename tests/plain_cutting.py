"""Grown cuttings once more, plainly: the walk as docs/FORMAT.md tells it, all candidates by brute force, and the connectors
that a cutting cuts. Nothing here knows how the program finds one.
"""

import functools
import itertools

from plain_model import records_of

CELLS = {"link": 2, "merge": 3, "diverge": 3}  # how many fields of a connector name cells


class Plan:
    """The cells of a network, by their place in the file, and of each connector its cells."""

    def __init__(self, content):
        records = records_of(content)[1:]
        self.names = [values[0] for kind, *values in records if kind in ("road", "gate", "exit")]
        place = {name: i for i, name in enumerate(self.names)}
        self.connectors = [{place[name] for name in values[:CELLS[kind]]} for kind, *values in records if kind in CELLS]
        self.cells = range(len(self.names))

    @functools.cached_property
    def walk(self):
        beside = {x: set().union(*(cells for cells in self.connectors if x in cells)) for x in self.cells}
        order, missing = [], set(self.cells)
        while missing:
            added = min(next((found for x in order if (found := beside[x] & missing)), missing))
            order.append(added)
            missing.remove(added)
        return order

    def cuts(self, regions):
        return sum(len({regions[i] for i in cells}) > 1 for cells in self.connectors)

    def even(self, k):
        return [i * k // len(self.cells) for i in self.cells]

    def candidates(self, k):
        """Every cutting into k runs of the file order or of the walk, each of an even size."""
        floor, larger = divmod(len(self.cells), k)
        for larges in itertools.combinations(range(k), larger):
            runs = [r for r in range(k) for _ in range(floor + (r in larges))]
            for order in (self.cells, self.walk):
                regions = [0] * len(order)
                for i, r in zip(order, runs):
                    regions[i] = r
                yield regions

    def fewest(self, k):
        return min(map(self.cuts, self.candidates(k)))
