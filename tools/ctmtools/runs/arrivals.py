"""A network whose vehicles come at random: whole ones, as many in each step as a Poisson draw has, and gaps for whole vehicles too.

What comes to a gate in a step is drawn with the mean of its demand. Where streams give way without a signal, what may pass is drawn
likewise with the mean that their gaps let: a cell lets go in the steps of a gap and in others as good as nothing. Movements in
one lane have their gaps together.
"""

from __future__ import annotations

from collections.abc import Iterator, Sequence
from dataclasses import dataclass
from itertools import groupby
from zlib import crc32

import numpy

from ..arrays import Flags, Numbers, Wholes
from ..network_file.kinds import Record, file_text, record
from ..network_file.network import Network, network_of
from ..study.network_text import form_of
from ..study.plan import Yield
from ..texts.amounts import PARTS
from ..units import Units, cell_of

DIGITS = 6  # of an amount
TINY = 1e-9  # vehicles
SLOWEST = (1, 1000)  # of a road's free-flow speed, the least that a network file has


@dataclass(frozen=True)
class Draw:
    """By what is drawn when vehicles come: a seed and the number of the draw, each with the names of gates and cells."""

    seed: int
    number: int

    def generator(self, name: str) -> numpy.random.Generator:
        """The generator of what is drawn under a name."""
        return numpy.random.default_rng([self.seed, self.number, crc32(name.encode())])


def drawn_network(network: Network, yields: Sequence[Yield], units: Units, draw: Draw) -> Network:
    """The network of a study with the arrivals and gaps of a draw, of whose streams some give way.

    A gap is written as a speed limit, so what may pass of its cells is that of the network itself.
    """
    return at_random(network, lanes_giving_way(yields, units), draw)


def at_random(network: Network, giving: Sequence[Sequence[str]], draw: Draw) -> Network:
    """The network with the arrivals and gaps of a draw; each of those who give way is the cells of a lane that has its gaps together.

    Other gates leave what is drawn for one as it is.
    """
    drawn = {cell for cells in giving for cell in cells}
    kept = [one for one in network.records if one.kind != "demand" and not (one.kind == "limit" and one.values[0] in drawn)]
    gates = dict.fromkeys(one.values[0] for one in network.records if one.kind == "demand")
    for gate in gates:
        kept += _arrivals(network, gate, draw.generator(gate))
    for cells in giving:
        kept += _gaps(network, cells, draw.generator(min(cells)))
    records = [record("steps", network.steps), *(one for one in kept if one.kind != "steps")]
    return network_of(file_text(form_of(records), records).encode())


def lanes_giving_way(yields: Sequence[Yield], units: Units) -> list[list[str]]:
    """The cells of those who give way without a signal, those of one shared lane together."""
    lanes: dict[tuple[str, ...], list[str]] = {}
    for one in yields:
        if one.permission is None and one.capacities is not None:
            lane = tuple(one.shared.roads) if one.shared and one.shared.count == 1 else (one.road,)
            lanes.setdefault(lane, []).append(cell_of(one.road, units))
    return list(lanes.values())


def _arrivals(network: Network, gate: str, random: numpy.random.Generator) -> Iterator[Record]:
    """The demand of a gate, in whole vehicles."""
    means = numpy.zeros(network.steps)
    for one in network.records:
        if one.kind == "demand" and one.values[0] == gate:
            _, begin, end, parts = one.values
            means[begin:end] += parts / PARTS
    for begin, end, count in _runs(random.poisson(means)):
        if count:
            yield record("demand", gate, begin, end, int(count) * PARTS)


def _gaps(network: Network, cells: Sequence[str], random: numpy.random.Generator) -> Iterator[Record]:
    """The steps in which the cells of a lane let nobody go: all but those of gaps, each of which passes a whole vehicle.

    In these each cell passes its part of the lane's vehicle.
    """
    passing, most = numpy.array([_passing(network, cell) for cell in cells]), network.capacities[cells[0]]
    means = passing.sum(axis=0)
    if len(cells) > 1:
        for cell, parts in zip(cells, most * passing / numpy.maximum(means, TINY)):
            yield from (record("limit", cell, begin, end, round(value * PARTS)) for begin, end, value in _runs(parts.round(DIGITS)))
    for begin, end, is_open in _runs(_opened(numpy.where(means < most, random.poisson(means), most), most)):
        if not is_open:
            yield from (record("speed", cell, begin, end, *SLOWEST) for cell in cells)


def _opened(counts: Numbers, most: float) -> Flags:
    """The steps in which whole vehicles may go of which so many may from each step on, and so much passes in one."""
    left, found = 0.0, numpy.zeros(len(counts), dtype=bool)
    for step, count in enumerate(counts.tolist()):
        left += count
        found[step] = left >= most / 2
        left -= most * found[step]
    return found


def _passing(network: Network, cell: str) -> Numbers:
    """What may pass a cell in each step."""
    passing = numpy.full(network.steps, network.capacities[cell])
    for begin, end, most in network.limits_of.get(cell, ()):
        passing[begin:end] = numpy.minimum(most, network.capacities[cell])
    return passing


def _runs(values: Numbers | Wholes | Flags) -> Iterator[tuple[int, int, float]]:
    """From when to when a value stays the same."""
    begin = 0
    for value, same in groupby(values.tolist()):
        end = begin + len(list(same))
        yield begin, end, value
        begin = end
