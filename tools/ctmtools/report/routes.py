"""Chains of cells: from a cell on in the direction of travel, and the roads that units name."""

from __future__ import annotations

from collections.abc import Mapping, Sequence

from ..network_file.network import Network
from ..problem import Problem
from .reading import Report


def route_of(report: Report, start: str | None = None, end: str | None = None,
             road: str | None = None) -> list[str]:
    """The cells of a route: those of a named road, else from a cell to another, else the longest chain from a gate.

    Gates and exits at its ends are left out, since they have no length. At a diverge the greater share is followed
    where no end is given.
    """
    if road:
        return cells_of_road(report, road)
    network = report.need_network()
    cells: list[str]
    for cell in (start, end):
        if cell is not None and cell not in network.kinds:
            raise Problem(f"{report.name}: there is no cell {cell}")
    if start and end:
        import networkx

        try:
            cells = networkx.shortest_path(network.graph, start, end)
        except networkx.NetworkXNoPath:
            raise Problem(f"{report.name}: no route leads from {start} to {end}") from None
    elif end:
        cells = _follow(network, end, back=True)[::-1]
    elif start:
        cells = _follow(network, start)
    else:
        cells = main_route(network)
    cells = [cell for cell in cells if network.kinds[cell] == "road"]
    if not cells:
        raise Problem(f"{report.name}: the route has no road cells")
    return cells


def cells_of_road(report: Report, road: str) -> list[str]:
    """The cells of a named road, or the problem that the units name no such road."""
    if road not in report.units.roads:
        known = ", ".join(report.units.roads) or "none"
        raise Problem(f"{report.name}: the units name no road {road}; they name {known}")
    return report.units.roads[road]


def _follow(network: Network, start: str, back: bool = False) -> list[str]:
    """The chain from a cell on, or back from it, by the greater weight at each junction, to its end or once round."""
    chain, seen = [start], {start}
    while True:
        cell = chain[-1]
        ways = network.ups[cell] if back else network.downs[cell]
        following = max(ways, key=ways.__getitem__, default=None)
        if following is None or following in seen:
            return chain
        chain.append(following)
        seen.add(following)


def main_route(network: Network) -> list[str]:
    """The longest of the chains that begin at gates, or at cells that nothing leads into, or anywhere."""
    starts = [cell for cell, kind in network.kinds.items() if kind == "gate"]
    starts = starts or [cell for cell in network.kinds if not network.ups[cell]]
    chains = (_follow(network, start) for start in (starts or list(network.kinds)[:1])[:500])
    return max(chains, key=len)


def kilometres(report: Report, cells: Sequence[str]) -> tuple[list[float], bool]:
    """The kilometres at the boundaries of a chain's cells, from 0, or the cells' numbers where no length is known.

    The kilometres of one road go on from where the road's first cell of the chain lies.
    """
    units = report.units
    lengths = [units.length(cell) for cell in cells]
    known = units.known and all(lengths)
    bounds = [float(units.cells[cells[0]]["from_km"]) if known else 0.0]
    for length in lengths:
        bounds.append(bounds[-1] + (length if known and length else 1))
    return bounds, known


def roads_of(report: Report) -> dict[str, list[str]]:
    """The cells of each road, with those that junctions made before its stop line and behind its beginning."""
    made, units = _made(report), report.units
    return {road: [*cells, *made.get(road, ())] for road, cells in units.roads.items() if cells[0] not in units.within}


def _made(report: Report) -> dict[str, list[str]]:
    """The cells that junctions made, by the road or the gate that they belong to."""
    found: dict[str, list[str]] = {}
    for cell, road in report.units.within.items():
        found.setdefault(road, []).append(cell)
    return found


def roads_and_gates(report: Report) -> dict[str, list[str]]:
    """The cells of each road, as `roads_of` has them, and each gate."""
    made = _made(report)
    gates = {f"gate {cell}": [cell, *made.get(cell, ())] for cell, kind in report.need_network().kinds.items() if kind == "gate"}
    return {**roads_of(report), **gates}


def ends_of(report: Report, cells: Sequence[str]) -> list[str]:
    """The cells by which one leaves a part: the last one, or those of the movements behind it."""
    within = report.units.within
    if not any(cell in within for cell in cells):
        return [cells[-1]]
    own, downs = set(cells), report.need_network().downs
    last = next((cell for cell in reversed(cells) if cell not in within), cells[-1])
    found = [cell for cell in cells if cell in within and cell not in _before(downs, last, own) and not own.intersection(downs[cell])]
    return found or [last]


def _before(downs: Mapping[str, Mapping[str, int]], last: str, own: set[str]) -> set[str]:
    """The cells of a part that one doesn't come to from its last cell: those that join movements where it begins."""
    seen, waiting = {last}, [last]
    while waiting:
        for down in downs[waiting.pop()]:
            if down in own and down not in seen:
                seen.add(down)
                waiting.append(down)
    return own - seen
