"""A network of SUMO as streets: edges with the lanes for cars, connections, and fixed-time signals."""

from __future__ import annotations

from collections import Counter
from collections.abc import Iterator
from pathlib import Path

from ..study.coordinates import METRES, coded
from ..texts.text_table import first_few
from .streets import (ALL_STOP, GIVE_WAY, LEFT, RIGHT, STOP, THROUGH, ZIPPER, Connection, Movement, Program, Span, Stage, Street,
                      Streets)
from .sumo_net import CAR, Link, Location, Logic, LogicPhase, Net, read_net

GREEN = "GgoO"  # a signal that is green, or off
MINOR = "go"  # one that is green, or off, for who gives way
SIGNED = "m=sw"  # a connection that gives way: by a sign, from the left, or at a stop
MAJOR = 4  # times as much passes on a street that others give way to
TURNS = {"l": LEFT, "L": LEFT, "t": LEFT, "r": RIGHT, "R": RIGHT}  # by SUMO's letters; the others go through
MIRRORED = {LEFT: RIGHT, RIGHT: LEFT, THROUGH: THROUGH}  # where one drives on the left
CONTROLS = {"s": STOP, "w": ALL_STOP, "Z": ZIPPER}  # by the state of a connection


def read_network(path: str | Path) -> Streets:
    """The streets of a network file of SUMO, without trips."""
    return streets_of(read_net(path), str(path))


def streets_of(net: Net, place: str) -> Streets:
    """The streets of a network of SUMO, which stands in this place."""
    found = Streets(net.name)
    _edges(net, found)
    if net.location:
        _locate(net.location, found, place)
    links = _connections(net, found)
    _programs(net, found, links)
    _yields(net, found, links)
    return found


def _edges(net: Net, found: Streets) -> None:
    """Puts the edges for cars among the streets, and those for other motor vehicles alone."""
    left = 0
    for edge in net.edges:
        lanes = [lane for lane in edge.lanes if CAR in lane.classes] or edge.lanes
        if not lanes:
            left += 1
            continue
        length = sum(lane.length for lane in lanes) / len(lanes)
        speed = sum(lane.speed for lane in lanes) / len(lanes)
        found.streets[edge.name] = Street(edge.name, edge.start, edge.end, max(length, 0.1) / 1000, len(lanes),
                                          max(speed, 0.1) * 3.6, [(x / 1000, y / 1000) for x, y in edge.shape],
                                          classes=frozenset().union(*(lane.classes for lane in edge.lanes)),
                                          by_lane={f"{edge.name}_{lane.index}": max(lane.speed, 0.1) * 3.6 for lane in lanes})
    if left:
        found.notes.append(f"{left} edges that cars may not use are left out")


def _locate(location: Location, found: Streets, place: str) -> None:
    """Puts the streets where they lie on the earth: by the code of their projection, or where it has none in degrees."""
    key = f"{place}: projParameter"
    for street in found.streets.values():
        places = [(x * METRES - location.offset[0], y * METRES - location.offset[1]) for x, y in street.points]
        found.crs, street.points = coded(places, location.projection, key)


def drop_idle(found: Streets) -> None:
    """Leaves out the streets on which cars may not drive and nobody else does; says which of the others are kept."""
    driven = {street for trip in found.trips for street in trip.route}
    others = {name for name, street in found.streets.items() if CAR not in street.classes}
    for name in others - driven:
        del found.streets[name]
    gone = {pair for pair, way in found.ways.items() if not found.streets.keys() >= set(pair) or
            CAR not in way.classes and not found.trips}
    for pair in gone:
        del found.ways[pair]
    if others & driven:
        found.notes.append(f"{len(others & driven)} edges that cars may not use are kept, since others drive there "
                           f"({first_few(sorted(others & driven))})")
    if others - driven:
        found.notes.append(f"{len(others - driven)} edges that only other motor vehicles may use are left out")


def _connections(net: Net, found: Streets) -> list[Link]:
    """Puts the movements among the ways; gives their connections, those for cars where a movement has some."""
    classes = {(edge.name, lane.index): lane.classes for edge in net.edges for lane in edge.lanes}
    places = {edge.name: place for place, edge in enumerate(net.edges)}
    joins: dict[Movement, list[Link]] = {}
    for link in sorted(net.links, key=lambda link: (places.get(link.source, 0), places.get(link.into, 0), link.lane)):
        if link.into in found.streets and (link.source, link.lane) in classes:
            joins.setdefault((link.source, link.into), []).append(link)
    kept = []
    for pair, links in joins.items():
        own = [link for link in links if CAR in classes[link.source, link.lane]] or links
        lanes = len({link.lane for link in own})
        turns = TURNS.get(own[-1].turn, THROUGH)
        found.ways[pair] = Connection(lanes, lanes * (MAJOR if own[-1].state in "M=OG" else 1), classes=frozenset().union(
            *(classes[link.source, link.lane] for link in links)), turns=MIRRORED[turns] if net.on_the_left else turns,
            control=CONTROLS.get(own[-1].state, GIVE_WAY), ring=_ring(net, found, pair))
        kept += own
    return kept


def _ring(net: Net, found: Streets, pair: Movement) -> int:
    """The lanes of the roundabout that a movement enters, 0 where it enters none."""
    entered = any(pair[1] in edges and pair[0] not in edges for edges in net.roundabouts)
    return found.streets[pair[1]].lanes if entered else 0


def _programs(net: Net, found: Streets, links: list[Link]) -> None:
    """The signals: for each movement when in the cycle one of its connections is green."""
    logics = {logic.name: logic for logic in net.logics}  # of several the last one that is loaded is SUMO's
    for name, count in Counter(logic.name for logic in net.logics).items():
        if count > 1:
            found.notes.append(f"signal {name} has {count} programs; the last is kept for the whole time")
    fixed = sorted(name for name, logic in logics.items() if logic.sort != "static" and not _stages(logic))
    if fixed:
        found.notes.append(f"{len(fixed)} signals follow traffic otherwise than by a least and a most of their greens "
                           f"({first_few(fixed)}); the lengths of their phases are kept as fixed ones")
    greens: dict[tuple[str, str], list[Span]] = {}
    for link in links:
        logic = logics.get(link.signal)
        if logic is None:
            continue
        pair = link.source, link.into
        cycle = sum(phase.lasting for phase in logic.phases)
        found.programs[found.streets[pair[0]].end] = Program(cycle, logic.offset % (cycle or 1), _stages(logic), logic.name)
        greens.setdefault(pair, []).extend(_greens(logic, link.index))
    for pair, spans in greens.items():
        found.ways[pair].green = joined(spans, found.programs[found.streets[pair[0]].end].cycle)
    always(found, set(greens))


def always(found: Streets, controlled: set[tuple[str, str]]) -> None:
    """Makes the movements at signals that no signal controls green all the time."""
    for pair, way in found.ways.items():
        program = found.programs.get(found.streets[pair[0]].end)
        if program and pair not in controlled:
            way.green = [(0.0, program.cycle)]


def _timed(logic: Logic) -> Iterator[tuple[Span, LogicPhase]]:
    """The phases of a signal, each with its span of the cycle."""
    time = 0.0
    for phase in logic.phases:
        yield (time, time + phase.lasting), phase
        time += phase.lasting


def _greens(logic: Logic, index: int) -> Iterator[Span]:
    """When a link of a signal is green in the cycle."""
    return (span for span, phase in _timed(logic) if index < len(phase.state) and phase.state[index] in GREEN)


def _stages(logic: Logic) -> list[Stage]:
    """The greens of a signal that follow traffic, with those between them that don't; none where none does."""
    greens = [(span, phase) for span, phase in _timed(logic) if set(phase.state) & set(GREEN)]
    if logic.sort != "actuated" or not any(phase.least < phase.most for _, phase in greens):
        return []
    return [Stage(begin, phase.lasting, phase.least, phase.most, logic.gap) for (begin, _), phase in greens]


def _yields(net: Net, found: Streets, links: list[Link]) -> None:
    """To which movements each gives way: by the rules of its junction, at a signal while both are green."""
    logics = {logic.name: logic for logic in net.logics}
    by_via = {link.via: link for link in links if link.via}
    beside: dict[str, list[Link]] = {}
    for link in links:
        beside.setdefault(found.streets[link.source].end, []).append(link)
    for link in links:
        name = found.streets[link.source].end
        if link.via:
            over = net.nodes[name].yields.get(link.via, frozenset()) if name in net.nodes else frozenset()
            others = [by_via[lane] for lane in over if lane in by_via]
        else:  # a network without lanes within junctions says that a link gives way, and not to which
            others = beside[name] if link.signal in logics or link.state in SIGNED else []
        logic, way = logics.get(link.signal), found.ways[link.source, link.into]
        for other in others:
            if other.source == link.source:
                continue
            spans = list(_together(logic, link, other)) if logic else []
            if logic is None or spans:
                way.yields.add((other.source, other.into))
            if name in found.programs:
                cycle = found.programs[name].cycle
                way.permitted = joined([*way.permitted, *(spans if logic else [(0.0, cycle)])], cycle)


def _together(logic: Logic, link: Link, other: Link) -> Iterator[Span]:
    """When in the cycle a link of a signal is green for who gives way while another one is green too."""
    def shows(state: str, one: Link, letters: str) -> bool:
        return one.signal != logic.name or one.index < len(state) and state[one.index] in letters

    return (span for span, phase in _timed(logic) if shows(phase.state, link, MINOR) and shows(phase.state, other, GREEN))


def joined(spans: list[Span], cycle: float) -> list[Span]:
    """Spans of a cycle that overlap or touch as one, also over the end of the cycle, where one goes on beyond it."""
    rows: list[list[float]] = []
    for begin, end in sorted(spans):
        if rows and begin <= rows[-1][1]:
            rows[-1][1] = max(end, rows[-1][1])
        else:
            rows.append([begin, end])
    if len(rows) > 1 and rows[0][0] == 0 and rows[-1][1] >= cycle:
        first = rows.pop(0)
        rows[-1][1] = cycle + first[1]
    return [(begin, end) for begin, end in rows]
