"""The movements of a junction: which there are, what they are called, how a study names them, and their pockets and flares."""

from __future__ import annotations

from ..problem import Problem
from ..texts.quantities import length, whole, word
from .entries import Entries, list_of
from .plan import Crossing, Movement, Pocket


def movements(found: Crossing) -> list[Movement]:
    """The movements of a junction: those that have a share at some time."""
    tables = [found.shares, *(shares for _, _, shares in found.turns)]
    return [(i, j) for i in range(len(found.sources)) for j in range(len(found.into))
            if any(shares[i][j] for shares in tables)]


def movement_name(found: Crossing, movement: Movement) -> str:
    """A movement as messages say it."""
    return f"{found.approach(movement[0])} to {found.into[movement[1]]}"


def movement_road(found: Crossing, movement: Movement) -> str:
    """The road of one cell that a movement drives through."""
    return f"{found.approach(movement[0])}-{found.into[movement[1]]}"


def movement_of(value: object, key: str, found: Crossing) -> Movement:
    """The movement that a pair of an approach and a way out names."""
    pair = list_of(word, 2)(value, key)
    for arm, known in zip(pair, (found.sources, found.into)):
        if arm not in known:
            raise Problem(f"{key}: {arm} isn't of this junction, which has {', '.join(known)}")
    way = found.sources.index(pair[0]), found.into.index(pair[1])
    if way not in movements(found):
        raise Problem(f"{key}: no vehicle drives from {movement_name(found, way)}")
    return way


def taken_movements(table: Entries, name: str, found: Crossing) -> list[Movement]:
    """The movements that a list of pairs names; none where the key isn't there."""
    return table.take(name, list_of(lambda value, key: movement_of(value, key, found)), [])


def pocket(table: Entries, found: Crossing) -> Pocket:
    """The lanes for some movements of one approach, and their length in km."""
    ways = taken_movements(table, "movements", found)
    count, lasting = table.take("lanes", whole, 1), table.take("length", length, None)
    table.done()
    if len({way[0] for way in ways}) != 1:
        raise Problem(f"{table.key('movements')}: expected movements of one approach, [[from, into], ..]")
    if lasting == 0:
        raise Problem(f"{table.key('length')}: must be above 0")
    return Pocket(ways, count, lasting, table.place)


def flare(table: Entries, found: Crossing) -> tuple[str, int]:
    """The road of an approach, and how many vehicles find room beside others at its end."""
    source, room = table.take("from", word), table.take("vehicles", whole)
    table.done()
    if source not in found.sources:
        raise Problem(f"{table.key('from')}: {source} isn't of this junction, which has {', '.join(found.sources)}")
    if found.cycle is not None:
        raise Problem(f"{table.place}: a flare is of an approach without a signal; at a signal say a pocket")
    return source, room


def check_pockets(found: Crossing) -> None:
    """Refuses a movement in two pockets, and pockets where trips part."""
    if found.pockets and found.by_trips:
        raise Problem(f"{found.pockets[0].place}: pockets stand with shares; where these follow from the trips they aren't modelled")
    ways = [(way, one) for one in found.pockets for way in one.movements]
    for i, (way, one) in enumerate(ways):
        if way in [other for other, _ in ways[:i]]:
            raise Problem(f"{one.place}.movements: {movement_name(found, way)} stands in two pockets, and each movement has one")
