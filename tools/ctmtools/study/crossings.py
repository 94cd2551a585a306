"""The junctions of a study file: approaches, ways out, turning shares, priorities, and which movements are green when."""

from __future__ import annotations

from collections.abc import Sequence
from fractions import Fraction
from typing import Any

from ..problem import Problem
from ..texts.quantities import duration, not_negative, shown, word
from .entries import Entries, Reader, list_of
from .plan import Actuation, Crossing, Matrix, Movement, Phase
from .precedences import check_precedence, precedence
from .times import Times
from .movements import check_pockets, flare, movement_name, movement_road, movements, pocket, taken_movements

MOST_ARMS = 16
_weight = not_negative("a number here")  # a share, a priority, or lanes


def crossing(table: Entries, times: Times, trips: bool = False) -> Crossing:
    """The junction that a table says; in a study with trips its shares may be left out."""
    sources, into = _arms(table, "from"), _arms(table, "into")
    matrix = _matrix(len(sources), len(into))
    turns = _turns(table, times, matrix)
    priorities = table.take("priorities", _priorities(len(sources), len(into)), None)
    lanes = table.take("lanes", matrix, None)
    by_trips = trips and not table.has("shares")
    shares = table.take("shares", matrix, _allowed(table, sources, into, lanes, priorities)) if by_trips else \
        table.take("shares", matrix)
    cycle, offset = table.take("cycle", duration, None), table.take("offset", duration, Fraction(0))
    pause = table.take("intergreen", duration, Fraction(0))
    found = Crossing(sources, into, shares, turns, priorities, lanes, cycle, offset, [],
                     table.take("within", _truth, False), table.place, by_trips)
    phases = table.list("phases")
    found.pockets = [pocket(row, found) for row in table.list("pockets")]
    found.flares = dict(flare(row, found) for row in table.list("flares"))
    found.yields = [precedence(row, found) for row in table.list("yields")]
    table.done()
    if bool(phases) != (cycle is not None):
        raise Problem(f"{table.key('phases' if cycle is not None else 'cycle')}: is missing; phases and a cycle go "
                      "together")
    _check_shares(table, found)
    for phase in phases:
        found.phases.append(_phase(phase, found, pause))
    found.phases.sort(key=lambda phase: phase.start)
    _check_phases(table, found)
    check_precedence(found)
    check_pockets(found)
    return found


def _allowed(table: Entries, sources: Sequence[str], into: Sequence[str], lanes: Matrix | None,
             priorities: Matrix | None) -> Matrix:
    """A share of 1 for each movement that a junction without shares has: all but those to which a table gives 0."""
    if table.has("turns"):
        raise Problem(f"{table.key('turns')}: shares by time stand without shares; leave both out, and the junction goes by "
                      "the trips")
    tables = [one for one in (lanes, priorities) if one]
    return [[Fraction(all(one[i][j] for one in tables)) for j in range(len(into))] for i in range(len(sources))]


def _arms(table: Entries, name: str) -> list[str]:
    arms: list[str] = table.take(name, list_of(word))
    twice = next((arm for arm in arms if arms.count(arm) > 1), None)
    if twice:
        raise Problem(f"{table.key(name)}: {twice} stands twice")
    if not 1 <= len(arms) <= MOST_ARMS:
        raise Problem(f"{table.key(name)}: expected 1 to {MOST_ARMS} roads, found {len(arms)}")
    return arms


def _matrix(rows: int, columns: int) -> Reader[Matrix]:
    """A reader of tables of numbers, a row for each approach with a number for each way out."""
    return list_of(list_of(_weight, columns), rows)


def _priorities(rows: int, columns: int) -> Reader[Matrix]:
    """A reader of priorities: a number for each approach, or for each movement."""
    def read(value: Any, key: str) -> Matrix:
        if isinstance(value, list) and value and isinstance(value[0], list):
            return _matrix(rows, columns)(value, key)
        return [[weight] * columns for weight in list_of(_weight, rows)(value, key)]
    return read


def _truth(value: Any, key: str) -> bool:
    if not isinstance(value, bool):
        raise Problem(f"{key}: expected true or false, found {shown(value)}")
    return value


def _turns(table: Entries, times: Times, matrix: Reader[Matrix]) -> list[tuple[Fraction, Fraction, Matrix]]:
    turns = []
    for row in table.list("turns"):
        begin, end = times.span(row)
        turns.append((begin, end, row.take("shares", matrix)))
        row.done()
    return turns


def _check_shares(table: Entries, found: Crossing) -> None:
    """Refuses an approach from which nobody drives on, and a way out into which nobody drives."""
    tables = [("shares", found.shares)]
    tables += [(f"turns[{k}].shares", shares) for k, (_, _, shares) in enumerate(found.turns, 1)]
    for name, shares in tables:
        for source, row in zip(found.sources, shares):
            if not any(row):
                raise Problem(f"{table.key(name)}: no vehicle drives on from {source}; one of its shares must be above 0")
    for j, target in enumerate(found.into):
        if not any(out == j for _, out in movements(found)):
            raise Problem(f"{table.key('shares')}: no vehicle drives into {target}; one of its shares must be above 0")
    for i, j in movements(found):
        for name, numbers in (("priorities", found.priorities), ("lanes", found.lanes)):
            if numbers and not numbers[i][j]:
                raise Problem(f"{table.key(name)}: the movement {movement_name(found, (i, j))} has 0, and needs more")


def _phase(table: Entries, found: Crossing, pause: Fraction) -> Phase:
    """A phase; without a start it begins at the end of the one before it and the time between greens."""
    before = found.phases[-1] if found.phases else None
    start = table.take("start", duration, before.start + before.green + pause if before else Fraction(0))
    green = table.take("green", duration)
    ways = _ways(table, found)
    permitted = taken_movements(table, "permitted", found)
    actuation = table.take("actuated", actuation_of, None)
    table.done()
    cycle = found.cycle or Fraction(0)
    said = table.has("start")
    if not 0 < green <= cycle or start >= cycle or start + green > cycle and not said:
        raise Problem(f"{table.key('green')}: from {float(start):g} to {float(start + green):g} s is not within the "
                      f"cycle of {float(cycle):g} s")
    if not ways:
        raise Problem(f"{table.place}: no movement is green in it")
    red = next((way for way in permitted if way not in ways), None)
    if red:
        raise Problem(f"{table.key('permitted')}: the movement {movement_name(found, red)} isn't green in it")
    return Phase(start, green, ways, permitted, actuation)


def actuation_of(value: Any, key: str) -> Actuation:
    """How a green follows traffic."""
    table = Entries(value, key)
    found = Actuation(table.take("least", duration), table.take("most", duration), table.take("gap", duration))
    table.done()
    if not 0 < found.least <= found.most:
        raise Problem(f"{table.key('least')}: must be above 0 s and at most the most, {float(found.most):g} s")
    if found.gap > found.most:
        raise Problem(f"{table.key('gap')}: must be at most the most, {float(found.most):g} s, which bounds the green with it")
    return found


def _ways(table: Entries, found: Crossing) -> list[tuple[int, int]]:
    """The movements that are green in a phase: those of some approaches, into some ways out, or those that are named."""
    sources = table.take("from", list_of(word), found.sources)
    into = table.take("into", list_of(word), found.into)
    pairs = table.take("movements", list_of(list_of(word, 2)), None)
    for name, known, said in (("from", found.sources, [*sources, *(one for one, _ in pairs or [])]),
                              ("into", found.into, [*into, *(two for _, two in pairs or [])])):
        strange = next((arm for arm in said if arm not in known), None)
        if strange:
            raise Problem(f"{table.key('movements' if pairs else name)}: {strange} isn't of this junction, which has "
                          f"{', '.join(known)}")
    return [(i, j) for i, j in movements(found) if found.sources[i] in sources and found.into[j] in into
            and (pairs is None or [found.sources[i], found.into[j]] in pairs)]


def _check_phases(table: Entries, found: Crossing) -> None:
    if not found.phases:
        return
    for movement in movements(found):
        if not any(movement in phase.movements for phase in found.phases):
            raise Problem(f"{table.key('phases')}: the movement {movement_name(found, movement)} is green in none")
        green(found, movement)


def green(found: Crossing, movement: Movement) -> tuple[Fraction, Fraction]:
    """From when to when in the cycle a movement is green: its phases follow each other, since a signal has one green."""
    own = [phase for phase in found.phases if movement in phase.movements]
    places = [found.phases.index(phase) for phase in own]
    if not _follow(places, len(found.phases)):
        raise Problem(f"{found.place}.phases: the movement {movement_name(found, movement)} is green in phases that don't follow "
                      "each other, and a signal has one green in a cycle")
    first = next((k for k, place in enumerate(places) if (place - 1) % len(found.phases) not in places), 0)
    start, cycle = own[first].start, found.cycle or Fraction(0)
    ends = [phase.start + phase.green + (cycle if phase.start < start else 0) for phase in own]
    return (Fraction(0), cycle) if len(own) == len(found.phases) > 1 else (start, max(ends))


def stop_line(found: Crossing, movement: Movement) -> str:
    """The road at whose end a movement's signal stands: its approach, where all of that is green together."""
    if not found.phases:
        return movement_road(found, movement)
    greens = {green(found, way) for way in movements(found) if way[0] == movement[0]}
    return found.sources[movement[0]] if len(greens) == 1 else movement_road(found, movement)


def common_green(first: Phase, second: Phase, cycle: Fraction) -> Fraction:
    """For how many seconds of a cycle two phases are both green."""
    def shared(shift: Fraction) -> Fraction:
        return min(first.start + first.green, second.start + shift + second.green) - max(first.start, second.start + shift)

    return sum((max(Fraction(0), shared(shift)) for shift in (-cycle, Fraction(0), cycle)), Fraction(0))


def _follow(places: Sequence[int], count: int) -> bool:
    """Whether the places stand side by side in a ring of so many."""
    breaks = sum((place + 1) % count not in places for place in places)
    return breaks <= 1
