"""What traffic a network has: which streets are driven through, where vehicles come in and go out, how they turn, and a table of it."""

from __future__ import annotations

from collections.abc import Callable, Iterator
from dataclasses import dataclass, field
from math import ceil

from ..texts.text_table import table
from .streets import Movement, Said, Streets

GATE, EXIT = "in ", "out "  # before the name of the street at which vehicles come in or go out
MOST_SPANS = 8  # rows of time
HEAD = ("vehicles", "in the files", "in the study")
Row = tuple[str, float, float]


@dataclass
class Traffic:
    """The vehicles of each movement and of each gate in each span of `interval` s; gates and exits are movements too.

    `streets` are those that are driven through, in the order of the network.
    """

    interval: float
    spans: int
    streets: list[str]
    moved: dict[Movement, list[float]] = field(default_factory=dict)

    def put(self, movement: Movement, begin: float, end: float, vehicles: float) -> None:
        """Adds vehicles that pass a movement evenly between two times."""
        row = self.moved.setdefault(movement, [0.0] * self.spans)
        first, last = int(begin // self.interval), int(end // self.interval)
        for span in range(min(first, self.spans - 1), min(last, self.spans - 1) + 1):
            low, high = max(begin, span * self.interval), min(end, (span + 1) * self.interval)
            part = 1.0 if end <= begin else (high - low) / (end - begin)
            row[span] += vehicles * max(0.0, part)

    def demand(self, street: str) -> list[float]:
        """The vehicles that come in at a street in each span."""
        return self.moved.get((GATE + street, street), [])

    def ways(self) -> Iterator[Movement]:
        """The movements that have traffic."""
        return (movement for movement, row in self.moved.items() if sum(row) > 0)


def traffic_of(found: Streets, interval: float, until: float) -> Traffic:
    """The traffic of the trips, each of which passes its nodes at free flow; without trips that of even shares."""
    spans = max(1, ceil(until / interval))
    if not found.trips:
        return _shared(found, interval, spans)
    driven = {street for trip in found.trips for street in trip.route}
    made = Traffic(interval, spans, [street for street in found.streets if street in driven])
    for trip in found.trips:
        time = 0.0
        first, last = trip.route[0], trip.route[-1]
        for pair in zip([GATE + first, *trip.route], [*trip.route, EXIT + last]):
            made.put(pair, trip.begin + time, trip.end + time, trip.vehicles)
            time += found.streets[pair[1]].seconds if pair[1] in found.streets else 0
    return made


def _shared(found: Streets, interval: float, spans: int) -> Traffic:
    """The traffic of a network of which shares are known: they hold for all times, and gates have their own demand."""
    made = Traffic(interval, spans, list(found.streets))
    ups = {two for _, two in found.ways}
    downs = {one for one, _ in found.ways}
    for movement, way in found.ways.items():
        made.moved[movement] = [found.shares.get(movement, float(way.lanes))] * spans
    for street in found.streets:
        if street not in ups or street in found.gates:
            made.moved[GATE + street, street] = [1.0] * spans
        if street not in downs:
            made.moved[street, EXIT + street] = [1.0] * spans
    return made


def tally(found: Streets, interval: float, until: float, clock: Callable[[float], str]) -> list[str]:
    """The lines of a table, by class and by time until the study's demand ends; none where no file says vehicles."""
    if not found.said:
        return []
    rows = [*_by_kind(found.said), *_by_time(found.said, interval, until, clock)]
    return list(table([HEAD, *((name, _tenths(said), _tenths(kept)) for name, said, kept in rows)], right=(1, 2)))


def _tenths(vehicles: float) -> str:
    return f"{vehicles:,.1f}".removesuffix(".0")


def _by_kind(said: list[Said]) -> Iterator[Row]:
    for kind in dict.fromkeys(one.kind for one in said):
        own = [one for one in said if one.kind == kind]
        yield kind, sum(one.vehicles for one in own), sum(one.kept for one in own)


def _by_time(said: list[Said], interval: float, until: float, clock: Callable[[float], str]) -> Iterator[Row]:
    """The vehicles of spans of one length, or of several where these would be many, of later times and of none."""
    whole = ceil(until / interval)
    width = interval * ceil(whole / MOST_SPANS)
    spans = ceil(until / width)
    told, kept = (Traffic(width, spans, []) for _ in range(2))
    within = [one for one in said if one.begin is not None and one.begin < until]
    for one in within:
        told.put(("", ""), one.begin or 0.0, one.end, one.vehicles)
        kept.put(("", ""), one.begin or 0.0, one.end, one.kept)
    for span, counts in enumerate(zip(told.moved.get(("", ""), []), kept.moved.get(("", ""), []))):
        yield f"{clock(span * width)} to {clock(min((span + 1) * width, until))}", *counts
    for name, others in ((f"after {clock(until)}", [one for one in said if one.begin is not None and one.begin >= until]),
                         ("at no time", [one for one in said if one.begin is None])):
        if others:
            yield name, sum(one.vehicles for one in others), 0.0
