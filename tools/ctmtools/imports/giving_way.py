"""Who gives way in a study of another program's network: to whom, and by which gaps; and who can't, and why."""

from __future__ import annotations

from collections.abc import Callable, Iterator
from dataclasses import dataclass
from fractions import Fraction
from typing import Any

from ..texts.text_table import first_few
from .greens import kept_green, overlap
from .streets import ALL_STOP, LEFT, RIGHT, STOP, THROUGH, ZIPPER, Movement, Streets, grouped
from .traffic import Traffic

MOST_NAMED = 12  # movements that a note names; the study has all of them at their junctions
FAST = 80  # km/h; the gaps of a study are those of streets, and no ramp's onto a motorway, which drivers of this speed meet
RING_OF_TWO = {"critical_gap": Fraction("4.328"), "follow_up": Fraction("2.535")}  # 1,420·exp(-0.00085·v), HCM 2016, chapter 22
TWICE = 2  # of a left turn out of the street with priority counts this, HCM 2010, chapter 19
ALL_STOPS = "at an all-way stop no stream has priority"
AT_SPEED = f"streams that meet at more than {FAST} km/h don't take gaps as on streets"
UNKEPT = "in the green that is kept of them they don't give way"
IN_TURN = "they merge in turn with the streams that they meet"


@dataclass(frozen=True)
class GivesWay:
    """How a movement gives way: to which others, by the gaps of a kind, and the lanes of the street with priority.

    `legs` are 3 where nobody comes from ahead; with a `ring` it enters a roundabout of so many lanes.
    """

    others: dict[Movement, int]  # with how often each counts
    kind: str
    lanes: int
    legs: int
    stops: bool
    ring: int

    def terms(self) -> dict[str, Any]:
        """What an entry of `yields`, or a merge, says of it."""
        found: dict[str, Any] = {"kind": self.kind}
        if self.kind.startswith(("major", "minor")) and self.lanes > 2:
            found["priority_lanes"] = self.lanes
        if self.kind == "minor-left" and self.legs == 3:
            found["legs"] = 3
        if self.kind.startswith("minor") != self.stops:
            found["control"] = "stop" if self.stops else "give_way"
        return found | RING_OF_TWO if self.ring > 1 else found


class GivingWay:
    """Who gives way to others with traffic: `taken`, the busiest first, and by reason those who can't."""

    def __init__(self, found: Streets, traffic: Traffic) -> None:
        self.found = found
        self.coming = grouped(found.streets.values(), lambda street: street.end)
        self.leaving = grouped(found.streets.values(), lambda street: street.start)
        self.ways_of = grouped(found.ways, lambda way: way[0])
        driven = {way: sum(row) for way, row in traffic.moved.items() if sum(row) > 0}
        heeded = {way: [other for other in found.ways[way].yields if other in driven] for way in driven if way in found.ways}
        self.left: dict[str, list[Movement]] = {}
        self.taken: dict[Movement, GivesWay] = {}
        kinds = {way: self._kind(way) for way in driven if way in found.ways}
        for way in sorted(heeded, key=lambda way: (-driven[way], way)):
            reason = self._reason(way, heeded[way]) if heeded[way] else None
            if reason:
                self.left.setdefault(reason, []).append(way)
            elif heeded[way]:
                self.taken[way] = self._taken(way, sorted(heeded[way]), kinds)

    def leave(self, ways: list[Movement], reason: str) -> None:
        """Takes away movements that can't give way, for a reason."""
        for way in ways:
            del self.taken[way]
            self.left.setdefault(reason, []).append(way)

    def notes(self, called: Callable[[Movement], str]) -> Iterator[str]:
        """Who gives way, and which movements run unopposed over others, and why; `called` names a movement."""
        if self.taken:
            yield (f"{len(self.taken)} movements give way to others, by the gaps of their kind: "
                   f"{first_few([called(way) for way in self.taken], MOST_NAMED)}")
        for reason, ways in self.left.items():
            yield (f"{len(ways)} movements that give way to others run unopposed, so their delay is too low, since {reason}: "
                   f"{first_few([called(way) for way in ways], MOST_NAMED)}")

    def _node(self, way: Movement) -> str:
        return self.found.streets[way[0]].end

    def _reason(self, way: Movement, others: list[Movement]) -> str | None:
        """Why a movement can't give way, where it can't."""
        own, streets = self.found.ways[way], self.found.streets
        program = self.found.programs.get(self._node(way))
        if program:
            green = kept_green(own, program.cycle)
            shown = any(overlap(span, green, program.cycle) > 0 for span in own.permitted)
            return None if own.green and shown else UNKEPT
        if own.control in (ALL_STOP, ZIPPER):
            return ALL_STOPS if own.control == ALL_STOP else IN_TURN
        speeds = [round(streets[each[0]].speed) for each in [way, *others]]
        if min(speeds) >= FAST < max(speeds) and all(other[1] == way[1] for other in others):
            return AT_SPEED
        return None

    def _taken(self, way: Movement, others: list[Movement], kinds: dict[Movement, str]) -> GivesWay:
        own, node = self.found.ways[way], self._node(way)
        twice = kinds[way] in ("minor-left", "minor-through")
        counts = {other: TWICE if twice and kinds.get(other) == "major-left" else 1 for other in others}
        return GivesWay(counts, kinds[way], self._lanes(node), self._legs(node), own.control == STOP, own.ring)

    def _kind(self, way: Movement) -> str:
        """The kind of a movement's gaps: of a signal, a roundabout, or by where it turns and whether its street has priority."""
        own = self.found.ways[way]
        if self._node(way) in self.found.programs:
            return "permitted-left"
        if own.ring:
            return "roundabout"
        if own.turns == LEFT:
            return "major-left" if self._has_priority(way[0]) else "minor-left"
        merges = all(other[1] == way[1] for other in own.yields)  # it crosses nobody, as a turn to the right
        return "minor-right" if merges or own.turns == RIGHT else "minor-through"

    def _has_priority(self, street: str) -> bool:
        """Whether who drives through from a street gives way to nobody; where nobody drives through, whether somebody does."""
        ways = [self.found.ways[pair] for pair in self.ways_of[street]]
        through = [way for way in ways if way.turns == THROUGH] or ways
        return any(not way.yields for way in through)

    def _lanes(self, node: str) -> int:
        """The lanes of the streets with priority at a node, both directions together: 2, 4 or 6."""
        lanes = sum(street.lanes for street in self.coming[node] if self._has_priority(street.name))
        return min(6, max(2, lanes + lanes % 2))

    def _legs(self, node: str) -> int:
        """3 where three streets meet at a node, and else 4."""
        arms = {street.start for street in self.coming[node]} | {street.end for street in self.leaving[node]}
        return 3 if len(arms) <= 3 else 4
