"""Where a movement turns, and which others it meets, where a network doesn't say so."""

from __future__ import annotations

from cmath import phase
from math import degrees

from .streets import LEFT, RIGHT, THROUGH, Connection, Movement, Street

SLIGHT = 45.0  # degrees by which a way turns and still goes through
WORDS = {"l": LEFT, "r": RIGHT, "t": THROUGH, "u": LEFT}  # by the first letter of left, right, thru and uturn


def turn_of(said: str, one: Street, two: Street) -> str:
    """Where the way from a street into another turns: as it is said, or by the shapes of both; without these it goes through."""
    known = WORDS.get(said.strip().lower()[:1])
    if known:
        return known
    before, behind = _leg(one.points[-2:]), _leg(two.points[:2])
    if not before or not behind:
        return THROUGH
    turned = degrees(phase(behind / before))
    return THROUGH if abs(turned) <= SLIGHT else LEFT if turned > 0 else RIGHT


def _leg(points: list[tuple[float, float]]) -> complex:
    """The way between two points."""
    return complex(*points[1]) - complex(*points[0]) if len(points) == 2 else 0j


def meet(pair: Movement, way: Connection, other: Movement, its: Connection) -> bool:
    """Whether two movements of a node from two streets meet: both lead into one street, or neither turns right."""
    return pair[1] == other[1] or RIGHT not in (way.turns, its.turns)
