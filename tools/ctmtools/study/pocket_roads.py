"""Pockets made of roads: an approach ends where the longest of its pockets begins, and parts there into the lanes behind.

Each pocket is a road of its lanes and length, beside that of the other lanes. So who waits in a pocket holds up the others only
once it is full. Where an approach has several pockets, the longer ones part first.
"""

from __future__ import annotations

from collections.abc import Sequence
from copy import copy
from dataclasses import dataclass, replace
from fractions import Fraction
from itertools import accumulate, pairwise
from math import dist

from ..network_file.faults import NAME
from ..problem import Problem
from ..texts.quantities import HOUR
from .movements import movements
from .plan import Crossing, Diverge, Matrix, Movement, Pocket, Road, Scenario, Turn
from .scale import rounded_text

GROWING = ("roads", "diverges", "remarks")


def with_pockets(study: Scenario) -> Scenario:
    """The study with the roads of all pockets, and junctions to which these lead."""
    if not any(crossing.pockets for crossing in study.crossings):
        return study
    study = replace(study, **{name: copy(getattr(study, name)) for name in GROWING})
    study.crossings = [_of_lanes(study, crossing) if crossing.pockets else crossing for crossing in study.crossings]
    return study


@dataclass(frozen=True)
class Source:
    """A road that comes to a junction, of which approach it is, and the movements by which it is left."""

    road: str
    approach: int
    ways: list[Movement]


@dataclass(frozen=True)
class Branch:
    """Lanes that stand side by side with others: their road, who waits in them, and how many km before its end they begin."""

    road: str
    ways: list[Movement]
    lanes: int
    length: Fraction


def _of_lanes(study: Scenario, crossing: Crossing) -> Crossing:
    """The junction to which the pockets and the lanes beside them lead; their roads and diverges are put into the study."""
    sources: list[Source] = []
    for i, name in enumerate(crossing.sources):
        pockets = [one for one in crossing.pockets if one.approach == i]
        ways = [way for way in movements(crossing) if way[0] == i]
        sources += Parting(study, crossing, pockets, ways).sources() if pockets else [Source(name, i, ways)]
    return _led_to(crossing, sources)


class Parting:
    """An approach that parts into its pockets and the lanes beside them."""

    def __init__(self, study: Scenario, crossing: Crossing, pockets: list[Pocket], ways: list[Movement]) -> None:
        self.study, self.crossing, self.pockets, self.ways = study, crossing, pockets, ways
        self.name = crossing.sources[pockets[0].approach]
        if self.name not in study.roads:
            raise Problem(f"{pockets[0].place}: {self.name} is a gate, and a pocket is of a road; lead the gate into one")
        self.road = study.roads[self.name]
        self.lane = self.road.sections[-1]
        self.cell = self.lane.free_flow_speed * study.step / HOUR
        self.all_named = {way for one in pockets for way in one.movements} == set(ways)

    def sources(self) -> list[Source]:
        """The roads that come to the junction in place of the approach, which are put into the study with what parts them."""
        *parting, last = self._branches()
        self._shorten(parting[0].length)
        stem, ways, approach = self.name, self.ways, self.pockets[0].approach
        for number, one in enumerate(parting, 1):
            ways, ends = [way for way in ways if way not in one.ways], number == len(parting)
            beside = last.road if ends else f"{self.name}-lanes{number}"
            self._put(one.road, one.length, one.lanes)
            self._put(beside, one.length if ends else one.length - parting[number].length,
                      self._lanes_beside([*parting[number:], last]))
            self._diverge(stem, [one.road, beside], [one.ways, ways])
            stem = beside
        return [*(Source(one.road, approach, one.ways) for one in parting), Source(stem, approach, ways)]

    def _branches(self) -> list[Branch]:
        """The pockets, the longest first, each of which begins a cell or more behind the one before it; and at last what is beside."""
        most = self.road.length - self.cell
        if most <= 0:
            raise Problem(f"{self.pockets[0].place}: {self.name} has one cell, and a pocket leaves its approach one; a shorter step makes more")
        found: list[Branch] = []
        for number, one in sorted(enumerate(self.pockets, 1), key=lambda pair: -(pair[1].length or most)):
            length = self._length(one, most)
            before = found[-1].length - self.cell if found else length
            found.append(Branch(f"{self.name}-pocket{number}", one.movements, one.lanes, max(self.cell, min(length, before))))
        if not self.all_named:
            found.append(Branch(f"{self.name}-lanes{len(found)}", [], self.lane.lanes, found[-1].length))
        if len(found) == 1:
            raise Problem(f"{self.pockets[0].place}: all vehicles of {self.name} drive into this pocket, so it separates none; remove it")
        return found

    def _length(self, one: Pocket, most: Fraction) -> Fraction:
        """The length of a pocket in km, which leaves a cell of the approach or more."""
        if one.length is None or one.length <= most:
            return max(self.cell, one.length or most)
        raise Problem(f"{one.place}.length: {rounded_text(one.length * 1000)} m leave less than a cell, {rounded_text(self.cell * 1000)} m, of "
                      f"{self.name}, which has {rounded_text(self.road.length * 1000)} m; a number without a unit is in km")

    def _lanes_beside(self, behind: list[Branch]) -> int:
        """The lanes of those who haven't parted yet: the approach's, or where all have pockets those of the pockets to come."""
        return sum(one.lanes for one in behind) if self.all_named else self.lane.lanes

    def _shorten(self, length: Fraction) -> None:
        """Takes the last km off the approach."""
        cut = self.road.length - length
        before, self.points = cut_at(self.road.points, float(cut / self.road.length))
        sections = [section for section in self.road.sections if section.start < cut]
        self.study.roads[self.name] = replace(self.road, length=cut, sections=sections, points=before)

    def _put(self, name: str, length: Fraction, lanes: int) -> None:
        """Puts a road of some of the approach's last km into the study."""
        if name in [*self.study.roads, *self.study.gates, *self.study.exits]:
            raise Problem(f"{self.pockets[0].place}: a road of its own would be named {name}, which the study has already")
        cells = name if NAME.fullmatch(self.name) else self.lane.cells + name.removeprefix(self.name)
        section = replace(self.lane, start=Fraction(0), lanes=lanes, cells=cells)
        self.study.roads[name] = Road(name, length, [section], self.points)

    def _diverge(self, stem: str, into: list[str], ways: list[list[Movement]]) -> None:
        """Parts those who drive into a pocket from all others, by their shares at all times."""
        def parts(table: Matrix) -> list[Fraction]:
            return [sum((table[i][j] for i, j in own), Fraction(0)) for own in ways]

        turns = [Turn(begin, end, parts(table)) for begin, end, table in self.crossing.turns if any(parts(table))]
        shares = parts(self.crossing.shares)
        self.study.diverges.append(Diverge(stem, into, shares if any(shares) else turns[0].shares, turns, place=self.crossing.place))


def _led_to(crossing: Crossing, sources: list[Source]) -> Crossing:
    """The junction with these roads as its sources: its tables by their rows, and its movements by their numbers."""
    number = {way: (k, way[1]) for k, one in enumerate(sources) for way in one.ways}

    def rows(table: Matrix) -> Matrix:
        return [[share if (one.approach, j) in one.ways else Fraction(0) for j, share in enumerate(table[one.approach])] for one in sources]

    def moved(ways: list[Movement]) -> list[Movement]:
        return [number[way] for way in ways]

    phases = [replace(phase, movements=moved(phase.movements), permitted=moved(phase.permitted)) for phase in crossing.phases]
    yields = [replace(one, way=number[one.way], others=[(number[way], part) for way, part in one.others], first=moved(one.first))
              for one in crossing.yields]
    return replace(crossing, sources=[one.road for one in sources], shares=rows(crossing.shares),
                   turns=[(begin, end, rows(table)) for begin, end, table in crossing.turns],
                   priorities=crossing.priorities and rows(crossing.priorities), lanes=crossing.lanes and rows(crossing.lanes),
                   phases=phases, yields=yields, pockets=[], approaches=[crossing.sources[one.approach] for one in sources])


def cut_at(points: Sequence[list[float]], part: float) -> tuple[list[list[float]], list[list[float]]]:
    """The line up to a part of its length, from 0 to 1, and that behind it; two empty ones of fewer than two points."""
    if len(points) < 2:
        return [], []
    reach = [0.0, *accumulate(dist(one, two) for one, two in pairwise(points))]
    way = part * reach[-1]
    last = max(i for i in range(len(points) - 1) if reach[i] <= way)
    within = (way - reach[last]) / ((reach[last + 1] - reach[last]) or 1.0)
    middle = [one + within * (two - one) for one, two in zip(points[last], points[last + 1])]
    before, behind = list(points[:last + 1]), list(points[last + 1:])
    return [*before, middle], [middle, *behind]
