"""The approaches of a study's junctions and stop lines, as the units of its network name them, and who share their lanes.

A junction's cells of its own belong to the roads that they part and join: those of movements and those that part them to the
approach, those that join movements to the way out.
"""

from __future__ import annotations

from collections.abc import Iterator, Mapping
from dataclasses import dataclass

from ..units import Approach, ApproachMovement, Units, cell_of
from .crossings import green, stop_line
from .movements import movement_road, movements
from .plan import Crossing, Lanes, Movement, Road, Scenario, Yield
from .precedences import SIEGLOCH
from .scale import rounded_text


@dataclass(frozen=True)
class Group:
    """Movements with the same lanes: `own` have them, and `loading` are all who come to them."""

    own: list[Movement]
    loading: list[Movement]
    lanes: int


class LaneUse:
    """The lanes of one approach of a junction whose movements are roads already."""

    def __init__(self, crossing: Crossing, approach: int, roads: Mapping[str, Road]) -> None:
        self.crossing = crossing
        self.ways = [way for way in movements(crossing) if way[0] == approach]
        self.giving = [one.way for one in crossing.yields]
        self.lanes = {way: roads[movement_road(crossing, way)].sections[0].lanes for way in self.ways}
        road = roads.get(crossing.sources[approach])
        self.flare = crossing.flares.get(crossing.sources[approach], 0)
        self.most = road.sections[-1].lanes if road else sum(self.lanes.values())

    def groups(self) -> Iterator[Group]:
        """The lane groups of those who don't give way, green by green."""
        for together in self._by_green():
            told, left = self._told(together)
            if sum(self.lanes[way] for way in told) <= left:
                yield from (Group([way], [way], self.lanes[way]) for way in told)
            elif told and left >= max(self.lanes[way] for way in told):
                yield Group(told, told, left)
            elif told:
                yield Group(told, together, min(self.most, sum(self.lanes[way] for way in together)))

    def queue(self, way: Movement) -> Lanes:
        """The lanes in which a movement waits, and who stands in them; one that gives way waits in its own."""
        group = next((group for group in self.groups() if way in group.own), Group([way], [way], self.lanes[way]))
        return Lanes(group.lanes, self._roads(group.loading))

    def shared(self, way: Movement) -> Lanes | None:
        """The lanes that a movement that gives way, as from one lane, shares with others; none where it has one of its own."""
        together = next(ways for ways in self._by_green() if way in ways)
        told, leaves = self._told(together)
        left = max(1, self.most - sum(self.lanes[other] for other in self.ways if other not in together))
        asked = sum(1 if other in self.giving else self.lanes[other] for other in together)
        if asked <= left or told and leaves >= max(self.lanes[other] for other in told):
            return None
        return Lanes(left, self._roads(together), self.flare)

    def _told(self, together: list[Movement]) -> tuple[list[Movement], int]:
        """Those of some movements who don't give way, and how many lanes all others leave them."""
        told = [way for way in together if way not in self.giving]
        return told, self.most - sum(count for way, count in self.lanes.items() if way not in told)

    def _by_green(self) -> list[list[Movement]]:
        """The movements that are green together; without a signal all of them."""
        found: dict[object, list[Movement]] = {}
        for way in self.ways:
            found.setdefault(green(self.crossing, way) if self.crossing.phases else None, []).append(way)
        return list(found.values())

    def _roads(self, ways: list[Movement]) -> list[str]:
        return [movement_road(self.crossing, way) for way in ways]


def note_approaches(study: Scenario, units: Units) -> None:
    """Notes in the units of a study's network its approaches, and to which road each cell of a junction belongs."""
    made = [row for crossing in study.crossings for row in _of_crossing(study, crossing, units)]
    for crossing in study.crossings:
        units.within.update((cell, road) for cell, road in _within(crossing, units) if cell in units.cells)
    units.approaches = [*made, *_alone(study, units)]


def _of_crossing(study: Scenario, crossing: Crossing, units: Units) -> Iterator[Approach]:
    for i, source in enumerate(crossing.sources):
        ways = [way for way in movements(crossing) if way[0] == i]
        if ways:
            lanes = LaneUse(crossing, i, study.roads)
            yield Approach(source, source, cell_of(source, units), [_movement(study, crossing, way, lanes, units) for way in ways])


def _movement(study: Scenario, crossing: Crossing, way: Movement, use: LaneUse, units: Units) -> ApproachMovement:
    """A movement of a junction with its cells, its control and its lanes."""
    own = cell_of(movement_road(crossing, way), units)
    giving = next((one for one in crossing.yields if one.way == way), None)
    lanes = use.shared(way) if giving else use.queue(way)
    lanes = lanes or Lanes(use.lanes[way], [movement_road(crossing, way)])
    beside = [cell_of(road, units) for road in lanes.roads]
    section = study.roads[movement_road(crossing, way)].sections[0]
    line = cell_of(stop_line(crossing, way), units) if crossing.phases else ""
    control = ("permitted" if giving else "signal") if crossing.phases else _control(giving.gaps.formula) if giving else ""
    return ApproachMovement(crossing.into[way[1]], [*_forks(crossing, way, units), own], line, control, lanes.count, beside,
                            float(lanes.count * section.saturation_flow))


def _control(formula: str) -> str:
    return "roundabout" if formula == SIEGLOCH else "stop"


def _forks(crossing: Crossing, way: Movement, units: Units) -> list[str]:
    """The cells through which a movement drives between its approach and its own cell: each parts the one before it."""
    ways = [one for one in movements(crossing) if one[0] == way[0]]
    count = min(ways.index(way), len(ways) - 2)
    return [cell_of(f"{crossing.sources[way[0]]}-fork{number}", units) for number in range(1, count + 1)]


def _within(crossing: Crossing, units: Units) -> Iterator[tuple[str, str]]:
    """The cells that a junction made, each with the road, the gate or the exit that it belongs to."""
    for way in movements(crossing):
        for cell in [*_forks(crossing, way, units), cell_of(movement_road(crossing, way), units)]:
            yield cell, crossing.sources[way[0]]
    for j, target in enumerate(crossing.into):
        count = sum(out == j for _, out in movements(crossing))
        for number in range(1, count - 1):
            yield cell_of(f"{target}-join{number}", units), target


def _alone(study: Scenario, units: Units) -> Iterator[Approach]:
    """The stop lines of signals and of those who give way that no junction has, each with one movement."""
    known = {road for crossing in study.crossings for way in movements(crossing)
             for road in (crossing.sources[way[0]], movement_road(crossing, way))}
    signals = {(one.road, one.at) for one in study.signals if one.road not in known}
    lines = {(line, at) for junction in study.actuated for phase in junction.phases for line, at in phase.lines if line not in known}
    for road, at in sorted(signals | lines, key=lambda line: (line[0], line[1] or 0)):
        name = road if at is None else f"{road} km {rounded_text(at)}"
        giving = next((one for one in study.yields if one.road == road and at is None), None)
        yield _single(study, name, road, cell_of(road, units, None if at is None else float(at)),
                      "permitted" if giving else "signal", units)
    for one in study.yields:
        if one.road not in known and not any(road == one.road for road, _ in signals):
            yield _giving(study, one, units)


def _giving(study: Scenario, one: Yield, units: Units) -> Approach:
    return _single(study, one.road, one.road, cell_of(one.road, units), _control(one.gaps.formula), units)


def _single(study: Scenario, name: str, road: str, cell: str, control: str, units: Units) -> Approach:
    """An approach whose vehicles all drive on alike."""
    lanes = units.cells[cell]["lanes"] if cell in units.cells else 1
    sections = study.roads[road].sections if road in study.roads else study.roads[next(iter(study.roads))].sections
    section = next((one for one in reversed(sections) if one.start < (units.cells.get(cell) or {"to_km": 1e9})["to_km"]), sections[0])
    line = cell if control in ("signal", "permitted") else ""
    return Approach(name, road, cell, [ApproachMovement("", [], line, control, lanes, [cell], float(lanes * section.saturation_flow))])
