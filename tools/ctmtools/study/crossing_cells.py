"""Junctions made of cells of their own: a cell for each movement, and what parts and joins them, two by two.

Each of these cells is a road as long as the way of a step, so that it takes one step to drive through. An approach of
three movements parts into the first and a cell in which the two others wait, and so on; before a way out that three
movements lead to, two of them are joined in a cell first.
"""

from __future__ import annotations

from collections.abc import Sequence
from copy import copy
from dataclasses import replace
from fractions import Fraction

from ..network_file.faults import NAME
from ..problem import Problem
from ..texts.quantities import HOUR
from .crossings import green, stop_line
from .approaches import LaneUse
from .plan import (ActuatedJunction, ActuatedPhase, Crossing, Diverge, Matrix, Merge, Permission, Precedence, Road, Section,
                   Signal, Stream, Scenario, Turn, Movement, Yield)
from .movements import movement_name, movement_road, movements
from .scale import rounded_text

GROWING = ("roads", "links", "merges", "diverges", "signals", "actuated", "yields", "remarks")  # parts of a study that a junction adds to


def expanded(study: Scenario) -> Scenario:
    """The study with the cells, the merges, the diverges and the signals of all its junctions."""
    for crossing in study.crossings:
        study = Expansion(study, crossing).made_of_cells()
    return study


class Expansion:
    """A junction in the making: the names of its cells, and how many each movement drives through."""

    def __init__(self, study: Scenario, crossing: Crossing) -> None:
        own = {name: copy(getattr(study, name)) for name in GROWING}
        self.study, self.crossing = replace(study, **own), crossing
        self.movements = movements(crossing)
        self.steps = dict.fromkeys(self.movements, 1)
        self.made: list[str] = []
        for name in crossing.sources:
            self._known(name, [*study.roads, *study.gates], "from", "a road or a gate")
        for name in crossing.into:
            self._known(name, [*study.roads, *study.exits], "into", "a road or an exit")

    def made_of_cells(self) -> Scenario:
        """The study with the junction's parts, and a remark on what they take."""
        for movement in self.movements:
            cells = f"{self._cells(self.crossing.approach(movement[0]))}-{self._cells(self.crossing.into[movement[1]], 0)}"
            self._cell(self._name(movement), cells, *self._lane(movement), self._lanes_of(movement))
        for i in range(len(self.crossing.sources)):
            self._part(i, [movement for movement in self.movements if movement[0] == i])
        for j in range(len(self.crossing.into)):
            self._join(j, [movement for movement in self.movements if movement[1] == j])
        self._signals()
        if any(phase.actuation for phase in self.crossing.phases):
            self.study.actuated.append(self._actuated())
        self.study.yields += [self._yield(one) for one in self.crossing.yields]
        if self.crossing.within:
            self._take_off()
        self._tell()
        return self.study

    def _known(self, name: str, names: Sequence[str], key: str, what: str) -> None:
        if name not in names:
            raise Problem(f"{self.crossing.place}.{key}: {name} isn't {what} of the study")

    def _name(self, movement: Movement) -> str:
        return movement_road(self.crossing, movement)

    def _cells(self, arm: str, end: int = -1) -> str:
        """An arm's name where a cell may have it, else the one of its cells, at the end of the road or at its start."""
        road = self.study.roads.get(arm)
        return road.sections[end].cells if road and not NAME.fullmatch(arm) else arm

    def _approach(self, i: int) -> Section | None:
        """The last section of an approach, where it is a road."""
        road = self.study.roads.get(self.crossing.sources[i])
        return road.sections[-1] if road else None

    def _way_out(self, j: int) -> Section | None:
        """The first section of a way out, where it is a road."""
        road = self.study.roads.get(self.crossing.into[j])
        return road.sections[0] if road else None

    def _lane(self, movement: Movement) -> tuple[Section, int]:
        """The section whose lane a movement's cell has, the approach's where it has one, and the fewest lanes of both."""
        found = [section for section in (self._approach(movement[0]), self._way_out(movement[1])) if section]
        if not found:
            raise Problem(f"{self.crossing.place}: from the gate {self.crossing.sources[movement[0]]} to the exit "
                          f"{self.crossing.into[movement[1]]} there is no road of which a cell could be made")
        return found[0], min(section.lanes for section in found)

    def _lanes_of(self, movement: Movement) -> Fraction | None:
        lanes = self.crossing.lanes
        return lanes[movement[0]][movement[1]] if lanes else None

    def _cell(self, name: str, cells: str, like: Section, most: int, lanes: Fraction | None = None) -> str:
        """Puts a road of one cell of this name into the study, with the lane of a section."""
        if name in [*self.study.roads, *self.study.gates, *self.study.exits]:
            raise Problem(f"{self.crossing.place}: a cell of its own would be named {name}, which the study has already")
        if lanes is not None and lanes.denominator != 1:
            raise Problem(f"{self.crossing.place}.lanes: expected whole numbers, found {float(lanes):g}")
        section = replace(like, start=Fraction(0), lanes=most if lanes is None else int(lanes), cells=cells,
                          first_density=Fraction(0))
        length = like.free_flow_speed * self.study.step / HOUR
        self.study.roads[name] = Road(name, length, [section])
        self.made.append(name)
        return name

    def _part(self, i: int, ways: list[Movement]) -> None:
        """Parts an approach into the cells of its movements."""
        source, number = self.crossing.sources[i], 0
        approach = source
        while len(ways) > 2:
            number += 1
            like = self._approach(i) or self._lane(ways[0])[0]
            rest = self._cell(f"{approach}-fork{number}", f"{self._cells(approach)}-fork{number}", like, like.lanes)
            self._diverge(source, [self._name(ways[0]), rest], ways)
            source, ways = rest, ways[1:]
            for way in ways:
                self.steps[way] += 1
        if len(ways) == 2:
            self._diverge(source, [self._name(way) for way in ways], ways)
        else:
            self.study.links.append((source, self._name(ways[0]), self.crossing.place))

    def _diverge(self, source: str, into: list[str], ways: Sequence[Movement]) -> None:
        """Parts the first of the movements from the others, by their shares at all times."""
        turns = [Turn(begin, end, shares) for begin, end, table in self.crossing.turns
                 for shares in [self._shares(table, ways)] if any(shares)]
        shares = self._shares(self.crossing.shares, ways)
        shares = shares if any(shares) else turns[0].shares  # nobody comes there before
        self.study.diverges.append(Diverge(source, into, shares, turns, place=self.crossing.place,
                                           by_trips=self.crossing.by_trips))

    @staticmethod
    def _shares(table: Matrix, ways: Sequence[Movement]) -> list[Fraction]:
        (i, j), *others = ways
        return [table[i][j], sum((table[k][m] for k, m in others), Fraction(0))]

    def _join(self, j: int, ways: list[Movement]) -> None:
        """Joins the cells of the movements that lead to a way out."""
        target = self.crossing.into[j]
        first, priority = self._name(ways[0]), self._priority(ways[0])
        for number, way in enumerate(ways[1:], 1):
            last = number == len(ways) - 1
            like = self._way_out(j) or self._lane(way)[0]
            into = target if last else self._cell(f"{target}-join{number}", f"{self._cells(target, 0)}-join{number}", like,
                                                  like.lanes)
            weights = [priority, self._priority(way)]
            self.study.merges.append(Merge([first, self._name(way)], into, weights, place=self.crossing.place))
            first, priority = into, sum(weights, Fraction(0))
            for joined in ways[:number + 1]:
                self.steps[joined] += not last
        if len(ways) == 1:
            self.study.links.append((first, target, self.crossing.place))

    def _priority(self, way: Movement) -> Fraction:
        """The priority of a movement; where none is said, the lanes of its cell."""
        if self.crossing.priorities:
            return self.crossing.priorities[way[0]][way[1]]
        return Fraction(self.study.roads[self._name(way)].sections[0].lanes)

    def _signals(self) -> None:
        """The signals: one at the end of an approach whose movements are green together, else one for each movement."""
        cycle = self.crossing.cycle
        if cycle is None:
            return
        placed: dict[str, Movement] = {}
        for movement in self.movements:
            placed.setdefault(self._stop_line(movement), movement)
        for place, movement in placed.items():
            begin, end = green(self.crossing, movement)
            self.study.signals.append(Signal(place, None, Fraction(0), self.study.duration, cycle, end - begin,
                                             begin + self.crossing.offset, self.crossing.place))

    def _actuated(self) -> ActuatedJunction:
        """The greens of the junction where some of them follow traffic."""
        if self.crossing.yields:
            raise Problem(f"{self.crossing.yields[0].place}: a movement gives way at a signal in fixed greens alone, and those of this "
                          "junction follow traffic")
        crossing, cycle = self.crossing, self.crossing.cycle or Fraction(0)
        apart = next((way for way in self.movements if self._stop_line(way) != crossing.sources[way[0]]), None)
        if apart:
            raise Problem(f"{crossing.place}.phases: greens that follow traffic are of all movements of an approach; "
                          f"{movement_name(crossing, apart)} has one of its own, and needs an approach of its own")
        found = []
        for i, phase in enumerate(crossing.phases):
            behind = crossing.phases[(i + 1) % len(crossing.phases)].start + cycle * (i + 1 == len(crossing.phases))
            pause = behind - phase.start - phase.green
            if pause < 0:
                raise Problem(f"{crossing.place}.phases[{i + 1}]: greens that follow traffic stand one behind the other")
            roads = dict.fromkeys(crossing.sources[i] for i, _ in phase.movements)
            found.append(ActuatedPhase([(road, None) for road in roads], phase.green, phase.actuation, pause))
        return ActuatedJunction(found, crossing.offset + crossing.phases[0].start, crossing.place)

    def _stop_line(self, movement: Movement) -> str:
        return stop_line(self.crossing, movement)

    def _yield(self, one: Precedence) -> Yield:
        """Who gives way in the cell of a movement to those in the cells of others."""
        crossing = self.crossing
        streams = [self._stream(one, way, part) for way, part in one.others]
        found = Yield(self._name(one.way), f"{one.place}, {movement_name(crossing, one.way)}", streams, one.gaps, one.place, one.holds,
                      one.stage if one.holds else None, shared=self._lane_use(one.way).shared(one.way))
        if crossing.cycle is not None:
            spans = [(phase.start, phase.start + phase.green) for phase in crossing.phases if one.way in phase.permitted]
            found.permission = Permission(crossing.cycle, crossing.offset, green(crossing, one.way), spans, one.sneakers)
        return found

    def _stream(self, one: Precedence, way: Movement, part: Fraction) -> Stream:
        """One of those with priority, at a signal with its green and its lanes."""
        found = Stream(self._name(way), None, part, one.holds > 0 and way not in one.first)
        if not self.crossing.phases:
            return found
        return replace(found, green=green(self.crossing, way), queue=self._lane_use(way).queue(way))

    def _lane_use(self, way: Movement) -> LaneUse:
        return LaneUse(self.crossing, way[0], self.study.roads)

    def _take_off(self) -> None:
        """Takes the fewest cells that one of an approach's movements drives through off its length."""
        for i, source in enumerate(self.crossing.sources):
            section = self._approach(i)
            if section is None:
                continue
            road = self.study.roads[source]
            cell = section.free_flow_speed * self.study.step / HOUR
            length = road.length - cell * min(steps for way, steps in self.steps.items() if way[0] == i)
            if length - section.start < cell / 2:
                raise Problem(f"{self.crossing.place}.within: {source} has too few cells for it, of "
                              f"{float(cell) * 1000:g} m each")
            self.study.roads[source] = replace(road, length=length)

    def _tell(self) -> None:
        """Says how long driving through takes."""
        ends = sorted({min(self.steps.values()), max(self.steps.values())})
        step = self.study.step
        taken = " to ".join(rounded_text(steps * step) for steps in ends)
        off = "; the fewest of each approach are taken off its length" if self.crossing.within else ""
        self.study.remarks.append(
            f"{self.crossing.place}: {_counted(len(self.movements), 'movement')}, {_counted(len(self.made), 'cell')} of "
            f"its own; driving through takes {taken} s more, a step in each cell{off}")


def _counted(count: int, what: str) -> str:
    return f"{count} {what}{'s'[:count != 1]}"
