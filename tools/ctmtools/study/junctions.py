"""The connectors of a study: links within roads and between them, merges, diverges and ramps."""

from __future__ import annotations

from collections.abc import Collection, Sequence
from difflib import get_close_matches
from fractions import Fraction

from ..network_file.kinds import Record, record
from ..problem import Problem
from .layout import Layout, RoadCell
from .plan import Diverge, Merge, Scenario, Signal
from .scale import Scale
from .times import RoadPart

Boundary = tuple[str, int]  # a road and the number of its cells before the boundary


class Junctions:
    """The records of connectors and turns, and which cells each cell leads into."""

    def __init__(self, study: Scenario, layout: Layout, scale: Scale) -> None:
        self.study, self.layout, self.scale = study, layout, scale
        self.connectors: list[Record] = []
        self.turns: list[Record] = []
        # For each cell the cells that its connector leads into, and the place in the study.
        self.out_of: dict[str, tuple[list[str], str]] = {}
        self.into: dict[str, str] = {}  # for each cell that something leads into the place in the study
        self._roads(self._ramps())
        self._ends()
        self._joints()

    def led_to(self, cell: str) -> list[str]:
        """The cells that a cell leads into."""
        return self.out_of[cell][0] if cell in self.out_of else []

    def road_cells(self, road: str, place: str) -> list[RoadCell]:
        """The cells of a road that a place of the study names."""
        if road not in self.layout.cells:
            names = [*self.study.roads, *self.study.gates, *self.study.exits]
            near = get_close_matches(road, names, 1)
            known = f"is {near[0]} meant?" if near else f"the study has {', '.join(names)}" if len(names) <= 12 else \
                f"the study has {len(names)} others"
            raise Problem(f"{place}: there is no road {road}; {known}")
        return self.layout.cells[road]

    def boundary(self, road: str, kilometre: Fraction, what: str) -> int:
        """The number of cells before the boundary that lies nearest to a kilometre of a road, noted where it moves."""
        self._within(road, kilometre, f"{what}.at")
        boundary = self.layout.boundary(road, kilometre)
        self.note_place(road, kilometre, boundary, what)
        return boundary

    def _within(self, road: str, kilometre: Fraction, what: str) -> None:
        length = self.study.roads[road].length
        if kilometre > length:
            raise Problem(f"{what}: km {float(kilometre):g} is beyond road {road}, which has {float(length):g} km")

    def note_place(self, road: str, kilometre: Fraction, boundary: int, what: str) -> None:
        """Notes that a kilometre of a road is modelled as a boundary between cells."""
        cells = self.layout.cells[road]
        cell = cells[max(0, boundary - 1)]
        self.scale.rounding.note(f"place of {what}", kilometre, self.layout.kilometre(road, boundary), "km",
                                 cell.end - cell.start)

    def cells_of(self, part: RoadPart) -> list[RoadCell]:
        """The cells of a part of a road, at least one, from the boundary nearest to its start to that of its end."""
        cells = self.road_cells(part.road, part.place)
        end = self.study.roads[part.road].length if part.end_km is None else part.end_km
        self._within(part.road, part.start_km, f"{part.place}.from")
        self._within(part.road, end, f"{part.place}.to")
        if end <= part.start_km:
            raise Problem(f"{part.place}.to: must be behind from")
        first = min(self.layout.boundary(part.road, part.start_km), len(cells) - 1)
        last = max(self.layout.boundary(part.road, end), first + 1)
        self.note_place(part.road, part.start_km, first, f"{part.place}, from")
        if part.end_km is not None:
            self.note_place(part.road, end, last, f"{part.place}, to")
        return cells[first:last]

    def stop_line(self, signal: Signal) -> str:
        """The cell before a signal's stop line, or its gate."""
        if signal.road in self.study.gates:
            return signal.road
        cells = self.road_cells(signal.road, signal.place)
        if signal.at is None:
            return cells[-1].name
        what = f"{signal.place} at km {float(signal.at):g}"
        self._within(signal.road, signal.at, f"{signal.place}.at")
        boundary = max(1, self.layout.boundary(signal.road, signal.at))
        self.note_place(signal.road, signal.at, boundary, what)
        return cells[boundary - 1].name

    def end_of(self, name: str, place: str) -> str:
        """The cell that a road or a gate ends in."""
        return name if name in self.study.gates else self.road_cells(name, place)[-1].name

    def _target(self, name: str, place: str) -> str:
        """The cell that a road begins with, or an exit."""
        return name if name in self.study.exits else self.road_cells(name, place)[0].name

    def _put(self, kind: str, ups: list[str], downs: list[str], numbers: Sequence[int], place: str) -> None:
        for up in ups:
            if up in self.out_of:
                raise Problem(f"{place}: {up} leads on already, by {self.out_of[up][1]}; a diverge parts one into two")
            self.out_of[up] = downs, place
        for down in downs:
            if down in self.into:
                raise Problem(f"{place}: something leads into {down} already, by {self.into[down]}; a merge joins two "
                              "into one")
            self.into[down] = place
        self.connectors.append(record(kind, *ups, *downs, *numbers))

    def _roads(self, cut: Collection[Boundary]) -> None:
        """Links the cells of each road, but for the boundaries that ramps have taken."""
        for road, cells in self.layout.cells.items():
            for i in range(1, len(cells)):
                if (road, i) not in cut:
                    self._put("link", [cells[i - 1].name], [cells[i].name], [], f"roads.{road}")

    def _ends(self) -> None:
        """Links gates and exits to their roads, and roads that go on as another."""
        for gate in self.study.gates.values():
            if gate.into:
                place = f"gates.{gate.name}.into"
                self._put("link", [gate.name], [self._target(gate.into, place)], [], place)
        for exit_ in self.study.exits.values():
            if exit_.source:
                place = f"exits.{exit_.name}.from"
                self._put("link", [self.end_of(exit_.source, place)], [exit_.name], [], place)
        for source, into, place in self.study.links:
            self._put("link", [self.end_of(source, place)], [self._target(into, place)], [], place)

    def _joints(self) -> None:
        """Puts the merges and diverges at the ends of roads."""
        for diverge in self.study.diverges:
            if diverge.at is None:
                self._put_diverge(diverge, self.end_of(diverge.source, diverge.place),
                                  [self._target(name, diverge.place) for name in diverge.into])
        for merge in self.study.merges:
            if merge.at is None:
                self._put_merge(merge, [self.end_of(name, merge.place) for name in merge.sources],
                                self._target(merge.into, merge.place))

    def _ramps(self) -> dict[Boundary, str]:
        """Puts the merges and diverges of ramps, and gives the boundaries that they take from their roads."""
        cut: dict[Boundary, str] = {}
        ramps: list[Merge | Diverge] = [*self.study.diverges, *self.study.merges]
        for ramp in ramps:
            if ramp.at is None:
                continue
            road = ramp.into if isinstance(ramp, Merge) else ramp.source
            cells = self.road_cells(road, ramp.place)
            boundary = self.boundary(road, ramp.at, ramp.place)
            if not 0 < boundary < len(cells):
                raise Problem(f"{ramp.place}.at: a ramp stands within its road; at its end use merges or diverges")
            if (road, boundary) in cut:
                raise Problem(f"{ramp.place}.at: {cut[road, boundary]} stands there already; two ramps are at least a "
                              "cell apart")
            cut[road, boundary] = ramp.place
            before, behind = cells[boundary - 1].name, cells[boundary].name
            if isinstance(ramp, Merge):
                self._put_merge(ramp, [before, self.end_of(ramp.sources[1], ramp.place)], behind)
            else:
                self._put_diverge(ramp, before, [behind, self._target(ramp.into[1], ramp.place)])
        return cut

    def _put_merge(self, merge: Merge, ups: list[str], down: str) -> None:
        weights = self.scale.weights(f"{merge.place}: priority of the first", merge.priorities)
        self._put("merge", ups, [down], weights, merge.place)

    def _put_diverge(self, diverge: Diverge, up: str, downs: list[str]) -> None:
        shares = self.scale.weights(f"{diverge.place}: share of the first", diverge.shares)
        self._put("diverge", [up], downs, shares, diverge.place)
        for i, turn in enumerate(diverge.turns, 1):
            what = f"{diverge.place}.turns[{i}]"
            begin, end = self.scale.span(what, turn.start, turn.end)
            shares = self.scale.weights(f"{what}: share of the first", turn.shares)
            self.turns.append(record("turn", up, begin, end, *shares))
