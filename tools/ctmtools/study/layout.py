"""Roads cut into cells: each as long as the way of a step at the free-flow speed, named by road and number."""

from __future__ import annotations

from collections.abc import Mapping, Sequence
from dataclasses import dataclass
from fractions import Fraction

from ..network_file.faults import NAME
from ..network_file.kinds import MOST_RECORDS, NAME_RULE
from ..problem import Problem
from ..texts.amounts import rounded_parts
from ..texts.quantities import HOUR
from .plan import Road, Section, Scenario
from .scale import Rounding, rounded_text


@dataclass
class RoadCell:
    """A cell of a road: its place in km as modelled, its section, and its fields in parts and ratio.

    `opened` are the most lanes that are opened beside those of the section at one time, and `most` is the greatest
    capacity that this gives it.
    """

    name: str
    road: str
    start: Fraction
    end: Fraction
    section: Section
    room: int
    capacity: int
    ratio: Fraction
    first: int
    most: int
    opened: Fraction = Fraction(0)


@dataclass
class Stretch:
    """The cells of a section: the km asked for, the first cell's number on the road, how many, each so many km long."""

    start: Fraction
    end: Fraction
    first: int
    count: int
    length: Fraction


class Layout:
    """The cells of all roads of a study, in order, with the way from kilometres to boundaries of cells."""

    def __init__(self, study: Scenario, rounding: Rounding) -> None:
        self.step = study.step
        self.stretches: dict[str, list[Stretch]] = {}
        self.cells: dict[str, list[RoadCell]] = {}
        for road in study.roads.values():
            self.stretches[road.name] = self._cut(road, rounding)
        self._check_few()
        names = self._names(study)
        for road in study.roads.values():
            self.cells[road.name] = self._fill(road, names)

    def _cut(self, road: Road, rounding: Rounding) -> list[Stretch]:
        ends = [section.start for section in road.sections[1:]] + [road.length]
        stretches: list[Stretch] = []
        first = 0
        for section, end in zip(road.sections, ends):
            length = section.free_flow_speed * self.step / HOUR
            count = max(1, round((end - section.start) / length))
            stretches.append(Stretch(section.start, end, first, count, length))
            first += count
        rounding.note(f"length of road {road.name}", road.length, sum(part.count * part.length for part in stretches),
                      "km")
        for part in stretches if len(stretches) > 1 else []:
            rounding.note(f"length of road {road.name} from km {float(part.start):g}", part.end - part.start,
                          part.count * part.length, "km")
        return stretches

    def _check_few(self) -> None:
        """Refuses more cells than a network can have, before they are made."""
        counts = {road: sum(part.count for part in parts) for road, parts in self.stretches.items()}
        count, most = sum(counts.values()), max(MOST_RECORDS.values())
        if count <= most:
            return
        road = max(counts, key=lambda name: counts[name])
        length = self.stretches[road][-1].end
        raise Problem(f"roads.{road}.length: {rounded_text(length)} km make {counts[road]:,} cells of {count:,} in all, and a network "
                      f"has at most {most:,} records; are metres meant? Then write \"{float(length):g} m\". Else a longer step "
                      "makes fewer cells")

    def _names(self, study: Scenario) -> dict[str, list[str]]:
        """The names of all cells by road: those of one name before the number are counted through the study.

        A name that ends with a digit has a point behind it, so that it isn't read as one number with the cell's.
        """
        counts: dict[str, int] = {}
        for road in study.roads.values():
            for section, part in zip(road.sections, self.stretches[road.name]):
                counts[section.cells] = counts.get(section.cells, 0) + part.count
        numbers, taken = dict.fromkeys(counts, 0), set(study.gates) | set(study.exits)
        names: dict[str, list[str]] = {}
        for road in study.roads.values():
            names[road.name] = []
            for section, part in zip(road.sections, self.stretches[road.name]):
                width = len(str(counts[section.cells]))
                before = section.cells + "." * section.cells[-1].isdigit()
                for _ in range(part.count):
                    numbers[section.cells] += 1
                    name = f"{before}{numbers[section.cells]:0{width}d}"
                    if name in taken:
                        raise Problem(f"roads.{road.name}: a second cell would be named {name}; name the road "
                                      "otherwise, or its cells by the key cells")
                    if not NAME.fullmatch(name):
                        raise Problem(f"roads.{road.name}: a cell would be named \"{name}\"; a name is {NAME_RULE}")
                    taken.add(name)
                    names[road.name].append(name)
        return names

    def _fill(self, road: Road, names: Mapping[str, Sequence[str]]) -> list[RoadCell]:
        cells: list[RoadCell] = []
        place = Fraction(0)
        for section, part in zip(road.sections, self.stretches[road.name]):
            ratio = (section.wave_speed / section.free_flow_speed).limit_denominator(1000)
            if ratio == 0:
                raise Problem(f"roads.{road.name}.wave_speed: is less than a thousandth of the free-flow speed")
            room = rounded_parts(section.jam_density * section.lanes * part.length)
            capacity = rounded_parts(section.saturation_flow * section.lanes * self.step / HOUR)
            first = min(room, rounded_parts(section.first_density * section.lanes * part.length))
            for _ in range(part.count):
                name = names[road.name][len(cells)]
                cells.append(RoadCell(name, road.name, place, place + part.length, section, room, capacity, ratio,
                                      first, capacity))
                place += part.length
        return cells

    def boundary(self, road: str, kilometre: Fraction) -> int:
        """The number of cells before the boundary between cells that lies nearest to a kilometre of a road."""
        for part in self.stretches[road]:
            if kilometre < part.end or part is self.stretches[road][-1]:
                return part.first + min(part.count, max(0, round((kilometre - part.start) / part.length)))
        raise AssertionError("a road has sections")

    def kilometre(self, road: str, boundary: int) -> Fraction:
        """The kilometre of the road as the study counts it, at a boundary between cells."""
        for part in self.stretches[road]:
            if boundary <= part.first + part.count:
                return part.start + (boundary - part.first) * part.length
        raise AssertionError("a boundary lies on its road")
