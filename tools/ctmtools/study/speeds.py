"""The speed limits of a study, and the records of speeds that they make: a part of a road's own free-flow speed for some steps."""

from __future__ import annotations

from collections.abc import Iterator, Sequence
from fractions import Fraction
from itertools import groupby

from ..network_file.kinds import Record, record
from ..problem import Problem
from .limits import Change, spans
from .junctions import Junctions
from .layout import RoadCell
from .plan import Section, SpeedLimit, Scenario
from .scale import TOLD, Scale, rounded_text

FINEST = 1000  # a part has a denominator of so much at most
Span = tuple[int, int, Fraction]  # the steps from and to which a part of the road's own speed holds


class Speeds:
    """The speed limits on the cells of roads; where several hold at once the least does.

    The wave speed and the jam density stay, so that a slower road passes less for long.
    """

    def __init__(self, study: Scenario, junctions: Junctions, scale: Scale) -> None:
        self.study, self.junctions, self.scale = study, junctions, scale
        self.limits: dict[str, list[Change]] = {}  # of each cell those that are below its own speed
        for limit in study.speed_limits:
            self._put(limit)

    def records(self) -> Iterator[Record]:
        """A record for each span of steps in which a cell has less than its own speed."""
        for row in self.junctions.layout.cells.values():
            for cell in row:
                for begin, end, part in self._spans(cell):
                    yield record("speed", cell.name, begin, end, *part.as_integer_ratio())

    def remarks(self) -> Iterator[str]:
        """What a road passes for long at the speed limits that lower it."""
        for limit in self.study.speed_limits:
            for section, cells in self._sections(limit):
                own, left = _lasting(section, section.free_flow_speed), _lasting(section, limit.speed)
                if limit.speed < section.free_flow_speed and own - left > TOLD * own:
                    yield (f"{limit.part.place}: at {rounded_text(limit.speed)} km/h road {limit.part.road} from km "
                           f"{rounded_text(cells[0].start)} to {rounded_text(cells[-1].end)} passes {rounded_text(left)} vehicles/h "
                           f"for long, by its wave speed and jam density, in place of {rounded_text(own)}")

    def idle(self) -> Iterator[str]:
        """The speed limits that do nothing, since the road is no faster itself."""
        for limit in self.study.speed_limits:
            sections = [section for section, _ in self._sections(limit)]
            own = sorted({section.free_flow_speed for section in sections})
            if all(_part(section, limit.speed) == 1 for section in sections):
                yield (f"{limit.part.place}: road {limit.part.road} has {' and '.join(rounded_text(speed) for speed in own)} km/h "
                       f"there itself, so a limit of {rounded_text(limit.speed)} km/h does nothing")

    def _put(self, limit: SpeedLimit) -> None:
        part, span = limit.part, self.scale.span(limit.part.place, limit.part.start, limit.part.end)
        for section, cells in self._sections(limit):
            ratio = _part(section, limit.speed)
            if ratio == 1:
                continue
            if ratio == 0:
                raise Problem(f"{part.place}.speed: is less than a thousandth of the free-flow speed")
            self.scale.rounding.note(f"{part.place} on road {part.road} from km {rounded_text(cells[0].start)}", limit.speed,
                                     ratio * section.free_flow_speed, "km/h")
            for cell in cells:
                self.limits.setdefault(cell.name, []).append(Change(*span, part.place, speed=limit.speed))

    def _sections(self, limit: SpeedLimit) -> list[tuple[Section, list[RoadCell]]]:
        """The cells of a limit by the sections of its road, in the direction of travel."""
        rows = [list(cells) for _, cells in groupby(self.junctions.cells_of(limit.part), lambda cell: id(cell.section))]
        return [(cells[0].section, cells) for cells in rows]

    def _spans(self, cell: RoadCell) -> Iterator[Span]:
        """The spans of a cell, with those of one speed that follow each other joined."""
        last: Span | None = None
        for begin, end, holding in spans(self.limits.get(cell.name, ())):
            part = _part(cell.section, _least(holding))
            if last and last[1:] == (begin, part):
                last = last[0], end, part
                continue
            if last:
                yield last
            last = begin, end, part
        if last:
            yield last


def _least(holding: Sequence[Change]) -> Fraction:
    return min(limit.speed for limit in holding if limit.speed is not None)


def _part(section: Section, speed: Fraction) -> Fraction:
    """The part of a section's own speed that a limit leaves, in numbers that a record can have."""
    return min(Fraction(1), speed / section.free_flow_speed).limit_denominator(FINEST)


def _lasting(section: Section, speed: Fraction) -> Fraction:
    """The vehicles/h that pass a section for long at a free-flow speed: the top of the triangle, or its saturation flow."""
    top = speed * section.wave_speed * section.jam_density / (speed + section.wave_speed)
    return section.lanes * min(section.saturation_flow, top)
