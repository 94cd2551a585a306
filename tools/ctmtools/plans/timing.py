"""The timing of a study's signals as whole numbers: when each turns green, and how a junction parts its green."""

from __future__ import annotations

import copy
from collections.abc import Sequence
from dataclasses import dataclass
from fractions import Fraction
from pathlib import Path
from typing import Any

from ..problem import Problem
from ..study.plan import Signal
from ..study.reading import scenario_of
from ..texts.quantities import duration

Point = tuple[int, ...]  # a number for each variable


@dataclass(frozen=True)
class Line:
    """A stop line of an entry of `signals`: its cycle, green and first green in steps, and the line that it follows.

    The variable of a line that follows another of its road and cycle is how much later it turns green, and else when.
    """

    entry: int
    place: str
    cycle: int
    green: int
    first: int
    before: int | None


@dataclass(frozen=True)
class Crossroads:
    """A junction with phases: its cycle and offset, and of its phases, by start, start and green, all in steps.

    `pauses` are the steps from each green to the next. The greens are varied where `spare`, the steps that each may have
    beyond the least, is above 0; their sum stays.
    """

    entry: int
    place: str
    cycle: int
    offset: int
    order: list[int]
    start: int
    greens: list[int]
    pauses: list[int]
    least: int
    spare: int

    def parted(self, cuts: Sequence[int]) -> list[int]:
        """The greens that cuts through the spare steps make."""
        if not self.spare:
            return self.greens
        edges = [0, *sorted(cuts), self.spare]
        return [self.least + behind - before for before, behind in zip(edges, edges[1:])]

    @property
    def cuts(self) -> list[int]:
        """The cuts that make the study's own greens, or the nearest to them."""
        if not self.spare:
            return []
        sums = [sum(self.greens[:i]) - i * self.least for i in range(1, len(self.greens))]
        return [min(self.spare, max(0, one)) for one in sums]

    def starts(self, greens: Sequence[int]) -> list[int]:
        """When each phase begins in the cycle, the pauses between them as they were."""
        found = [self.start]
        for green, pause in zip(greens[:-1], self.pauses):
            found.append(found[-1] + green + pause)
        return [start % self.cycle for start in found]


class Timing:
    """The variables of a study's signals, each 0 to its `most`, and the study's values with the variables at a point."""

    def __init__(self, values: dict[str, Any], path: Path, least_green: Fraction) -> None:
        study = scenario_of(copy.deepcopy(values), path)
        self.values, self.step = values, study.step
        self.lines: list[Line] = []
        self._put_lines(study.signals)
        least = max(1, -int(-least_green // self.step))
        self.junctions = [self._crossroads(entry, table, least) for entry, table in enumerate(values.get("junctions", []))
                          if table.get("phases")]
        self.most = [line.cycle - 1 for line in self.lines]
        for junction in self.junctions:
            self.most += [junction.cycle - 1, *[junction.spare] * len(junction.cuts)]
        if not any(self.most):
            raise Problem(f"{path}: has no signal whose timing can be varied")

    def _put_lines(self, signals: Sequence[Signal]) -> None:
        """The stop lines of the entries of `signals`, of which these are the first signals of the study."""
        tables = [len(table["at"]) if isinstance(table.get("at"), list) else 0 for table in self.values.get("signals", [])]
        places = [(entry, number) for entry, count in enumerate(tables) for number in range(count or 1)]
        last: dict[tuple[str, int], int] = {}  # by road and cycle
        for i, ((entry, number), signal) in enumerate(zip(places, signals)):
            cycle = self._steps(signal.cycle, 1)
            place = f"signals[{entry + 1}]" + (f", line {number + 1}" if tables[entry] else "")
            self.lines.append(Line(entry, place, cycle, self._steps(signal.green, 1),
                                   self._steps(signal.first_green) % cycle, last.get((signal.road, cycle))))
            last[signal.road, cycle] = i

    def _steps(self, seconds: Fraction, least: int = 0) -> int:
        return max(least, round(seconds / self.step))

    def _crossroads(self, entry: int, table: dict[str, Any], least: int) -> Crossroads:
        cycle = self._steps(duration(table["cycle"], "cycle"), 1)
        pause, begin, spans = duration(table.get("intergreen", 0), "intergreen"), Fraction(0), []
        for phase in table["phases"]:
            start, green = duration(phase.get("start", begin), "start"), duration(phase["green"], "green")
            begin = start + green + pause
            spans.append((self._steps(start), self._steps(green, 1)))
        order = sorted(range(len(spans)), key=lambda i: spans[i][0])
        starts, greens = [spans[i][0] for i in order], [spans[i][1] for i in order]
        pauses = [behind - start - green for start, green, behind in zip(starts, greens, [*starts[1:], starts[0] + cycle])]
        spare = sum(greens) - least * len(greens)
        free = len(greens) > 1 and min(pauses) >= 0 and spare > 0
        return Crossroads(entry, f"junctions[{entry + 1}]", cycle, self._steps(duration(table.get("offset", 0), "offset"))
                          % cycle, order, starts[0], greens, pauses, least, spare if free else 0)

    @property
    def start(self) -> Point:
        """The point of the study as it stands, or the nearest to it."""
        found = [(line.first - (0 if line.before is None else self.lines[line.before].first)) % line.cycle
                 for line in self.lines]
        for junction in self.junctions:
            found += [junction.offset, *junction.cuts]
        return tuple(found)

    def changed(self, point: Point) -> dict[str, Any]:
        """The study's values with the variables at a point."""
        values, numbers = copy.deepcopy(self.values), list(point)
        firsts = self._firsts(numbers[:len(self.lines)])
        for entry, table in enumerate(values.get("signals", [])):
            greens = [first * self.step for line, first in zip(self.lines, firsts) if line.entry == entry]
            table.pop("offset", None)
            table.pop("first_green", None)
            if isinstance(table.get("at"), list):
                table["offset"] = greens
            else:
                table["first_green"] = greens[0]
        del numbers[:len(self.lines)]
        for junction in self.junctions:
            table = values["junctions"][junction.entry]
            table["offset"] = numbers.pop(0) * self.step
            cuts = [numbers.pop(0) for _ in junction.cuts]
            if cuts:
                greens_of = junction.parted(cuts)
                for i, start, green in zip(junction.order, junction.starts(greens_of), greens_of):
                    table["phases"][i].update(start=start * self.step, green=green * self.step)
        return values

    def _firsts(self, numbers: Sequence[int]) -> list[int]:
        firsts: list[int] = []
        for line, number in zip(self.lines, numbers):
            firsts.append((number + (0 if line.before is None else firsts[line.before])) % line.cycle)
        return firsts

    def rows(self, point: Point) -> list[tuple[str, Fraction, list[Fraction]]]:
        """For each stop line and junction its place, when it turns green or its cycle begins, and its greens, in s."""
        numbers = list(point)
        firsts = self._firsts(numbers[:len(self.lines)])
        found = [(line.place, first * self.step, [line.green * self.step]) for line, first in zip(self.lines, firsts)]
        del numbers[:len(self.lines)]
        for junction in self.junctions:
            offset = numbers.pop(0)
            greens = junction.parted([numbers.pop(0) for _ in junction.cuts])
            found.append((junction.place, offset * self.step, [green * self.step for green in greens]))
        return found
