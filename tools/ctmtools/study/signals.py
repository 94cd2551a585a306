"""The signals of a study: those that run all the time, those of a part of it, whose red is made of limits, and those that follow traffic."""

from __future__ import annotations

from collections.abc import Hashable, Iterator
from dataclasses import dataclass, replace

from ..network_file.kinds import Record, record
from ..problem import Problem
from .junctions import Junctions
from .limits import Change, Limits
from .plan import ActuatedJunction, ActuatedPhase, Scenario, Signal
from .scale import Scale


@dataclass(frozen=True)
class Phases:
    """The phases of a signal in steps: from when to when it runs, its cycle, its green, and when it turns green."""

    begin: int
    end: int
    cycle: int
    green: int
    first: int

    def reds(self) -> Iterator[tuple[int, int]]:
        """The steps from and to which it is red while it runs."""
        red = self.begin + self.first % self.cycle + self.green - self.cycle
        while red < self.end and self.green < self.cycle:
            begin, end = max(red, self.begin), min(red + self.cycle - self.green, self.end)
            if begin < end:
                yield begin, end
            red += self.cycle


class Signals:
    """The records of signals; those that run for a part of the time put their red among the limits."""

    def __init__(self, study: Scenario, junctions: Junctions, scale: Scale, limits: Limits) -> None:
        self.study, self.junctions, self.scale, self.limits = study, junctions, scale, limits
        self.records: list[Record] = []
        self.remarks: dict[str, None] = {}
        self.lines: dict[str, list[tuple[Phases, str]]] = {}  # for each stop line the signals there so far
        self.cycles: dict[str, int] = {}  # for each stop line of signals whose red is made of limits the longest cycle
        for signal in study.signals:
            self._put(signal)

    def _put(self, signal: Signal) -> None:
        cell, phases = self.junctions.stop_line(signal), self._phases(signal)
        for other, place in self.lines.setdefault(cell, []):
            if phases.begin < other.end and other.begin < phases.end:
                raise Problem(f"{signal.place}: at this stop line {place} runs at the same time")
        self.lines[cell].append((phases, signal.place))
        if phases.begin == 0 and phases.end >= self.scale.steps:
            self.records.append(record("signal", cell, phases.cycle, -phases.first % phases.cycle, 0, phases.green))
            return
        self.cycles[cell] = max(phases.cycle, self.cycles.get(cell, 0))
        barrier = self._barrier(cell, signal)
        for begin, end in phases.reds():
            self.limits.add(barrier, Change(begin, end, signal.place, red=True))

    def _phases(self, signal: Signal) -> Phases:
        whole = self.scale.whole_steps
        cycle = whole(f"cycle of {signal.place}", signal.cycle, least=1)
        green = whole(f"green of {signal.place}", signal.green)
        first = whole(f"first green of {signal.place}", signal.first_green, of=signal.cycle)
        if not 0 < green <= cycle:
            raise Problem(f"{signal.place}.green: {float(signal.green):g} s is never green for a step of "
                          f"{float(self.study.step):g} s")
        return Phases(*self.scale.span(signal.place, signal.start, signal.end), cycle, green, first)

    def _barrier(self, cell: str, signal: Signal) -> str:
        """Where a limit of 0 stops what a red light stops: at the gate, at the exit behind the line, or at its cell."""
        if cell in self.study.gates:
            return cell
        downs = self.junctions.led_to(cell)
        if len(downs) == 1 and downs[0] in self.study.exits:
            ups = [up for up, (behind, _) in self.junctions.out_of.items() if downs[0] in behind]
            if ups == [cell]:
                return downs[0]
        self.remarks[f"{signal.place} has a start or an end, so in its red nothing comes into the cell before the stop "
                     "line either: its queue stands from the next cell upstream on, and where a green clears it, a "
                     "vehicle that has waited may wait a step longer"] = None
        return cell


def with_actuated_signals(study: Scenario) -> Scenario:
    """The study with the stop lines whose greens follow traffic among the signals that do so.

    Those whose roads meet in one merge or junction take turns; each other one has its red between its own greens.
    """
    groups: dict[Hashable, list[Signal]] = {}
    for i, signal in enumerate(study.signals):
        groups.setdefault(_meeting(study, signal) or i, []).append(signal)
    actuated = [_actuated(study, sorted(own, key=lambda one: one.first_green % one.cycle)) for own in groups.values()
                if any(signal.actuation for signal in own)]
    return replace(study, actuated=[*study.actuated, *actuated])


def _meeting(study: Scenario, signal: Signal) -> str | None:
    """The place of the merge or of the junction to which a road leads, where its stop line stands at its end."""
    if signal.at is not None:
        return None
    places = [merge.place for merge in study.merges if merge.at is None and signal.road in merge.sources]
    places += [crossing.place for crossing in study.crossings if signal.road in crossing.sources]
    return next(iter(places), None)


def _actuated(study: Scenario, own: list[Signal]) -> ActuatedJunction:
    """One signal of stop lines that take turns, in the order of their greens."""
    first = own[0]
    for signal in own:
        if signal.cycle != first.cycle:
            raise Problem(f"{signal.place}.cycle: {first.place} meets it and follows traffic, so both have one cycle")
        if signal.start or signal.end != study.duration:
            raise Problem(f"{signal.place}.actuated: greens that follow traffic do so for the whole study, without start and end")
    phases: list[list[Signal]] = []
    for signal in own:
        if phases and (phases[-1][0].first_green % signal.cycle, phases[-1][0].green) == (signal.first_green % signal.cycle, signal.green):
            phases[-1].append(signal)
        else:
            phases.append([signal])
    begins = [each[0].first_green % first.cycle for each in phases]
    found = []
    for begin, behind, each in zip(begins, [*begins[1:], begins[0] + first.cycle], phases):
        pause = behind - begin - each[0].green
        if pause < 0:
            raise Problem(f"{each[0].place}.green: greens that follow traffic stand one behind the other")
        follows = next((signal.actuation for signal in each if signal.actuation), None)
        found.append(ActuatedPhase([(signal.road, signal.at) for signal in each], each[0].green, follows, pause))
    return ActuatedJunction(found, begins[0], " and ".join(dict.fromkeys(signal.place for signal in own)))
