"""Signals whose greens follow traffic, taken from moment to moment as ramp meters are.

When a phase begins its green is set by what waits and comes: with `n` who wait, `q` who come and `s` who pass it lasts
`n/(s - q)`, until those who waited are gone, and a gap longer, between a least and a most. `n` are the vehicles on an approach
beyond those that drive there at free flow, or at the speed limits in force, where `q` come. Its reds are limits of 0 in the network that comes out.

With a file what was reached is kept there every few seconds and at an interrupt, and is taken up again.
"""

from __future__ import annotations

from collections.abc import Callable, Sequence
from dataclasses import dataclass, field, replace
from fractions import Fraction
from math import ceil
from pathlib import Path
from time import monotonic

import numpy

from ..files.writing import write
from ..network_file.checksums import checksum
from ..network_file.kinds import record, record_of
from ..network_file.network import Network
from ..study.network_text import FIXED, Built
from ..study.plan import ActuatedJunction, ActuatedPhase, StopLine, Scenario
from ..texts.amounts import PARTS
from ..units import cell_of
from .moment import Moment, Runner, kept_state, state_text

KEPT = ".actuated.json"  # the ending of what is kept of greens that aren't done
KEPT_EACH = 2.0  # seconds


def kept_path(target: Path) -> Path:
    """Where what was reached of greens that follow traffic is kept: beside the report."""
    return target.with_suffix(KEPT)


@dataclass
class Controller:
    """A signal whose greens follow traffic: the phase that begins next, and when, and the greens so far in steps."""

    junction: ActuatedJunction
    next: int
    phase: int = 0
    greens: list[tuple[int, int]] = field(default_factory=list)  # of each its phase and its steps
    began: list[int] = field(default_factory=list)  # when each first phase did


@dataclass(frozen=True)
class Point:
    """Where a run of signals stands between two greens: how many reds were set, and of each controller how far it is."""

    reds: int
    seen: dict[str, tuple[int, int]]
    controllers: list[tuple[int, int, int, int]]  # its next green, the phase of that, and how many greens and cycles it had


class ActuatedSignals:
    """The network so far, with the reds that were set, and the moment that was reached."""

    def __init__(self, built: Built, study: Scenario, runner: Runner, kept: Path | None = None) -> None:
        self.built, self.runner, self.step, self.network, self.kept = built, runner, study.step, built.network, kept
        self.controllers = [Controller(one, self._steps(one.offset)) for one in study.actuated]
        self.mark = checksum(built.network.content + repr(study.actuated).encode())
        self.saved = monotonic()
        self.lines = {line: self._cells(line, study) for one in study.actuated for phase in one.phases for line in phase.lines}
        self.places = {name: place for place, name in enumerate(self.network.kinds)}
        stop_lines = {cells[-1] for cells in self.lines.values()}
        self.own = self.network.without([one for one in self.network.records if one.kind == "signal" and one.values[0] in stop_lines])
        self.reds = [record("limit", cells[-1], 0, one.next, 0) for one in self.controllers if one.next
                     for cells in self._approaches(one)]
        self.seen: dict[str, tuple[int, int]] = {}  # for each stop line's cell its last green's step, and what had come before it
        self.moment: Moment | None = None
        self.point = self._point()

    def run(self, done: Callable[[int], object] | None = None) -> Built:
        """The network with all its reds; `done` gets how many steps further it is."""
        reached = 0
        self._take_up()
        try:
            while (one := min(self.controllers, key=lambda one: one.next)).next < self.network.steps:
                self._go_to(one.next)
                if done:
                    done(one.next - reached)
                reached = one.next
                self._begin(one)
                self.point = self._point()
                if self.kept and monotonic() > self.saved + KEPT_EACH:
                    self._keep()
        except KeyboardInterrupt:
            self._keep()
            raise
        units = replace(self.built.units, cycles={**self.built.units.cycles, **self._cycles()})
        warnings = [line for line in self.built.warnings if FIXED not in line]
        return replace(self.built, network=self._reached(), units=units, warnings=warnings,
                       remarks=[*self.built.remarks, *(self._told(one) for one in self.controllers)])

    def _steps(self, seconds: Fraction) -> int:
        return max(0, round(seconds / self.step))

    def _cells(self, line: StopLine, study: Scenario) -> Sequence[str]:
        """The cells before a stop line, from the one behind the stop line before it on, or its gate."""
        units, (road, at) = self.built.units, line
        cells = units.roads.get(road)
        if cells is None:
            return [road]
        stop = cells.index(cell_of(road, units, None if at is None else float(at)))
        others = [cells.index(cell_of(road, units, None if one.at is None else float(one.at)))
                  for one in study.signals if one.road == road]
        return cells[max((place + 1 for place in others if place < stop), default=0):stop + 1]

    def _approaches(self, one: Controller) -> list[Sequence[str]]:
        return [self.lines[line] for line in dict.fromkeys(line for phase in one.junction.phases for line in phase.lines)]

    def _point(self) -> Point:
        return Point(len(self.reds), dict(self.seen), [(one.next, one.phase, len(one.greens), len(one.began))
                                                       for one in self.controllers])

    def _state(self) -> str:
        """What was reached, as text: the last point between two greens, whatever was begun since."""
        assert self.moment is not None
        rows = [{"next": at, "phase": phase, "greens": one.greens[:greens], "began": one.began[:began]}
                for one, (at, phase, greens, began) in zip(self.controllers, self.point.controllers)]
        return state_text(self.mark, self.moment, reds=[one.text for one in self.reds[:self.point.reds]], seen=self.point.seen, controllers=rows)

    def _keep(self) -> None:
        """Keeps what was reached, once there is something."""
        if self.kept and self.moment is not None:
            write(self.kept, self._state())
            self.saved = monotonic()

    def _take_up(self) -> None:
        """Takes up what an earlier call has kept of the same network and signals."""
        state = kept_state(self.kept, self.mark)
        if state is None:
            return
        self.reds = [record_of(text) for text in state["reds"]]
        self.seen = {cell: (step, come) for cell, (step, come) in state["seen"].items()}
        for one, was in zip(self.controllers, state["controllers"]):
            one.next, one.phase, one.began = was["next"], was["phase"], was["began"]
            one.greens = [(phase, green) for phase, green in was["greens"]]
        self.moment = state["moment"].of(self._content())
        self.point = self._point()

    def _reached(self) -> Network:
        return self.own.with_more(self.reds)

    def _content(self) -> bytes:
        return self._reached().content

    def _go_to(self, step: int) -> None:
        """Takes the moment to a step; there is none at step 0."""
        if self.moment is None:
            self.moment = self.runner.moment(self._content(), step) if step else None
        elif step > self.moment.last:
            self.moment = self.runner.later(self.moment.of(self._content()), step)

    def _begin(self, one: Controller) -> None:
        """Begins the next green of a junction, and sets its reds up to the one after it."""
        phases = one.junction.phases
        phase, behind = phases[one.phase], phases[(one.phase + 1) % len(phases)]
        green = self._green(phase, one.next)
        end = one.next + green
        stop = end + self._steps(phase.pause)
        for line in dict.fromkeys(line for each in phases for line in each.lines):
            red = one.next if line not in phase.lines else stop if line in behind.lines and behind is not phase else end
            if red < min(stop, self.network.steps):
                self.reds.append(record("limit", self.lines[line][-1], red, min(stop, self.network.steps), 0))
        if one.phase == 0:
            one.began.append(one.next)
        one.greens.append((one.phase, green))
        one.next, one.phase = stop, (one.phase + 1) % len(phases)

    def _green(self, phase: ActuatedPhase, now: int) -> int:
        """How many steps a green lasts."""
        needs = [self._clearing(self.lines[line], now) for line in phase.lines]
        if phase.actuation is None:
            return max(1, self._steps(phase.green))
        follow = phase.actuation
        least, most = max(1, self._steps(follow.least)), max(1, self._steps(follow.most))
        return min(most, max(least, ceil(max(needs) + float(follow.gap / self.step) - 1e-9)))

    def _clearing(self, cells: Sequence[str], now: int) -> float:
        """The steps in which those who wait in the cells before a stop line are gone, and those who come meanwhile."""
        rows = [self.moment.rows[self.places[cell]] for cell in cells] if self.moment else []
        come = rows[0].come if rows else 0
        before, had_come = self.seen.get(cells[-1], (0, 0))
        self.seen[cells[-1]] = now, come
        coming = (come - had_come) / PARTS / (now - before) if now > before else 0.0
        paces, moment = self.network.paces, numpy.array([now, now + 1.0])
        steps = sum(1 / float(paces[cell].mean(moment)[0]) if cell in paces else 1 for cell in cells)  # at free flow
        waiting: float = sum(row.n for row in rows) / PARTS - coming * steps
        passing = self.network.capacities[cells[-1]]
        return max(0.0, waiting) / (passing - coming) if coming < passing else float(self.network.steps)

    def _cycles(self) -> dict[str, int]:
        """For each stop line the longest cycle that it had."""
        return {cells[-1]: max((two - first for first, two in zip(one.began, one.began[1:])), default=self.network.steps)
                for one in self.controllers for cells in self._approaches(one)}

    def _told(self, one: Controller) -> str:
        """The greens that a junction settles at, the mean of the second half, and its mean cycle."""
        late = one.greens[len(one.greens) // 2:]
        step = float(self.step)
        means = []
        for k in range(len(one.junction.phases)):
            own = [green for phase, green in late if phase == k] or [0]
            means.append(f"{step * sum(own) / len(own):.1f}")
        began = one.began[len(one.began) // 2:]
        cycle = f", a cycle of {step * (began[-1] - began[0]) / (len(began) - 1):.1f} s" if len(began) > 1 else ""
        return f"{one.junction.place}: in the second half its greens last {' and '.join(means)} s in the mean{cycle}"
