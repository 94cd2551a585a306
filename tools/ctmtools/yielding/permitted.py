"""A left turn at a green light that it shares with those who come towards it.

As the Highway Capacity Manual has it (2010, chapter 31) nothing turns while the queue of those clears, then as many as their gaps
let, and a few at the end of the green. Where others drive through from its lane, the part `p` of which turns, they pass until the
first comes who turns, `g·exp(-0.860·n^0.629) - 2` s for `n` in a cycle. He stops them until the queue ahead is gone. Then a lane
passes `s/(1 + p·(s/s_p - 1))`, of `s` in green and `s_p` that the gaps let turn, and at the end `(1 + p)/2` of the few.
"""

from __future__ import annotations

from collections.abc import Sequence
from dataclasses import dataclass
from math import exp

import numpy

from ..arrays import Flags, Numbers
from ..study.plan import Permission, Stream, Yield
from ..texts.quantities import HOUR
from .gaps import passing

Span = tuple[float, float]  # seconds of the cycle
FIRST_TURN = 0.860, 0.629  # of an approach of one lane
STARTING = 2.0  # s that are lost at the start of a green


@dataclass(frozen=True)
class InLane:
    """Who turns among those of his lane: which part of them, and how many come in a cycle."""

    part: float = 1.0
    in_cycle: float = 0.0

    def freely(self, green: float) -> float:
        """The seconds of a green until the first comes who turns, where others share his lane."""
        if self.part == 1:
            return 0.0
        return max(0.0, green * exp(-FIRST_TURN[0] * self.in_cycle ** FIRST_TURN[1]) - STARTING)


ALONE = InLane()


@dataclass(frozen=True)
class Opposing:
    """A stream with priority in a cycle: its green, its flow as it counts, and what waits and passes where its queue stands.

    All flows are in vehicles/h.
    """

    green: Span
    flow: float
    arriving: float
    saturation: float

    def cleared(self, cycle: float) -> float:
        """The seconds of its green after which its queue is gone, where it comes evenly: `q·r/(s - q)`."""
        green = self.green[1] - self.green[0]
        if self.arriving >= self.saturation:
            return green
        return min(green, self.arriving * (cycle - green) / (self.saturation - self.arriving))


def opposing_of(stream: Stream, flow: float, arriving: float, saturation: float) -> Opposing:
    """A stream of a study with its flows; without a signal of its own it is green at all times."""
    begin, end = stream.green or (0, 0)
    return Opposing((float(begin), float(end)), flow, arriving, saturation)


def in_span(time: float, span: Span, cycle: float) -> bool:
    """Whether a time lies in a span of the cycle, which may pass its end."""
    return (time - span[0]) % cycle < span[1] - span[0]


class PermittedGreen:
    """What may turn in each step of a cycle, in vehicles/h, for what comes towards it."""

    def __init__(self, one: Yield, permission: Permission, step: float, most: float) -> None:
        self.gaps, self.step, self.most = one.gaps, step, most
        self.cycle, self.sneakers = float(permission.cycle), float(permission.sneakers)
        self.spans = [(float(begin), float(end)) for begin, end in permission.permitted]
        self.green = float(permission.green[0]), float(permission.green[1])
        self.count = max(1, round(self.cycle / step))
        shift = float(permission.offset)
        self.times = [((k + 0.5) * step - shift) % self.cycle for k in range(self.count)]

    @property
    def permitted(self) -> Flags:
        """In which steps of the cycle it gives way."""
        return numpy.array([any(in_span(time, span, self.cycle) for span in self.spans) for time in self.times])

    def in_cycle(self, rates: Numbers) -> Numbers:
        """What may pass in the mean of whole cycles, of the rates in each step of them: those in its green count."""
        green = [in_span(time, self.green, self.cycle) for time in self.times]
        means: Numbers = (rates * green).mean(axis=1)
        return means

    def rates(self, towards: Sequence[Opposing], lane: InLane = ALONE) -> Numbers:
        """What may turn in each step of the cycle; as much as the cell passes where it doesn't give way."""
        rates = numpy.array([min(self.most, self._rate(time, towards, lane)) for time in self.times])
        for span in self.spans:
            if not self._goes_on_alone(span):
                self._sneak(rates, span, self.sneakers * (1 + lane.part) / 2)
        return numpy.where(self.permitted, rates * lane.part, rates)

    def _rate(self, time: float, towards: Sequence[Opposing], lane: InLane) -> float:
        """What a lane passes in the step around a time, in that part of it in which the queues that come are gone."""
        if not any(in_span(time, span, self.cycle) for span in self.spans):
            return self.most
        since = (time - self.green[0]) % self.cycle
        before = min(1.0, max(0.0, (lane.freely(self.green[1] - self.green[0]) - since) / self.step + 0.5))
        coming = [one for one in towards if in_span(time, one.green, self.cycle)]
        free = min(1 - before, min((self._free(time, one) for one in coming), default=1.0))
        turning = min(self.most, passing(sum(one.flow for one in coming), self.gaps)) if free else 0.0
        return before * self.most + (free / (lane.part / turning + (1 - lane.part) / self.most) if turning else 0.0)

    def _free(self, time: float, one: Opposing) -> float:
        """The part of the step around a time in which the queue of a stream is gone."""
        since = (time - one.green[0]) % self.cycle
        return min(1.0, max(0.0, (since - one.cleared(self.cycle)) / self.step + 0.5))

    def _goes_on_alone(self, span: Span) -> bool:
        """Whether its green goes on behind a span in which it gives way."""
        behind = (span[1] + self.step / 2) % self.cycle
        return in_span(behind, self.green, self.cycle) and not any(in_span(behind, one, self.cycle) for one in self.spans)

    def _sneak(self, rates: Numbers, span: Span, sneakers: float) -> None:
        """Adds those who turn when a span ends to its last steps, as far as the cell passes more there."""
        inside = [k for k, time in enumerate(self.times) if in_span(time, span, self.cycle)]
        left = sneakers * HOUR / self.step
        for k in sorted(inside, key=lambda k: (span[1] - self.times[k]) % self.cycle):
            more = min(left, self.most - rates[k])
            rates[k] += more
            left -= more
