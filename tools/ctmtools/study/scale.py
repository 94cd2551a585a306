"""From seconds, vehicles per hour and ratios to whole steps, parts and whole numbers, each rounding noted."""

from __future__ import annotations

from collections.abc import Sequence
from dataclasses import dataclass
from fractions import Fraction

from ..problem import Problem
from ..texts.amounts import PARTS, rounded_parts
from ..texts.quantities import HOUR
from .plan import Scenario

TOLD = Fraction(1, 1000)  # a difference is reported from more than this part of the quantity on


class Scale:
    """The steps of a study, and the amounts in one of them."""

    def __init__(self, study: Scenario, rounding: Rounding) -> None:
        self.step = study.step
        self.rounding = rounding
        self.steps = self.whole_steps("duration of the study", study.duration, least=1)

    def whole_steps(self, what: str, seconds: Fraction, least: int = 0, of: Fraction | None = None) -> int:
        """The steps nearest to a time in seconds; the time may be one in a span or a cycle of so many seconds."""
        steps = max(least, round(seconds / self.step))
        self.rounding.note(what, seconds, steps * self.step, "s", of)
        return steps

    def span(self, what: str, start: Fraction, end: Fraction) -> tuple[int, int]:
        """The steps from a time to another, in seconds after the study's start; at least one."""
        begin = self.whole_steps(f"start of {what}", start, of=end - start)
        stop = self.whole_steps(f"end of {what}", end, of=end - start)
        if stop <= begin:
            raise Problem(f"{what}: is shorter than a step of {float(self.step):g} s")
        return begin, stop

    def flow(self, what: str, flow: Fraction) -> int:
        """The parts in a step of a flow in vehicles/h."""
        parts = rounded_parts(flow * self.step / HOUR)
        self.rounding.note(what, flow, Fraction(parts, PARTS) * HOUR / self.step, "vehicles/h")
        return parts

    def weights(self, what: str, pair: Sequence[Fraction]) -> tuple[int, int]:
        """Two whole numbers, 1 to 1,000, in the ratio of two numbers or next to it."""
        less, more = sorted(pair)
        ratio = (less / more).limit_denominator(1000)
        low, high = (ratio.numerator, ratio.denominator) if ratio else (1, 1000)
        first, second = (low, high) if pair[0] <= pair[1] else (high, low)
        self.rounding.note(what, 100 * pair[0] / sum(pair), Fraction(100 * first, first + second), "%",
                           100 * less / sum(pair))
        return first, second


@dataclass(frozen=True)
class Rounded:
    """A quantity as it was asked for and as it is modelled, in a unit; a difference of it is measured by `of`."""

    what: str
    asked: Fraction
    modelled: Fraction
    unit: str
    of: Fraction

    @property
    def differs(self) -> bool:
        """Whether the network has another value than the study asks for, by more than a thousandth."""
        return abs(self.modelled - self.asked) > TOLD * abs(self.of)

    def __str__(self) -> str:
        modelled = rounded_text(self.modelled, self.asked)
        return f"{self.what}: {rounded_text(self.asked)} {self.unit} asked, {modelled} {self.unit} modelled"


def rounded_text(value: Fraction | float, beside: Fraction | float | None = None) -> str:
    """A number in at most six digits, or in as many as distinguish it from the one beside it."""
    digits = 6
    while beside is not None and value != beside and digits < 15 and \
            f"{float(value):.{digits}g}" == f"{float(beside):.{digits}g}":
        digits += 1
    return f"{float(value):,.{digits}g}"


class Rounding:
    """The roundings of a study, noted one by one, each once."""

    def __init__(self) -> None:
        self.notes: dict[Rounded, None] = {}

    def note(self, what: str, asked: Fraction | int, modelled: Fraction | int, unit: str,
             of: Fraction | int | None = None) -> None:
        """Notes a quantity: a time or a place is measured against the length `of` which it is an end."""
        asked = Fraction(asked)
        self.notes[Rounded(what, asked, Fraction(modelled), unit, asked if of is None else Fraction(of))] = None

    @property
    def differing(self) -> list[Rounded]:
        """The notes whose values differ by more than a thousandth."""
        return [note for note in self.notes if note.differs]
