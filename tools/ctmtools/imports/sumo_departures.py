"""When the vehicles of SUMO's route files depart: single ones and trips at a time, flows over a span of it."""

from __future__ import annotations

import math
from collections.abc import Iterator, Mapping
from dataclasses import dataclass

from ..problem import Problem
from .sumo_net import Element, amount_of, seconds_of

RATES = ("vehsPerHour", "perHour", "period", "probability")
TIMELESS = ("triggered", "containerTriggered", "split", "now")  # departures at no time that the file says
NEAR = 1e-9  # by which a number of vehicles may be missed in computing


@dataclass(frozen=True)
class Stretch:
    """When vehicles depart: from, to, and how many; those of no time have none. `drawn` says that SUMO draws them."""

    begin: float | None
    end: float
    vehicles: float
    drawn: bool = False


@dataclass(frozen=True)
class Departing:
    """A vehicle, a trip or a flow of a file; an interval around a flow may say its begin and its end."""

    element: Element
    path: str
    interval: Mapping[str, str]

    @property
    def name(self) -> str:
        """Its name, which may be empty."""
        return self.element.get("id", "")

    @property
    def key(self) -> str:
        """Its place, as messages say it."""
        return f"{self.path}: {self.element.tag} {self.name}"

    @property
    def is_flow(self) -> bool:
        """Whether it is a flow."""
        return self.element.tag == "flow"

    def stretches(self, until: float) -> Iterator[Stretch]:
        """When its vehicles depart: those until a time, and those behind it."""
        if not self.is_flow:
            yield self._single()
            return
        begin = seconds_of(self._said("begin") or "0", f"{self.key}: begin")
        end, vehicles, drawn = self._flow(begin, until)
        kept = min(end, until)
        if begin < kept < end:
            early = _whole(vehicles * (kept - begin) / (end - begin), drawn)
            yield Stretch(begin, kept, early, drawn)
            yield Stretch(kept, end, vehicles - early, drawn)
        else:
            yield Stretch(begin, end, vehicles, drawn)

    def _single(self) -> Stretch:
        depart = self.element.get("depart", "0")
        if depart in TIMELESS:
            return Stretch(None, 0.0, 1.0)
        time = seconds_of(depart, f"{self.key}: depart")
        return Stretch(time, time, 1.0)

    def _said(self, name: str) -> str | None:
        """A time of a flow, or of the interval around it."""
        return self.element.get(name) or self.interval.get(name)

    def _flow(self, begin: float, until: float) -> tuple[float, float, bool]:
        """Until when a flow lasts, how many vehicles it has, and whether they are drawn at random."""
        number, said = self.element.get("number"), self._said("end")
        rates = [word for word in RATES if self.element.get(word)]
        if len(rates) > 1 or not rates and number is None or rates and number is not None and self.element.get("end"):
            raise Problem(f"{self.key}: expected one of number, {', '.join(RATES)}, and with number and one of these no end")
        rate, drawn = self._rate(rates[0]) if rates else (0.0, False)
        count = None if number is None else amount_of(number, f"{self.key}: number")
        if count is not None and rate:
            return begin + count / rate, count, drawn
        end = max(begin, until) if said is None else seconds_of(said, f"{self.key}: end")
        if end < begin:
            raise Problem(f"{self.key}: ends at {end:g} s, before it begins at {begin:g} s")
        return end, _whole(rate * (end - begin), drawn) if count is None else count, drawn

    def _rate(self, word: str) -> tuple[float, bool]:
        """The vehicles in a second of a flow, and whether they are drawn, with this as their mean."""
        text, key = self.element.get(word, ""), f"{self.key}: {word}"
        drawn = word == "probability" or text.startswith("exp(")
        value = amount_of(text.removeprefix("exp(").removesuffix(")") if drawn else text, key)
        if not value and not drawn:
            raise Problem(f"{key}: is above 0")
        if word in ("vehsPerHour", "perHour"):
            return value / 3600, drawn
        if drawn:
            return value, drawn
        return 1 / value, drawn


def _whole(vehicles: float, drawn: bool) -> float:
    """How many depart before an end, the first at the beginning; of those that are drawn their mean."""
    return vehicles if drawn else float(math.ceil(vehicles * (1 - NEAR)))
