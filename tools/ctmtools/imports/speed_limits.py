"""The speed limits by time of a road's streets, as a study has them: by kilometre and time of the study."""

from __future__ import annotations

from collections.abc import Iterator, Mapping, Sequence
from dataclasses import dataclass

from ..texts.quantities import DAY
from .streets import SpeedSpan, Street


@dataclass(frozen=True)
class RoadLimit:
    """A speed limit on a road: from and to a km, to its end where there is none, from and to a second, and its km/h."""

    start_km: float
    end_km: float | None
    begin: float
    end: float
    speed: float


def limits_on(streets: Sequence[Street], limits: Mapping[str, Sequence[SpeedSpan]], start: float, duration: float,
              step: float) -> Iterator[RoadLimit]:
    """The speed limits on a road, those of streets that follow each other together, as far as they last a step in the study.

    The study begins at `start`, in s after midnight.
    """
    ends = [sum(street.length for street in streets[:count]) for count in range(len(streets) + 1)]
    begun: dict[tuple[float, float, float], float] = {}
    for place in range(len(streets) + 1):
        here = {span for limit in limits.get(streets[place].name, ()) for span in _times(limit, start, duration, step)} \
            if place < len(streets) else set()
        for key in sorted(begun.keys() - here):
            yield RoadLimit(begun.pop(key), ends[place] if place < len(streets) else None, *key)
        for key in here - begun.keys():
            begun[key] = ends[place]


def _times(limit: SpeedSpan, start: float, duration: float, step: float) -> Iterator[tuple[float, float, float]]:
    """When in the study a limit holds, with its speed; one by the clock holds on each day."""
    shifts = [day * DAY - start for day in range(-1, int((start + duration) // DAY) + 1)] if limit.by_clock else [0.0]
    for shift in shifts:
        begin, end = (round(min(max(time + shift, 0.0), duration)) for time in (limit.begin, limit.end))
        if round(end / step) > round(begin / step):
            yield begin, end, limit.speed
