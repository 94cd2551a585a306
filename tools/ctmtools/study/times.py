"""The time of a study: clock times as seconds after its start, and parts of roads for a time."""

from __future__ import annotations

from dataclasses import dataclass, field
from fractions import Fraction
from pathlib import Path
from typing import Any, Protocol

from ..problem import Problem
from ..texts.quantities import DAY, clock, length, word
from ..units import clock_text
from .entries import Entries


class Timed(Protocol):
    """What has the time of a study: one that is read, or a `Period`."""

    @property
    def start(self) -> Fraction: ...
    @property
    def duration(self) -> Fraction: ...
    @property
    def path(self) -> Path: ...
    @property
    def remarks(self) -> list[str]: ...


@dataclass(frozen=True)
class Period:
    """The time of a study in the making, and the remarks on what is read of it."""

    start: Fraction
    duration: Fraction
    path: Path
    remarks: list[str] = field(default_factory=list)


class Times:
    """Clock times of a study as seconds after its start; where it passes midnight those before are of the next day.

    `remarks` are lines on what was read beside the study file, as counts.
    """

    def __init__(self, study: Timed) -> None:
        self.start = study.start
        self.duration = study.duration
        self.path = study.path
        self.remarks = study.remarks

    @property
    def passes_midnight(self) -> bool:
        """Whether the study ends on the day after its start."""
        return self.start + self.duration > DAY

    def clock(self, time: Fraction | int) -> str:
        """The clock time of seconds after the study's start."""
        return clock_text(float(self.start + time))

    def after_start(self, value: Any, key: str) -> Fraction:
        """The seconds from the study's start to a clock time."""
        time = clock(value, key) - self.start
        if time < 0 and time + DAY > self.duration and not self.passes_midnight:
            raise Problem(f"{key}: {self.clock(time)} is before the study's start, {self.clock(0)}")
        return time if time >= 0 else time + DAY

    def span(self, table: Entries) -> tuple[Fraction, Fraction]:
        """The start and the end that a table gives, by default those of the whole study."""
        begin = table.take("start", self.after_start, Fraction(0))
        end = table.take("end", self.after_start, self.duration)
        return self.checked(begin, end, table.key("start"), table.key("end"))

    def checked(self, begin: Fraction, end: Fraction, begin_key: str, end_key: str) -> tuple[Fraction, Fraction]:
        """A start and an end, where the one lies in the study's time and the other after it."""
        if begin >= self.duration:
            raise Problem(f"{begin_key}: {self.clock(begin)} is outside the study's time, {self.clock(0)} to "
                          f"{self.clock(self.duration)}")
        if end <= begin:
            raise Problem(f"{end_key}: the end isn't after the start")
        if end > self.duration:
            self.remarks.append(f"{end_key}: {self.clock(end)} is behind the study's end, {self.clock(self.duration)}, "
                                "and is cut there")
        return begin, end


@dataclass
class RoadPart:
    """A part of a road between two km and two times, and where the study says it."""

    road: str
    start_km: Fraction
    end_km: Fraction | None
    start: Fraction
    end: Fraction
    place: str


def road_part(table: Entries, times: Times, key: str = "road") -> RoadPart:
    """The part of a road, which a key names, and the time that a table is of."""
    return RoadPart(table.take(key, word), table.take("from", length, Fraction(0)), table.take("to", length, None),
                    *times.span(table), table.place)
