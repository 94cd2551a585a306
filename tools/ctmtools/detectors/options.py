"""How files of detectors are read, as a command and a call of Python say it."""

from __future__ import annotations

from collections.abc import Mapping, Sequence
from dataclasses import dataclass
from fractions import Fraction
from typing import Any, TypedDict, Unpack, cast

from ..problem import check_options
from ..texts.quantities import duration
from .rules import Rule, rules_of


@dataclass(frozen=True)
class Wanted:
    """What a reader asks for; what is None the files themselves have to say.

    With a `column` that has the counts the columns are those that are named here, and else they are recognised.
    `dates` are days as the file writes them, or words: all, weekdays, weekends, names of weekdays.
    """

    column: str | None = None
    time_column: str = "time"
    station: str | None = None
    station_column: str = "station"
    dates: tuple[str, ...] = ()
    date_column: str = "date"
    date_order: str | None = None
    average: str | None = None
    per: str | None = None
    speed_unit: str | None = None
    occupancy_unit: str | None = None
    interval: Fraction | None = None
    missing: str | None = None
    separator: str | None = None
    decimal: str | None = None
    zone: str | None = None
    lanes: float | None = None
    leave_out: tuple[Rule, ...] = ()
    holidays: tuple[str, ...] = ()


class StationOptions(TypedDict, total=False):
    """The options of each command that reads files of detectors: what is left out the files themselves have to say."""

    station: str | None
    dates: Sequence[str]
    date_order: str | None
    average: str | None
    leave_out: Sequence[str] | str
    holidays: Sequence[str]
    missing: str | None
    per: str | None
    speed_unit: str | None
    occupancy_unit: str | None
    interval: str | float | None
    zone: str | None
    separator: str | None
    decimal: str | None


class DetectorOptions(StationOptions, total=False):
    """The options of `ctm-tools detectors`, of which `lanes` are those of each station where the files don't say it."""

    lanes: float | None


def wanted_by(**options: Unpack[DetectorOptions]) -> Wanted:
    """What the options ask for."""
    check_options(options, DetectorOptions)
    interval = options.get("interval")
    terms: dict[str, Any] = {
        **options, "dates": tuple(options.get("dates", ())), "holidays": tuple(options.get("holidays", ())),
        "leave_out": rules_of(options.get("leave_out", ()), "--leave-out"),
        "interval": None if interval is None else duration(interval if isinstance(interval, str) else Fraction(interval), "--interval")}
    return Wanted(**terms)


def station_options(options: Mapping[str, Any]) -> StationOptions:
    """Those of some options that say how files of detectors are read."""
    return cast(StationOptions, {name: value for name, value in options.items() if name in StationOptions.__annotations__})
