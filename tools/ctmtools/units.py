"""The units of a network: seconds of a step, clock time of step 0, and for each cell its road, kilometres and speed."""

from __future__ import annotations

import datetime
import json
from collections.abc import Callable, Iterator, Sequence
from dataclasses import asdict, dataclass, field
from pathlib import Path
from typing import Any, TypeVar

from .files import schema
from .files.reading import SUFFIX
from .files.seals import KEY, broken, is_sealed, sealed
from .problem import Problem
from .texts.quantities import DAY

DAY_ZERO = datetime.date(1900, 1, 1)
MILE_KM = 1.609344
Amount = TypeVar("Amount")  # a number, or a series of numbers

EXTENT = schema.record({"road": schema.text, "from_km": schema.number, "to_km": schema.number},
                     {"lanes": schema.whole(1), "free_flow_kmh": schema.above(0), "wave_kmh": schema.above(0)}, is_open=True)


def _cell(value: Any, place: schema.Place) -> None:
    """A cell of a road, which has some length."""
    EXTENT(value, place)
    if value["to_km"] <= value["from_km"]:
        schema.refuse((*place, "to_km"), "a number above from_km")


def _day(value: Any, place: schema.Place) -> None:
    """A date, as 2024-05-14."""
    schema.text(value, place)
    try:
        datetime.date.fromisoformat(value)
    except ValueError:
        schema.refuse(place, "a date such as 2024-05-14")


GROUP = schema.record({"name": schema.text, "line": schema.text, "cells": schema.list_of(schema.text),
                       "all_cells": schema.list_of(schema.text), "saturation": schema.above(0)})
MOVEMENT = schema.record({"into": schema.text, "cells": schema.list_of(schema.text), "line": schema.text, "control": schema.text,
                          "lanes": schema.whole(1), "beside": schema.list_of(schema.text), "saturation": schema.above(0)},
                         {"room": schema.above(0)})
APPROACH = schema.record({"name": schema.text, "road": schema.text, "last": schema.text, "movements": schema.list_of(MOVEMENT, least=1)})
LOSS = schema.record({"name": schema.text, "vehicles": schema.number, "hours": schema.number, "full": schema.whole(0)})
CHECKSUMS = ("network_checksum", "report_checksum", "report_network", "ways_checksum", "ways_network")
FILE = schema.record({}, {
    "title": schema.text, "step_seconds": schema.above(0), "start_seconds": schema.number, "date": _day, "network": schema.path,
    "cells": schema.table_of(_cell), "roads": schema.table_of(schema.list_of(schema.text, least=1)),
    "points": schema.table_of(schema.list_of(schema.list_of(schema.number, 2))), "cycles": schema.table_of(schema.whole(1)),
    "crs": schema.text, "steps": schema.whole(0), "ways_interval": schema.whole(1), "yield_interval": schema.whole(1),
    "within": schema.table_of(schema.text), "approaches": schema.list_of(APPROACH),
    "lane_groups": schema.list_of(GROUP), "giving_way": schema.list_of(LOSS), **dict.fromkeys(CHECKSUMS, schema.text)}, is_open=True)


@dataclass(frozen=True)
class OfNetwork:
    """The network that units are of: its file as theirs names it, its steps, and its checksum."""

    path: str | None = None
    steps: int | None = None
    checksum: str | None = None


@dataclass(frozen=True)
class OfReport:
    """The report that was last written beside units: its checksum, and that of the network that it was run of."""

    checksum: str | None = None
    network: str | None = None


@dataclass(frozen=True)
class OfWays:
    """The ways of an assignment that stand beside a report: their checksum, and that of the network that it ended in.

    `interval` are the steps of its intervals of choice.
    """

    checksum: str | None = None
    network: str | None = None
    interval: int | None = None


@dataclass(frozen=True)
class LaneGroup:
    """Who share lanes at a stop line, its cell: the cells of those of whom it speaks and of all who come to these lanes.

    `saturation` is what its lanes pass in green, in vehicles/h.
    """

    name: str
    line: str
    cells: list[str]
    all_cells: list[str]
    saturation: float


@dataclass(frozen=True)
class ApproachMovement:
    """A movement of an approach: where it leads, its cells behind the approach, and at which cell's end its signal stands.

    `control` is "signal", "permitted", "stop" or "roundabout", empty where nothing holds it up, and `line` is empty without a
    signal. Its `lanes` are shared by the cells `beside` and pass `saturation` vehicles/h in green. A pocket has `room` for so many.
    """

    into: str
    cells: list[str]
    line: str
    control: str
    lanes: int
    beside: list[str]
    saturation: float
    room: float | None = None


@dataclass(frozen=True)
class Approach:
    """An approach of a junction or a stop line: its name, its road or gate, the last cell that all share, and its movements."""

    name: str
    road: str
    last: str
    movements: list[ApproachMovement]


@dataclass(frozen=True)
class Loss:
    """What vehicles that give way lose by coming at random: how many do where no queue stands, in vehicle-hours.

    In `full` intervals one stands.
    """

    name: str
    vehicles: float
    hours: float
    full: int


@dataclass(frozen=True)
class AtRandom:
    """Where vehicles lose by coming at random: the lane groups at fixed greens, and what who gives way has lost.

    Flows are counted for an `interval` of steps, or for whole cycles.
    """

    interval: int | None = None
    lane_groups: list[LaneGroup] = field(default_factory=list)
    giving_way: list[Loss] = field(default_factory=list)


@dataclass(kw_only=True)
class Units:
    """What a study knows beyond its network file.

    `step` is the length of a step in seconds and `start` the clock time of step 0 in seconds after midnight, each None
    where it isn't known; `date` is the day of that midnight, where the study says it. `cells` has for each road cell `road`, `from_km`, `to_km`, `lanes`, `free_flow_kmh`,
    `wave_kmh`; `roads` has for each road its cells in the direction of travel, and `points` where they are given, in km of
    the coordinate system `crs`, where that is known. `cycles` has the cycle in steps of each signal that the network has as
    limits, by the cell or the gate of its stop line. `approaches` are those of junctions and stop lines, and `within` has for each cell
    that a junction made the road that it belongs to. `network`, `report` and `ways` are the files that they belong to.
    """

    title: str = ""
    step: float | None = None
    start: float | None = None
    date: str | None = None
    cells: dict[str, dict[str, Any]] = field(default_factory=dict)
    roads: dict[str, list[str]] = field(default_factory=dict)
    points: dict[str, list[Any]] = field(default_factory=dict)
    crs: str | None = None
    cycles: dict[str, int] = field(default_factory=dict)
    network: OfNetwork = OfNetwork()
    report: OfReport = OfReport()
    ways: OfWays = OfWays()
    at_random: AtRandom = field(default_factory=AtRandom)
    within: dict[str, str] = field(default_factory=dict)
    approaches: list[Approach] = field(default_factory=list)

    @property
    def known(self) -> bool:
        """Whether the seconds of a step are known, and with them clock times, hours and kilometres."""
        return self.step is not None

    def length(self, cell: str) -> float | None:
        """The length of a cell in km, or None where it isn't known: gates and exits have none."""
        row = self.cells.get(cell)
        return row["to_km"] - row["from_km"] if row else None

    def made_place(self, cell: str, called: Callable[[str], str] = str, into: Callable[[str], str] = str) -> str | None:
        """Where a cell lies that a junction made, by the road and the movement that drive through it; None of any other.

        `called` has what a road is called, and `into` the way that a movement takes.
        """
        road = self.within.get(cell)
        if road is None:
            return None
        ways = [one.into for approach in self.approaches for one in approach.movements if one.cells and one.cells[-1] == cell]
        if ways:
            return f"{called(road)}, before the stop line, to {into(ways[0])}"
        parting = any(cell in one.cells for approach in self.approaches for one in approach.movements)
        return f"{called(road)}, where its movements part" if parting else f"{called(road)}, where movements join"

    def named_cells(self) -> Iterator[str]:
        """The cells that the file says anything of."""
        yield from self.cells
        yield from self.cycles
        for group in self.at_random.lane_groups:
            yield from (group.line, *group.cells, *group.all_cells)
        yield from self.within
        for approach in self.approaches:
            yield approach.last
            for one in approach.movements:
                yield from (*one.cells, *filter(None, [one.line]), *one.beside)

    def hours(self, vehicle_steps: Amount) -> Amount:
        """Vehicle-steps as vehicle-hours, or as they are where the step isn't known."""
        amount: Any = vehicle_steps
        hours: Amount = amount if self.step is None else amount * self.step / 3600
        return hours

    @property
    def delay_unit(self) -> str:
        """The unit of `hours`."""
        return "vehicle-hours" if self.known else "vehicle-steps"

    def clock(self, step: float, seconds: bool = False) -> str:
        """The clock time of a step as `hh:mm` or `hh:mm:ss`, or `step N` where it isn't known."""
        if self.step is None:
            return f"step {step:g}"
        return clock_text((self.start or 0) + step * self.step, seconds)

    def stamps(self, steps: Sequence[float]) -> list[str]:
        """Steps as times that pandas reads: `hh:mm:ss`, with the date where the study has one.

        Where it has none and a step is at midnight or past it they have 1 January 1900 as the first day; where the step isn't known
        they are its numbers.
        """
        if self.step is None:
            return [f"{step:g}" for step in steps]
        seconds = [round((self.start or 0) + step * self.step) for step in steps]
        if self.date is None and max(seconds, default=0) < DAY:
            return [time_text(time, True) for time in seconds]
        return [f"{self.first_day + datetime.timedelta(time // DAY)} {time_text(time % DAY, True)}" for time in seconds]

    @property
    def first_day(self) -> datetime.date:
        """The day on which the study begins; of one without a date 1 January 1900, as Python's own strptime has it."""
        return DAY_ZERO if self.date is None else datetime.date.fromisoformat(self.date)


def clock_text(seconds: float, always: bool = False) -> str:
    """Seconds after midnight as `hh:mm`, with `:ss` where they aren't whole minutes or where `always` asks for it.

    A time past midnight has its day behind it, as `00:30 +1 day`; midnight itself is 24:00.
    """
    whole = round(seconds)
    days = max(0, whole - 1) // DAY
    return time_text(whole - days * DAY, always) + (f" +{days} day{'s'[:days > 1]}" if days else "")


def time_text(seconds: float, always: bool = False) -> str:
    """Seconds after midnight as `hh:mm` or `hh:mm:ss`."""
    hours, rest = divmod(round(seconds), 3600)
    minutes, rest = divmod(rest, 60)
    return f"{hours:02d}:{minutes:02d}" + (f":{rest:02d}" if rest or always else "")


def seconds_of_clock(text: str) -> int:
    """The seconds after midnight of a text of `clock_text`."""
    time, _, days = text.partition(" +")
    hours, minutes, seconds = (int(part) for part in (time.split(":") + ["0"])[:3])
    return hours * 3600 + minutes * 60 + seconds + (int(days.split()[0]) * DAY if days else 0)


def units_path(path: str | Path) -> Path:
    """Where the units of a network file or a report stand: beside it, under its name without the ending."""
    path = Path(path)
    return path.with_name(path.stem + SUFFIX)


def read_units(path: str | Path) -> Units:
    """The units in a file; units that say nothing where there is no such file."""
    path = Path(path)
    if not path.exists():
        return Units()
    try:
        values = json.loads(path.read_text("utf-8"))
    except RecursionError:
        raise Problem(f"{path}: no units file: is nested too deeply") from None
    except (OSError, ValueError) as error:
        raise Problem(f"{path}: no units file: {error}") from None
    try:
        units = _units_of(values)
    except Problem as problem:
        raise Problem(f"{path}: {problem}") from None
    if KEY in values and not is_sealed(values):
        raise broken(path, cure="write it anew by `build` or `run`, or take its line `seal` away where you changed it yourself")
    return units


def _units_of(values: Any) -> Units:
    """The units that the values of a file say, or the problem that they are none."""
    FILE(values, ())
    for road, cells in values.get("roads", {}).items():
        for cell in cells:
            if cell not in values.get("cells", {}):
                schema.refuse(("roads", road), "cells that stand in cells")
    for road in values.get("points", {}):
        if road not in values.get("roads", {}):
            schema.refuse(("points", road), "a road that stands in roads")
    said = values.get
    return Units(
        title=said("title", ""), step=said("step_seconds"), start=said("start_seconds"), date=said("date"), cells=said("cells", {}), roads=said("roads", {}),
        points=said("points", {}), crs=said("crs"), cycles=said("cycles", {}),
        network=OfNetwork(said("network"), said("steps"), said("network_checksum")),
        report=OfReport(said("report_checksum"), said("report_network")),
        ways=OfWays(said("ways_checksum"), said("ways_network"), said("ways_interval")),
        at_random=AtRandom(said("yield_interval"), [LaneGroup(**row) for row in said("lane_groups", [])],
                           [Loss(**row) for row in said("giving_way", [])]),
        within=said("within", {}), approaches=[_approach(row) for row in said("approaches", [])])


def _approach(row: dict[str, Any]) -> Approach:
    return Approach(row["name"], row["road"], row["last"], [ApproachMovement(**one) for one in row["movements"]])


def units_text(units: Units) -> str:
    """The text of the units' file, with a line for each cell."""
    cells = ",\n".join(f"    {json.dumps(name)}: {json.dumps(row)}" for name, row in units.cells.items())
    network, report, ways, at_random = units.network, units.report, units.ways, asdict(units.at_random)
    values = {"title": units.title, "step_seconds": units.step, "start_seconds": units.start, "date": units.date,
              "network": network.path,
              "steps": network.steps, "network_checksum": network.checksum, "report_checksum": report.checksum,
              "report_network": report.network, "ways_checksum": ways.checksum, "ways_network": ways.network,
              "ways_interval": ways.interval, "roads": units.roads, "points": units.points, "cycles": units.cycles, "crs": units.crs,
              "yield_interval": at_random["interval"], "lane_groups": at_random["lane_groups"], "giving_way": at_random["giving_way"],
              "within": units.within, "approaches": [_approach_row(one) for one in units.approaches]}
    head = {key: value for key, value in values.items() if value not in (None, {}, [], "")}
    head[KEY] = sealed({**head, **({"cells": units.cells} if cells else {})})[KEY]
    lines = [f"  {json.dumps(key)}: {json.dumps(value)}" for key, value in head.items()]
    if cells:
        lines.append('  "cells": {\n' + cells + "\n  }")
    return "{\n" + ",\n".join(lines) + "\n}\n"


def _approach_row(approach: Approach) -> dict[str, Any]:
    """An approach as the file has it, which says no room where there is no pocket."""
    row = asdict(approach)
    return {**row, "movements": [{key: value for key, value in one.items() if value is not None} for one in row["movements"]]}


def cell_of(road: str, units: Units, at: float | None = None) -> str:
    """The cell at the end of a road, or that before the boundary nearest to a km of it; a gate is its own."""
    cells = units.roads.get(road)
    if cells is None:
        return road
    if at is None:
        return cells[-1]
    missed: dict[str, float] = {name: abs(units.cells[name]["to_km"] - at) for name in cells}
    return min(missed, key=missed.__getitem__)
