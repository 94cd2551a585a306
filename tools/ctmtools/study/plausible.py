"""What in a study can hardly be meant: lengths, speeds, densities and flows that no road has, holes in demand, and phases of
a junction in whose common green movements conflict."""

from __future__ import annotations

from collections.abc import Iterator
from fractions import Fraction
from itertools import combinations

from ..network_file.warnings import MOST_OF_A_KIND
from ..units import clock_text
from .crossings import common_green
from .layout import Layout
from .plan import Crossing, Gate, Scenario, Section
from .movements import movement_name
from .scale import rounded_text

LONGEST = 200  # km of a road
MOST_CELLS = 20_000
# For each key of a lane, in the unit of a bare number: the least and the most that is plausible, and what may be meant.
LANES = {
    "free_flow_speed": (15, 160, "km/h", "are m/s or mph meant? Then write \"{0} m/s\" or \"{0} mph\""),
    "wave_speed": (8, 40, "km/h", "are m/s or mph meant? Then write \"{0} m/s\" or \"{0} mph\""),
    "jam_density": (70, 250, "vehicles/km", "it is that of one lane"),
    "saturation_flow": (500, 3000, "vehicles/h", "it is that of one lane"),
}
SLOWEST = 40  # km/h on a road of several lanes


def implausible(study: Scenario, layout: Layout) -> Iterator[str]:
    """A line for each value of a study that no road has, with what may be meant."""
    for road in study.roads.values():
        if road.length > LONGEST:
            yield (f"roads.{road.name}.length: {rounded_text(road.length)} km, which makes "
                   f"{len(layout.cells[road.name]):,} cells; are metres meant? Then write \"{float(road.length):g} m\"")
        lines: dict[str, None] = {}
        for section in road.sections:
            for line in _lanes(section):
                lines[f"roads.{road.name}.{line}"] = None
        yield from lines
    yield from _first_few([line for gate in study.gates.values() for line in _holes(study, gate)], "holes in demand")
    for crossing in study.crossings:
        yield from _first_few(list(_conflicts(crossing)), f"conflicts of phases at {crossing.place}")
    count = sum(map(len, layout.cells.values()))
    if count > MOST_CELLS:
        yield (f"the study has {count:,} cells, which take long; a longer step gives fewer: with {rounded_text(study.step)} s "
               "a cell is as long as what is driven in that time at the free-flow speed")


def _first_few(lines: list[str], what: str) -> list[str]:
    """The first few lines, and how many more there are of their kind."""
    more = len(lines) - MOST_OF_A_KIND
    return lines[:MOST_OF_A_KIND] + ([f"and {more} more {what}"] if more > 0 else [])


def _holes(study: Scenario, gate: Gate) -> Iterator[str]:
    """The times between the rows of a gate's demand in which nobody comes; where that is meant a row says 0."""
    end = None
    for row in sorted(gate.demand, key=lambda row: row.start) if not gate.counted else ():
        if end is not None and row.start > end:
            begin, behind = (clock_text(float(study.start + time)) for time in (end, row.start))
            yield f"gates.{gate.name}.demand: no vehicle comes from {begin} to {behind}, a hole between its rows; is a row missing?"
        end = max(row.end, end or row.end)


def _conflicts(found: Crossing) -> Iterator[str]:
    """The phases that are green together for some time, with two movements that no phase has together on purpose."""
    together = {(one, two) for phase in found.phases for one in phase.movements for two in phase.movements}
    for (i, first), (j, second) in combinations(enumerate(found.phases, 1), 2):
        seconds = common_green(first, second, found.cycle or Fraction(0))
        pair = next(((one, two) for one in first.movements for two in second.movements
                     if one[0] != two[0] and (one, two) not in together), None)
        if seconds and pair:
            yield (f"{found.place}.phases: phases {i} and {j} by their start are both green for {rounded_text(seconds)} s of each cycle, with "
                   f"{movement_name(found, pair[0])} and {movement_name(found, pair[1])}, which no phase has together")


def _lanes(section: Section) -> Iterator[str]:
    """What no lane has of the values of a section."""
    for key, (least, most, unit, hint) in LANES.items():
        value = getattr(section, key)
        if key == "free_flow_speed" and section.lanes > 1:
            least = SLOWEST
        if not least <= value <= most:
            where = {"free_flow_speed": f" on {section.lanes} lane{'s'[:section.lanes != 1]}", "wave_speed": ""}
            yield (f"{key}: {rounded_text(value)} {unit}{where.get(key, ' in a lane')} is hardly what a road has, {least} to "
                   f"{most:,} {unit}; {hint.format(f'{float(value):g}')}")
