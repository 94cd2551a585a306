"""What is printed at the end of an assignment: why it didn't settle, what rounding did, and the ways of the pairs."""

from __future__ import annotations

from collections.abc import Iterator, Sequence

import numpy

from ..report.summary import number_text
from ..study.plan import Scenario
from ..texts.text_table import table
from ..units import clock_text
from .assigning import Assignment, Round
from .ways_file import THEN, WayRow

MOST_ROWS = 12  # so many ways have a row, those that most take
MOST_LETTERS = 60  # of the roads of a way
STALLED = 0.9  # where the gap of the last rounds is above this part of that before them, more rounds hardly help
LAST = 5  # rounds


def not_settled(assignment: Assignment, rounds: Sequence[Round], gap: float) -> Iterator[str]:
    """Why the last round isn't settled, where it isn't, and what of the trips the run doesn't serve."""
    last = rounds[-1]
    if not last.settled(gap):
        made = max(one.number for one in rounds)
        of = f" of round {last.number}, which is written as the best," if last.number < made else ""
        which = f"the gap{of} is {last.gap.relative:.4f}" if last.gap.relative >= gap else \
            f"{last.moved:.2%} of what comes to branches still moves between them" if last.moved >= gap else \
            f"what gaps let pass still changes by {last.limits:.1%}"
        before = rounds[-LAST - 1].gap.relative if len(rounds) > LAST else float("inf")
        why = "it still falls, so more rounds help" if last.gap.relative < STALLED * before else \
            "it no longer falls: a shorter interval of choice or a longer study may help"
        limit = f", above {gap:g}" if last.gap.relative >= gap or last.moved >= gap else ""
        yield f"warning: after {made} rounds {which}{limit}; {why}{_most_of(assignment)}"
    if assignment.crowded:
        source, into = min(assignment.crowded)
        yield (f"warning: {len(assignment.crowded)} pairs have as many routes as routing.ways says, and quicker ones were found, as "
               f"from {source} to {into}; a greater routing.ways may help")
    assert assignment.report is not None  # a round was made
    inside = float(assignment.report.sums.inside)
    if inside > 1:
        yield (f"warning: {number_text(inside)} vehicles are still inside at the end, and their times are taken as if the queues went on; a "
               "longer study has them")


def _most_of(assignment: Assignment) -> str:
    """The pair and the interval that most of the gap is of."""
    most, where = 0.0, ""
    for choice, vehicles, steps in zip(assignment.choices, assignment.departures.by_interval, assignment.times):
        excess = (vehicles * choice.informed * choice.chosen * (steps - steps.min(axis=0))).sum(axis=0)
        if not choice.given and excess.max() > most:
            units, interval = assignment.shared.built.units, int(numpy.argmax(excess))
            most = float(excess.max())
            seconds = (units.start or 0) + assignment.departures.begins(interval) * (units.step or 0)
            where = f"; most of it is of drivers from {choice.source} to {choice.into} who depart at {clock_text(seconds)}"
    return where


def rounded_lines(assignment: Assignment) -> Iterator[str]:
    """What the rounding of the shares did, and what closures let through."""
    for place, flow in assignment.let_through.items():
        yield (f"{place}: is on a branch of a diverge, so it lets {number_text(float(flow))} vehicles/h through, which the least "
               "share, 1 in 1,001, sends there")
    found = assignment.rounded()
    if found.intervals:
        yield (f"rounded: {found.intervals} of {found.of} shares by more than 0.1 % of the lesser branch, at most by "
               f"{found.greatest:.2%} of what comes, at {found.where}; {number_text(found.vehicles)} vehicles turn otherwise than "
               "asked")
    elif found.of:
        yield "All shares are modelled as asked, to 0.1 % of the lesser branch."


def settled_lines(study: Scenario, last: Round, final: Round) -> Iterator[str]:
    """What the run of the written study has otherwise than the last round, where it works out what passes."""
    figures = [(number_text(one.delay), f"{one.gap.relative:.5f}") for one in (final, last)]
    if figures[0] == figures[1]:
        return
    (delay, gap), (delay_before, gap_before) = figures
    found = f"{delay} vehicle-hours of delay and a gap of {gap}, the last round {delay_before} and {gap_before}"
    if study.actuated:
        yield from ("", f"warning: greens that follow traffic are worked out in the run of the written study alone, which has {found}; "
                    "drivers chose without them")
    elif study.yields:
        yield from ("", f"The run of the written study works out anew what gaps let pass; it has {found}.")


def pair_lines(rows: Sequence[WayRow]) -> Iterator[str]:
    """A table of the ways that most take, with their vehicles and mean minutes."""
    ways: dict[tuple[str, str, tuple[str, ...]], list[WayRow]] = {}
    for row in rows:
        ways.setdefault((row.source, row.into, row.roads), []).append(row)
    sums = {way: sum(row.vehicles for row in own) for way, own in ways.items()}
    most = sorted(ways, key=lambda way: -sums[way])[:MOST_ROWS]
    lines: list[tuple[str, ...]] = [("from", "to", "vehicles", "mean (min)", "by")]
    for way in sorted(most, key=lambda way: (way[:2], -sums[way])):
        mean = sum(row.vehicles * row.minutes for row in ways[way]) / sums[way]
        roads = THEN.join(way[2])
        lines.append((way[0], way[1], number_text(sums[way]), f"{mean:.2f}",
                      roads if len(roads) <= MOST_LETTERS else roads[:MOST_LETTERS - 2] + ".."))
    yield ""
    yield from table(lines, right=(2, 3))
    if len(ways) > MOST_ROWS:
        yield f"  and {len(ways) - MOST_ROWS} more routes"
