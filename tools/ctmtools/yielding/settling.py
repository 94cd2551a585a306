"""What passes of those who give way, as a fixed point: a run has the flows with priority, and limits by these another run.

The first limits are those of a run in which nobody gives way. From the second time on they go half way to what the run before
makes of them, so that streams that give way to each other don't swing, and less than half where they do so all the same. It is
settled once no limit would move by more than 1 %.
"""

from __future__ import annotations

from collections.abc import Callable, Mapping, Sequence
from dataclasses import dataclass, replace

from ..arrays import Numbers
from ..program.calls import recording_step
from ..report.reading import Report
from ..study.network_text import Built, build
from ..study.plan import Scenario
from ..units import Loss
from .messages import passing_lines
from .yielding import Yielding

MOST_RUNS = 20
LEAST_MOVE = 0.01  # by which a limit moves, as a part of it, below which it is settled
DAMPING = 0.5
SWINGS = 0.8  # of what limits moved before, above which they swing: from then on they go half as far

Recorded = Mapping[int, Report]  # the reports of a run by how many steps lie between their records
Run = Callable[[Built, Sequence[int]], Recorded]  # runs what was built, and records it each so many steps
Done = Callable[..., object]  # is called after each run, with how many it counts and a text


@dataclass(frozen=True)
class Settled:
    """A study with what passes of those who give way, its network, and after how many runs how far limits still moved.

    `waits` are what vehicles lose by coming at random, for each of the study's `yields`.
    """

    study: Scenario
    built: Built
    runs: int
    moved: float
    waits: Sequence[Loss] = ()

    @property
    def is_settled(self) -> bool:
        """Whether no limit would move by more than is let."""
        return self.moved <= LEAST_MOVE

    @property
    def doubt(self) -> str:
        """In a few words that limits still move, or an empty text."""
        return "" if self.is_settled else f"what gaps let pass isn't settled after {self.runs} runs, a capacity changes by {self.moved:.1%}"


def settled(study: Scenario, run: Run, done: Done | None = None, shares_follow: bool = False) -> Settled:
    """The network of a study in which those give way who do; without any it is built as it stands."""
    built = build(study, shares_follow)
    if not study.yields:
        return Settled(study, built, 0, 0.0)
    ones = [Yielding(one, study, built) for one in study.yields]
    every = recorded_every(ones, recording_step(built.network.steps, len(built.network.kinds)))
    runs, moves, before, part = 0, [float("inf")], float("inf"), 1.0
    while True:
        reports, runs = run(built, sorted(set(every.values()))), runs + 1
        by_width = {width: reports[steps] for width, steps in every.items()}
        wanted = wanted_of(ones, by_width)
        moves = [one.move(rates) for one, rates in zip(ones, wanted)]
        if done:
            done(1, f"capacities change by {max(moves):.1%}" if runs > 1 else "without giving way")
        if max(moves) <= LEAST_MOVE or runs == MOST_RUNS:
            break
        part = DAMPING if part == 1.0 else part / 2 if runs > 2 and max(moves) > SWINGS * before else part
        study, before = limited(study, ones, wanted, 1.0 if runs == 1 else part), max(moves)
        built = build(study, shares_follow)
    if done:
        done(MOST_RUNS - runs, "")
    waits = [one.waits(by_width[one.width]) for one in ones]
    remarks, warnings = passing_lines(ones, waits, moves, runs, LEAST_MOVE)
    built = replace(built, remarks=[*built.remarks, *remarks], warnings=[*built.warnings, *warnings])
    return Settled(study, built, runs, max(moves), waits)


def limited(study: Scenario, ones: Sequence[Yielding], wanted: Sequence[Numbers], part: float) -> Scenario:
    """The study with limits that go a part of the way to what is wanted."""
    for one, rates in zip(ones, wanted):
        one.take(rates, part)
    return replace(study, yields=[replace(one.of, capacities=one.capacities()) for one in ones])


def recorded_every(ones: Sequence[Yielding], least: int) -> dict[int, int]:
    """For each width of intervals how many steps lie between the records of its run, no fewer than the program's limit allows.

    A width has the records of one that divides it, and else its own: a run more costs less than one recorded at what divides
    all widths, which may be each step.
    """
    widths = sorted({one.width for one in ones})
    return {width: max(least, next(part for part in widths if width % part == 0)) for width in widths}


def wanted_of(ones: Sequence[Yielding], reports: Recorded) -> list[Numbers]:
    """What passes of each by the flows of a run, whose reports are by the widths of intervals.

    Who gives way in turn to one that gives way is held up by its queue too, and who shares a lane by all in it.
    """
    potential = {one.cell: one.potential(reports[one.width]) for one in ones}
    unsignalled = {one.cell: one for one in ones if one.green is None}
    alone = [potential[one.cell] * one.unimpeded(reports[one.width], unsignalled, potential) for one in ones]
    means = {one.cell: one.mean(rates) for one, rates in zip(ones, alone)}
    return [one.in_lanes(reports[one.width], rates, means) for one, rates in zip(ones, alone)]
