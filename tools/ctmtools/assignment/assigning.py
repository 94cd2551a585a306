"""An assignment: rounds of loading, running and moving, until hardly anybody would gain by another way."""

from __future__ import annotations

from collections.abc import Iterator
from dataclasses import dataclass, replace


from ..arrays import Numbers
from ..network_file.network import Network
from ..problem import Problem
from ..program.calls import recording_step
from ..report.reading import Report
from ..runs.running import run
from ..study.network_text import Builder
from ..study.plan import Scenario
from ..yielding.settling import DAMPING, LEAST_MOVE, limited, wanted_of
from ..yielding.yielding import Yielding
from .assigned_study import SharedNetwork
from .choices import Choice, Departures, departures_of
from .closed_branches import let_through
from .courses import Courses, loaded, moved, share_bounds
from .first_ways import given_choice
from .forks import Rounded, exits_ahead, forks_of, parts_of, refuse_shares
from .legs import Legs
from .passing import Passing, Passings
from .searching import Search
from .times import JUMPED, Gap, Pace, gap_of, swap, times_of
from .ways_file import WayRow, rows_of

EXACT = 1_000_000  # cells times steps; so many at most are recorded step by step, which makes all times exact
RECORDED = 6  # so often in an interval of choice runs of more are recorded, where steps and the program allow it
LEAST_RECORDED = 60  # so often in such a run at least


def recorded_every(steps: int, cells: int, width: int) -> int:
    """From which step to which the runs are recorded, where an interval of choice has so many steps."""
    if steps * cells <= EXACT:
        return 1
    return max(recording_step(steps, cells), min(width // RECORDED, steps // LEAST_RECORDED))


@dataclass(frozen=True)
class Round:
    """What a round came to: its gap, how far the loads of branches moved, delay in vehicle-hours, who changed before it.

    `limits` is the most by which what passes of those who give way would move, as a part of it.
    """

    number: int
    gap: Gap
    moved: float
    delay: float
    changed: float
    limits: float = 0.0

    def settled(self, gap: float) -> bool:
        """Whether hardly anybody would gain by another way, and shares and limits are those of the times that they lead to."""
        return self.gap.relative < gap and self.moved < gap and self.limits <= LEAST_MOVE

    @property
    def rank(self) -> tuple[bool, float]:
        """What is less of a better round: that its limits still move, and the gap."""
        return self.limits > LEAST_MOVE, self.gap.relative


CHANGING = ("shared", "passing", "times", "parts", "report", "text", "counts", "courses", "wanted", "limits_moved")


class Kept:
    """The best round so far with all that it came to, which a later one that is worse takes nothing of."""

    def __init__(self, done: Round, assignment: Assignment) -> None:
        self.done = done
        self.values = {name: getattr(assignment, name) for name in CHANGING}
        self.crowded = set(assignment.crowded)
        self.choices = [(list(choice.ways), choice.chosen, choice.kept) for choice in assignment.choices]
        self.rates = [(one.rates, one.of_lane) for one in assignment.yielding]

    def put_back(self, assignment: Assignment) -> None:
        """Has an assignment be as it was then."""
        for name, value in self.values.items():
            setattr(assignment, name, value)
        assignment.crowded = set(self.crowded)
        for choice, (ways, chosen, kept) in zip(assignment.choices, self.choices):
            choice.ways, choice.chosen, choice.kept = list(ways), chosen, kept
        for one, (rates, of_lane) in zip(assignment.yielding, self.rates):
            one.rates, one.of_lane = rates, of_lane


class Assignment:
    """A study's trips on their ways. `forks` have the shares that follow, `report` is that of the best round's run at the end."""

    def __init__(self, study: Scenario, workers: int | None = None, program: str | None = None) -> None:
        if not study.trips:
            raise Problem(f"{study.path}: trips: are missing; without them no driver chooses a route")
        self.study, self.workers, self.program = study, workers, program
        self.let_through = let_through(study)
        study.yields = [replace(one, capacities=[]) for one in study.yields]  # the rounds work out what passes
        builder = Builder(study)
        self.shared = SharedNetwork(builder.build())
        self.network: Network = self.shared.built.network
        if self.network.demands.empty:
            raise Problem(f"{study.path}: trips: no vehicle departs, to a millionth of a vehicle in a step")
        self.legs = Legs(self.network)
        self.passings = Passings(self.legs)
        self.passing: Passing = self.passings.free()
        self.departures: Departures = departures_of(study, self.network.steps)
        self.shared.built.rounding.note("routing.interval", min(study.routing.interval, study.duration),
                                        self.departures.width * study.step, "s")
        self.yielding = [Yielding(one, study, self.shared.built) for one in study.yields]
        self.limits_moved = 0.0
        self.forks = forks_of(builder, self.legs)
        refuse_shares(builder, self.legs)
        self.ahead = exits_ahead(self.legs, list(dict.fromkeys(trips.into for trips in study.trips)))
        self.bounds = share_bounds(self.departures.width, self.network.steps, sum(len(fork.cells) for fork in self.forks))
        self.choices: list[Choice] = [given_choice(study, self.legs, self.shared.built.units, trips, self.departures)
                                      for trips in study.trips]
        self.every = recorded_every(self.network.steps, len(self.network.kinds), self.departures.width)
        self.crowded: set[tuple[str, str]] = set()  # the pairs for whose quickest ways there is no room
        self.times: list[Numbers] = []
        self.parts: list[Numbers] = []
        self.report: Report | None = None
        self.kept: Kept | None = None
        self.text = b""

    def start(self) -> None:
        """Finds the first ways, at free flow, and has who has none yet part evenly among the best of them."""
        self._find()
        self._measure()
        for choice, steps in zip(self.choices, self.times):
            if choice.chosen.any():
                continue
            best = steps <= steps.min(axis=0) + 1e-6
            choice.keep(best / best.sum(axis=0), choice.informed)

    def rounds(self, gap: float, iterations: int) -> Iterator[Round]:
        """Goes from round to round, until the gap is below the given one or there were so many."""
        pace, changed = Pace(), 0.0
        counts = self._loaded()
        for number in range(1, iterations + 1):
            self._run(counts)
            done = self._judged(number, changed)
            if self.kept is None or done.settled(gap) or done.rank <= self.kept.done.rank:
                self.kept = Kept(done, self)
            yield done
            if done.settled(gap) or number == iterations:
                break
            changed = self._move(done, pace, gap)
            counts = self._loaded()
        if self.kept is not None:
            self.kept.put_back(self)

    def _move(self, done: Round, pace: Pace, gap: float) -> float:
        """Has drivers change ways behind a round, from the best one where this one's gap jumped; how many vehicles did."""
        assert self.kept is not None  # a round was made
        best = self.kept.done.gap.relative
        if done.gap.relative > max(gap, JUMPED * best) and not self.kept.done.rank[0]:
            self.kept.put_back(self)
            part = pace.back(best)
        else:
            part = pace.next(done.gap.relative)
        self._limit(1.0 if done.number == 1 else DAMPING)
        return swap(self.choices, self.departures, self.times, part, pace.most)

    @property
    def best(self) -> Round:
        """The round that is written: of those made the one that settled, else that of the least gap."""
        assert self.kept is not None  # a round was made
        return self.kept.done

    def by_run_of(self, report: Report, last: Round) -> Round:
        """The last round as another run of its shares has it, the report of which is taken, with the times that follow."""
        self.report, self.passing = report, self.passings.of(report)
        return self._judged(last.number, last.changed)

    def _judged(self, number: int, changed: float) -> Round:
        """What a round came to, by the ways that are best as traffic was in its run."""
        self._find()
        self._measure()
        assert self.report is not None  # the run gave it
        gap, delay = gap_of(self.choices, self.departures, self.times), self.report.units.hours(self.report.sums.delay)
        shifted = moved(self.counts, self._loaded(), self.bounds, self.departures.width)
        return Round(number, gap, shifted, delay, changed, self.limits_moved)

    def _loaded(self) -> Numbers:
        return loaded(self.choices, self.courses)

    def _run(self, counts: Numbers) -> None:
        """Runs the network with the shares of what comes to the branches."""
        self.counts = counts
        self.parts = [parts_of(fork, counts, self.ahead) for fork in self.forks]
        content = self.shared.content(self.forks, self.parts, self.bounds)
        self.text, self.report = run(content, self.study.path.name, self.shared.built.units, self.every, self.workers,
                                     program=self.program, network=self.network)
        self.passing = self.passings.of(self.report)
        self.wanted = wanted_of(self.yielding, dict.fromkeys((one.width for one in self.yielding), self.report))
        self.limits_moved = max((one.move(rates) for one, rates in zip(self.yielding, self.wanted)), default=0.0)

    def _limit(self, part: float) -> None:
        """Has those who give way pass in the next round what the flows of the last one let, a part of the way there."""
        if self.yielding:
            self.shared = SharedNetwork(Builder(limited(self.study, self.yielding, self.wanted, part)).build())

    def _find(self) -> None:
        """Adds to each pair that seeks ways those of the least time in each interval."""
        seeking = [choice for choice in self.choices if not choice.closed]
        search = Search(self.passing, self.network.steps)
        self.crowded.clear()
        middles = [self.departures.middle(i) for i in range(self.departures.intervals)]
        by_exit: dict[str, list[Choice]] = {}
        for choice in seeking:
            by_exit.setdefault(choice.into, []).append(choice)
        wanted = [(into, [(choice.source, middle) for choice in own for middle in middles])
                  for into, own in by_exit.items()]
        for (into, _), found in zip(wanted, search.ways(wanted)):
            for place, choice in enumerate(by_exit[into]):
                for way in dict.fromkeys(found[place * len(middles):(place + 1) * len(middles)]):
                    if way is not None and not choice.put(way):
                        self.crowded.add((choice.source, choice.into))

    def _measure(self) -> None:
        self.courses = Courses(self.choices, self.departures, self.passing, self.bounds)
        self.times = times_of(self.courses)

    def rows(self) -> list[WayRow]:
        """The ways by pair and interval, with who set out on them and what they took."""
        return list(rows_of(self.choices, self.times, self.departures, self.legs, self.shared.built.units))

    def rounded(self) -> Rounded:
        """What the rounding of the shares does."""
        found = Rounded()
        for fork, parts in zip(self.forks, self.parts):
            found.note(fork, self.counts, parts)
        return found
