"""The greens of imported signals as a study has them: one of each movement in a cycle, and phases that follow traffic."""

from __future__ import annotations

from collections import Counter
from collections.abc import Collection, Container, Iterator, Mapping
from dataclasses import dataclass

from ..texts.text_table import first_few
from .streets import Connection, Movement, Program, Span, Streets, grouped
from .traffic import Traffic

SEVERAL = "they control several junctions"
PERMITTED = "some are green there while they give way"
APART = "movements of one approach have greens of their own"
TWICE = "movements are green several times in their cycle, or never"


@dataclass(frozen=True)
class Part:
    """A part of a cycle: from and to, the movements that are green in it, and those of them that give way."""

    span: Span
    green: list[Movement]
    gives: list[Movement]


def kept_green(way: Connection, cycle: float) -> Span:
    """The green of a movement that a study keeps, the longest; without a signal of its own it is green all the time."""
    return max(way.green or [(0.0, cycle)], key=lambda span: span[1] - span[0])


def overlap(one: Span, two: Span, cycle: float) -> float:
    """The seconds that two spans of a cycle share, each of which may go on over its end."""
    return sum(max(0.0, min(one[1], two[1] + shift) - max(one[0], two[0] + shift)) for shift in (-cycle, 0.0, cycle))


def within(time: float, span: Span, cycle: float) -> bool:
    """Whether a time lies in a span of the cycle."""
    return (time - span[0]) % cycle < span[1] - span[0]


def stages(ways: Mapping[Movement, Connection], giving: Container[Movement], cycle: float) -> Iterator[Part]:
    """The parts of a cycle in which the same movements are green, and which of these give way in it.

    Parts in which nobody is green are left out.
    """
    greens = {pair: kept_green(way, cycle) for pair, way in ways.items()}
    permitted = {pair: way.permitted for pair, way in ways.items() if pair in giving}
    spans = [*greens.values(), *(span for own in permitted.values() for span in own)]
    times = sorted({0.0, *(time % cycle for span in spans for time in span)})
    for begin, end in zip(times, [*times[1:], cycle]):
        middle = (begin + end) / 2
        green = [pair for pair, span in greens.items() if within(middle, span, cycle)]
        if green:
            yield Part((begin, end), green, [pair for pair in green if any(
                within(middle, span, cycle) for span in permitted.get(pair, ()))])


class Following:
    """The nodes of a network whose greens follow traffic in the study, and by reason the signals that are kept as fixed ones.

    `at` has the movements with traffic of each node.
    """

    def __init__(self, found: Streets, traffic: Traffic, giving: Collection[Movement]) -> None:
        self.nodes: set[str] = set()
        self.fixed: dict[str, list[str]] = {}
        self.at = grouped((pair for pair in traffic.ways() if pair in found.ways), lambda pair: found.streets[pair[0]].end)
        signals = Counter(program.signal for program in found.programs.values())
        for node, program in found.programs.items():
            own = self.at[node]
            if not program.stages or not own:
                continue
            reason = SEVERAL if signals[program.signal] > 1 else PERMITTED if any(pair in giving for pair in own) else \
                self._reason(found, own, program)
            if reason is None:
                self.nodes.add(node)
            else:
                self.fixed.setdefault(reason, []).append(program.signal)

    @staticmethod
    def _reason(found: Streets, ways: list[Movement], program: Program) -> str | None:
        """Why the greens of a node can't follow traffic, where they can't."""
        if any(len(found.ways[pair].green) != 1 for pair in ways):
            return TWICE
        shown: dict[str, set[tuple[int, ...]]] = {}
        for pair in ways:
            shown.setdefault(pair[0], set()).add(tuple(stages_of(found.ways[pair], program)))
        return APART if any(len(each) > 1 for each in shown.values()) else None

    def notes(self) -> Iterator[str]:
        """How many signals follow traffic, and which don't, and why."""
        if self.nodes:
            yield f"{len(self.nodes)} signals follow traffic, each green between its least and its most"
        for reason, names in self.fixed.items():
            yield (f"{len(names)} signals that follow traffic keep the lengths of their phases as fixed ones, since {reason}: "
                   f"{first_few(names)}")


def stages_of(way: Connection, program: Program) -> Iterator[int]:
    """The numbers of the stages of a signal in which a movement is green."""
    green = kept_green(way, program.cycle)
    return (k for k, stage in enumerate(program.stages) if within(stage.start + stage.lasting / 2, green, program.cycle))
