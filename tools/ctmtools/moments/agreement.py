"""Whether two networks have a moment in common: the same cells and connectors, and below a step the same of all else.

That is capacity, green, demand, turning shares and speed. Such networks have the same states up to the step, so a saved moment of
the one, at which no region is past it, is one of the other.
"""

from __future__ import annotations

from collections.abc import Callable, Iterator, Sequence
from dataclasses import dataclass, field
from fractions import Fraction
from itertools import zip_longest
from typing import Any

import numpy

from ..arrays import Flags, Wholes
from ..network_file.kinds import CELLS, CONNECTORS, KINDS
from ..network_file.naming import Naming
from ..network_file.network import Network
from ..texts.amounts import PARTS

Spans = list[tuple[int, int, int]]  # from, to and a value, in the order of the file
Values = tuple[Any, ...]  # of a record: its kind, and what its fields hold, amounts in parts


@dataclass
class Plan:
    """What a network says: its cells and connectors in their order, and for each cell what it says of single steps.

    Capacities and demands are in parts; turning shares are one number for both, and so is a speed, a part of the road's own.
    """

    cells: list[Values] = field(default_factory=list)
    connectors: list[Values] = field(default_factory=list)
    capacity: dict[str, int] = field(default_factory=dict)
    shares: dict[str, int] = field(default_factory=dict)
    signals: dict[str, tuple[int, ...]] = field(default_factory=dict)
    limits: dict[str, Spans] = field(default_factory=dict)
    demands: dict[str, Spans] = field(default_factory=dict)
    turns: dict[str, Spans] = field(default_factory=dict)
    speeds: dict[str, Spans] = field(default_factory=dict)


@dataclass(frozen=True)
class Difference:
    """The first difference of two networks: from which step on, and in what, with what the one and the other have."""

    step: int
    told: str


def difference(saved: Network, other: Network, until: int, naming: Naming) -> Difference | None:
    """The first difference of a network from the saved one at the steps below another, or None where there is none."""
    one, two = plan_of(saved), plan_of(other)
    unlike = _unlike(one, two)
    if unlike:
        return Difference(0, unlike)
    found = (*_capacities(one, two, until, naming), *_lights(one, two, until, naming), *_demands(one, two, until, naming),
             *_shares(one, two, until, naming), *_speeds(one, two, until, naming))
    differences = [first for first in found if first is not None]
    return min(differences, key=lambda first: first.step) if differences else None


def plan_of(network: Network) -> Plan:
    """The plan of a network."""
    plan = Plan()
    for record in network.records:
        kind, values = record.kind, record.named
        if kind in CELLS:
            plan.cells.append((kind, *values.values()))
            plan.capacity[values["name"]] = values["Q"]
        elif kind in CONNECTORS:
            plan.connectors.append((kind, *values.values()))
            if kind == "diverge":
                plan.shares[values["cell upstream"]] = _pair(values["B1"], values["B2"])
        elif kind == "signal":
            cell, *rest = values.values()
            plan.signals[cell] = tuple(rest)
        elif kind in ("limit", "demand", "turn", "speed"):
            spans = {"limit": plan.limits, "demand": plan.demands, "turn": plan.turns, "speed": plan.speeds}[kind]
            cell, begin, end, *rest = values.values()
            spans.setdefault(cell, []).append((begin, end, _pair(*rest) if len(rest) > 1 else rest[0]))
    return plan


def _pair(first: int, second: int) -> int:
    """Two numbers, each at most 1,000, as one."""
    return first * 1001 + second

OWN = _pair(1, 1)  # a road's own speed


def _unlike(saved: Plan, other: Plan) -> str:
    """Where the cells or the connectors differ."""
    for sort, ones, twos in (("cell", saved.cells, other.cells), ("connector", saved.connectors, other.connectors)):
        for one, two in zip_longest(ones, twos):
            if one == two:
                continue
            if one is None or two is None:
                return f"it has {len(twos):,} {sort}s, and the saved one {len(ones):,}"
            return _unlike_records(sort, one, two)
    return ""


def _unlike_records(sort: str, one: Values, two: Values) -> str:
    fields = KINDS[one[0]].fields
    named = 1 + sum(term.sort in ("new", "up", "down") for term in fields)
    if one[:named] != two[:named]:
        return f"where the saved one has the {sort} {' '.join(one[:named])}, it has {' '.join(two[:named])}"
    place = next(i for i, (first, second) in enumerate(zip(one, two)) if first != second)
    term = fields[place - 1]
    values = [f"{row[place] / (PARTS if term.sort == 'amount' else 1):g}" for row in (one, two)]
    return f"the {term.name} of {' '.join(one[:named])} is {values[1]}, and {values[0]} in the saved one"


def _capacities(saved: Plan, other: Plan, until: int, naming: Naming) -> Iterator[Difference | None]:
    for cell, own in saved.capacity.items():
        yield _first(saved.limits.get(cell, []), other.limits.get(cell, []), lambda spans: last_of(spans, own, until),
                     f"the capacity of {naming.cell(cell)}", lambda value: naming.flow(value / PARTS))


def _demands(saved: Plan, other: Plan, until: int, naming: Naming) -> Iterator[Difference | None]:
    for gate in {**saved.demands, **other.demands}:
        yield _first(saved.demands.get(gate, []), other.demands.get(gate, []), lambda spans: _sum_of(spans, until),
                     f"the demand of {naming.cell(gate)}", lambda value: naming.flow(value / PARTS))


def _shares(saved: Plan, other: Plan, until: int, naming: Naming) -> Iterator[Difference | None]:
    for cell, own in saved.shares.items():
        yield _first(saved.turns.get(cell, []), other.turns.get(cell, []), lambda spans: last_of(spans, own, until),
                     f"the ratio of turning shares behind {naming.cell(cell)}", lambda value: "{} to {}".format(*divmod(value, 1001)))


def _speeds(saved: Plan, other: Plan, until: int, naming: Naming) -> Iterator[Difference | None]:
    for cell in {**saved.speeds, **other.speeds}:
        one, two = _lowest(saved.speeds.get(cell, [])), _lowest(other.speeds.get(cell, []))
        yield _first(one, two, lambda spans: last_of(spans, OWN, until),
                     f"the speed limit of {naming.cell(cell)}", lambda value: naming.speed(cell, *divmod(value, 1001)))


def _lowest(spans: Spans) -> Spans:
    """Speeds in lowest terms, so that those that are alike are one number."""
    return [(begin, end, _pair(*Fraction(*divmod(value, 1001)).as_integer_ratio())) for begin, end, value in spans]


def _lights(saved: Plan, other: Plan, until: int, naming: Naming) -> Iterator[Difference | None]:
    for cell in {**saved.signals, **other.signals}:
        one, two = saved.signals.get(cell), other.signals.get(cell)
        yield _first(one, two, lambda signal: _green(signal, until), f"the light of {naming.cell(cell)}",
                     lambda value: "green" if value else "red")


def _first(saved: object, other: object, at_steps: Callable[..., Wholes | Flags], what: str,
           told: Callable[[int], str]) -> Difference | None:
    """The first step at which what the one and the other say has another value."""
    if saved == other:
        return None
    one, two = at_steps(saved), at_steps(other)
    places = numpy.flatnonzero(one != two)
    if not len(places):
        return None
    step = int(places[0])
    return Difference(step, f"{what} is {told(int(two[step]))}, and {told(int(one[step]))} in the saved one")


def last_of(spans: Spans, own: int, until: int) -> Wholes:
    """The value at each step of spans of which the last one in the file holds."""
    values = numpy.full(until, own, dtype=numpy.int64)
    for begin, end, value in spans:
        values[begin:end] = value
    return values


def _sum_of(spans: Spans, until: int) -> Wholes:
    """The sum at each step of spans that add up."""
    values = numpy.zeros(until, dtype=numpy.int64)
    for begin, end, value in spans:
        values[begin:end] += value
    return values


def _green(signal: Sequence[int] | None, until: int) -> Flags:
    """Whether a light is green at each step; without a signal it always is."""
    if signal is None:
        return numpy.ones(until, dtype=bool)
    cycle, offset, begin, end = signal
    phase = (numpy.arange(until) + offset) % cycle
    return (begin <= phase) & (phase < end)
