"""The study that an assignment ends in: its gates with the demand of the trips, its diverges with the shares found."""

from __future__ import annotations

import copy
from collections.abc import Iterator, Sequence
from fractions import Fraction
from itertools import groupby
from typing import Any, TypeVar

from ..arrays import Numbers
from ..network_file.kinds import Record, file_text, record
from ..study.network_text import Built, form_of
from ..study.plan import Scenario
from ..texts.quantities import DAY
from .forks import Fork, pairs_of

Value = TypeVar("Value")

DECIMALS = 9  # of a flow in vehicles/h that has more


class SharedNetwork:
    """A built network, and the places of the diverges whose shares are put in."""

    def __init__(self, built: Built) -> None:
        self.built = built
        self.diverges = {one.values[0]: place for place, one in enumerate(built.network.records) if one.kind == "diverge"}

    def content(self, forks: Sequence[Fork], parts: Sequence[Numbers], bounds: Numbers) -> bytes:
        """The bytes of the network's file with the shares of the forks, which change at the bounds."""
        records, turns = list(self.built.network.records), list[Record]()
        for fork, own in zip(forks, parts):
            for cell, pairs in zip(fork.cells, pairs_of(own)):
                place = self.diverges[cell]
                records[place] = record("diverge", *records[place].values[:3], *pairs[0])
                turns += [record("turn", cell, begin, end, *pair) for begin, end, pair in spans(pairs, bounds) if pair != pairs[0]]
        return file_text(form_of([*records, *turns]), [*records, *turns]).encode()


def spans(values: Sequence[Value], bounds: Numbers) -> list[tuple[int, int, Value]]:
    """Values of spans that follow each other, with those that are alike as one: from, to and the value."""
    found: list[tuple[int, int, Value]] = []
    place = 0
    for value, group in groupby(values):
        count = sum(1 for _ in group)
        found.append((int(bounds[place]), int(bounds[place + count]), value))
        place += count
    return found


class AssignedStudy:
    """Makes the values of the study's file."""

    def __init__(self, study: Scenario, values: dict[str, Any], forks: Sequence[Fork], parts: Sequence[Numbers],
                 bounds: Numbers) -> None:
        self.study, self.bounds = study, bounds
        self.values = copy.deepcopy(values)
        self.forks = list(zip(forks, parts))

    def made(self, ways: str, let_through: dict[str, Fraction]) -> dict[str, Any]:
        """The values, which name the file of the ways; some closures let so many vehicles/h through."""
        for name in ("trips", "routes", "routing", "assigned"):
            self.values.pop(name, None)
        self._demands()
        for place in self.study.by_trips:
            own = [(fork, parts) for fork, parts in self.forks if fork.place == place]
            shares = self._table(place)
            shares.update(self._junction(place, own) if place.startswith("junctions") else self._diverge(*own[0]))
        for place, flow in let_through.items():
            closure = self._table(place)
            for name in ("lanes", "saturation_flow"):
                closure.pop(name, None)
            closure["capacity"] = flow
        self.values["assigned"] = {"ways": ways}
        return self.values

    def _table(self, place: str) -> dict[str, Any]:
        """The table of a list that a place as `diverges[1]` names."""
        name, _, number = place.rstrip("]").partition("[")
        table: dict[str, Any] = self.values[name][int(number) - 1]
        return table

    def _demands(self) -> None:
        for name in dict.fromkeys(trips.source for trips in self.study.trips):
            self.values["gates"][name]["demand"] = [
                [self._clock(flow.start), self._clock(flow.end), round(flow.flow, DECIMALS)]
                for flow in self.study.gates[name].demand]

    def _clock(self, time: Fraction) -> str:
        """The clock time of seconds after the start, exactly; what is of the next day as an hour beyond 24 where it may be."""
        seconds = self.study.start + time
        whole, rest = divmod(seconds, 1)
        if whole > DAY:
            whole -= DAY
        text = f"{whole // 3600:02d}:{whole // 60 % 60:02d}:{whole % 60:02d}"
        return text + (f"{float(rest):.6f}".rstrip("0")[1:] if rest else "")

    def _turns(self, rows: Sequence[Any]) -> Iterator[dict[str, Any]]:
        """The shares by time that differ from the first."""
        step = self.study.step
        for begin, end, shares in spans(rows, self.bounds):
            if shares != rows[0]:
                stop = min(end * step, self.study.duration)
                yield {"start": self._clock(begin * step), "end": self._clock(stop), "shares": shares}

    def _diverge(self, _: Fork, parts: Numbers) -> dict[str, Any]:
        rows = [list(pair) for pair in next(pairs_of(parts))]
        return {"shares": rows[0], "turns": list(self._turns(rows))}

    def _junction(self, place: str, own: Sequence[tuple[Fork, Numbers]]) -> dict[str, Any]:
        """The tables of a junction: what isn't a fork keeps its one movement."""
        crossing = next(one for one in self.study.crossings if one.place == place)
        rows = [[[int(bool(share)) for share in row] for row in crossing.shares] for _ in range(len(self.bounds) - 1)]
        for fork, parts in own:
            for column, counts in zip(fork.columns, parts):
                for table, count in zip(rows, counts):
                    table[fork.row][column] = int(count)
        return {"shares": rows[0], "turns": list(self._turns(rows))}
