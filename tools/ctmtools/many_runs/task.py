"""One run of many: the study with some keys changed, built and run."""

from __future__ import annotations

import copy
import hashlib
from collections.abc import Sequence
from dataclasses import dataclass, replace
from fractions import Fraction
from pathlib import Path
from typing import Any

from ..network_file.checksums import checksum
from ..problem import NoSuchKey, Problem
from ..report.reading import Report
from ..runs.arrivals import Draw, drawn_network
from ..runs.running import run, settled_by_runs
from ..study.folder import files_beside
from ..study.keys import counted_demands, gate_of_factor, names_of
from ..study.network_text import BuiltOnce
from ..study.plan import Scenario
from ..study.reading import scenario_of
from ..study.scale import Rounding
from ..yielding.settling import Settled
from .variations import changed

MOST_KEPT = 4  # studies whose networks are kept


@dataclass(frozen=True)
class Task:
    """A run to be made: the study's values and path, what is changed, the program, and the steps between records."""

    values: dict[str, Any]
    path: str
    changes: dict[str, Any]
    program: str
    every: int | None = None

    @property
    def changes_of_demand(self) -> dict[str, Any]:
        """The factors of demand by gate, by "" for all of them."""
        return {gate: factor for key, factor in self.changes.items() if (gate := gate_of_factor(key)) is not None}


@dataclass(frozen=True)
class Ran:
    """A run that was made: its report, the bytes of its network, and what of it was rounded or isn't settled, in one line."""

    report: Report
    network: bytes
    notes: str

    @property
    def checksum(self) -> str:
        """The checksum of its network."""
        return checksum(self.network)


def ran(made: Scenario, task: Task, draw: Draw | None = None) -> Ran:
    """The run of a task's study; by a draw vehicles come at random in it. Then what may pass in the mean is that of the report."""
    if not Path(task.program).exists():
        raise Problem(f"there is no program {task.program} on this machine")
    once = Once.of(task)
    found = settled_by_runs(made, 1, task.program) if once is None or len(made.closures) > len(once.study.closures) else \
        Settled(made, once.with_demand(made), 0, 0.0)
    built = found.built
    content = built.network.content if draw is None else drawn_network(built.network, found.study.yields, built.units, draw).content
    _, report = run(content, "the built network", built.units, task.every, 1, program=task.program, network=built.network)
    return Ran(report, content, "; ".join(filter(None, [rounded(built.rounding), found.doubt])))


class Once:
    """The networks of the last few studies of which tasks of this process vary the demand alone, by their values and paths."""

    kept: dict[tuple[int, str], tuple[dict[str, Any], BuiltOnce | None]] = {}

    @classmethod
    def of(cls, task: Task) -> BuiltOnce | None:
        """The network of a task's study, none where more than its demand varies, or where runs settle what passes."""
        if any(gate_of_factor(key) is None for key in task.changes):
            return None
        key = id(task.values), task.path
        if key not in cls.kept:  # the values are kept too, so that no others have their number
            if len(cls.kept) == MOST_KEPT:
                del cls.kept[next(iter(cls.kept))]
            cls.kept[key] = task.values, cls._built(task)
        return cls.kept[key][1]

    @staticmethod
    def _built(task: Task) -> BuiltOnce | None:
        try:
            made = scenario_of(copy.deepcopy(task.values), Path(task.path))
            return None if made.yields or made.actuated else BuiltOnce(made)
        except Problem:  # which the run itself says
            return None


def rounded(rounding: Rounding) -> str:
    """What was rounded by more than a thousandth, in one line: the first of it, and how much more there is."""
    notes = rounding.differing
    more = f" and {len(notes) - 1} more" if len(notes) > 1 else ""
    return f"{notes[0]}{more}" if notes else ""


def study(task: Task) -> Scenario:
    """The study of a task, its keys changed and its demands multiplied."""
    once = Once.of(task)
    if once is not None:
        gates = {name: replace(gate, demand=[replace(flow) for flow in gate.demand]) for name, gate in once.study.gates.items()}
        made, factors = replace(once.study, gates=gates, closures=list(once.study.closures)), task.changes_of_demand
    else:
        values, factors = changed(task.values, task.changes)
        made = scenario_of(values, Path(task.path))
    for name, factor in factors.items():
        if not isinstance(factor, Fraction) or factor < 0:
            raise Problem(f"--vary demand: expected factors, 0 or more, found {factor}")
        if name and name not in made.gates:
            raise NoSuchKey(f"--vary demand.{name}: the study has no gate {name}")
        for gate in made.gates.values():
            if name in ("", gate.name):
                for flow in gate.demand:
                    flow.flow *= factor
    return made


def fingerprint(task: Task) -> str:
    """A short text that another study, other counts or another change would change."""
    return fingerprints([task])[0]


def fingerprints(tasks: Sequence[Task]) -> list[str]:
    """The fingerprints of tasks of one study, whose values and files are read once."""
    values, files = repr(tasks[0].values), _counted(tasks[0])
    return [hashlib.sha256(f"({values}, {sorted(task.changes.items())!r}, {task.every!r})".encode() + files).hexdigest()[:16]
            for task in tasks]


def _counted(task: Task) -> bytes:
    """The bytes of all files of counts that a task's study names."""
    found = b""
    for demand in counted_demands(task.values):
        try:
            paths = files_beside(Path(task.path), names_of(demand), "")
        except Problem:
            paths = []
        found += b"".join(path.read_bytes() if path.is_file() else b"none" for path in paths)
    return found
