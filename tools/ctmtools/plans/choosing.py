"""Candidates, networks that differ in what may stand behind a base, and the choice among all combinations of varied values.

The program answers which of them is the best.
"""

from __future__ import annotations

from collections.abc import Iterator, Sequence
from dataclasses import dataclass, field, replace
from fractions import Fraction
from functools import cached_property
from pathlib import Path
from typing import Any

import pandas

from ..many_runs.kept_rows import KeptValues
from ..many_runs.results import Results
from ..many_runs.task import Task, fingerprints, rounded, study
from ..many_runs.variations import Variation, combinations
from ..network_file.kinds import Record, file_text, record
from ..problem import Problem
from ..program.calls import ask, in_words, program_path, why
from ..runs.running import settled_by_runs
from ..study.network_text import Builder, form_of
from ..study.plan import Scenario
from ..study.scale import Rounding
from ..study.study import StudySource, study_from

MOST_PLANS = 16  # of one call, docs/FORMAT.md
MOST_BYTES = 16_777_216  # of its input
WORDS_REFUSED = 2
FILE = "plans.csv"
COLUMNS = ["of", "plan", "delay_vehicle_steps"]


@dataclass(frozen=True)
class Candidate:
    """A network as its format, its steps and its records behind these; `rounding` is what was rounded in the making."""

    form: int
    steps: int
    records: tuple[Record, ...]
    rounding: Rounding = field(repr=False, compare=False)

    @cached_property
    def cells(self) -> list[Record]:
        """The records of its cells, which stand in the base."""
        return [one for one in self.records if one.sort == "cells"]

    @cached_property
    def groups(self) -> dict[tuple[str, str], list[Record]]:
        """Its records by kind and first cell; a diverge and its turns, which stand behind it, are one group."""
        found: dict[tuple[str, str], list[Record]] = {}
        for one in self.records:
            found.setdefault(("diverge" if one.kind == "turn" else one.kind, one.values[0]), []).append(one)
        return found


def candidate(study: Scenario) -> Candidate:
    """The candidate that a study makes."""
    builder = Builder(study)
    records = tuple(one for _, own in builder.sections() for one in own)
    return Candidate(form_of(records), builder.scale.steps, records, builder.rounding)


def beyond_a_plan(one: Candidate, other: Candidate) -> str | None:
    """What differs between two candidates that no plan behind a common base can say, or None where a plan can."""
    if one.steps != other.steps:
        return f"the steps, {one.steps} and {other.steps}"
    if len(one.cells) != len(other.cells):
        return f"the number of cells, {len(one.cells)} and {len(other.cells)}"
    return next((f"a cell, `{first.text}` and `{second.text}`" for first, second in zip(one.cells, other.cells)
                 if first != second), None)


def question(candidates: Sequence[Candidate]) -> bytes:
    """The input of `choose`: the base, which is what all candidates have, and behind it what each has beyond that."""
    first, *others = candidates
    common = {key for key, records in first.groups.items() if all(other.groups.get(key) == records for other in others)}
    base = [record("steps", first.steps), *(one for key, own in first.groups.items() if key in common for one in own)]
    lines = [file_text(max(one.form for one in candidates), base)]
    for candidate in candidates:
        lines += ["==\n", *(f"{one.text}\n" for key, own in candidate.groups.items() if key not in common for one in own)]
    return "".join(lines).encode()


def judged(candidates: Sequence[Candidate], program: str | Path | None = None) -> Iterator[list[Fraction]]:
    """The delays of candidates with the same cells, in vehicle-steps, group by group as the program was asked."""
    most, begin = MOST_PLANS, 0
    while begin < len(candidates):
        group = candidates[begin:begin + most]
        content = question(group)
        if len(content) > MOST_BYTES and len(group) > 1:
            most = len(group) // 2
            continue
        yield delays(content, len(group), program)
        begin += len(group)


def delays(content: bytes, count: int, program: str | Path | None = None) -> list[Fraction]:
    """The delays of so many plans behind a base, in vehicle-steps, as the program answers them."""
    answer = ask(["choose"], content, program)
    if answer.status == WORDS_REFUSED:
        raise Problem(f"{in_words(program)} has no mode choose; build the newest ctm")
    if answer.status:
        raise Problem(why(answer, program))
    rows = [line.split(",") for line in answer.out.decode().splitlines()]
    found = [Fraction(row[2]) for row in rows if row[0] == "plan"]
    if len(found) != count or not rows or rows[-1] != ["choice", str(found.index(min(found)))]:
        raise Problem(f"what {in_words(program)} answered isn't of {count} plans")
    return found


class Choice:
    """The plans of a study over varied values, and their delays as the program answers them.

    With a folder the delays are kept there as they come, and a plan whose delay stands there isn't asked for again.
    """

    def __init__(self, source: StudySource, variations: Sequence[Variation], folder: Path | None = None) -> None:
        made, program = study_from(source), str(program_path())
        values, path = made.values, str(made.path)
        self.keys = [one.key for one in variations]
        self.tasks = [Task(values, path, changes, program) for changes in combinations(variations)]
        self.step = made.scenario.step
        self.errors: dict[int, str] = {}  # by the number of a plan that can't be built
        self.delays: dict[int, Fraction] = {}  # by the number of a plan, in vehicle-steps
        self.candidates = dict(self._built())
        if not self.candidates:
            raise Problem(f"no plan can be built; the first: {self.errors[0]}")
        self._check()
        self.marks = dict(zip(self.candidates, fingerprints([self.tasks[number] for number in self.candidates])))
        self.kept = KeptValues(None if folder is None else folder / FILE, "choose", COLUMNS)
        known = self.kept.values
        self.delays = {number: Fraction(known[mark]) for number, mark in self.marks.items() if mark in known}
        self.earlier = len(self.delays)

    def _built(self) -> Iterator[tuple[int, Candidate]]:
        for i, task in enumerate(self.tasks):
            try:
                yield i, candidate(settled_by_runs(replace(study(task), actuated=[]), 1, task.program).study)
            except Problem as problem:
                self.errors[i] = str(problem)

    def _check(self) -> None:
        """Refuses, by its name, a key that changes what stands in the base."""
        first = next(iter(self.candidates))
        for i, other in self.candidates.items():
            what = beyond_a_plan(self.candidates[first], other)
            if what:
                raise Problem(f"--vary {self._blamed(first, i)}: changes {what}, which a plan behind a base can't; "
                              "ctm-tools sweep runs such studies one by one")

    def _blamed(self, first: int, other: int) -> str:
        """The first key by which alone a plan differs so from the first, or all that differ where no one does it."""
        base = self.tasks[first].changes
        for i, one in self.candidates.items():
            differing = [key for key in self.keys if self.tasks[i].changes[key] != base[key]]
            if len(differing) == 1 and beyond_a_plan(self.candidates[first], one):
                return differing[0]
        return ", ".join(key for key in self.keys if self.tasks[other].changes[key] != base[key])

    def run(self) -> Iterator[int]:
        """Has the program judge the plans that are missing, and gives how many each of its calls judged."""
        numbers = iter([number for number in self.candidates if number not in self.delays])
        for found in judged([one for number, one in self.candidates.items() if number not in self.delays]):
            for delay, number in zip(found, numbers):
                self.delays[number] = delay
                self.kept.put(self.marks[number], f"{delay.numerator}/{delay.denominator}")
            yield len(found)

    def results(self) -> Results:
        """A row for each plan: the varied values, its delay in vehicle-hours, what was rounded, and why it failed.

        The least delay is first, of equals the first plan, and those that failed are last.
        """
        order = [*sorted(self.delays, key=lambda i: (self.delays[i], i)), *self.errors]
        return Results(pandas.DataFrame([self._row(i) for i in order]), tuple(self.keys))

    def _row(self, number: int) -> dict[str, Any]:
        failed = number in self.errors
        delay = float("nan") if failed else float(self.delays[number] * self.step / 3600)
        return {**self.tasks[number].changes, "delay_vehicle_hours": delay,
                "rounded": "" if failed else rounded(self.candidates[number].rounding),
                "error": self.errors.get(number, "")}
