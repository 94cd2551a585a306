"""Plans that are drawn: their studies, what is uncertain of all of them, and their values with what was drawn."""

from __future__ import annotations

import copy
from collections.abc import Mapping, Sequence
from dataclasses import dataclass
from fractions import Fraction
from pathlib import Path
from typing import Any

from ..problem import NoSuchKey, Problem
from ..study.entries import Entries
from ..study.keys import gate_of_factor, places
from ..study.plan import Scenario
from ..study.reading import read_values, scenario_of
from ..study.study import StudySource, study_from
from ..study.times import Times
from ..study.uncertainty import Uncertainty, Varying, uncertainty_of
from ..texts.quantities import TEXT, UNITS, shown

UNCERTAIN = "uncertain"


@dataclass
class Plan:
    """A plan that is drawn: what it is called, its title, the values of its study but for what is uncertain, and its study."""

    name: str
    title: str
    path: Path
    values: dict[str, Any]
    study: Scenario
    mark: str = ""


def plans_of(sources: Sequence[StudySource]) -> list[Plan]:
    """The plans in some studies, called by their files' names, or by their paths where two names are the same."""
    studies = list(map(study_from, sources))
    names = [study.path.stem for study in studies]
    if len(set(names)) < len(names):
        names = [str(study.path) for study in studies]
    if len(set(names)) < len(names):
        raise Problem(f"{studies[-1].path}: each plan is named once")
    plans = []
    for name, study in zip(names, studies):
        values, scenario = study.values, study.scenario
        values.pop(UNCERTAIN, None)
        plans.append(Plan(name, scenario.title, study.path, values, scenario))
        if (scenario.start, scenario.duration) != (plans[0].study.start, plans[0].study.duration):
            raise Problem(f"{study.path}: is of another time than {studies[0].path}, so their delays aren't compared")
    return plans


def what_varies(plans: Sequence[Plan], given: Path | None) -> Uncertainty:
    """What is uncertain: as a file says it, else as the first plan does, from which the others don't differ."""
    first, *others = plans
    found = first.study.uncertain or Uncertainty()
    if given is not None:
        return _read(given, first.study)
    for other in others:
        if other.study.uncertain and other.study.uncertain != found:
            raise Problem(f"{other.path}: its [[uncertain]] isn't that of {first.path}; say one for both by --with FILE")
    if not found:
        raise Problem(f"{first.path}: has no [[uncertain]] with a key, incidents or arrivals, and no file is named by --with")
    return found


def _read(path: Path, study: Scenario) -> Uncertainty:
    """What a file of `[[uncertain]]` alone says, in the times of a study."""
    try:
        entries = Entries(read_values(path), "")
        found = uncertainty_of(entries.list(UNCERTAIN), Times(study))
        entries.done()
        if not found:
            raise Problem("uncertain: has no key that varies, no incidents and no arrivals")
    except Problem as problem:
        raise type(problem)(f"{path}: {str(problem).removeprefix(f'{path}: ')}") from None
    return found


def need_what_varies(plan: Plan, uncertainty: Uncertainty) -> None:
    """Refuses what a plan doesn't have: a key that varies, or the road of incidents."""
    for one in uncertainty.varying:
        gate = gate_of_factor(one.key)
        if gate is not None:
            if gate and gate not in plan.study.gates:
                raise Problem(f"{plan.path}: uncertain: {one.key}: the study has no gate {gate}")
            continue
        try:
            value = Fraction(1) if one.by_factor else one.distribution.at(0.0)
            scenario_of(with_drawn(plan.values, [one], {one.key: value}), plan.path)
        except Problem as problem:  # a value that the key can't have is a matter of its row
            if one.by_factor or isinstance(problem, NoSuchKey):
                raise type(problem)(f"{plan.path}: {str(problem).removeprefix(f'{plan.path}: ')}") from None
    for incidents in uncertainty.incidents:
        if incidents.part.road not in plan.study.roads:
            raise Problem(f"{plan.path}: {incidents.part.place}.incidents: the study has no road {incidents.part.road}")


def with_drawn(values: dict[str, Any], varying: Sequence[Varying], drawn: Mapping[str, Any]) -> dict[str, Any]:
    """A study's values in which the keys that vary, but for demands, have what was drawn."""
    values = copy.deepcopy(values)
    for one in varying:
        if gate_of_factor(one.key) is not None:
            continue
        for table, name in places(values, one.key, "uncertain: "):
            table[name] = multiplied(table.get(name), drawn[one.key], one.key) if one.by_factor else drawn[one.key]
    return values


def multiplied(value: Any, factor: Fraction, key: str) -> Any:
    """A number of a study, or a text of one with its unit, times a factor."""
    if value is None:
        raise NoSuchKey(f"uncertain: {key}: the study says nothing there that a factor could multiply; draw a value")
    if isinstance(value, (int, Fraction)) and not isinstance(value, bool):
        return value * factor
    found = TEXT.fullmatch(value) if isinstance(value, str) else None
    if not found or not any(found[2] in units for _, units in UNITS.values()):
        raise Problem(f"uncertain: {key}: a factor multiplies a number, found {shown(value)}")
    return f"{float(Fraction(found[1]) * factor):.9f} {found[2]}"
