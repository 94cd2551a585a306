"""The first fault of a network file: the same record and code as the proved program's, and what stands there."""

from __future__ import annotations

import re
from collections.abc import Mapping, Sequence
from dataclasses import dataclass, field
from typing import Any

from . import kinds
from .kinds import KINDS, MOST_PARTS, Field, Record
from .records import FileRecord

NAME = re.compile(r"[A-Za-z0-9_.-]{1,32}")


@dataclass(frozen=True)
class Fault:
    """A fault: its record's number, its code's name, and the field's place in the record where it is one field's.

    `expected` says what should stand there, and `earlier` is the number of an earlier record that it comes from.
    """

    record: int
    code: str
    place: int | None = None
    expected: str = ""
    earlier: int | None = None


class FaultFound(Exception):
    """Carries the first fault out of the checks."""

    def __init__(self, *terms: Any, **named: Any) -> None:
        super().__init__()
        self.fault = Fault(*terms, **named)


@dataclass
class Draft:
    """What the records so far have given: for each table, by name of the cell, the number of the record."""

    form: int = 1
    steps: int | None = None
    steps_record: int | None = None
    kinds: dict[str, str] = field(default_factory=dict)
    cells: dict[str, int] = field(default_factory=dict)
    taken_out: dict[str, int] = field(default_factory=dict)
    taken_in: dict[str, int] = field(default_factory=dict)
    diverges: dict[str, int] = field(default_factory=dict)
    signals: dict[str, int] = field(default_factory=dict)
    regions: dict[str, int] = field(default_factory=dict)
    region_numbers: set[int] = field(default_factory=set)
    counts: dict[str, int] = field(default_factory=dict)
    first: int = 0
    demands: list[tuple[int, int, int]] = field(default_factory=list)


def first_fault(records: Sequence[FileRecord]) -> Fault | None:
    """The first fault of a file's records, or None where there is none."""
    return taken(records)[1]


def taken(records: Sequence[FileRecord]) -> tuple[list[Record], Fault | None]:
    """The records behind the first one up to the first fault, with what their fields hold, and that fault."""
    draft, found = Draft(), list[Record]()
    try:
        _check_header(records, draft)
        found += (_checked(record, draft) for record in records[1:])
        _check_whole(len(records) + 1, draft)
    except FaultFound as first:
        return found, first.fault
    return found, None


def fault_of_made(form: int, records: Sequence[Record]) -> Fault | None:
    """The first fault of a file of a format with these records behind the first one, or None where there is none."""
    draft = Draft(form)
    try:
        for number, record in enumerate(records, 2):
            _checked(FileRecord(number, 0, (record.kind, *record.values)), draft)
        _check_whole(len(records) + 2, draft)
    except FaultFound as found:
        return found.fault
    return None


def _check_header(records: Sequence[FileRecord], draft: Draft) -> None:
    if not records or records[0].fields not in kinds.HEADERS:
        headers = kinds.or_text(f"`{','.join(header)}`" for header in kinds.HEADERS)
        raise FaultFound(1, "NoHeader", expected=f"{headers} and nothing more")
    draft.form = int(records[0].fields[1])


def _checked(record: FileRecord, draft: Draft) -> Record:
    """A record with what its fields hold, where it has no fault."""
    number, kind = record.number, record.kind
    known = kinds.kinds_of(draft.form)
    if kind not in known:
        raise FaultFound(number, "BadKind", 0, f"one of {', '.join(known)}")
    _check_count(record, draft)
    if kind == "steps" and draft.steps_record is not None:
        raise FaultFound(number, "Repeated", 0, "one record of steps alone", draft.steps_record)
    values = _check_fields(record, draft)
    _keep(record, values, draft)
    return Record(kind, tuple(values.values()), record.place)


def _check_count(record: FileRecord, draft: Draft) -> None:
    """That a record has as many fields as its kind, and the file not too many records of that sort."""
    kind = KINDS[record.kind]
    if len(record.fields) != len(kind.fields) + 1:
        names = ",".join([record.kind, *(name.replace(" ", "-") for name in kind.names)])
        raise FaultFound(record.number, "BadCount", expected=f"{len(kind.fields) + 1} fields: {names}")
    if kind.sort in kinds.COUNTED:
        draft.counts[kind.sort] = draft.counts.get(kind.sort, 0) + 1
        if draft.counts[kind.sort] > kinds.MOST_RECORDS[draft.form]:
            raise FaultFound(record.number, "TooMany", expected=f"at most {kinds.MOST_RECORDS[draft.form]} {kind.sort}")


def _check_fields(record: FileRecord, draft: Draft) -> dict[str, Any]:
    """The values of the fields by their names, each checked in turn: names as they are, numbers whole or in parts."""
    values: dict[str, Any] = {}
    for place, term in enumerate(KINDS[record.kind].fields, 1):
        if term.sort in ("whole", "amount"):
            values[term.name] = _check_number(record, place, term, values)
        else:
            _check_name(record, place, term, draft, values)
            values[term.name] = record.fields[place]
    return values


def _check_number(record: FileRecord, place: int, term: Field, values: Mapping[str, Any]) -> int:
    value: int | None = term.value(record.fields[place])
    if value is None:
        raise FaultFound(record.number, "BadNumber", place, term.expected)
    if not term.least.of(values) <= value <= term.most.of(values):
        raise FaultFound(record.number, "OutOfRange", place, term.expected)
    return value


def _check_name(record: FileRecord, place: int, term: Field, draft: Draft, values: Mapping[str, Any]) -> None:
    """What FORMAT.md asks of a field that names a cell, in its order."""
    number, text = record.number, record.fields[place]
    if term.sort == "new":
        if not NAME.fullmatch(text):
            raise FaultFound(number, "BadName", place, term.expected)
        if text in draft.cells:
            raise FaultFound(number, "Repeated", place, term.expected, draft.cells[text])
        return
    if text not in draft.cells:
        raise FaultFound(number, "Unknown", place, term.expected)
    kind = draft.kinds[text]
    barred = {"up": kind == "exit", "down": kind == "gate", "signal": kind == "exit", "demand": kind != "gate",
              "turn": text not in draft.diverges, "speed": kind != "road"}.get(term.sort, False)
    if barred:
        raise FaultFound(number, "WrongKind", place, term.expected, draft.cells[text])
    earlier = {"up": draft.taken_out, "down": draft.taken_in, "signal": draft.signals,
               "region": draft.regions}.get(term.sort, {}).get(text)
    here = term.sort in ("up", "down") and any(other.sort == term.sort and values.get(other.name) == text
                                               for other in KINDS[record.kind].fields)
    if earlier or here:
        code = {"up": "OutTaken", "down": "InTaken"}.get(term.sort, "Repeated")
        raise FaultFound(number, code, place, term.expected, earlier or number)


def _keep(record: FileRecord, values: Mapping[str, Any], draft: Draft) -> None:
    """Notes in the draft what a record without a fault gives."""
    kind, number = record.kind, record.number
    if kind == "steps":
        draft.steps, draft.steps_record = values["T"], number
    elif kind in kinds.CELLS:
        draft.cells[values["name"]], draft.kinds[values["name"]] = number, kind
        draft.first += values.get("first", 0)
    elif kind in kinds.CONNECTORS:
        for term in KINDS[kind].fields:
            if term.sort in ("up", "down"):
                (draft.taken_out if term.sort == "up" else draft.taken_in)[values[term.name]] = number
        if kind == "diverge":
            draft.diverges[values["cell upstream"]] = number
    elif kind == "signal":
        draft.signals[values["cell"]] = number
    elif kind == "demand":
        draft.demands.append((values["from"], values["to"], values["amount"]))
    elif kind == "region":
        draft.regions[values["cell"]] = number
        draft.region_numbers.add(values["region"])


def _check_whole(number: int, draft: Draft) -> None:
    """The checks of the file as a whole, once no record has a fault."""
    if draft.steps is None:
        raise FaultFound(number, "NoSteps", expected="a record `steps,T`")
    if not draft.cells:
        raise FaultFound(number, "NoCells", expected="at least one road, gate or exit")
    demand = sum(amount * max(0, min(end, draft.steps) - begin) for begin, end, amount in draft.demands)
    if draft.first + demand > MOST_PARTS:
        raise FaultFound(number, "TooMuch", expected="at most 10000000 vehicles, at first and by demand together")
    if draft.regions:
        bare = next((name for name in draft.cells if name not in draft.regions), None)
        if bare is not None:
            raise FaultFound(number, "NoRegion", expected=f"a region for each cell; `{bare}` has none",
                             earlier=draft.cells[bare])
        gap = next((i for i in range(max(draft.region_numbers)) if i not in draft.region_numbers), None)
        if gap is not None:
            raise FaultFound(number, "RegionGap", expected=f"a cell in each region; region {gap} has none")
