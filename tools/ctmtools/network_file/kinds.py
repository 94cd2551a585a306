"""The kinds of records and their fields, as docs/FORMAT.md has them: reading, checking, explaining and writing go by this table."""

from __future__ import annotations

from collections.abc import Iterable, Mapping
from dataclasses import dataclass, field
from functools import cached_property, lru_cache
from typing import Any

from ..texts.amounts import PARTS, amount_text, parts_of, whole_of

MOST_PARTS = 10_000_000 * PARTS  # vehicles of a network
NAME_RULE = "1 to 32 letters, digits, `_`, `-` or `.`"


@dataclass(frozen=True)
class Edge:
    """The least or the greatest value of a number: a number, or what an earlier field of the record holds and a number."""

    number: int = 0
    field: str = ""

    def of(self, earlier: Mapping[str, Any]) -> int:
        """The value, by those of the fields before."""
        return self.number + int(earlier[self.field] if self.field else 0)

    def __str__(self) -> str:
        if not self.field:
            return str(self.number)
        return f"{self.field} {'+' if self.number > 0 else '-'} {abs(self.number)}" if self.number else self.field


@dataclass(frozen=True)
class Field:
    """A field: its name in the documents, its sort, what may stand in it, in words, and of a number its least and its greatest.

    Those of an amount are in parts.
    """

    name: str
    sort: str  # new, up, down, signal, limit, demand, turn, speed, region, whole or amount
    expected: str
    least: Edge = Edge()
    most: Edge = Edge()

    @property
    def heading(self) -> str:
        """What the comment of a built network calls it."""
        if self.name == "amount":
            return "vehicles in a step"
        return self.name.replace("cell upstream", "up").replace("cell downstream", "down")

    def value(self, text: str | int) -> Any:
        """The value that a text spells: a name as it is, a whole number, an amount in parts; None where it spells none.

        A number is its own value, as of a record that is made.
        """
        if isinstance(text, int):
            return text
        return whole_of(text) if self.sort == "whole" else parts_of(text) if self.sort == "amount" else text

    def text(self, value: str | int) -> str:
        """A value as the file spells it."""
        return amount_text(int(value)) if self.sort == "amount" else str(value)


@dataclass(frozen=True)
class Kind:
    """A kind of record: what its records are counted among, its fields, and the first format that has it."""

    sort: str  # steps, cells, connectors, signals, limits, demands, turns, speeds or regions
    fields: tuple[Field, ...]
    form: int = 1

    @cached_property
    def names(self) -> list[str]:
        """The names of its fields."""
        return [field.name for field in self.fields]


def _edge(value: int | str) -> Edge:
    """An edge as it is said in words: a number, a field, or a field and one more or less."""
    if isinstance(value, int):
        return Edge(value)
    name, sign, number = value.partition(" + ") if "+" in value else value.partition(" - ")
    return Edge(int(sign.strip() + number) if number else 0, name)


def _whole(name: str, least: int | str, most: int | str) -> Field:
    return Field(name, "whole", f"a whole number, {least} to {most}", _edge(least), _edge(most))


def _amount(name: str, most: int | str, unit: str = "vehicles") -> Field:
    return Field(name, "amount", f"{unit}, 0 to {most}, with a point and at most six decimals",
                 most=Edge(most * PARTS) if isinstance(most, int) else Edge(field=most))


def _up(name: str) -> Field:
    return Field(name, "up", "a road or a gate that stands above and has no connector out of it yet")


def _down(name: str) -> Field:
    return Field(name, "down", "a road or an exit that stands above and has no connector into it yet")


NEW = Field("name", "new", "a new name: " + NAME_RULE)
SPAN = (_whole("from", 0, 99_999), _whole("to", "from + 1", 100_000))
CAPACITY = _amount("Q", 100_000, "vehicles in a step")
SHARES = (_whole("B1", 1, 1000), _whole("B2", 1, 1000))
PART = (_whole("NUM", 1, 1000), _whole("DEN", "NUM", 1000))  # of a road's own free-flow speed

KINDS = {
    "steps": Kind("steps", (_whole("T", 1, 100_000),)),
    "road": Kind("cells", (NEW, _amount("N", 100_000), CAPACITY, _whole("A", 1, 1000), _whole("B", "A", 1000), _amount("first", "N"))),
    "gate": Kind("cells", (NEW, CAPACITY, _amount("first", 10_000_000))),
    "exit": Kind("cells", (NEW, CAPACITY)),
    "link": Kind("connectors", (_up("cell upstream"), _down("cell downstream"))),
    "merge": Kind("connectors", (_up("first cell upstream"), _up("second cell upstream"), _down("cell downstream"),
                                 _whole("P1", 1, 1000), _whole("P2", 1, 1000))),
    "diverge": Kind("connectors", (_up("cell upstream"), _down("first cell downstream"), _down("second cell downstream"), *SHARES)),
    "signal": Kind("signals", (Field("cell", "signal", "a road or a gate that stands above and has no signal yet"),
                               _whole("cycle", 1, 100_000), _whole("offset", 0, "cycle - 1"), _whole("from", 0, "cycle - 1"),
                               _whole("to", "from + 1", "cycle"))),
    "limit": Kind("limits", (Field("cell", "limit", "a cell that stands above"), *SPAN, CAPACITY)),
    "demand": Kind("demands", (Field("gate", "demand", "a gate that stands above"), *SPAN,
                               _amount("amount", 10_000_000, "vehicles in a step"))),
    "turn": Kind("turns", (Field("cell", "turn", "a cell that a diverge above leads out of"), *SPAN, *SHARES), form=2),
    "region": Kind("regions", (Field("cell", "region", "a cell that stands above and has no region yet"),
                               _whole("region", 0, 511)), form=2),
    "speed": Kind("speeds", (Field("cell", "speed", "a road that stands above"), *SPAN, *PART), form=3),
}
CELLS, CONNECTORS = (tuple(name for name, kind in KINDS.items() if kind.sort == sort) for sort in ("cells", "connectors"))
COUNTED = ("cells", "connectors", "limits", "demands", "turns", "speeds")  # the sorts of which a file has so many records at most
MOST_RECORDS = {1: 100_000, 2: 200_000, 3: 200_000}

CODES = {1: "NoHeader", 2: "BadKind", 3: "BadCount", 4: "BadName", 5: "BadNumber", 6: "OutOfRange", 7: "Repeated",
         8: "Unknown", 9: "WrongKind", 10: "InTaken", 11: "OutTaken", 12: "NoSteps", 13: "NoCells", 14: "TooMany",
         15: "TooMuch", 16: "NoRegion", 17: "RegionGap"}
NUMBERS = {name: number for number, name in CODES.items()}
HEADERS = tuple(("ctm", str(form)) for form in MOST_RECORDS)  # of each format the first record


@lru_cache
def kinds_of(form: int) -> tuple[str, ...]:
    """The kinds of records that a file of a format may have."""
    return tuple(name for name, kind in KINDS.items() if kind.form <= form)


@dataclass(frozen=True)
class Record:
    """A record without a fault: its kind, and what its fields hold: names, whole numbers, and amounts in parts.

    `place` is that of its first byte in the file that it was read from.
    """

    kind: str
    values: tuple[Any, ...]
    place: int | None = field(default=None, compare=False)

    @property
    def sort(self) -> str:
        """What it is counted among."""
        return KINDS[self.kind].sort

    @property
    def named(self) -> dict[str, Any]:
        """What its fields hold, by their names."""
        return dict(zip(KINDS[self.kind].names, self.values))

    @cached_property
    def text(self) -> str:
        """The record as a file has it."""
        return ",".join([self.kind, *(term.text(value) for term, value in zip(KINDS[self.kind].fields, self.values, strict=True))])


def record(kind: str, *values: str | int) -> Record:
    """A record that is made, of what its fields hold."""
    return Record(kind, values)


def record_of(text: str) -> Record:
    """The record that a line of these tools spells."""
    kind, *texts = text.split(",")
    return Record(kind, tuple(term.value(one) for term, one in zip(KINDS[kind].fields, texts, strict=True)))


def file_text(form: int, records: Iterable[Record]) -> str:
    """The text of a file of a format with these records, without comments."""
    return "".join(f"{line}\n" for line in (f"ctm,{form}", *(one.text for one in records)))


def headings(*kinds: str) -> str:
    """What the comment of a built network says of some kinds of records: their fields."""
    return "; ".join(",".join([kind, *(field.heading for field in KINDS[kind].fields)]) for kind in kinds)


def or_text(words: Iterable[str]) -> str:
    """Words of which one is chosen, as a sentence has them: `a, b or c`."""
    *first, last = words
    return f"{', '.join(first)} or {last}"
