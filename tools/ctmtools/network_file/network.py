"""A network file that has no fault, as cells, connectors and what comes with the steps."""

from __future__ import annotations

from bisect import bisect_right
from collections.abc import Callable, Collection, Iterable, Iterator, Sequence
from dataclasses import dataclass, field
from functools import cached_property
from itertools import product
from pathlib import Path
from typing import TYPE_CHECKING, Any

from ..arrays import Numbers
from ..files.reading import read_bytes
from ..problem import Problem
from ..texts.amounts import PARTS
from .faults import Fault, taken
from .hints import hint_of
from .kinds import KINDS, Record
from .pace import Pace, pace_of
from .records import FileRecord, ends_of_lines, line_of, read_records

if TYPE_CHECKING:
    import networkx
    import pandas

CELL_TERMS = KINDS["road"].names[1:]  # a road has all that any cell has
AMOUNTS = {kind: [term.sort == "amount" for term in one.fields] for kind, one in KINDS.items()}


@dataclass
class Network:
    """A network: its steps, the records of its file behind the first one, and the file's bytes.

    Its frames are made when they are first asked for, in vehicles and steps. Each has the record's number in the file as `record`.
    """

    steps: int
    records: list[Record] = field(repr=False)
    content: bytes = field(repr=False)

    def with_more(self, records: Sequence[Record]) -> Network:
        """The network with more records behind its own, which were made and end with a line end."""
        return Network(self.steps, [*self.records, *records], self.content + "".join(f"{one.text}\n" for one in records).encode())

    def without(self, records: Collection[Record]) -> Network:
        """The network that was made without some of its records, each in a line of its own."""
        lines = {one.text.encode() for one in records}
        content = b"".join(line for line in self.content.splitlines(keepends=True) if line.rstrip(b"\n") not in lines)
        return Network(self.steps, [one for one in self.records if one not in records], content)

    @cached_property
    def _by_sort(self) -> dict[str, list[tuple[int, Record]]]:
        """The records with their numbers in the file, by what they are counted among."""
        found: dict[str, list[tuple[int, Record]]] = {kind.sort: [] for kind in KINDS.values()}
        for number, record in enumerate(self.records, 2):
            found[record.sort].append((number, record))
        return found

    def numbered(self, kind: str) -> list[tuple[int, tuple[Any, ...]]]:
        """The records that are counted with those of a kind: the number in the file, and what the fields hold, amounts in vehicles."""
        return [(number, in_vehicles(record)) for number, record in self._by_sort[KINDS[kind].sort]]

    @cached_property
    def of_cells(self) -> dict[str, dict[str, Any]]:
        """For each cell what the frame of cells has in its row."""
        return {record.values[0]: _cell(record, number) for number, record in self._by_sort["cells"]}

    @cached_property
    def cells(self) -> pandas.DataFrame:
        """The cells by name: kind, N, Q, A, B, first and record; what a kind has no field for is left out, but it holds 0 at first."""
        import pandas  # here and below, so that a run of which no frame is asked doesn't load it

        return pandas.DataFrame(list(self.of_cells.values()), columns=["cell", "kind", *CELL_TERMS, "record"]).set_index("cell")

    @cached_property
    def links(self) -> pandas.DataFrame:
        """A row for each pair of cells that a connector joins: up, down, kind, weight (priority or share, 1 in a link) and record."""
        import pandas

        rows = [(*link, number) for number, record in self._by_sort["connectors"] for link in _links(record)]
        return pandas.DataFrame(rows, columns=["up", "down", "kind", "weight", "record"])

    @cached_property
    def signals(self) -> pandas.DataFrame:
        """The signals, with the fields of their records."""
        return self._frame("signal")

    @cached_property
    def limits(self) -> pandas.DataFrame:
        """The limits, with the fields of their records."""
        return self._frame("limit")

    @cached_property
    def demands(self) -> pandas.DataFrame:
        """The demands, with the fields of their records."""
        return self._frame("demand")

    @cached_property
    def turns(self) -> pandas.DataFrame:
        """The shares by time, with the fields of their records."""
        return self._frame("turn")

    @cached_property
    def speeds(self) -> pandas.DataFrame:
        """The speed limits, with the fields of their records."""
        return self._frame("speed")

    def _frame(self, kind: str) -> pandas.DataFrame:
        import pandas

        rows = [(*values, number) for number, values in self.numbered(kind)]
        return pandas.DataFrame(rows, columns=[*KINDS[kind].names, "record"])

    @cached_property
    def graph(self) -> networkx.DiGraph:
        """The cells as a directed graph in the direction of travel, with each link's connector as `kind`."""
        import networkx

        graph = networkx.DiGraph()
        graph.add_nodes_from(self.kinds)
        graph.add_edges_from((up, down, {"kind": kind, "weight": weight})
                             for _, record in self._by_sort["connectors"] for up, down, kind, weight in _links(record))
        return graph

    @cached_property
    def ups(self) -> dict[str, dict[str, int]]:
        """For each cell those from which one comes into it, with the weights of the links."""
        return self._beside(lambda up, down: (down, up))

    @cached_property
    def downs(self) -> dict[str, dict[str, int]]:
        """For each cell those into which one goes on from it, with the weights of the links."""
        return self._beside(lambda up, down: (up, down))

    def _beside(self, ordered: Callable[[str, str], tuple[str, str]]) -> dict[str, dict[str, int]]:
        found: dict[str, dict[str, int]] = {cell: {} for cell in self.kinds}
        for _, record in self._by_sort["connectors"]:
            for up, down, _, weight in _links(record):
                cell, other = ordered(up, down)
                found[cell][other] = weight
        return found

    @cached_property
    def capacities(self) -> dict[str, float]:
        """What each cell passes at most, in vehicles a step."""
        return {record.values[0]: record.named["Q"] / PARTS for _, record in self._by_sort["cells"]}

    @cached_property
    def kinds(self) -> dict[str, str]:
        """The kind of each cell, by name."""
        return {record.values[0]: record.kind for _, record in self._by_sort["cells"]}

    @cached_property
    def limits_of(self) -> dict[str, list[tuple[int, int, float]]]:
        """The limits of each cell that has any: from, to and the capacity, in the order of the file."""
        found: dict[str, list[tuple[int, int, float]]] = {}
        for _, record in self._by_sort["limits"]:
            cell, begin, end, capacity = in_vehicles(record)
            found.setdefault(cell, []).append((begin, end, capacity))
        return found

    @cached_property
    def cycles(self) -> dict[str, int]:
        """The cycle of each signal in steps, by its cell."""
        return {record.values[0]: record.values[1] for _, record in self._by_sort["signals"]}

    @cached_property
    def paces(self) -> dict[str, Pace]:
        """How fast one drives at free flow on each road that has a speed limit at some time."""
        found: dict[str, list[tuple[int, int, float]]] = {}
        for _, record in self._by_sort["speeds"]:
            cell, begin, end, above, below = record.values
            found.setdefault(cell, []).append((begin, end, above / below))
        return {cell: pace_of(own, self.steps) for cell, own in found.items()}

    def left_freely(self, cells: Iterable[str], entered: Numbers) -> Numbers:
        """When those who enter the first of some cells at some moments leave the last one at free flow, by the limits in force."""
        moments = entered
        if not self.paces:
            return moments + len(list(cells))
        for cell in cells:
            moments = self.paces[cell].left(moments) if cell in self.paces else moments + 1
        return moments

    @cached_property
    def line_ends(self) -> list[int]:
        """The places behind the ends of the lines of the file."""
        return ends_of_lines(self.content)

    def line(self, record: int) -> int:
        """The line, from 1, that a record of this number stands in; of one that was made its number."""
        place = self.records[record - 2].place
        return record if place is None else 1 + bisect_right(self.line_ends, place)


def read_network(path: str | Path) -> Network:
    """The network of a file, its amounts in vehicles and its times in steps; see Network for the frames."""
    return network_of(read_bytes(path), str(path))


def network_of(content: bytes, name: str = "the network") -> Network:
    """The network of a file's bytes."""
    read = read_records(content)
    records, fault = taken(read)
    if fault:
        raise Problem(f"{name}: {fault_line(content, read, fault)}")
    steps = next(record for record in records if record.kind == "steps")
    return Network(steps.values[0], records, content)


def fault_line(content: bytes, records: Sequence[FileRecord], fault: Fault) -> str:
    """A fault in one line: where it stands, what stands there, what was expected, and a hint."""
    hint = hint_of(content, records, fault)
    place = _place_of(content, records, fault)
    what = f"expected {fault.expected}" if fault.expected else ""
    return " ".join(part for part in (f"{place}:", f"{fault.code};", what + ("." if what else ""), hint) if part)


def _place_of(content: bytes, records: Sequence[FileRecord], fault: Fault) -> str:
    if fault.record > len(records):
        return "the whole file" if records else "line 1"
    record = records[fault.record - 1]
    line = line_of(content, record.place)
    if fault.place is None:
        return f"line {line}, `{clipped(','.join(record.fields))}`"
    names = ["kind", *(KINDS[record.kind].names if record.kind in KINDS else [])]
    return f"line {line}, field {fault.place + 1} ({names[fault.place]}), `{clipped(record.fields[fault.place])}`"


def clipped(text: str, most: int = 60) -> str:
    """A text as far as it goes into a line, with what can't be printed as spaces."""
    text = "".join(letter if letter.isprintable() else " " for letter in text)
    return text if len(text) <= most else text[:most] + ".."


def in_vehicles(record: Record) -> tuple[Any, ...]:
    """What the fields of a record hold, the amounts in vehicles."""
    return tuple(value / PARTS if is_amount else value for value, is_amount in zip(record.values, AMOUNTS[record.kind]))


def _cell(record: Record, number: int) -> dict[str, Any]:
    """The row of a cell."""
    name, *values = in_vehicles(record)
    return {"cell": name, "kind": record.kind, "first": 0.0, **dict(zip(KINDS[record.kind].names[1:], values)), "record": number}


def _links(record: Record) -> Iterator[tuple[str, str, str, int]]:
    """The pairs of cells that a connector joins, with its kind and the priority or the share."""
    own: dict[str, list[Any]] = {"up": [], "down": [], "whole": []}
    for term, value in zip(KINDS[record.kind].fields, record.values):
        own[term.sort].append(value)
    for (up, down), weight in zip(product(own["up"], own["down"]), own["whole"] or [1]):
        yield up, down, record.kind, weight
