"""The tables of a folder in GMNS: CSV files, each row with its line, each field as text or as a number."""

from __future__ import annotations

import csv
import math
from dataclasses import dataclass
from pathlib import Path

from ..files.reading import check_fields, read_bytes
from ..problem import Problem
from ..texts.text_table import first_few

NEEDED = {"node": ("node_id",), "link": ("link_id", "from_node_id", "to_node_id"),
          "movement": ("mvmt_id", "ib_link_id", "ob_link_id"), "signal_timing_plan": ("timing_plan_id",),
          "demand": ("link_id", "start", "end", "flow")}
ZONAL = ("o_zone_id", "d_zone_id", "volume")  # of demand between zones, as DTALite has it
MOST_NAMED = 12  # columns that a message names
YES, NO = ("1", "true", "t", "yes"), ("0", "false", "f", "no")


@dataclass(frozen=True)
class Row:
    """A row of a table: its file, its line there, and its fields by the names of the columns in small letters."""

    path: Path
    line: int
    fields: dict[str, str]

    def key(self, column: str = "") -> str:
        """The place of a field, or of the row, as messages say it."""
        return f"{self.path}: line {self.line}" + (f", {column}" if column else "")

    def text(self, column: str) -> str:
        """The text of a field, empty where the table doesn't have it."""
        return self.fields.get(column, "")

    def number(self, column: str, otherwise: float | None = None, least: float = -math.inf) -> float:
        """The number in a field, or another where there is none; without another one there has to be one."""
        text = self.text(column)
        if not text and otherwise is not None:
            return otherwise
        try:
            found = float(text)
        except ValueError:
            found = math.nan
        if not math.isfinite(found) or found < least:
            kind = f"a number of {least:g} or more" if math.isfinite(least) else "a number"
            raise Problem(f"{self.key(column)}: expected {kind}, found \"{text}\"")
        return found

    def yes(self, column: str, otherwise: bool) -> bool:
        """Whether a field says yes."""
        text = self.text(column).lower()
        if text and text not in (*YES, *NO):
            raise Problem(f"{self.key(column)}: expected 1 or 0, found \"{text}\"")
        return text in YES if text else otherwise


def read_table(folder: Path, name: str, needed: bool = False) -> list[Row]:
    """The rows of a table; none where the file isn't there and needn't be."""
    path = folder / f"{name}.csv"
    if not path.exists():
        if needed:
            raise Problem(f"{path}: no such file; a folder of GMNS has node.csv and link.csv")
        return []
    try:
        reader = csv.reader(read_bytes(path).decode("utf-8-sig").splitlines())
        lines = [(reader.line_num, [field.strip() for field in fields]) for fields in reader]
    except (UnicodeDecodeError, csv.Error) as error:
        raise Problem(f"{path}: {error}") from None
    for line, fields in lines:
        check_fields(path, line, len(fields))
    (_, names), *rows = lines or [(1, [])]
    head = [column.lower() for column in names]
    for column in ZONAL if name == "demand" and ZONAL[0] in head else NEEDED.get(name, ()):
        if column not in head:
            raise Problem(f"{path}: has no column {column}, it has {first_few(head, MOST_NAMED)}")
    for line, fields in rows:
        if any(fields[len(head):]):
            raise Problem(f"{path}: line {line} has {len(fields)} fields, and line 1 has {len(head)}")
    return [Row(path, line, dict(zip(head, fields))) for line, fields in rows if any(fields)]


def once(rows: list[Row], column: str) -> dict[str, Row]:
    """The rows by a field that names them, which has to be there and to differ."""
    found: dict[str, Row] = {}
    for row in rows:
        name = row.text(column)
        if not name:
            raise Problem(f"{row.key(column)}: is empty")
        if name in found:
            raise Problem(f"{row.key(column)}: {name} stands in line {found[name].line} too")
        found[name] = row
    return found
