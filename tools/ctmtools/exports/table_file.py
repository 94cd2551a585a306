"""A table as a workbook of Excel (.xlsx) or as columns of Apache Parquet (.parquet), with the units in the heads of its columns."""

from __future__ import annotations

import io
import json
from importlib.util import find_spec
from pathlib import Path
from typing import Any

import pandas
from pandas.api.types import is_datetime64_any_dtype

from ..problem import Problem
from ..texts.cells import guarded
from ..units import DAY_ZERO
from ..visible import visible

WORKBOOK, PARQUET = ".xlsx", ".parquet"
MOST_ROWS = 1_048_575  # of a sheet, below its head


def kind_of(path: str | Path | None) -> str | None:
    """The sort of table file that a name asks for, WORKBOOK or PARQUET, where that can be written; else None."""
    kind = Path(path or "").suffix.lower()
    if kind == PARQUET and not find_spec("pyarrow"):
        raise Problem(f"{path}: the Python package pyarrow, which writes Parquet, is missing; Debian 12 hasn't it, pip has; a "
                      "file .xlsx or .csv does without it")
    return kind if kind in (WORKBOOK, PARQUET) else None


def table_bytes(frame: pandas.DataFrame, path: str) -> bytes:
    """The bytes of a frame whose `attrs["units"]` has the units of columns, as the sort of file that its name asks for."""
    return _parquet(frame) if kind_of(path) == PARQUET else _workbook(frame, path)


def _parquet(frame: pandas.DataFrame) -> bytes:
    """Columns as they are; the head has the unit of each, and those of all as pandas 2.1 and newer read them."""
    import pyarrow
    from pyarrow.parquet import write_table

    units, table, file = frame.attrs["units"], pyarrow.Table.from_pandas(frame, preserve_index=False), io.BytesIO()
    fields = [field.with_metadata({"unit": units[field.name]}) if field.name in units else field for field in table.schema]
    head = {**(table.schema.metadata or {}), "PANDAS_ATTRS": json.dumps({"units": units})}
    write_table(table.cast(pyarrow.schema(fields, head)), file)
    return file.getvalue()


def _workbook(frame: pandas.DataFrame, path: str) -> bytes:
    """One sheet, with the units behind the names of the columns in its first row."""
    from openpyxl import Workbook

    if len(frame) > MOST_ROWS:
        raise Problem(f"{path}: the table has {len(frame):,} rows, and a sheet has room for {MOST_ROWS:,}; take fewer by --cell, "
                      "--by road or --interval, or write .csv")
    units = {column: unit for column, unit in frame.attrs["units"].items() if column not in ("time", unit)}
    book, file = Workbook(write_only=True), io.BytesIO()
    sheet = book.create_sheet("table")
    sheet.freeze_panes = "A2"
    head = [f"{column} ({units[column]})" if column in units else column for column in frame]
    for row in (head, *zip(*(_values(frame[column]) for column in frame))):
        sheet.append([_as_text(sheet, value) if isinstance(value, str) else value for value in row])
    book.save(file)
    return file.getvalue()


def _values(column: pandas.Series) -> list[Any]:
    """What the cells of a column hold, nothing where a value is lacking; a time without a date is one since the first midnight."""
    if is_datetime64_any_dtype(column):
        column = column - pandas.Timestamp(DAY_ZERO) if (column.dropna().dt.year == DAY_ZERO.year).all() else column
        return [None if pandas.isna(value) else value.to_pytimedelta() if isinstance(value, pandas.Timedelta) else value.to_pydatetime()
                for value in column]
    return [None if lacking else value for value, lacking in zip(column.tolist(), column.isna())]


def _as_text(sheet: Any, text: str) -> Any:
    """A text as a cell that no program runs, whatever it begins with, and that stays a text where a user edits it; none of an empty one."""
    from openpyxl.cell import WriteOnlyCell

    shown = visible(text)
    if guarded(text) == shown and not shown.startswith("#"):  # which begins the names of errors
        return shown or None
    cell = WriteOnlyCell(sheet, shown)
    cell.data_type, cell.quotePrefix = "s", True
    return cell
