"""Cells of CSV that are text, written so that no spreadsheet takes one for a formula, and read back as what they were.

A spreadsheet runs what begins with `=`, `+`, `-` or `@`, whatever stands behind it. An apostrophe before it makes it text.
"""

from __future__ import annotations

import csv
import io
import re
from collections.abc import Iterable, Sequence
from typing import TYPE_CHECKING, Any

from ..visible import visible

if TYPE_CHECKING:
    import pandas

GUARD = "'"
# What is run, or is behind what is left out at the beginning of a cell; apostrophes before it may be a guard or its own.
RUN = re.compile(r"'*\s*[=+\-@\uff1d\uff0b\uff0d\uff20\t\r\n]")
NUMBER = re.compile(r"[+-]?(\d+(?:\.\d*)?|\.\d+)([eE][+-]?\d+)?")


def guarded(value: Any) -> Any:
    """What is written of a value: of a text that would be run the same behind an apostrophe; a number stays one."""
    if not isinstance(value, str):
        return value
    text = visible(value)
    return GUARD + text if _is_run(text) else text  # the same object where nothing changes


def unguarded(text: str) -> str:
    """The text of a cell as it was before it was guarded."""
    return text[1:] if text.startswith(GUARD) and _is_run(text[1:]) else text


def _is_run(text: str) -> bool:
    return RUN.match(text) is not None and not NUMBER.fullmatch(text)


def rows_text(rows: Iterable[Sequence[Any]]) -> str:
    """Rows as CSV."""
    text = io.StringIO()
    csv.writer(text, lineterminator="\n").writerows([guarded(value) for value in row] for row in rows)
    return text.getvalue()


def frame_text(frame: pandas.DataFrame, **terms: Any) -> str:
    """A frame as CSV, with terms of pandas."""
    import pandas

    frame = frame.rename(columns=guarded)
    for place, kind in enumerate(frame.dtypes):
        if not pandas.api.types.is_numeric_dtype(kind):
            frame.isetitem(place, _of_text(frame.iloc[:, place]))
    index = frame.index
    frame.index = index.set_levels([level.map(guarded) for level in index.levels]) if isinstance(index, pandas.MultiIndex) \
        else index.map(guarded)
    text: str = frame.to_csv(**terms)
    return text


def _of_text(column: pandas.Series) -> pandas.Series:
    """A column whose texts are guarded; one that needs none is itself."""
    changed = {value: guarded(value) for value in column.unique() if guarded(value) is not value}
    return column.astype(object).map(lambda value: changed.get(value, value)) if changed else column

