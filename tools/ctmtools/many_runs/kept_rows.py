"""Rows of a table that are kept in a file as they come, each with its seal, so that what was stopped goes on."""

from __future__ import annotations

import csv
import io
from collections.abc import Callable, Sequence
from pathlib import Path

from ..files.seals import broken, row_seal
from ..files.writing import begun_anew
from ..problem import Problem, reason
from ..texts.cells import guarded, unguarded

SEAL = "seal"
OF_A_SEARCH = "isn't of a search; take the file away, or search in another folder"


class KeptRows:
    """The rows of a table, texts by columns. Without a path they are kept in memory alone.

    `other` says what is wrong with a file of other columns. A row that was changed is refused by its seal, with what it is called
    and what becomes `anew` without it. Of the rows that stand in the file those stay that are `lasting`.
    """

    def __init__(self, path: Path | None, columns: Sequence[str], other: Callable[[Sequence[str]], str] = lambda _: OF_A_SEARCH,
                 line: str = "row", anew: str = "it is worked out anew",
                 lasting: Callable[[Sequence[str]], bool] = lambda _: True) -> None:
        self.path, self.columns, self.other = path, [*columns, SEAL], other
        self.line, self.cure = line, f"take the {line} away, and {anew}"
        self.rows = list(filter(lasting, self._read(path))) if path and path.exists() else []
        self.file = begun_anew(path, self.columns, ([*row, row_seal(row)] for row in self.rows)) if path else io.StringIO()
        self.writer = csv.writer(self.file)

    def _read(self, path: Path) -> list[list[str]]:
        """The whole rows that stand in the file; one that was cut short as a call was stopped isn't one."""
        try:
            with open(path, encoding="utf-8", newline="") as file:
                text = file.read()
            rows = csv.reader(io.StringIO(text[:text.rfind("\n") + 1], newline=""))
            found = [(rows.line_num, [unguarded(cell) for cell in row]) for row in rows]
        except OSError as error:
            raise Problem(f"{path}: {reason(error)}") from None
        except (UnicodeDecodeError, csv.Error):
            raise Problem(f"{path}: isn't a table as these tools write it; take the file away, or name another folder") from None
        if found and found[0][1] != self.columns:
            raise Problem(f"{path}: {self.other(found[0][1])}")
        whole = [(number, row) for number, row in found[1:] if len(row) == len(self.columns)]
        for number, row in whole:
            if row_seal(row[:-1]) != row[-1]:
                raise broken(path, f"{self.line} {number}", self.cure)
        return [row[:-1] for _, row in whole]

    def put(self, row: Sequence[str]) -> None:
        """Adds a row, and writes it at once."""
        self.rows.append(list(row))
        self.writer.writerow(map(guarded, (*row, row_seal(row))))
        self.file.flush()


class KeptValues:
    """The values of the points of one search by their texts; rows of other searches stay in the file.

    The columns are those of the search's mark, the point and its value.
    """

    def __init__(self, path: Path | None, mark: str, columns: Sequence[str]) -> None:
        self.path, self.mark, self.kept = path, mark, KeptRows(path, columns)
        self.values = {point: value for own, point, value in self.kept.rows if own == mark}

    def put(self, point: str, value: str) -> None:
        """Adds a point with its value, and writes its row."""
        self.values[point] = value
        self.kept.put((self.mark, point, value))
