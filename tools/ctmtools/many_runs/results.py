"""What many runs of a study came to, as functions give it."""

from __future__ import annotations

from dataclasses import dataclass, field
from typing import TYPE_CHECKING, Any

if TYPE_CHECKING:
    import pandas


@dataclass(eq=False)
class Results:
    """A frame of `rows`, one for each run; where runs are ranked the best is first, and where one failed `error` says why.

    `keys` are the columns that say what was varied, and `figures` what all runs together came to, by name.
    """

    rows: pandas.DataFrame = field(repr=False)
    keys: tuple[str, ...] = ()
    figures: dict[str, float] = field(default_factory=dict)

    @property
    def best(self) -> dict[str, Any]:
        """The first row, as values by the names of columns."""
        row: dict[str, Any] = self.rows.iloc[0].to_dict()
        return row

    def __len__(self) -> int:
        return len(self.rows)

    def _repr_html_(self) -> str:
        text: str = self.rows.to_html(index=False)
        return text
