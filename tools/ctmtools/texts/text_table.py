"""Lists and tables of texts, as messages have them and the commands print them."""

from __future__ import annotations

from collections.abc import Container, Iterable, Iterator, Sequence


def first_few(names: Iterable[str], most: int = 3) -> str:
    """The first few of some names, and how many more there are."""
    first = list(names)
    more = len(first) - most
    return ", ".join(first[:most]) + (f" and {more} more" if more > 0 else "")


def listed(names: Sequence[str]) -> str:
    """Names one behind the other, with `and` before the last."""
    return " and ".join(filter(None, [", ".join(names[:-1]), names[-1]]))


def table(rows: Sequence[Sequence[str]], right: Container[int] = ()) -> Iterator[str]:
    """Rows of texts as lines of columns; the columns of `right` stand at the right."""
    from tabulate import tabulate  # here, so a cluster's workers, which print no table, don't need it

    sides = ["right" if column in right else "left" for column in range(len(rows[0]))]
    laid_out = tabulate(rows, tablefmt="plain", colalign=sides, disable_numparse=True)
    return (f"  {line.rstrip()}" for line in laid_out.split("\n"))
