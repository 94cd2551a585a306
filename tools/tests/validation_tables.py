"""The tables of docs/VALIDATION.md."""

import re

from .examples import TOOLS

PAGE = (TOOLS.parent / "docs/VALIDATION.md").read_text()


def rows_under(heads):
    """The cells of each row of the table with these heads."""
    rows = PAGE.partition(f"\n| {heads} |\n")[2].partition("\n\n")[0].splitlines()[1:]
    return [[cell.strip() for cell in row.strip("|").split("|")] for row in rows]


def figures_of(case):
    """The figures that the table of cases has of a case by theory, and those by the program, as they are written."""
    told = [row for row in rows_under("Case | By theory | By the program") if re.sub(r"\[|\].*|: .*", "", row[0]) == case]
    assert len(told) == 1, case
    return [re.findall(r"\d(?:[\d,:]*\d)?(?:\.\d+)?", cell) for cell in told[0][1:]]


def number(text):
    return float(text.replace(",", ""))
