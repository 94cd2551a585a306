"""Two assignments side by side: for each pair who gained and who lost."""

from __future__ import annotations

from collections.abc import Iterator, Sequence

import pandas

from ..report.reading import Report
from ..report.summary import number_text
from ..texts.text_table import table
from .ways_file import WayRow, ways_of_report

MOST_PAIRS = 10  # so many pairs are printed, those with the greatest changes
LEAST = 0.005  # minutes; a pair whose mean changes by less neither gains nor loses


def pairs_of(rows: Sequence[WayRow]) -> pandas.DataFrame:
    """For each pair its vehicles and the mean of their minutes."""
    frame = pandas.DataFrame([(row.source, row.into, row.vehicles, row.vehicles * row.minutes) for row in rows],
                             columns=["from", "to", "vehicles", "minutes"])
    sums = frame.groupby(["from", "to"], sort=False).sum()
    sums["minutes"] /= sums.vehicles
    return sums


def compare_pairs(first: Sequence[WayRow], second: Sequence[WayRow]) -> pandas.DataFrame:
    """A row for each pair of both: the means of each in minutes, their rise, and that of all its drivers in vehicle-hours."""
    frame = pairs_of(first).join(pairs_of(second), lsuffix="_first", rsuffix="_second", how="inner")
    frame["rise"] = frame.minutes_second - frame.minutes_first
    frame["hours"] = (frame.vehicles_second * frame.minutes_second - frame.vehicles_first * frame.minutes_first) / 60
    return frame.loc[frame.hours.abs().sort_values(ascending=False, kind="stable").index]


def pair_changes(first: Report, second: Report) -> Iterator[str]:
    """What is reported of the pairs of two reports beside which ways stand; nothing where they don't."""
    one, two = ways_of_report(first), ways_of_report(second)
    if one is None or two is None:
        return
    frame = compare_pairs(one, two)
    gained, lost = int((frame.rise <= -LEAST).sum()), int((frame.rise >= LEAST).sum())
    yield from ("", f"Of {len(frame)} pairs {gained} gained and {lost} lost; the mean from gate to exit in min, the greatest "
                "changes:", "")
    rows = [(source, into, number_text(row.vehicles_second), number_text(row.minutes_first), number_text(row.minutes_second), _signed(row.rise),
             _signed(row.hours)) for (source, into), row in frame[:MOST_PAIRS].iterrows()]
    yield from table([("from", "to", "vehicles", "A", "B", "B - A", "vehicle-hours"), *rows], right=range(2, 7))


def _signed(value: float) -> str:
    text = number_text(abs(value))
    return "0" if text == "0" else ("+" if value > 0 else "-") + text
