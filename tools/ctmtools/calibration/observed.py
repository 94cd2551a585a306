"""What detectors saw, as CSV: at a place and in an interval the flow and, where it is known, the speed."""

from __future__ import annotations

from collections.abc import Iterable, Mapping, Sequence
from dataclasses import dataclass, field
from pathlib import Path

import numpy
import pandas

from ..detectors.file_set import paths_of
from ..detectors.formats import needed, plain
from ..detectors.numbers import by_text, numbers
from ..detectors.options import Wanted
from ..detectors.reading import read
from ..detectors.table import Source, counted, named_days, source_of
from ..problem import Problem
from ..report.measures import measured
from ..report.reading import Report
from ..report.travel import cell_before
from ..study.plan import Scenario
from ..texts.quantities import DAY, clock

NEEDED = ("place", "start", "end", "flow")
Names = str | Path | Iterable[str | Path]


@dataclass(frozen=True)
class Observed:
    """The rows of a file: place, start and end in seconds after midnight, vehicles/h, and km/h where they are known."""

    path: Path
    rows: pandas.DataFrame
    lines: list[str] = field(default_factory=list)  # what was read and left out

    @property
    def places(self) -> list[str]:
        """The detectors, in the order of the file."""
        return list(dict.fromkeys(self.rows.place))


def read_observed(names: Names, wanted: Wanted = Wanted(), places: Mapping[str, str] | None = None, study: Scenario | None = None) -> Observed:
    """What detectors saw: a file with the columns place (`ROAD.KM`), start, end, flow, and speed where it is known, or files in
    another format.

    Of other files `places` say where each station stands, one by default where its own name says, and the rows are those that
    lie within the study's time.
    """
    paths = paths_of(names)
    source = source_of(paths[0], wanted.separator)
    if len(paths) == 1 and (places is None or not places) and {plain(name) for name in source.first} >= {"place", "start"}:
        return _own(source, wanted.decimal)
    if study is None:
        for column in NEEDED if len(paths) == 1 else ():
            needed(source, column)
        raise Problem(f"{source.path}: is no file of detectors with the columns {', '.join(NEEDED)}")
    return _of_stations(paths, wanted, places or {}, study)


def _own(source: Source, decimal: str | None) -> Observed:
    """The rows of a file with the columns place, start, end, flow and speed."""
    columns = {name: needed(source, name) for name in NEEDED}
    if any(name.casefold() == "speed" for name in source.first):
        columns["speed"] = needed(source, "speed")
    texts = source.rows(source.head + 1, [column.number for column in columns.values()])
    if texts.empty:
        raise Problem(f"{source.path}: has no rows")
    rows = pandas.DataFrame({"place": texts[columns["place"].number].astype(str).str.strip()})
    for name in ("start", "end"):
        column = texts[columns[name].number]
        seconds = by_text(column, lambda text, key: float(clock(text.strip(), key)), f"{source.path}: line {{}}, {name}".format, True)
        rows[name] = column.map(dict(zip(column.cat.categories, seconds))).astype(float)
    for name in ("flow", "speed"):
        rows[name] = numpy.nan
        if name in columns:
            rows[name] = numbers(texts[columns[name].number], decimal or ".", source.path, name, "a flow" if name == "flow" else "a speed")
    lost = rows.flow.isna() | (rows.end <= rows.start)
    if lost.any():
        raise Problem(f"{source.path}: line {lost.idxmax()}: expected a flow, 0 or more, and an end after the start")
    twice = rows.duplicated(["place", "start", "end"])
    if twice.any():
        raise Problem(f"{source.path}: line {twice.idxmax()}: {rows.place[twice.idxmax()]} has a row of that time already")
    return Observed(source.path, rows.reset_index(drop=True))


def _of_stations(paths: Sequence[Path], wanted: Wanted, places: Mapping[str, str], study: Scenario) -> Observed:
    """The rows of stations that stand in the study, within its time, of one day or the mean or median of several."""
    found = read(paths, wanted)
    if found.files.dated and study.start + study.duration > DAY:
        raise Problem(f"{found.files.name}: the study passes midnight; for that a file with the columns {', '.join(NEEDED)} is read")
    if wanted.average is None and found.rows.day.nunique() > 1:
        raise Problem(f"{found.files.name}: has several days, {named_days(list(map(str, found.rows.day.unique())))}; choose one by --dates, or "
                      "say --average mean or median")
    unknown = next((name for name in places if name not in found.files.stations), None)
    if unknown is not None:
        raise Problem(f"{found.files.name}: has no station {unknown}, it has {counted(found.files.stations)}")
    rows = found.rows.astype({"station": str})
    rows = rows[rows.station.isin(list(places))] if places else rows
    begin = rows.second + numpy.where(rows.second < float(study.start), DAY, 0)
    inside = begin + found.interval <= float(study.start + study.duration)
    kept = rows[inside].assign(start=begin[inside])
    if kept.empty:
        raise Problem(f"{found.files.name}: has no row of {', '.join(places) or 'a station'} within the study's time")
    seen = pandas.DataFrame({"place": kept.station.replace(dict(places)), "start": kept.start % DAY,
                             "end": kept.start % DAY + found.interval, "flow": kept.flow, "speed": kept.speed})
    lines = [*found.lines, f"compared: {len(kept):,} rows of {kept.station.nunique()} stations within the study's time"]
    return Observed(paths[0], seen.reset_index(drop=True), lines)


def modelled(report: Report, observed: Observed) -> pandas.DataFrame:
    """The flow and the speed that a report has where and when detectors saw theirs, row by row of the observations.

    They are those of the cell that ends at the place, by Edie's definitions.
    """
    report.need_records()
    units = report.units
    if units.step is None:
        raise Problem(f"{report.name}: the units aren't known, so it can't be compared with detectors")
    found, lengths = [], report.lengths
    for row in observed.rows.itertuples():
        try:
            cell = cell_before(report, row.place)
        except Problem:
            raise Problem(f"{observed.path}: {row.place} is no place of the study; it is ROAD.KM") from None
        begin, end = ((time - (units.start or 0) + (DAY if time < (units.start or 0) else 0)) / units.step
                      for time in (row.start, row.end))
        first, last = numpy.searchsorted(report.times[:-1], (begin - 0.5, end - 0.5))
        if first == last:
            raise Problem(f"{observed.path}: {row.place} has a row that isn't within the study's time")
        seen = measured(report, report.times[[first, last]], [cell], lengths[[report.place(cell)]])
        found.append((seen.flow[0, 0], seen.speed[0, 0]))
    return pandas.DataFrame(found, columns=["flow", "speed"], index=observed.rows.index)
