"""What reports that stand side by side are called, and where they aren't like with like: other cells, places, times or lanes."""

from __future__ import annotations

from collections.abc import Iterator, Mapping, Sequence
from pathlib import Path
from typing import Any

from ..texts.text_table import first_few
from .reading import Report

TERMS = {"lanes": ("number of lanes", ""), "free_flow_kmh": ("free-flow speed", " km/h"),
         "wave_kmh": ("wave speed", " km/h")}


def mismatches(first: Report, second: Report) -> Iterator[str]:
    """A line for each thing in which the networks and the times of two reports, A and B, differ."""
    yield from _cells(first, second)
    yield from _places(first, second)
    spans = [_span(report) for report in (first, second)]
    if spans[0] != spans[1]:
        yield f"A is of {spans[0]}, B of {spans[1]}"


def other_lanes_and_speeds(first: Report, second: Report) -> Iterator[str]:
    """A line for each of lanes and speeds in which cells of one place differ, A and B: what one compares, mostly."""
    for key, (what, unit) in TERMS.items():
        other = [(cell, row[key], second.units.cells[cell][key]) for cell, row in first.units.cells.items()
                 if cell in second.units.cells and _place(row) == _place(second.units.cells[cell])
                 and row.get(key) != second.units.cells[cell].get(key)]
        if other:
            cell, one, two = other[0]
            yield (f"{len(other)} cell{'s have' if len(other) > 1 else ' has'} another {what} in A and in B, as {cell}: "
                   f"{one:g}{unit} in A, {two:g}{unit} in B")
    yield from _speed_limits(first, second)


def _speed_limits(first: Report, second: Report) -> Iterator[str]:
    """The cells of one place whose speed limits by time differ."""
    if first.network is None or second.network is None:
        return
    limits = [{cell: list(pace.slower()) for cell, pace in network.paces.items()} for network in (first.network, second.network)]
    other = [cell for cell in first.names if cell in second.names and limits[0].get(cell) != limits[1].get(cell)]
    if other:
        told = [_limit(report, other[0], own.get(other[0])) for report, own in zip((first, second), limits)]
        yield (f"{len(other)} cell{'s have' if len(other) > 1 else ' has'} other speed limits in A and in B, as {other[0]}: {told[0]} in A, "
               f"{told[1]} in B")


def _limit(report: Report, cell: str, limits: Sequence[tuple[int, int, float]] | None) -> str:
    """The first speed limit of a cell, and how many more it has."""
    if not limits:
        return "none"
    begin, end, part = limits[0]
    units, own = report.units, report.units.cells.get(cell, {}).get("free_flow_kmh")
    speed = f"{own * part:.6g} km/h" if own else f"{part:.6g} cells in a step"
    times = [units.clock(step) if units.known else f"step {step}" for step in (begin, end)]
    more = f" and {len(limits) - 1} more" if len(limits) > 1 else ""
    return f"{speed} from {times[0]} to {times[1]}{more}"


def _cells(first: Report, second: Report) -> Iterator[str]:
    known = [set(report.names) for report in (first, second)]
    alone = [[cell for cell in one.names if cell not in other] for one, other in ((first, known[1]), (second, known[0]))]
    if any(alone):
        both = len(first.names) - len(alone[0])
        told = [f"{len(cells)} of {name} alone ({first_few(cells)})" for name, cells in zip("AB", alone) if cells]
        yield f"A and B have other cells: {' and '.join(told)}, {both} of both"


def _places(first: Report, second: Report) -> Iterator[str]:
    """The cells of one name that are another part of a road in the second report."""
    moved = [(cell, row, second.units.cells[cell]) for cell, row in first.units.cells.items()
             if cell in second.units.cells and _place(row) != _place(second.units.cells[cell])]
    if moved:
        cell, row, other = moved[0]
        yield (f"{len(moved)} cells of one name are other parts of a road in A and in B, as {cell}: {_told(row)} in A, "
               f"{_told(other)} in B")


def _place(row: Mapping[str, Any]) -> tuple[str, float, float]:
    return row["road"], round(row["from_km"], 6), round(row["to_km"], 6)


def _told(row: Mapping[str, Any]) -> str:
    return f"{row['road']} km {row['from_km']:.6g} to {row['to_km']:.6g}"


def _span(report: Report) -> str:
    units = report.units
    if not units.known:
        return f"{report.steps:,} steps of unknown length"
    return f"{report.steps:,} steps of {units.step:g} s, {units.clock(0)} to {units.clock(report.steps)}"


def names_of(reports: Sequence[Report]) -> list[str]:
    """A name for each report, no two alike: its title, else its file's name, else its path, else its title with a number."""
    paths, titles = [report.name for report in reports], [report.title for report in reports]
    for names in (titles, [Path(path).stem for path in paths], paths):
        if len(set(names)) == len(names):
            return names
    return [f"{title} ({number})" for number, title in enumerate(titles, 1)]
