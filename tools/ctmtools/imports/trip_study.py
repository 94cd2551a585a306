"""The study that a street network becomes whose vehicles choose their ways: trips in place of demand and turning shares."""

from __future__ import annotations

from dataclasses import replace
from fractions import Fraction
from typing import Any

import networkx

from ..problem import Problem
from ..study.writing import Rows, sections, text_of
from .streets import Streets, Trip, reached
from .study_file import Terms, Writer
from .traffic import EXIT, GATE, Traffic

ROUTES = "vehicles have no routes of their own"  # of the note of a study with shares
FOLLOWS = {"diverges": ("shares", "turns"), "junctions": ("shares", "turns"), "gates": ("demand",)}  # from the trips


def trip_study_text(writer: Writer, interval: float, until: float, file: str | None = None) -> str:
    """The text of a study of open traffic, with a gate and an exit where trips begin and end, and the trips by interval.

    With a `file` they are those of a list of trips beside the study.
    """
    found, values = writer.found, writer.values()
    values["notes"] = Rows(notes_of(writer, trips=True))
    values["routing"] = {"interval": round(interval)}
    trips: Any = {"file": file} if file else [_pair(pair, rows, writer.terms, interval, writer.names)
                                              for pair, rows in _by_pair(found.trips, interval, until).items()]
    if file:
        values["trips"] = trips
    tables = (replace(table, values={name: value for name, value in table.values.items() if name not in FOLLOWS.get(table.names[0], ())})
              for table in writer.tables())
    return text_of(values, [*tables, *([] if file else sections("trips", trips))],
                   f"Made by ctm-tools import of {found.title}, with its trips")


def notes_of(writer: Writer, trips: bool) -> list[str]:
    """What of the network a study doesn't keep, with trips or without."""
    return [note for note in writer.notes() if not (trips and note.startswith(ROUTES))]


def open_traffic(found: Streets, until: float) -> Traffic:
    """Traffic on all streets that lie on some way of trips, and on all movements between them, so that each way may be taken."""
    if not found.trips:
        raise Problem(f"{found.title}: there are no trips")
    graph = networkx.DiGraph(list(found.ways))
    for trip in found.trips:
        graph.add_edges_from([(GATE + trip.route[0], trip.route[0]), (trip.route[-1], EXIT + trip.route[-1])])
    kept = reached(graph, {GATE + trip.route[0] for trip in found.trips}) & \
        reached(graph.reverse(), {EXIT + trip.route[-1] for trip in found.trips})
    made = Traffic(until, 1, [street for street in found.streets if street in kept])
    for movement in graph.edges:
        if kept.issuperset(movement):
            made.moved[movement] = [1.0]
    return made


def _by_pair(trips: list[Trip], interval: float, until: float) -> dict[tuple[str, str], dict[int, float]]:
    """For each pair of streets the vehicles that set out in each interval."""
    pairs: dict[tuple[str, str], dict[int, float]] = {}
    for trip in trips:
        rows = pairs.setdefault((trip.route[0], trip.route[-1]), {})
        begin, end = trip.begin, min(max(trip.end, trip.begin), until)
        for number in range(int(begin // interval), int(end // interval) + 1):
            low, high = max(begin, number * interval), min(end, (number + 1) * interval)
            part = 1.0 if end <= begin else (high - low) / (end - begin)
            if part > 0:
                rows[number] = rows.get(number, 0.0) + trip.vehicles * part
    return pairs


def _pair(pair: tuple[str, str], rows: dict[int, float], terms: Terms, interval: float, names: dict[str, str]) -> dict[str, Any]:
    """The trips of a pair as the study has them; what sets out in an interval does so evenly."""
    demand = [[terms.clock(number * interval), terms.clock((number + 1) * interval), Fraction(f"{vehicles * 3600 / interval:.6f}")]
              for number, vehicles in sorted(rows.items())]
    return {"from": names[GATE + pair[0]], "to": names[EXIT + pair[1]], "demand": demand}
