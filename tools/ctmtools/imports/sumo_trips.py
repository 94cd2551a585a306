"""The vehicles of SUMO's route files: single ones, trips and flows, with their routes or the way of the least time."""

from __future__ import annotations

from collections import Counter
from collections.abc import Iterator, Sequence
from pathlib import Path

from ..problem import Problem
from ..study.folder import file_beside
from .streets import Said, Streets, Trip
from .sumo_departures import Departing, Stretch
from .sumo_net import MOTOR, Element, read_xml
from .sumo_routes import ANY_STREET, Kinds, Routes, Weighted, parts_of
from .sumo_signs import read_signs

ROOTS = ("routes", "additional", "add", "trips", "flows")
VEHICLES = ("vehicle", "trip", "flow")
CHANGING = ("calibrator", "rerouter", "tlLogic", "WAUT", "taz", "person", "personFlow", "container", "containerFlow")


def read_trips(found: Streets, routes: Sequence[str | Path], additional: Sequence[str | Path], until: float) -> None:
    """Puts the trips of files, until a time, among those of the streets, and their variable speed signs among the speed limits.

    What the additional files have is read first, as by SUMO.
    """
    reader = Reader(found, until)
    roots = [(str(path), element) for path in [*additional, *routes] for element in elements(path)]
    for path, element in roots:
        if element.tag in ("vType", "vTypeDistribution"):
            reader.kinds.take(element, path)
        elif element.tag == "route":
            reader.routes.take(element, path)
    for path, element in roots:
        if element.tag == "routeDistribution":
            reader.routes.take(element, path)
    for path, element in roots:
        inner = list(element) if element.tag == "interval" else [element]
        for one in (one for one in inner if one.tag in VEHICLES):
            reader.take(Departing(one, path, element.attrib if element.tag == "interval" else {}))
    reader.tell()
    _note_changing(found, roots)
    _note_lengths(found, reader.kinds)
    read_signs(found, roots)


def elements(path: str | Path, around: tuple[Path, ...] = ()) -> Iterator[Element]:
    """The elements of a file, and of those that it includes; `around` are the files that include it."""
    for element in read_xml(path, *ROOTS):
        if element.tag == "include":
            inner = file_beside(Path(path), element.get("href", ""), str(path), "file")
            if inner.resolve() in (Path(path).resolve(), *around):
                raise Problem(f"{path}: includes {element.get('href')}, which includes it")
            yield from elements(inner, (*around, Path(path).resolve()))
        else:
            yield element


def _note_changing(found: Streets, roots: Sequence[tuple[str, Element]]) -> None:
    """Notes what changes traffic and isn't read."""
    for (path, kind), count in Counter((path, element.tag) for path, element in roots if element.tag in CHANGING).items():
        found.notes.append(f"{Path(path).name}: {count} elements {kind} aren't read")


def _note_lengths(found: Streets, kinds: Kinds) -> None:
    """Notes vehicles that take another length than the one for all."""
    other = sorted(kinds.lengths - {7.5})
    if other:
        lengths = ", ".join(f"{length:g}" for length in other[:4])
        found.notes.append(f"vehicles that take {lengths} m take as much as the others")


class Reader:
    """Reads the elements of route files, and counts what can't be kept of them."""

    def __init__(self, found: Streets, until: float) -> None:
        self.found, self.until = found, until
        self.kinds, self.routes = Kinds(), Routes(found)
        self.lost: dict[tuple[str, str], list[tuple[float, str]]] = {}  # by file and cause
        self.drawn, self.unsorted = 0.0, 0.0
        self.seen: set[tuple[bool, str]] = set()
        self.last: dict[str, float] = {}  # of each file the latest departure so far

    def take(self, one: Departing) -> None:
        """Puts the trips of an element among those of the streets."""
        if one.name and (one.is_flow, one.name) in self.seen:
            raise Problem(f"{one.key}: another one of this name stands before it")
        self.seen.add((one.is_flow, one.name))
        parts, given = self.kinds.parts(one.element, one.key), self.routes.of(one.element, one.key)
        stretches = list(one.stretches(self.until))
        self._sort(one, stretches)
        for stretch in stretches:
            for kind, part in parts.items():
                kept = self._kept(one, kind, stretch, stretch.vehicles * part, given)
                self.found.said.append(Said(kind, stretch.begin, stretch.end, stretch.vehicles * part, kept))
                self.drawn += kept * stretch.drawn

    def _sort(self, one: Departing, stretches: Sequence[Stretch]) -> None:
        """Counts the vehicles of an element that stands behind one of a later departure, which SUMO leaves out."""
        begin = stretches[0].begin
        if begin is not None:
            if begin < self.last.get(one.path, 0.0):
                self.unsorted += sum(stretch.vehicles for stretch in stretches)
            self.last[one.path] = max(begin, self.last.get(one.path, 0.0))

    def _kept(self, one: Departing, kind: str, stretch: Stretch, vehicles: float, given: Weighted | None) -> float:
        """Keeps the vehicles of a class, each part of them by its route, or counts why not; gives how many are kept."""
        if stretch.begin is None:
            self._lose(one, f"that depart {one.element.get('depart')}", vehicles)
            return 0.0
        if stretch.begin >= self.until or not vehicles:
            return 0.0
        if kind not in MOTOR and kind != ANY_STREET:
            self._lose(one, f"of class {kind}, no motor vehicles,", vehicles)
            return 0.0
        kept = 0.0
        for route, part, cause in self._ways(one, kind, given):
            if cause:
                self._lose(one, "without a route over the network", vehicles * part, cause)
            else:
                kept += vehicles * part
                self.found.trips.append(Trip(route, stretch.begin, stretch.end, vehicles * part))
        return kept

    def _ways(self, one: Departing, kind: str, given: Weighted | None) -> Iterator[tuple[list[str], float, str]]:
        """The routes of an element, the part of its vehicles that takes each, and why they can't where they can't."""
        if given is None:
            route, cause = self.routes.between(one.element, kind)
            yield route, 1.0, cause
            return
        parts = parts_of([(str(place), weight) for place, (_, weight) in enumerate(given)], one.key)
        for place, (route, _) in enumerate(given):
            if parts[str(place)]:
                yield route, parts[str(place)], self.routes.why_not(route, kind) or ""

    def _lose(self, one: Departing, why: str, vehicles: float, cause: str = "") -> None:
        first = f"{one.element.tag} {one.name} {cause}".strip()
        self.lost.setdefault((one.path, why), []).append((vehicles, first))

    def tell(self) -> None:
        """Notes what wasn't kept, and what isn't as in SUMO."""
        for (path, why), rows in self.lost.items():
            self.found.notes.append(f"{Path(path).name}: {sum(count for count, _ in rows):,.6g} vehicles {why} are left "
                                    f"out, as {rows[0][1]}")
        if self.drawn:
            self.found.notes.append(f"{self.drawn:,.6g} vehicles come in flows that SUMO draws at random: these are their means")
        if self.unsorted:
            self.found.notes.append(f"{self.unsorted:,.6g} vehicles stand behind others of a later departure, where SUMO leaves "
                                    "them out; they are kept")
