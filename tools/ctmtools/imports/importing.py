"""Networks of other programs, and maps, as files of studies: what a call asks for, what is written, and what is reported of it."""

from __future__ import annotations

from collections.abc import Sequence
from dataclasses import dataclass, replace
from math import isfinite
from pathlib import Path
from typing import TYPE_CHECKING, TypedDict, Unpack, cast

from ..files.writing import write
from ..files.written_over import guard_output
from ..problem import Problem
from ..texts.quantities import clock, duration

if TYPE_CHECKING:
    from .osm_map import Place
    from .streets import Streets
    from .study_file import Terms

CHOICE = 300  # s, the interval in which drivers of a map's study choose their ways
SHARES = ("turning shares aren't on a map: at each junction they are by the lanes of its movements; with --trips drivers choose "
          "their routes")
WITHOUT_DISTRICTS = "--matrix: matrices are taken with --trips and --taz, the file of their districts"
HEADWAYS = (0.5, 5.0)  # s, the least and the most
Names = str | Path | Sequence[str | Path]
Time = str | float  # a bare number is of seconds


class ImportOptions(TypedDict, total=False):
    """The options of each import: the length of a step, when the study begins, until when vehicles come, and how long it goes on.

    With `trips` it keeps who drives from where to where.
    """

    step: Time
    start: str
    until: Time
    after: Time
    trips: bool


class SumoOptions(ImportOptions, total=False):
    """The options of `ctm-tools import sumo`; of `routes`, `additional` and `matrices` (its --matrix) there may be several."""

    routes: Names
    additional: Names
    taz: str | Path | None
    matrices: Names
    interval: Time
    headway: float


class OsmOptions(ImportOptions, total=False):
    """The options of `ctm-tools import osm`."""

    box: str | None
    roads: str | None
    headway: float


SUMO = SumoOptions(step="2 s", start="00:00", until="1 h", after="30 min", trips=False, routes=(), additional=(), taz=None, matrices=(),
                   interval="15 min", headway=1.4)  # what holds where an option isn't said
GMNS = ImportOptions(step="2 s", start="00:00", until="1 h", after="0 s", trips=False)
OSM = OsmOptions(step="2 s", start="06:00", until="1 h", after="30 min", trips=False, box=None, roads=None, headway=1.4)


@dataclass(frozen=True)
class Imported:
    """The study that was written, and the lines that say what is in it and what isn't kept."""

    path: Path
    lines: list[str]


def from_sumo(network: str | Path, output: str | Path | None = None, **options: Unpack[SumoOptions]) -> Imported:
    """Writes the study of a network of SUMO, and of its routes."""
    from .sumo import drop_idle, read_network
    from .sumo_trips import read_trips
    from .zones import put_trips, read_districts, read_matrix

    asked = cast(SumoOptions, {**SUMO, **options})
    trips, taz, matrices, routes = asked["trips"], asked["taz"], _listed(asked["matrices"]), _listed(asked["routes"])
    if (matrices or taz) and not (trips and matrices and taz):
        raise Problem(WITHOUT_DISTRICTS)
    until, interval = seconds(asked["until"], "--until"), seconds(asked["interval"], "--interval")
    terms = _terms(asked, until, asked["headway"])
    found = read_network(network)
    if trips:
        drop_idle(found)  # all choose among the ways of cars
    read_trips(found, routes, _listed(asked["additional"]), until)
    for path in matrices:
        put_trips(found, read_districts(found, taz or ""), read_matrix(path), path, until)
    if routes and not found.trips:
        raise Problem(f"{routes[0]}: {_why_none(found, str(asked['until']))}")
    drop_idle(found)
    return _written(found, terms, (interval, until), Path(output or Path(network).name.split(".")[0] + ".toml"), trips)


def from_gmns(folder: str | Path, output: str | Path | None = None, **options: Unpack[ImportOptions]) -> Imported:
    """Writes the study of a network in GMNS, a folder of CSV files."""
    from .gmns import read_folder
    from .zones import read_gmns_trips

    asked = cast(ImportOptions, {**GMNS, **options})
    trips, until = asked["trips"], seconds(asked["until"], "--until")
    if not trips:
        asked["after"] = 0
    terms = _terms(asked, until)
    found = read_folder(folder, until, links=not trips)
    if trips:
        read_gmns_trips(found, folder, until)
    return _written(found, terms, (until, until), Path(output or f"{found.title}.toml"), trips)


def from_osm(map_file: str | Path, output: str | Path | None = None, **options: Unpack[OsmOptions]) -> Imported:
    """Writes the study of a map of OpenStreetMap, the table to fill in beside it, and what became of the map place by place."""
    from .osm import box_of, read_map
    from .osm_roads import classes_of

    asked = cast(OsmOptions, {**OSM, **options})
    classes, box = classes_of(asked["roads"]), None if asked["box"] is None else box_of(asked["box"])
    until = seconds(asked["until"], "--until")
    terms = _terms(asked, until, asked["headway"])
    found, places = read_map(str(map_file), classes, box, terms.step)
    return _map_written(found, places, terms, until, Path(output or f"{found.title}.toml"), asked["trips"])


def seconds(time: Time, key: str, least: float = 0.1) -> float:
    """A length of time in seconds; a bare number is of seconds."""
    try:
        found = float(time)
    except ValueError:
        found = float(duration(str(time), key))
    if not isfinite(found):
        raise Problem(f"{key}: expected a length of time, found {time}")
    if found < least:
        raise Problem(f"{key}: must be {least:g} s or more")
    return found


def _terms(asked: ImportOptions, until: float, headway: float | None = None) -> Terms:
    """What a study has of the options of its import, in which vehicles come until a time."""
    from .study_file import Terms

    clock(asked["start"], "--start")
    terms = Terms(seconds(asked["step"], "--step"), asked["start"], until + seconds(asked["after"], "--after", least=0))
    if headway is None:
        return terms
    least, most = HEADWAYS
    if not least <= headway <= most:
        raise Problem(f"--headway: expected {least:g} to {most:g} s, found {headway:g}")
    return replace(terms, headway=headway)


def _listed(names: Names) -> list[str | Path]:
    return [names] if isinstance(names, (str, Path)) else list(names)


def _why_none(found: Streets, until: str) -> str:
    """Why a network has no trips: what was left out of its files, or that these have none so early."""
    lost = [note for note in found.notes if "are left out, as" in note or "aren't read" in note]
    lasting = f"{until} s" if until.replace(".", "", 1).isdigit() else until
    return f"no vehicle comes in the first {lasting}" + (f"; {'; '.join(lost)}" if lost else "")


def _guard(target: Path) -> None:
    """Refuses a place for a study of another ending, or where a file of another sort stands."""
    if target.suffix.lower() != ".toml":
        raise Problem(f"{target}: a study's name ends with .toml")
    guard_output(target)


def _written(found: Streets, terms: Terms, times: tuple[float, float], target: Path, trips: bool) -> Imported:
    """Writes the study of streets, with trips where they are asked for; `times` are the interval of its demand, and until when it lasts."""
    from .study_file import Writer
    from .traffic import tally, traffic_of
    from .trip_study import notes_of, open_traffic, trip_study_text

    _guard(target)
    interval, until = times
    traffic = open_traffic(found, until) if trips else traffic_of(found, interval, until)
    if not traffic.streets:
        raise Problem(f"{found.title}: has no street for cars")
    writer = Writer(found, traffic, terms)
    write(target, trip_study_text(writer, interval, until) if trips else writer.text())
    vehicles = sum(one.kept for one in found.said)
    return Imported(target, [f"{target}: {len(traffic.streets)} streets, {len(found.programs)} signals, {vehicles:,.6g} vehicles",
                             *tally(found, interval, until, terms.clock), *(f"  {note}" for note in notes_of(writer, trips))])


def _map_written(found: Streets, places: list[Place], terms: Terms, until: float, target: Path, trips: bool) -> Imported:
    """Writes the study of a map with the table to fill in and that of its places."""
    from .forms import demand_form, end_places, open_trips, trips_form
    from .osm_map import table
    from .study_file import Writer
    from .traffic import traffic_of
    from .trip_study import notes_of, open_traffic, trip_study_text

    _guard(target)
    form, told = (target.with_suffix(f".{name}.csv") for name in ("trips" if trips else "demand", "places"))
    if trips:
        found.trips = open_trips(found, until)
    else:
        found.notes.append(SHARES)
    traffic = open_traffic(found, until) if trips else traffic_of(found, until, until)
    writer = Writer(found, traffic, terms if trips else replace(terms, counts=form.name))
    text = trip_study_text(writer, CHOICE, until, form.name) if trips else writer.text()
    rows = trips_form(writer, until) if trips else demand_form(writer)
    if form.exists() and form.read_bytes() != rows.encode():
        raise Problem(f"{form}: stands there, and may be filled in; name another study with -o, or move it away")
    ends = [*end_places(writer), *places]
    for path, content in ((told, table(ends)), (form, rows), (target, text)):
        write(path, content)
    return Imported(target, [f"{target}: {len(traffic.streets)} streets, {len(found.programs)} signals",
                             f"{form}: {rows.count(chr(10)) - 1} rows in which you fill in the vehicles",
                             f"{told}: {len(ends)} places of the map, and what became of each",
                             *(f"  {note}" for note in notes_of(writer, trips))])
