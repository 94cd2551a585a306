"""From a study file, TOML, to the study: every key known, every value in its unit, and a hint for each sort of slip in TOML."""

from __future__ import annotations

import re
import tomllib
from dataclasses import replace
from fractions import Fraction
from pathlib import Path
from typing import Any, TypedDict

from ..files.reading import read_as
from ..problem import Problem, one_line
from ..texts.quantities import DAY, clock, day, density, duration, exact, flow, lanes, length, number, shown, speed, whole, word
from ..visible import visible
from .coordinates import check_degrees, code, flat
from .crossing_cells import expanded
from .crossings import actuation_of, crossing
from .entries import Entries, Reader, list_of
from .plan import Closure, Diverge, Exit, Flow, Gate, Merge, Meter, Opening, Road, Scenario, Section, Signal, SpeedLimit, Turn
from .pocket_roads import with_pockets
from .precedences import precedence_at_merge, with_merges
from .signals import with_actuated_signals
from .times import Period, Times, road_part
from .trips import read_trips, with_demand
from .uncertainty import uncertainty_of

LANE = ("free_flow_speed", "wave_speed", "jam_density", "saturation_flow")
MOST_NAMES = 100  # of a key with points; for one the work of a reader of TOML grows with their square or their cube
LONG_KEY = re.compile(rf"""(?<![\w-])(?:(?:[\w-]+|"[^"\n]*"|'[^'\n]*')[ \t]*\.[ \t]*){{{MOST_NAMES}}}""")
BY_TIME = "a road has one free-flow speed of its own; say a number, and lower speeds by time as [[speed_limits]]"
LINE = re.compile(r"\(at line ([0-9]+)")
MOST = 1_000  # of the signs of a line that are looked at
SLIPS = (
    (re.compile(r"=[\[\s]*[0-9]+,[0-9]+\s*(#|$)"), "Is a decimal comma meant? Write a point."),
    (re.compile(r"(=|\[|,)\s*[0-9]{1,2}:[0-9]{2}\b"), "Put a clock time in quotes, as \"06:30\"."),
    (re.compile(r";\s*(#|$)"), "Take the semicolon away."),
    (re.compile(r"=\s*[0-9.]+\s*[A-Za-z/%]+"), "Put a number with its unit in quotes, as \"500 m\"."),
    (re.compile(r"=\s*[A-Za-z]"), "Put a text in quotes."),
    (re.compile(r"^\s*[A-Za-z_.]+\s*:"), "A key and its value have an equals sign between them."),
    (re.compile(r"^\s*(//|;|%)"), "A comment begins with #."),
)


class Joints(TypedDict):
    """What joins roads, but for junctions."""

    links: list[tuple[str, str, str]]
    merges: list[Merge]
    diverges: list[Diverge]


def _free_flow_speed(value: Any, key: str) -> Fraction:
    """A free-flow speed, which is one for all times."""
    if isinstance(value, (list, dict)):
        raise Problem(f"{key}: {BY_TIME}")
    return speed(value, key)


LANE_READERS: dict[str, Reader[Fraction]] = {"free_flow_speed": _free_flow_speed, "wave_speed": speed, "jam_density": density,
                                             "saturation_flow": flow}


def read_values(path: str | Path) -> dict[str, Any]:
    """The values of a study file as TOML has them, with each decimal number as an exact fraction."""
    return values_of(read_as(path, "a study"), path)


def values_of(content: bytes, path: str | Path) -> dict[str, Any]:
    """The values that the bytes of a study file spell."""
    try:
        text = content.decode("utf-8-sig")
        if LONG_KEY.search(text):
            raise Problem(f"{path}: has a key of more than {MOST_NAMES} names")
        return tomllib.loads(text, parse_float=exact)
    except UnicodeDecodeError:
        raise Problem(f"{path}: a study file is UTF-8; save it so") from None
    except RecursionError:
        raise Problem(f"{path}: is nested too deeply") from None
    except (tomllib.TOMLDecodeError, ValueError) as error:
        raise Problem(f"{path}: {one_line(error)}{slip_hint(content, str(error))}") from None


def read_scenario(path: str | Path) -> Scenario:
    """The study in a file; see ctmtools.study.plan for its units."""
    return scenario_of(read_values(path), Path(path))


def scenario_of(values: dict[str, Any], path: Path) -> Scenario:
    """The study of the values of a study file. Its path says where files of counts stand."""
    try:
        return _study(Entries(values, ""), path)
    except Problem as problem:
        raise type(problem)(f"{path}: {problem}") from None


def _study(entries: Entries, path: Path) -> Scenario:
    """The study as its file says it, and then what follows of that: demands of trips, streams that give way, junctions' cells."""
    study = _as_written(entries, path)
    for following in (with_demand, with_merges, with_actuated_signals, with_pockets, expanded):
        study = following(study)
    return study


def _as_written(entries: Entries, path: Path) -> Scenario:
    start = entries.take("start", clock, Fraction(0))
    title, step = entries.take("title", word, visible(path.stem)), entries.take("step", duration)
    times, date = Times(Period(start, _duration_of(entries, start), path)), entries.take("date", day, None)
    if step == 0:
        raise Problem("step: must be above 0")
    trips = read_trips(entries, times, _flows(times, "demand"))
    lane: dict[str, Fraction] = entries.take("lane", lambda value, key: _lane(Entries(value, key)), {})
    roads = {name: _road(name, table, lane) for name, table in entries.tables("roads")}
    roads, crs = _located(roads, entries.take("crs", code, None))
    gates = {name: _gate(name, table, times) for name, table in entries.tables("gates")}
    exits = {name: _exit(name, table, times) for name, table in entries.tables("exits")}
    joints = _joints(entries, times, bool(trips.trips))
    signals = [signal for table in entries.list("signals") for signal in _signals(table, times)]
    closures = [_closure(table, times) for table in entries.list("closures")]
    openings = [_opening(table, times) for table in entries.list("openings")]
    times.remarks += entries.take("notes", list_of(word), [])
    meters = [_meter(table, times) for table in entries.list("meters")]
    speed_limits = [_speed_limit(table, times) for table in entries.list("speed_limits")]
    crossings = [crossing(table, times, bool(trips.trips)) for table in entries.list("junctions")]
    uncertain = uncertainty_of(entries.list("uncertain"), times)
    yield_interval = entries.take("yield_interval", duration, Scenario.yield_interval)
    if yield_interval < step:
        raise Problem("yield_interval: must be a step or more")
    entries.done()
    if not roads and not gates:
        raise Problem("roads: is missing")
    return Scenario(title, step, start, times.duration, roads, gates, exits, **joints, signals=signals, closures=closures,
                 openings=openings, crossings=crossings, path=path, remarks=times.remarks, meters=meters,
                 speed_limits=speed_limits, crs=crs, date=date, uncertain=uncertain, trips=trips.trips, routes=trips.routes,
                 routing=trips.routing, ways=trips.ways, yield_interval=min(yield_interval, max(times.duration, step)))


def _joints(entries: Entries, times: Times, trips: bool) -> Joints:
    """What joins roads, but for junctions: links, merges and on-ramps, diverges and off-ramps."""
    links = [_link(table) for table in entries.list("links")]
    merges = [_merge(table) for table in entries.list("merges")]
    merges += [_on_ramp(table) for table in entries.list("on_ramps")]
    diverges = [_diverge(table, times, trips) for table in entries.list("diverges")]
    diverges += [_off_ramp(table, times, trips) for table in entries.list("off_ramps")]
    return {"links": links, "merges": merges, "diverges": diverges}


def _located(roads: dict[str, Road], crs: str | None) -> tuple[dict[str, Road], str | None]:
    """Roads whose points are taken from a coordinate system into km of one in metres, and that one; without one they are in km."""
    points = [(x, y) for road in roads.values() for x, y in road.points] if crs else []
    if crs is None or not points:
        return roads, None
    for road in roads.values():
        check_degrees([(x, y) for x, y in road.points], crs, f"roads.{road.name}.points")
    system, places = flat(points, crs, "crs")
    rest = iter(places)
    return {name: replace(road, points=[list(next(rest)) for _ in road.points]) for name, road in roads.items()}, system


def _duration_of(entries: Entries, start: Fraction) -> Fraction:
    if entries.has("duration") == entries.has("end"):
        raise Problem("end: say either end, a clock time, or duration")
    end, lasting = entries.take("end", clock, None), entries.take("duration", duration, None)
    if end is not None:
        lasting = end - start if end > start else end + DAY - start
    if not lasting:
        raise Problem("duration: must be above 0")
    return lasting


def _lane(table: Entries) -> dict[str, Fraction]:
    lane = {name: table.take(name, LANE_READERS[name]) for name in LANE if table.has(name)}
    for name in LANE:
        table.known.append(name)
        if lane.get(name) == 0:
            raise Problem(f"{table.key(name)}: must be above 0")
    table.done()
    return lane


def _road(name: str, table: Entries, lane: dict[str, Fraction]) -> Road:
    lasting = table.take("length", length)
    if lasting == 0:
        raise Problem(f"{table.key('length')}: must be above 0")
    base: dict[str, Any] = {"lanes": table.take("lanes", whole, None), "cells": table.take("cells", word, name),
            "first_density": table.take("first_density", density, Fraction(0))}
    for term in LANE:
        base[term] = table.take(term, LANE_READERS[term], lane.get(term))
    places = table.list("sections")
    points: list[list[float]] = table.take("points", list_of(list_of(_coordinate, 2)), [])
    table.done()
    sections: list[Section] = []
    if not places or places[0].take("from", length) > 0:
        sections.append(_section(table, None, base))
    for place in places:
        sections.append(_section(table, place, base))
        if len(sections) > 1 and sections[-1].start <= sections[-2].start or sections[-1].start >= lasting:
            raise Problem(f"{place.key('from')}: sections stand in the direction of travel and begin within the road")
    return Road(name, lasting, sections, points)


def _coordinate(value: Any, key: str) -> float:
    return float(number(value, key))


def _section(road: Entries, place: Entries | None, base: dict[str, Any]) -> Section:
    """A section with what the road says where it says nothing itself."""
    readers: dict[str, Reader[Any]] = {"lanes": whole, "first_density": density, "cells": word, **LANE_READERS}
    table = place or Entries({}, road.place)
    start = table.take("from", length) if place else Fraction(0)
    terms = {name: table.take(name, read, base[name]) for name, read in readers.items()}
    table.done()
    for name, value in terms.items():
        if value is None:
            raise Problem(f"{road.key(name)}: is missing, and [lane] doesn't say it" if name in LANE else
                          f"{road.key(name)}: is missing")
    for name in LANE:
        if terms[name] == 0:
            raise Problem(f"{table.key(name)}: must be above 0")
    if terms["wave_speed"] > terms["free_flow_speed"]:
        raise Problem(f"{table.key('wave_speed')}: must be at most the free-flow speed")
    if terms["first_density"] > terms["jam_density"]:
        raise Problem(f"{table.key('first_density')}: must be at most the jam density")
    return Section(start, **terms)


def _flows(times: Times, what: str) -> Reader[list[Flow]]:
    """A reader of flows by time: one number for the whole study, rows of start, end and flow, or tables of them."""
    def read(value: Any, key: str) -> list[Flow]:
        if isinstance(value, dict):
            if what != "demand":
                raise Problem(f"{key}: expected rows of start, end and flow")
            from .counts import flows_of_counts  # here, so that who has no counts doesn't load what reads them

            return flows_of_counts(Entries(value, key), times)
        if not isinstance(value, list):
            return [Flow(Fraction(0), times.duration, flow(value, key))]
        return [_flow_row(row, f"{key}[{i}]", times) for i, row in enumerate(value, 1)]
    return read


def _flow_row(row: Any, key: str, times: Times) -> Flow:
    if isinstance(row, dict):
        table = Entries(row, key)
        begin, end = times.span(table)
        amount = table.take("flow", flow)
        table.done()
        return Flow(begin, end, amount)
    if not isinstance(row, list) or len(row) != 3:
        raise Problem(f"{key}: expected [start, end, flow], found {shown(row)}")
    begin, end = times.checked(times.after_start(row[0], key), times.after_start(row[1], key), key, key)
    return Flow(begin, end, flow(row[2], key))


def _gate(name: str, table: Entries, times: Times) -> Gate:
    counted = isinstance(table.values.get("demand"), dict)
    gate = Gate(name, table.take("into", word, None), table.take("demand", _flows(times, "demand"), []),
                table.take("capacity", flow, None), table.take("limits", _flows(times, "limits"), []),
                table.take("first", number, Fraction(0)), counted)
    table.done()
    return gate


def _exit(name: str, table: Entries, times: Times) -> Exit:
    found = Exit(name, table.take("from", word, None), table.take("capacity", flow, None),
                 table.take("limits", _flows(times, "limits"), []))
    table.done()
    return found


def _link(table: Entries) -> tuple[str, str, str]:
    link = table.take("from", word), table.take("into", word), table.place
    table.done()
    return link


def _weights(value: Any, key: str) -> list[Fraction]:
    weights = list_of(number, 2)(value, key)
    if min(weights) < 0 or max(weights) == 0:
        raise Problem(f"{key}: expected two numbers that aren't negative, and not both 0")
    return weights


def _merge(table: Entries) -> Merge:
    merge = Merge(table.take("from", list_of(word, 2)), table.take("into", word), table.take("priorities", _weights),
                  place=table.place)
    return _with_precedence(table, merge)


def _on_ramp(table: Entries) -> Merge:
    road = table.take("road", word)
    merge = Merge([road, table.take("ramp", word)], road, table.take("priorities", _weights), table.take("at", length),
                  table.place)
    return _with_precedence(table, merge)


def _with_precedence(table: Entries, merge: Merge) -> Merge:
    """A merge with the one of both streams that has priority, where its table says it."""
    yields_to, gaps = precedence_at_merge(table, merge)
    table.done()
    return replace(merge, yields_to=yields_to, gaps=gaps)


def _turns(table: Entries, times: Times) -> list[Turn]:
    turns = []
    for row in table.list("turns"):
        begin, end = times.span(row)
        turns.append(Turn(begin, end, row.take("shares", _weights)))
        row.done()
    return turns


def _diverge(table: Entries, times: Times, trips: bool) -> Diverge:
    diverge = Diverge(table.take("from", word), table.take("into", list_of(word, 2)), _shares(table, trips),
                      _turns(table, times), place=table.place, by_trips=not table.has("shares"))
    table.done()
    return diverge


def _off_ramp(table: Entries, times: Times, trips: bool) -> Diverge:
    road = table.take("road", word)
    diverge = Diverge(road, [road, table.take("ramp", word)], _shares(table, trips), _turns(table, times),
                      table.take("at", length), table.place, not table.has("shares"))
    table.done()
    return diverge


def _shares(table: Entries, trips: bool) -> list[Fraction]:
    """The shares of a diverge; where the study has trips they may be left out, with those by time."""
    if not trips or table.has("shares"):
        return table.take("shares", _weights)
    if table.has("turns"):
        raise Problem(f"{table.key('turns')}: shares by time stand without shares; leave both out, and the diverge goes by "
                      "the trips")
    return table.take("shares", _weights, [Fraction(1), Fraction(1)])


def _signals(table: Entries, times: Times) -> list[Signal]:
    """The signals of an entry: one stop line or several, each `offset` after the one before."""
    road = table.take("road", word)
    several = isinstance(table.values.get("at"), list)
    lines: list[Fraction | None] = [*table.take("at", list_of(length))] if several else [table.take("at", length, None)]
    span = times.span(table)
    cycle, green = table.take("cycle", duration), table.take("green", duration)
    first = table.take("first_green", duration, Fraction(0))
    if isinstance(table.values.get("offset"), list):
        greens = table.take("offset", list_of(duration, len(lines)))
    else:
        offset = table.take("offset", duration, Fraction(0))
        greens = [first + i * offset for i in range(len(lines))] if several else [first + offset]
    follows = table.take("actuated", actuation_of, None)
    table.done()
    if not 0 < green <= cycle:
        raise Problem(f"{table.key('green')}: must be above 0 s and at most the cycle, {float(cycle):g} s")
    return [Signal(road, line, *span, cycle, green, begin, table.place, follows)
            for line, begin in zip(lines, greens)]


def _closure(table: Entries, times: Times) -> Closure:
    closure = Closure(road_part(table, times), table.take("lanes", lanes, None), table.take("capacity", flow, None),
                      table.take("saturation_flow", flow, None))
    table.done()
    if (closure.lanes is None) == (closure.capacity is None):
        raise Problem(f"{table.key('lanes')}: say either lanes, those that are closed, or capacity, what is left")
    return closure


def _opening(table: Entries, times: Times) -> Opening:
    opening = Opening(road_part(table, times), table.take("lanes", lanes), table.take("saturation_flow", flow, None))
    table.done()
    if opening.lanes == 0:
        raise Problem(f"{table.key('lanes')}: must be above 0")
    return opening


def _speed_limit(table: Entries, times: Times) -> SpeedLimit:
    limit = SpeedLimit(road_part(table, times), table.take("speed", speed))
    table.done()
    if limit.speed == 0:
        raise Problem(f"{table.key('speed')}: must be above 0; a closure lets no vehicle through")
    return limit


def _meter(table: Entries, times: Times) -> Meter:
    start, end = times.span(table)
    meter = Meter(table.take("ramp", word), table.take("road", word, None), table.take("at", length, None),
                  table.take("gain", number, Meter.gain), table.take("occupancy", number, None),
                  table.take("interval", duration, Meter.interval), table.take("least", flow, Meter.least),
                  table.take("most", flow, None), start, end, table.place)
    table.done()
    if (meter.road is None) != (meter.at is None):
        raise Problem(f"{table.key('at')}: a detector has both road and at, or none of them")
    return meter


def slip_hint(content: bytes, message: str) -> str:
    """A hint on a fault that the reader of TOML reports of a line, with the line, or an empty text."""
    if content.startswith(b"PK\x03\x04"):
        return "; this is an Excel workbook or another archive"
    found = LINE.search(message)
    lines = content.decode("utf-8", "replace").splitlines()
    if not found or int(found[1]) > len(lines):
        return ""
    line = lines[int(found[1]) - 1].strip()[:MOST]
    hint = next((text for slip, text in SLIPS if slip.search(line)), "")
    if "overwrite" in message or "twice" in message:
        hint = "It stands above already; a key and a table stand once."
    return f"; `{line[:60]}`. {hint}".rstrip()
