"""The variable speed signs of SUMO's additional files, as speed limits by time of streets.

From the time of each step its lanes have its speed, until the next one; a step without a speed, or with a negative one, gives
them their own again.
"""

from __future__ import annotations

import math
from collections.abc import Iterator, Sequence
from itertools import pairwise
from pathlib import Path

from ..problem import Problem
from ..study.folder import file_beside
from ..texts.text_table import first_few
from .streets import SpeedSpan, Street, Streets
from .sumo_net import Element, read_xml, seconds_of

SIGN = "variableSpeedSign"
ROOTS = ("vss", "variableSpeedSigns", SIGN, "additional", "add", "steps")  # of a file of steps

Steps = list[tuple[float, float | None]]  # times in s, and speeds in km/h; without one the lane has its own


def read_signs(found: Streets, roots: Sequence[tuple[str, Element]]) -> None:
    """Puts the speed limits of signs among those of the streets, and notes what of them isn't kept."""
    lanes: dict[str, Steps] = {}
    signs = [(path, element) for path, element in roots if element.tag == SIGN]
    for path, sign in signs:
        steps = _steps(path, sign)
        for lane in _lanes(found, sign):
            lanes.setdefault(lane, []).extend(steps)
    spans = [span for street in found.streets.values() for span in _spans(street, lanes)]
    found.limits += [span for span in spans if span.speed < found.streets[span.street].speed]
    _note(found, lanes, [span for span in spans if span.speed > found.streets[span.street].speed * (1 + 1e-9)])
    some = sum(bool(sign.get("vTypes")) for _, sign in signs)
    if some:
        found.notes.append(f"{some} variable speed signs are for some types of vehicles, and hold for all here")


def _steps(path: str, sign: Element) -> Steps:
    """The steps of a sign, of its file where it names one."""
    root = read_xml(file_beside(Path(path), sign.get("file", ""), path, "file"), *ROOTS) if sign.get("file") else sign
    key = f"{path}: {SIGN} {sign.get('id', '')}"
    return [(seconds_of(step.get("time", ""), f"{key}, time"), _speed(step.get("speed"), f"{key}, speed")) for step in root.iter("step")]


def _speed(text: str | None, key: str) -> float | None:
    """A speed in km/h; none where the lane has its own."""
    try:
        speed = -1.0 if text is None else float(text)
    except ValueError:
        speed = math.nan
    if not math.isfinite(speed):
        raise Problem(f"{key}: expected a speed in m/s, found \"{text}\"")
    return None if speed < 0 else max(speed, 0.1) * 3.6


def _lanes(found: Streets, sign: Element) -> Iterator[str]:
    """The lanes of a sign, with those of its edges."""
    yield from sign.get("lanes", "").split()
    for edge in sign.get("edges", "").split():
        yield from list(found.streets[edge].by_lane) if edge in found.streets else [edge]


def _spans(street: Street, lanes: dict[str, Steps]) -> Iterator[SpeedSpan]:
    """The speeds of a street at the steps of its lanes, the mean of all that count."""
    own = {lane: sorted(lanes[lane], key=lambda step: step[0]) for lane in street.by_lane if lane in lanes}
    times = sorted({time for steps in own.values() for time, _ in steps})
    for begin, end in pairwise([*times, math.inf]):
        speeds = [_at(own.get(lane, []), begin, speed) for lane, speed in street.by_lane.items()]
        speed = sum(speeds) / len(speeds)
        if not math.isclose(speed, street.speed, rel_tol=1e-9):
            yield SpeedSpan(street.name, begin, end, speed)


def _at(steps: Steps, time: float, own: float) -> float:
    """The speed of a lane from a time on."""
    speed = next((speed for begin, speed in reversed(steps) if begin <= time), None)
    return own if speed is None else speed


def _note(found: Streets, lanes: dict[str, Steps], faster: Sequence[SpeedSpan]) -> None:
    """Notes lanes that no street has, and speeds above a street's own."""
    unknown = sorted(lanes.keys() - {lane for street in found.streets.values() for lane in street.by_lane})
    if unknown:
        found.notes.append(f"{len(unknown)} lanes of variable speed signs aren't for cars here, or aren't there ({first_few(unknown)})")
    if faster:
        streets = first_few(dict.fromkeys(span.street for span in faster))
        found.notes.append(f"{len(faster)} speeds of variable speed signs are above the streets' own, which hold then ({streets})")
