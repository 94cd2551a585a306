"""Coordinate systems of points on the earth: their codes, and the way from one to another, by pyproj."""

from __future__ import annotations

import re
from collections.abc import Sequence
from functools import cache
from typing import TYPE_CHECKING, Any

from ..problem import Problem
from ..texts.quantities import shown

if TYPE_CHECKING:
    from pyproj import CRS, Transformer

Point = tuple[float, float]
DEGREES = "EPSG:4326"  # longitude and latitude of GPS and of GeoJSON
METRES = 1000.0  # in a km
CODE = re.compile(r"(?i)epsg:\d+")
FILES = re.compile(r"(?i)\binit\s*=|grids\s*=\s*(?!@null\b)|proj4_grids|parameterfile")  # by which a text has PROJ open a file of any name
WRITTEN = re.compile(r"(?i)\s*(epsg:\d+|esri:\d+|urn:|\+proj=|[A-Z]+\[)")


def system(text: str, key: str) -> CRS:
    """The coordinate system that a text names, by its code, its words for PROJ, its WKT or its whole name."""
    if FILES.search(text):
        raise Problem(f"{key}: names a file, and a coordinate system is taken without files, such as EPSG:25832")
    found = _known(text)
    if found is None or not WRITTEN.match(text) and _bare(found.name) != _bare(text):  # names that only begin so are taken
        raise Problem(f"{key}: expected a coordinate system such as EPSG:25832, found \"{text}\"")
    if not (found.is_geographic or found.is_projected):
        raise Problem(f"{key}: expected a system of longitude and latitude, or a projected one, found {found.name}")
    return found


@cache
def _known(text: str) -> CRS | None:
    import pyproj

    try:
        return pyproj.CRS.from_user_input(text)
    except pyproj.exceptions.CRSError:
        return None


@cache
def _across(source: str, target: str) -> Transformer:
    from pyproj import Transformer

    return Transformer.from_crs(_known(source), _known(target), always_xy=True)


def _bare(name: str) -> str:
    return re.sub(r"[^a-z0-9]", "", name.lower())


def code(value: Any, key: str) -> str:
    """The code of a coordinate system, as `EPSG:25832`."""
    if not isinstance(value, str) or not CODE.fullmatch(value):
        raise Problem(f"{key}: expected a code such as \"EPSG:25832\", found {shown(value)}")
    system(value, key)
    return value


def coded(points: Sequence[Point], text: str, key: str) -> tuple[str, list[Point]]:
    """Points of any system in one that has a code, and this: their own, or longitude and latitude."""
    number = system(text, key).to_epsg()
    return (f"EPSG:{number}", list(points)) if number else (DEGREES, moved(points, text, DEGREES, key))


def moved(points: Sequence[Point], source: str, target: str, key: str) -> list[Point]:
    """Points of one system in another, x or longitude first."""
    from pyproj.exceptions import ProjError

    for text in (source, target):
        system(text, key)
    try:
        across = _across(source, target)
    except ProjError:
        raise Problem(f"{key}: no conversion is known from {source} to {target}") from None
    found: Any = [across.transform(x, y, errcheck=False) for x, y in points]
    for point, (x, y) in zip(points, found):
        if not (abs(x) < float("inf") and abs(y) < float("inf")):
            raise Problem(f"{key}: {point[0]:g}, {point[1]:g} is no place of {source}")
    return [(float(x), float(y)) for x, y in found]


def flat(points: Sequence[Point], source: str, key: str) -> tuple[str, list[Point]]:
    """Points in km of a projected system in metres to the east and the north: their own, or the zone of UTM in which they lie;
    and which that is."""
    found = system(source, key)
    if found.is_projected and all(axis.unit_conversion_factor == 1 for axis in found.axis_info[:2]) and \
            {axis.direction for axis in found.axis_info[:2]} == {"east", "north"}:
        return source, [(x / METRES, y / METRES) for x, y in points]
    degrees = moved(points, source, DEGREES, key)
    target = _zone([sum(values) / len(degrees) for values in zip(*degrees)])
    return target, [(x / METRES, y / METRES) for x, y in moved(degrees, DEGREES, target, key)]


def _zone(place: Sequence[float]) -> str:
    """The code of the zone of UTM round a longitude and a latitude."""
    number = min(60, int((place[0] + 180) // 6) + 1)
    return f"EPSG:{32600 + number if place[1] >= 0 else 32700 + number}"


def check_degrees(points: Sequence[Point], code: str, key: str) -> None:
    """Refuses points that no longitude and latitude are, where a system has these."""
    if system(code, key).is_geographic:
        for x, y in points:
            if not (-180 <= x <= 180 and -90 <= y <= 90):
                raise Problem(f"{key}: expected a longitude and a latitude in degrees, found {x:g}, {y:g}")


def decimals_of(code: str) -> int:
    """How many decimals of a system's numbers a centimetre takes."""
    return 7 if system(code, "crs").is_geographic else 2
