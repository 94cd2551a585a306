"""Which ways of a map are roads for cars, and what is known of their lanes and speeds; docs/maps.md has the rules."""

from __future__ import annotations

import re
from collections import Counter
from collections.abc import Sequence
from dataclasses import replace

from ..problem import Problem
from .osm_map import Map, Way

LINK = "_link"  # behind a class: its ramps
MAIN = ("motorway", "trunk", "primary", "secondary", "tertiary")
CLASSES = (*MAIN, *(kind + LINK for kind in MAIN), "unclassified", "residential", "living_street")
ACCESS = ("motorcar", "motor_vehicle", "vehicle", "access")  # who may use a way, the narrowest word first
BARRED = frozenset(["no", "private", "agricultural", "forestry", "delivery", "emergency", "military", "psv", "bus"])
SPEEDS = ("maxspeed", "maxspeed:forward", "maxspeed:backward", "maxspeed:type", "zone:maxspeed")
LANES = ("lanes", "lanes:forward", "lanes:backward")
ROUND = ("roundabout", "circular")
WHOLE = re.compile(r"[1-9][0-9]?")
RULE = re.compile(r"\d+|[A-Z]{2}:\w+")  # a zone's speed, or the rule of a country by which one holds
SPEED = re.compile(r"(?i)(?=.*[1-9])\d+(\.\d+)? *(km/h|kmh|kph|mph)?|none|walk|[A-Z]{2}:\w+")


def classes_of(text: str | None) -> tuple[str, ...]:
    """The classes of road that a list of them names, each with its ramps; without a list all that cars may use."""
    if text is None:
        return CLASSES
    named = [name.strip() for name in text.split(",")]
    for name in named:
        if name not in CLASSES:
            raise Problem(f"--roads: \"{name}\" is no class of road; there are {', '.join(CLASSES)}")
    return tuple(kind for kind in CLASSES if kind in named or kind.removesuffix(LINK) in named)


def chosen(found: Map, classes: Sequence[str], where: str) -> tuple[list[Way], list[Way]]:
    """The ways of some classes that cars may use and that have two nodes of the map, and those that are barred to them.

    `where` is the map, and the box of it that is asked for, as messages say it.
    """
    of_classes = [way for way in found.ways.values() if way.kind in classes]
    if not of_classes:
        there = ", ".join(f"{kind} ({count})" for kind, count in Counter(way.kind for way in found.ways.values()).most_common(12))
        raise Problem(f"{where}: has no roads of the classes {', '.join(classes)}; the classes of its ways are {there}")
    known = [replace(way, nodes=[node for node in way.nodes if node in found.nodes]) for way in of_classes]
    whole = [way for way in known if len(way.nodes) > 1]
    barred = [way for way in whole if is_barred(way)]
    kept = [way for way in whole if not is_barred(way)]
    if not kept:
        raise Problem(f"{where}: has no roads that cars may use: of {len(of_classes)} ways of the classes that are asked for "
                      f"{len(barred)} are barred to them, and {len(of_classes) - len(whole)} have no two nodes that are in it")
    return [readable(way) for way in kept], barred


def is_barred(way: Way) -> bool:
    """Whether cars may not use a way: what the narrowest of its words on access says holds."""
    said = next((way.tags[key] for key in ACCESS if key in way.tags), "yes")
    return said in BARRED


def readable(way: Way) -> Way:
    """A way without the lanes and speeds that no number can be read of, and these without spaces around them."""
    forms = {**dict.fromkeys(LANES, WHOLE), **dict.fromkeys(SPEEDS[:3], SPEED), **dict.fromkeys(SPEEDS[3:], RULE)}
    tags = {key: value.strip() if key in forms else value for key, value in way.tags.items()}
    return replace(way, tags={key: value for key, value in tags.items() if key not in forms or forms[key].fullmatch(value)})


def says(way: Way, keys: Sequence[str]) -> bool:
    """Whether a way says one of some keys."""
    return any(key in way.tags for key in keys)


def says_of(way: Way, keys: Sequence[str], back: bool) -> bool:
    """Whether a way says one of some keys of both its directions, or of the one with it, or `back` against it."""
    other = ":forward" if back else ":backward"
    return says(way, [key for key in keys if not key.endswith(other)])


def parted(way: Way) -> bool:
    """Whether a way says an odd number of lanes of both directions together, and not how many each has."""
    lanes = way.tags.get("lanes", "")
    return bool(lanes) and int(lanes) % 2 == 1 and not is_oneway(way) and not says(way, LANES[1:])


def is_oneway(way: Way) -> bool:
    """Whether a way has one direction alone: by its words, or as a motorway and a roundabout have."""
    said = way.tags.get("oneway", "")
    if said in ("no", "false", "0"):
        return False
    return said in ("yes", "true", "1", "-1", "reverse") or way.kind in ("motorway", "motorway_link") or \
        way.tags.get("junction") in ROUND


def is_ring(way: Way) -> bool:
    """Whether a way is a whole roundabout by itself."""
    return way.tags.get("junction") in ROUND and way.nodes[0] == way.nodes[-1] and is_oneway(way)
