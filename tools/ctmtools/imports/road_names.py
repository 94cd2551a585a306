"""Names of roads by those of their streets, and the short ones of their cells, which a network file allows."""

from __future__ import annotations

import re
import unicodedata
from collections.abc import Collection
from math import atan2, cos, degrees, radians

from ..study.coordinates import DEGREES

LONGEST_NAME = 12  # letters, so that a movement's cell has a name that a network file allows
HEADINGS = ("north", "north-east", "east", "south-east", "south", "south-west", "west", "north-west")
LETTERS = str.maketrans({"ß": "ss", "æ": "ae", "Æ": "Ae", "ø": "o", "Ø": "O", "ł": "l", "Ł": "L", "đ": "d", "Đ": "D", "ı": "i"})


def heading(one: tuple[float, float], two: tuple[float, float], crs: str | None) -> str:
    """In which direction one point lies from another; in none where they are the same."""
    east, north = two[0] - one[0], two[1] - one[1]
    if crs == DEGREES:
        east *= cos(radians(one[1]))
    return HEADINGS[round(degrees(atan2(east, north)) / 45) % 8] if (east, north) != (0, 0) else ""


def apart(name: str, taken: Collection[str]) -> str:
    """A name, or with a number behind it where it is taken."""
    number, found = 1, name
    while found in taken:
        number += 1
        found = f"{name} {number}"
    return found


def short_name(title: str, taken: Collection[str]) -> str:
    """A name for cells: the first letters of a street's, without their accents, and a number where that is taken."""
    plain = unicodedata.normalize("NFKD", title.translate(LETTERS))
    name = re.sub(r"[^A-Za-z0-9]+", "-", plain.encode("ascii", "ignore").decode()).strip("-") or "road"
    name = name[0].upper() + name[1:]  # in- and out- are before the names of gates and exits
    number, found = 1, name[:LONGEST_NAME].rstrip("-")
    while found in taken:
        number += 1
        found = f"{name[:LONGEST_NAME - 1 - len(str(number))].rstrip('-')}-{number}"
    return found
