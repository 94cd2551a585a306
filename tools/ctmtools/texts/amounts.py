"""Amounts of vehicles in parts, millionths of a vehicle, as the network file and the report spell them."""

from __future__ import annotations

import re
from fractions import Fraction

PARTS = 1_000_000  # parts in a vehicle
AMOUNT = re.compile(r"[0-9]{1,12}(?:\.[0-9]{1,6})?")
WHOLE = re.compile(r"[0-9]{1,9}")


def parts_of(text: str) -> int | None:
    """The amount that a text spells, in parts, or None where it spells none."""
    if not AMOUNT.fullmatch(text):
        return None
    vehicles, _, decimals = text.partition(".")
    return int(vehicles) * PARTS + int(decimals.ljust(6, "0"))


def whole_of(text: str) -> int | None:
    """The whole number that a text spells, or None where it spells none."""
    return int(text) if WHOLE.fullmatch(text) else None


def amount_text(parts: int) -> str:
    """The shortest spelling of an amount of parts, in vehicles: 2500000 is `2.5`."""
    vehicles, rest = divmod(parts, PARTS)
    decimals = f"{rest:06d}".rstrip("0")
    return f"{vehicles}.{decimals}" if decimals else str(vehicles)


def rounded_parts(vehicles: Fraction | int) -> int:
    """The whole parts nearest to a number of vehicles, given as a Fraction."""
    return round(Fraction(vehicles) * PARTS)
