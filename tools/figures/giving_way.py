"""The picture of a junction with who gives way to whom: that of tools/docs/yields.md, a street with a side street."""

import re
import tomllib
from pathlib import Path
from typing import Any, NamedTuple

from .drawing import Drawing
from .plane import Point

PAGE = Path(__file__).resolve().parents[1] / "docs/yields.md"
WIDTH, HEIGHT, LIST, ROW = 820, 290, 440, 38
# Where each road ends or begins at the junction, how far from there it goes in the picture, and where its name stands: on the right one drives.
COMES: dict[str, tuple[Point, Point]] = {"west": ((115, 240), (-95, 0)), "east": ((315, 180), (95, 0)), "side": ((185, 110), (0, -90))}
LEAVES: dict[str, tuple[Point, Point]] = {"out-west": ((115, 180), (-95, 0)), "out-east": ((315, 240), (95, 0)), "out-side": ((245, 110), (0, -90))}
NAMES: dict[str, Point] = {"west": (50, 257), "east": (380, 172), "side": (176, 40), "out-west": (50, 172), "out-east": (380, 257), "out-side": (254, 40)}
# Where the number of each movement stands, from the tip of its arrow.
NUMBERS: dict[tuple[str, str], Point] = {
    ("west", "out-east"): (8, -6), ("west", "out-side"): (-12, -4), ("east", "out-west"): (-8, -6), ("east", "out-side"): (12, -4),
    ("side", "out-west"): (-8, 16), ("side", "out-east"): (8, 16)}


class Movement(NamedTuple):
    """A movement, the numbers of those to which it gives way, each with the part of its flow that counts, and its kind."""

    source: str
    into: str
    yields_to: list[tuple[int, float]]
    kind: str


def movements() -> list[Movement]:
    """The movements of the page's junction, in the order of its shares."""
    page = PAGE.read_text().partition("## In a study")[2]
    block = re.findall(r"^```\n(\[\[junctions\]\].*?)^```$", page, re.MULTILINE | re.DOTALL)[0]
    (found,) = tomllib.loads(block)["junctions"]
    pairs = [(source, into) for source, row in zip(found["from"], found["shares"]) for into, share in zip(found["into"], row) if share]
    yields: dict[tuple[str, ...], dict[str, Any]] = {tuple(one["movement"]): one for one in found["yields"]}
    return [Movement(*pair, sorted((pairs.index((source, into)) + 1, *(part or [1.0]))
                                   for source, into, *part in yields.get(pair, {}).get("yields_to", [])),
                     yields.get(pair, {}).get("kind", "")) for pair in pairs]


def described(movement: Movement) -> str:
    """To which movements one gives way, and by which gaps."""
    if not movement.yields_to:
        return "has priority"
    numbers = [f"{number}" if part == 1 else f"{part:g} × {number}" for number, part in movement.yields_to]
    return f"gives way to {' and '.join(filter(None, [', '.join(numbers[:-1]), numbers[-1]]))} ({movement.kind})"


def giving_way_picture() -> str:
    """The picture as SVG: solid arrows have priority, dashed ones give way."""
    drawing = Drawing(WIDTH, HEIGHT, "A junction of a street and a side street: which movements give way to which")
    drawing.box(10, 150, 410, 120, "old")
    drawing.box(130, 10, 180, 140, "old")
    for name, ((x, y), (right, down)) in {**COMES, **LEAVES}.items():
        drawing.line(x, y, x + right, y + down)
        at, beside = NAMES[name], {"side": "end", "out-side": "start"}.get(name, "middle")
        drawing.words(*at, name, "faint", beside, 12)
    for number, one in enumerate(movements(), 1):
        (x, y), (to_x, to_y), (right, down) = COMES[one.source][0], LEAVES[one.into][0], NUMBERS[one.source, one.into]
        by = (x, to_y) if one.source == "side" else (to_x, y)
        drawing.bend((x, y), by, (to_x, to_y), "6 4" if one.yields_to else "none")
        drawing.words(to_x + right, to_y + down, f"{number}", size=12)
        drawing.words(LIST, 28 + ROW * (number - 1), f"{number}   {one.source} to {one.into}", anchor="start")
        drawing.words(LIST + 22, 44 + ROW * (number - 1), described(one), "faint", "start", 12)
    drawing.words(LIST, 40 + ROW * len(NUMBERS), "Solid arrows have priority, dashed ones give way.", "faint", "start", 12)
    return drawing.text()
