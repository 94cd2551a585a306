"""The picture of the crates: each stands above those that it uses, by crates.txt, in the colour of its part of docs/inside/MAP.md."""

import re
from pathlib import Path

from .drawing import Drawing

WIDTH, ROW, BOX, GAP, EDGE = 1020, 66, 26, 9, 8
LETTER = 7.9  # the width of a letter, in px
Links = dict[str, list[str]]


def crates_picture(top: Path) -> str:
    """The picture as SVG."""
    uses = nearest(used_crates((top / "crates.txt").read_text()))
    parts = parts_of((top / "docs/inside/MAP.md").read_text())
    rows, links = stepped(rows_of(uses), uses)
    ordered(rows, links)
    across = placed(rows, links)
    height = ROW * len(rows) + 10
    drawing = Drawing(WIDTH, height, "The crates, each above those that it uses")
    at = {name: (across[name], height - ROW * depth - BOX - EDGE) for depth, row in enumerate(rows) for name in row}
    draw_links(drawing, links, at)
    kinds = {name: f"part-{number}" for number, names in enumerate(parts.values(), 1) for name in names}
    for name in uses:
        x, y = at[name]
        drawing.box(x - width(name) / 2, y, width(name), BOX, kinds[name])
        drawing.words(x, y + 17, name)
    draw_legend(drawing, list(parts))
    return drawing.text()


def draw_links(drawing: Drawing, links: Links, at: dict[str, tuple[float, float]]) -> None:
    """The lines, from the foot of a crate to the head of the next; what only passes a row is a point there."""
    for name, below in links.items():
        x, y = at[name]
        for other in below:
            drawing.curve(x, y + BOX, at[other][0], at[other][1])
        if is_passing(name):
            drawing.line(x, y, x, y + BOX)


def draw_legend(drawing: Drawing, parts: list[str]) -> None:
    """The parts in the order of the way of the data, at the upper left."""
    for number, part in enumerate(parts, 1):
        y = 8 + 20 * (number - 1)
        drawing.box(10, y, 14, 12, f"part-{number}")
        drawing.words(30, y + 11, f"{number} {part}", anchor="start")


def used_crates(listed: str) -> Links:
    """For each crate of crates.txt the crates of the repository that its line names."""
    lines = re.findall(r"^(\w+)[^:#\n]*:(.*)$", listed, re.MULTILINE)
    names = [name for name, _ in lines]
    return {name: [other for other in used.split() if other in names] for name, used in lines}


def nearest(uses: Links) -> Links:
    """The same without a crate that another of those which are named leads to."""
    reached: dict[str, set[str]] = {}
    for name, below in uses.items():  # lowest first
        reached[name] = set(below).union(*(reached[other] for other in below))
    return {name: [other for other in below if not any(other in reached[third] for third in below)]
            for name, below in uses.items()}


def parts_of(page: str) -> Links:
    """The parts of the map that have a table of crates, with their crates."""
    found = {}
    for part in page.split("\n## ")[1:]:
        if "| Crate | Holds |" in part:
            found[part.splitlines()[0]] = re.findall(r"^\| `(\w+)` \|", part, re.MULTILINE)
    return found


def rows_of(uses: Links) -> list[list[str]]:
    """The crates in rows, each in the lowest above all that it uses."""
    depth: dict[str, int] = {}
    for name, below in uses.items():
        depth[name] = 1 + max((depth[other] for other in below), default=-1)
    return [[name for name in uses if depth[name] == row] for row in range(max(depth.values()) + 1)]


def is_passing(name: str) -> bool:
    """Whether this is no crate but a point at which lines to a crate pass a row."""
    return "@" in name


def stepped(rows: list[list[str]], uses: Links) -> tuple[list[list[str]], Links]:
    """The rows, and links that each lead one row down: what leads further passes a point in each row between, which all
    lines to one crate share."""
    depth = {name: row for row, names in enumerate(rows) for name in names}
    rows, links = [list(row) for row in rows], {name: [] for name in uses}
    for name in sorted(uses, key=lambda name: depth[name]):
        for other in uses[name]:
            below = other
            for row in range(depth[other] + 1, depth[name]):
                point = f"{other}@{row}"
                if point not in links:
                    links[point] = [below]
                    rows[row].append(point)
                below = point
            links[name].append(below)
    return rows, links


def neighbours(links: Links) -> Links:
    near = {name: list(below) for name, below in links.items()}
    for name, below in links.items():
        for other in below:
            near[other].append(name)
    return near


def ordered(rows: list[list[str]], links: Links) -> None:
    """Orders each row by where its neighbours in the rows above and below stand, so that few lines cross."""
    near = neighbours(links)
    for _ in range(40):
        for row in [*rows, *reversed(rows)]:
            rank = {name: number / len(other) for other in rows for number, name in enumerate(other)}
            row.sort(key=lambda name: mean([rank[other] for other in near[name]], rank[name]))


def placed(rows: list[list[str]], links: Links) -> dict[str, float]:
    """Where the middle of each lies: near its neighbours, in the order of its row."""
    near = neighbours(links)
    places = {name: WIDTH * (number + 0.5) / len(row) for row in rows for number, name in enumerate(row)}
    for _ in range(80):
        for row in [*rows, *reversed(rows)]:
            places.update(spread(row, {name: mean([places[other] for other in near[name]], places[name]) for name in row}))
    return places


def mean(values: list[float], otherwise: float) -> float:
    return sum(values) / len(values) if values else otherwise


def width(name: str) -> float:
    return 6 if is_passing(name) else LETTER * len(name) + 12


def spread(row: list[str], wanted: dict[str, float]) -> dict[str, float]:
    """The places of a row, near to the wanted ones: the mean of those that are pushed to the right and to the left."""
    right = pushed(row, wanted)
    turned = pushed(row[::-1], {name: WIDTH - wanted[name] for name in row})
    return {name: (right[name] + WIDTH - turned[name]) / 2 for name in row}


def pushed(row: list[str], wanted: dict[str, float]) -> dict[str, float]:
    """The places of a row where none lies left of its wanted one but for what the edge of the picture asks."""
    found, least = {}, float(EDGE)
    for name in row:
        found[name] = max(wanted[name], least + width(name) / 2)
        least = found[name] + width(name) / 2 + GAP
    most = float(WIDTH - EDGE)
    for name in reversed(row):
        found[name] = min(found[name], most - width(name) / 2)
        most = found[name] - width(name) / 2 - GAP
    return found
