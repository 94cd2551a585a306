"""The picture of two regions of a small network, with their border cells and what is the halo of each."""

from .drawing import Drawing

WIDTH, HEIGHT, BOX = 760, 250, (74, 40)
# Each cell with its region and the middle of its box; each connector with its cells upstream and downstream.
CELLS = {"g": (0, 70, 110), "a": (0, 190, 110), "b": (0, 310, 110), "c": (1, 470, 70), "d": (1, 470, 150), "x": (1, 590, 70),
         "e": (1, 590, 150), "y": (1, 700, 150)}
CONNECTORS = [("g", "a"), ("a", "b"), ("b", "cd"), ("c", "x"), ("d", "e"), ("e", "y")]


def border_cells(region: int) -> set[str]:
    """The cells of a region that a connector touches which touches cells of another too."""
    return {name for name in touched_by_cut() if CELLS[name][0] == region}


def halo(region: int) -> set[str]:
    """The cells of others that the connectors of a region's own cells touch."""
    own = [set(up + down) for up, down in CONNECTORS if any(CELLS[name][0] == region for name in up + down)]
    return {name for touched in own for name in touched if CELLS[name][0] != region}


def touched_by_cut() -> set[str]:
    return {name for up, down in CONNECTORS if len({CELLS[cell][0] for cell in up + down}) > 1 for name in up + down}


def regions_picture() -> str:
    """The picture as SVG."""
    drawing = Drawing(WIDTH, HEIGHT, "Two regions, their border cells, and the halo of each")
    drawing.box(15, 30, 352, 165, "part-1")
    drawing.box(417, 30, 328, 165, "part-6")
    for up, down in CONNECTORS:
        for other in down:
            (_, x, y), (_, to_x, to_y) = CELLS[up], CELLS[other]
            drawing.line(x + BOX[0] / 2, y, to_x - BOX[0] / 2, to_y)
    for name, (region, x, y) in CELLS.items():
        kind = "new" if name in border_cells(region) else "old"
        drawing.box(x - BOX[0] / 2, y - BOX[1] / 2, *BOX, kind)
        drawing.words(x, y + 5, name)
    for region, x in ((0, 191), (1, 581)):
        drawing.words(x, 22, f"region {region}")
        drawing.words(x, 216, f"its border: {' and '.join(sorted(border_cells(region)))}; "
                              f"its halo: {' and '.join(sorted(halo(region)))}")
    drawing.words(392, 240, "The diverge from b into c and d is cut. A step of a region needs its halo.", "faint", size=12)
    return drawing.text()
