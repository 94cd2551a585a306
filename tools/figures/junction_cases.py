"""The pictures of a merge and of a diverge: the three cases of each rule of docs/MODEL.md, "One step", as points in a plane."""

from typing import NamedTuple

from .drawing import Drawing
from .plane import Plane, Point

PANEL, LEFT, FOOT, UNIT = 320, 46, 240, 17.0
MOST = 12.0  # vehicles in a step, at which the axes end


class Case(NamedTuple):
    """A case: its name, the ends of the box along both axes, the line of the sum, and the ratio of the two flows."""

    name: str
    told: str
    box: Point
    total: float
    ratio: Point


MERGES = [
    Case("all passes", "R ≥ S1 + S2", (4, 3), 9, (3, 1)),
    Case("both queue", "y1 = P1·R/(P1 + P2)", (8, 6), 8, (3, 1)),
    Case("the first sends less than its part", "y1 = S1, the rest is the second's", (4, 8), 8, (3, 1)),
]
DIVERGES = [
    Case("what comes decides", "k = S/(B1 + B2)", (8, 6), 8, (3, 1)),
    Case("the first branch is full", "k = R1/B1", (4, 6), 9, (3, 1)),
    Case("the second branch is full", "k = R2/B2", (9, 1), 9, (3, 1)),
]


def merged(case: Case) -> Point:
    """What passes of each where two cells send the box and the third receives the total."""
    (first, second), room = case.box, case.total
    if room >= first + second:
        return case.box
    part = case.ratio[0] * room / sum(case.ratio)
    return middle(first, room - second, part), middle(second, room - first, room - part)


def diverged(case: Case) -> Point:
    """What enters each branch where a cell sends the total and the branches receive the box."""
    unit = min(case.total / sum(case.ratio), case.box[0] / case.ratio[0], case.box[1] / case.ratio[1])
    return unit * case.ratio[0], unit * case.ratio[1]


def middle(*values: float) -> float:
    return sorted(values)[1]


def merge_picture() -> str:
    """The three cases of a merge as SVG."""
    drawing = Drawing(3 * PANEL, 325, "The three cases of a merge")
    for number, case in enumerate(MERGES):
        draw_case(drawing, number, case, merged(case), ("from the first", "from the second"), ("S1", "S2"), "R", "P1 : P2")
    return drawing.text()


def diverge_picture() -> str:
    """The three cases of a diverge as SVG."""
    drawing = Drawing(3 * PANEL, 325, "The three cases of a diverge")
    for number, case in enumerate(DIVERGES):
        draw_case(drawing, number, case, diverged(case), ("into the first", "into the second"), ("R1", "R2"), "S", "B1 : B2")
    return drawing.text()


def draw_case(drawing: Drawing, number: int, case: Case, flow: Point, axes: tuple[str, str], ends: tuple[str, str],
              total: str, ratio: str) -> None:
    """A panel: what each of the two may carry at most, the line of what both may, the ratio, and the point that is taken."""
    plane = Plane(drawing, (PANEL * number + LEFT, FOOT), (UNIT, UNIT))
    (first, second), sum_ = case.box, case.total
    plane.area((0, 0), (first, 0), (first, second), (0, second), kind="part-1")
    plane.axes(MOST, MOST, axes[0], axes[1])
    plane.line((0, sum_), (sum_, 0))
    along = min(MOST / case.ratio[0], MOST / case.ratio[1])
    plane.line((0, 0), (along * case.ratio[0], along * case.ratio[1]), dashes="4 4")
    plane.words((first, 0), ends[0], 0, 18)
    plane.words((0, second), ends[1], -8, 4, anchor="end")
    plane.words((0, sum_), f"sum {total}", 6, -4, "faint", "start")
    plane.words((along * case.ratio[0], along * case.ratio[1]), ratio, 0, -8, "faint", "end")
    plane.dot(flow)
    drawing.words(PANEL * number + LEFT, FOOT + 56, f"{number + 1}. {case.name}", anchor="start")
    drawing.words(PANEL * number + LEFT, FOOT + 73, case.told, "faint", "start", 12)
