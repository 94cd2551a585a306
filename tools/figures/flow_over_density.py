"""The picture of what a road cell sends and receives over what it holds, by docs/MODEL.md, "One step"."""

from .drawing import Drawing
from .plane import Plane

ROOM, CAPACITY, A, B = 108, 14, 1, 5  # N and Q in vehicles
DASHES = "4 4"
CRITICAL = ROOM - CAPACITY * B / A  # beyond it a cell receives less than its capacity


def sending(held: float) -> float:
    return min(CAPACITY, held)


def receiving(held: float) -> float:
    return min(CAPACITY, A * (ROOM - held) / B)


def flow_picture() -> str:
    """The picture as SVG."""
    drawing = Drawing(720, 330, "What a road cell sends and receives over what it holds")
    plane = Plane(drawing, (70, 270), (5.4, 12.5))
    turns = (0, CAPACITY, CRITICAL, ROOM)
    plane.area(*((held, min(sending(held), receiving(held))) for held in turns), kind="part-1")
    plane.axes(ROOM + 9, 17, "", "vehicles in a step")
    plane.line(*((held, receiving(held)) for held in turns), width=4)
    plane.line(*((held, sending(held)) for held in turns), kind="arrow", width=2)
    for held in (CAPACITY, CRITICAL):
        plane.line((held, 0), (held, CAPACITY), dashes=DASHES)
    plane.words((0, CAPACITY), "Q", -8, 4, anchor="end")
    for held, name in ((CAPACITY, "Q"), (CRITICAL, "N - Q·B/A"), (ROOM, "N")):
        plane.words((held, 0), name, 0, 18)
    plane.words((ROOM / 2, 0), "what the cell holds, n", 0, 44, "faint")
    plane.words((10, 10), "slope 1", -7, 0, anchor="end")
    plane.words((73, receiving(73)), "slope -A/B", 10, -4, anchor="start")
    plane.words((ROOM, CAPACITY), "sending: min(Q, n)", 0, -10, anchor="end")
    plane.words((0, CAPACITY), "receiving: min(Q, A·(N - n)/B)", 12, -10, anchor="start")
    plane.words((CRITICAL, 7), "a lasting flow is at most", 12, 0, "faint", "start")
    plane.words((CRITICAL, 7), "the lesser of both", 12, 16, "faint", "start")
    return drawing.text()
