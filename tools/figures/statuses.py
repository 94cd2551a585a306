"""The picture of what ends a call in which status, in the order in which a call looks: docs/FORMAT.md, "Exit status and
standard error"."""

from .drawing import Drawing

WIDTH, ROW, LEFT, BOX, SIDE = 760, 46, 30, (330, 30), 480
# What a call does, and what ends it there: the statuses with their lines on standard error.
STAGES = [
    ("looks at its words", "2", "ctm: words refused"),
    ("reads the input", "5", "ctm: read fault"),
    ("has at most its greatest length", "4", "ctm: too large: input"),
    ("choose: counts the plans", "9", "ctm: plans: N"),
    ("reads the network, with choose each plan's", "3", "ctm: network: record R code C NAME"),
    ("resume: looks at the saved text around it", "8", "ctm: saved: code C NAME"),
    ("counts what would be recorded", "4", "ctm: too large: record"),
    ("watch: counts the rows of the snapshots", "4", "ctm: too large: shots"),
    ("runs, and makes the whole text", "7", "ctm: no memory (at any place)"),
    ("writes the text", "6", "ctm: write fault"),
]


def statuses_picture() -> str:
    """The picture as SVG."""
    drawing = Drawing(WIDTH, ROW * (len(STAGES) + 1) + 20, "What ends a call in which status")
    for number, (stage, status, line) in enumerate(STAGES):
        y = 14 + ROW * number
        drawing.box(LEFT, y, *BOX, "part-1")
        drawing.words(LEFT + BOX[0] / 2, y + 20, stage)
        drawing.line(LEFT + BOX[0] / 2, y + BOX[1], LEFT + BOX[0] / 2, y + ROW)
        drawing.arrow(LEFT + BOX[0], y + 15, SIDE - 40)
        drawing.box(SIDE - 36, y, 30, BOX[1], "part-5")
        drawing.words(SIDE - 21, y + 20, status)
        drawing.words(SIDE + 6, y + 20, line, anchor="start")
    y = 14 + ROW * len(STAGES)
    drawing.box(LEFT, y, *BOX, "part-2")
    drawing.words(LEFT + BOX[0] / 2, y + 20, "0: the whole text stands on standard output")
    return drawing.text()
