"""Names in a picture, placed so that none stands over another; those that find no room are left out and counted."""

from __future__ import annotations

from collections.abc import Sequence
from dataclasses import dataclass, field
from typing import Any

from matplotlib.axes import Axes
from matplotlib.text import Annotation
from matplotlib.transforms import Bbox

from ..arrays import Numbers

GAP = 2.0  # dots that are left between two names


@dataclass(frozen=True)
class Place:
    """Where a label may stand: points to the right of its own place and above it, and how it is aligned there."""

    right: float
    above: float
    across: str = "center"
    upright: str = "center"


@dataclass
class Label:
    """A name to be written beside a point of the data, at one of several places, the best first.

    `most_crossed` is how many of the shunned points it may stand over, any number where it is None.
    """

    text: str
    point: tuple[float, float]
    places: Sequence[Place]
    look: dict[str, Any] = field(default_factory=dict)
    most_crossed: int | None = None


def write(axes: Axes, labels: Sequence[Label], shunned: Numbers | None = None) -> list[Label]:
    """Writes each label where it overlaps none before it, within the figure, and gives those that were left out.

    Of the places that are free the first with the fewest of the shunned points (in dots) is taken. The layout and the
    axes' limits must not change any more.
    """
    axes.figure.draw_without_rendering()
    boxes: list[Bbox] = []
    left_out = []
    for label in labels:
        tried = [_written(axes, label, place) for place in label.places]
        free = [(_crossed(box, shunned), i) for i, (_, box) in enumerate(tried) if _is_free(box, boxes, axes.figure.bbox)]
        crossed, best = min(free, default=(0, None))
        if label.most_crossed is not None and crossed > label.most_crossed:
            best = None
        for i, (annotation, box) in enumerate(tried):
            if i == best:
                boxes.append(box)
            else:
                annotation.remove()
        if best is None:
            left_out.append(label)
    return left_out


def _written(axes: Axes, label: Label, place: Place) -> tuple[Annotation, Bbox]:
    """A label at a place, and the box in dots that it takes."""
    annotation = axes.annotate(label.text, label.point, xytext=(place.right, place.above), textcoords="offset points",
                               ha=place.across, va=place.upright, **{"annotation_clip": False, **label.look})
    annotation.set_in_layout(False)  # its room is found in the layout as it is
    box = annotation.get_window_extent(axes.figure.canvas.get_renderer())
    return annotation, Bbox.from_extents(box.x0 - GAP, box.y0 - GAP, box.x1 + GAP, box.y1 + GAP)


def _is_free(box: Bbox, boxes: Sequence[Bbox], bounds: Bbox) -> bool:
    inside = bounds.x0 <= box.x0 and bounds.y0 <= box.y0 and box.x1 <= bounds.x1 and box.y1 <= bounds.y1
    return inside and not any(box.overlaps(other) for other in boxes)


def _crossed(box: Bbox, points: Numbers | None) -> int:
    """How many points lie in a box."""
    if points is None or not len(points):
        return 0
    x, y = points[:, 0], points[:, 1]
    return int(((box.x0 <= x) & (x <= box.x1) & (box.y0 <= y) & (y <= box.y1)).sum())
