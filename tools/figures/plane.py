"""A plane with two axes on a picture: lines, areas and points by their values."""

from .drawing import Drawing

Point = tuple[float, float]


class Plane:
    """Where values lie on a picture: `origin` is the place of (0, 0), and a unit to the right and up has so many px."""

    def __init__(self, drawing: Drawing, origin: Point, scale: Point):
        self.drawing, self.origin, self.scale = drawing, origin, scale

    def at(self, point: Point) -> Point:
        """The place of a point on the picture, in px."""
        return self.origin[0] + point[0] * self.scale[0], self.origin[1] - point[1] * self.scale[1]

    def axes(self, right: float, up: float, across: str, upward: str) -> None:
        """Both axes to these values, with what they are of at their ends."""
        self.line((0, 0), (right, 0))
        self.line((0, 0), (0, up))
        x, y = self.at((right, 0))
        self.drawing.words(x, y + 33, across, "faint", "end", 12)
        x, y = self.at((0, up))
        self.drawing.words(x, y - 8, upward, "faint", "start", 12)

    def line(self, *points: Point, kind: str = "line", width: float = 1, dashes: str = "none") -> None:
        """A line from point to point."""
        self.drawing.shapes.append(f'<path class="{kind} bare" stroke-width="{width}" stroke-dasharray="{dashes}" '
                                   f'd="M{self._path(points)}"/>')

    def area(self, *points: Point, kind: str) -> None:
        """What lies within these points, filled."""
        self.drawing.shapes.append(f'<path class="{kind}" d="M{self._path(points)} z"/>')

    def dot(self, point: Point) -> None:
        """A point that is to be seen."""
        x, y = self.at(point)
        self.drawing.shapes.append(f'<circle class="head" cx="{x:.1f}" cy="{y:.1f}" r="5"/>')

    def words(self, point: Point, text: str, right: float = 0, down: float = 0, kind: str = "word", anchor: str = "middle") -> None:
        """Words beside a point, so many px to the right and down."""
        x, y = self.at(point)
        self.drawing.words(x + right, y + down, text, kind, anchor, 12)

    def _path(self, points: tuple[Point, ...]) -> str:
        return " L".join(f"{x:.1f} {y:.1f}" for x, y in map(self.at, points))
