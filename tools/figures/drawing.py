"""A picture as SVG: boxes, lines and words in colours that follow the reader's light or dark page."""

from html import escape

FONT = "font-family: 'DejaVu Sans', Verdana, sans-serif; font-size: 13px"
# For each class its fill or stroke on a light page and on a dark one.
COLOURS = {
    "page": ("fill", "#ffffff", "#0d1117"), "word": ("fill", "#1f2328", "#e6edf3"), "faint": ("fill", "#59636e", "#9198a1"),
    "line": ("stroke", "#8c959f", "#6e7681"), "arrow": ("stroke", "#0969da", "#58a6ff"), "head": ("fill", "#0969da", "#58a6ff"),
    "new": ("fill", "#ffe9a8", "#5c4813"), "old": ("fill", "#eef1f4", "#1f252d"),
    "part-1": ("fill", "#d9e8fb", "#16365c"), "part-2": ("fill", "#d8f0dc", "#173f22"), "part-3": ("fill", "#fbe6c8", "#553709"),
    "part-4": ("fill", "#f3dcf2", "#4b1f4a"), "part-5": ("fill", "#fbd9d5", "#5a1e18"), "part-6": ("fill", "#d6f1f1", "#0f4345"),
    "part-7": ("fill", "#e4dffb", "#33276b"), "part-8": ("fill", "#e8e8e8", "#33383e"),
}


class Drawing:
    """What is drawn, in the order in which it is laid over each other."""

    def __init__(self, width: int, height: int, title: str):
        self.width, self.height, self.title = width, height, title
        self.shapes: list[str] = []

    def box(self, x: float, y: float, width: float, height: float, kind: str) -> None:
        """A filled box with a thin edge."""
        self.shapes.append(f'<rect class="{kind} line" x="{x:.1f}" y="{y:.1f}" width="{width:.1f}" height="{height:.1f}" rx="4"/>')

    def words(self, x: float, y: float, text: str, kind: str = "word", anchor: str = "middle", size: int = 13) -> None:
        """A line of words whose middle, or whose start or end, lies at x."""
        self.shapes.append(f'<text class="{kind}" x="{x:.1f}" y="{y:.1f}" text-anchor="{anchor}" font-size="{size}">'
                           f'{escape(text)}</text>')

    def line(self, x: float, y: float, to_x: float, to_y: float) -> None:
        """A straight thin line."""
        self.shapes.append(f'<path class="line bare" d="M{x:.1f} {y:.1f} L{to_x:.1f} {to_y:.1f}"/>')

    def curve(self, x: float, y: float, to_x: float, to_y: float) -> None:
        """A thin line that leaves and arrives upright."""
        half = (y + to_y) / 2
        self.shapes.append(f'<path class="line bare" d="M{x:.1f} {y:.1f} C{x:.1f} {half:.1f} {to_x:.1f} {half:.1f} {to_x:.1f} {to_y:.1f}"/>')

    def arrow(self, x: float, y: float, to_x: float) -> None:
        """An arrow along the row."""
        back = 7 if to_x > x else -7
        self.shapes.append(f'<path class="arrow bare" d="M{x:.1f} {y:.1f} L{to_x - back:.1f} {y:.1f}"/>')
        self.shapes.append(f'<path class="head" d="M{to_x:.1f} {y:.1f} l{-back} -4 v8 z"/>')

    def bend(self, begin: tuple[float, float], by: tuple[float, float], end: tuple[float, float], dashes: str) -> None:
        """An arrow that bends towards a point, which it leaves along the line from there to its end."""
        (x, y), (by_x, by_y), (to_x, to_y) = begin, by, end
        right, down = (0, (to_y > by_y) - (to_y < by_y)) if by_x == to_x != x else ((to_x > x) - (to_x < x), 0)
        tip = f"M{to_x:.1f} {to_y:.1f} l{-8 * right - 4 * down} {-8 * down - 4 * right} l{8 * down} {8 * right} z"
        self.shapes.append(f'<path class="arrow bare" stroke-width="1.5" stroke-dasharray="{dashes}" '
                           f'd="M{x:.1f} {y:.1f} Q{by_x:.1f} {by_y:.1f} {to_x - 7 * right:.1f} {to_y - 7 * down:.1f}"/>')
        self.shapes.append(f'<path class="head" d="{tip}"/>')

    def text(self) -> str:
        """The file."""
        styles = [f".{kind} {{ {what}: {light} }}" for kind, (what, light, _) in COLOURS.items()]
        dark = [f".{kind} {{ {what}: {shade} }}" for kind, (what, _, shade) in COLOURS.items()]
        head = (f'<svg xmlns="http://www.w3.org/2000/svg" viewBox="0 0 {self.width} {self.height}" role="img" '
                f'style="{FONT}">\n<title>{escape(self.title)}</title>\n<style>\n')
        rules = "\n".join([*styles, ".bare { fill: none }", f"@media (prefers-color-scheme: dark) {{ {' '.join(dark)} }}"])
        page = f'<rect class="page" width="{self.width}" height="{self.height}"/>'
        return "\n".join([f"{head}{rules}\n</style>", page, *self.shapes, "</svg>\n"])
