"""What all pictures share: their look, readable in grey, the axis of time, and the file they go to."""

from __future__ import annotations

from collections.abc import Callable, Iterable, Sequence
from functools import wraps
from io import BytesIO
from pathlib import Path
from textwrap import wrap
from typing import Any, ParamSpec

from matplotlib import rc_context
from matplotlib.artist import Artist
from matplotlib.axes import Axes
from matplotlib.axis import Axis
from matplotlib.backends.backend_agg import FigureCanvasAgg
from matplotlib.colors import LinearSegmentedColormap
from matplotlib.figure import Figure
from matplotlib.ticker import FuncFormatter, MultipleLocator

from ..files.writing import write
from ..problem import Problem
from ..report.reading import Report
from ..texts.quantities import DAY, clock
from ..units import time_text
from ..visible import visible

LOOK: dict[str, Any] = {"font.size": 9.5, "axes.titlesize": 11, "axes.titlelocation": "left", "axes.spines.top": False,
        "axes.spines.right": False, "axes.grid": True, "grid.color": "#dddddd", "grid.linewidth": 0.6,
        "axes.axisbelow": True, "legend.frameon": False, "figure.constrained_layout.use": True, "svg.fonttype": "none",
        "text.parse_math": False,  # a name may have a $
        "text.usetex": False,  # which a file matplotlibrc of the folder where one stands may ask for; LaTeX isn't run
        "legend.fontsize": 9}
SHADES = ("#000000", "#b2431f", "#5b7fb0", "#8f9a2c", "#7c5295", "#999999")
DASHES = ("-", (0, (5, 1.5)), (0, (1.2, 1.2)), (0, (6, 1.5, 1.2, 1.5)), (0, (9, 3)), (0, (3, 1, 1, 1, 1, 1)))
DENSITY = "magma_r"  # darker is denser, in grey too
SPEED = "magma"  # darker is slower
# A rise is dark and a fall light, so that they differ in grey too.
RISE = LinearSegmentedColormap.from_list("rise", ["#3f8fc9", "#9cc9e8", "#ffffff", "#e58a3a", "#4d1400"])
DOTS = 120  # an inch
LETTERS_IN_TITLE = 85  # in a line
LETTERS_BELOW = 105  # in a line below axes
LETTERS_BESIDE = 48  # in a line beside an axis
LETTERS_IN_LEGEND = 100  # in a line
LEGEND_ROOM = 0.3  # inches that a picture has below its axes for a legend; for a larger one it grows
LEGEND_APART = 0.08  # inches between axes and legend
FEWEST_LETTERS = 20  # in a line, however wide they are
ROOM_ACROSS = 0.86  # of the width of a picture for the lines over axes and below them
SPANS = (10, 20, 30, 60, 120, 300, 600, 900, 1200, 1800, 3600, 7200, 10800, 14400, 21600, 43200, 86400)  # seconds
ENDINGS = (".png", ".svg", ".pdf")

Terms = ParamSpec("Terms")


def drawing(draw: Callable[Terms, Figure]) -> Callable[Terms, Figure]:
    """Gives a function that draws the look of these pictures while it draws, and no other."""
    @wraps(draw)
    def drawn(*terms: Terms.args, **named: Terms.kwargs) -> Figure:
        with rc_context(LOOK):
            return draw(*terms, **named)
    return drawn


def figure(rows: int = 1, size: tuple[float, float] = (8, 4.3), **named: Any) -> tuple[Figure, Any]:
    """A figure with its axes, one above the other."""
    drawn = Figure(figsize=size, dpi=DOTS)
    FigureCanvasAgg(drawn)
    axes = drawn.subplots(rows, 1, squeeze=False, **named)[:, 0]
    return drawn, axes[0] if rows == 1 else axes


def head(axes: Axes, text: str) -> None:
    """Puts a title over axes, in as many lines as it needs."""
    axes.set_title(_wrapped(axes, text, LOOK["axes.titlesize"], LETTERS_IN_TITLE))


def beside(axes: Axes, text: str) -> None:
    """Names the upright axis, in as many lines as it needs."""
    axes.set_ylabel("\n".join(wrap(visible(text), LETTERS_BESIDE)))


def note(axes: Axes, text: str) -> None:
    """Adds to what stands below axes."""
    lines = _wrapped(axes, text, LOOK["font.size"], LETTERS_BELOW)
    axes.set_xlabel("\n".join(filter(None, [axes.get_xlabel(), lines])))


def _wrapped(axes: Axes, text: str, size: float, letters: int) -> str:
    """A text in lines of so many letters, or of fewer where these are too wide for the picture."""
    room = ROOM_ACROSS * axes.figure.bbox.width
    while True:
        lines = "\n".join(wrap(visible(text), letters))
        probe = axes.figure.text(0, 0, lines, fontsize=size)
        width = probe.get_window_extent(axes.figure.canvas.get_renderer()).width
        probe.remove()
        if width <= room or letters <= FEWEST_LETTERS:
            return lines
        letters = max(FEWEST_LETTERS, int(letters * room / width))


def target(report: Report, kind: str, output: str | Path | None) -> Path:
    """Where a picture goes: where it is asked for, else the report's name with the kind of plot, in this folder."""
    return picture_file(output or f"{Path(report.name).stem}-{kind}.png")


def picture_file(name: str | Path) -> Path:
    """The file of a picture, whose ending says a format that these pictures have."""
    path = Path(name)
    if path.suffix.lower() not in ENDINGS:
        raise Problem(f"{path}: a picture's name ends with {', '.join(ENDINGS)}")
    return path


def save(drawn: Figure, path: Path) -> None:
    """Writes a figure to its file."""
    content = BytesIO()
    with rc_context(LOOK):
        drawn.savefig(content, format=path.suffix[1:].lower())
    write(path, content.getvalue())


def moments(report: Report, steps: Iterable[float]) -> list[float]:
    """Steps as places on the axis of time: seconds after midnight where the units are known, else steps."""
    units = report.units
    return [(units.start or 0) + step * units.step for step in steps] if units.step is not None else list(steps)


def time_axis(axes: Axes, report: Report, begin: float | None = None, end: float | None = None) -> None:
    """Gives axes the time from a step to another, in clock time where the units are known."""
    first, last = moments(report, [begin or 0, report.steps if end is None else end])
    axes.set_xlim(first, last)
    if not report.units.known:
        axes.set_xlabel("Time (steps)")
        return
    width = clock_axis(axes.xaxis, first, last)
    axes.set_xlabel("Time of day (h:min)" if width >= 60 else "Time of day (h:min:s)")


def clock_axis(axis: Axis, first: float, last: float) -> int:
    """Gives an axis from one second of the day to another round clock times, and gives the seconds between them."""
    width = next((span for span in SPANS if (last - first) / span <= 10), SPANS[-1])
    axis.set_major_locator(MultipleLocator(width))
    axis.set_major_formatter(FuncFormatter(lambda value, _: time_text(value if value <= DAY else value % DAY)))
    return width


def span_of(report: Report, begin: str | None, end: str | None) -> tuple[float, float]:
    """The steps of a part of the time that is asked for by clock times, or by steps where the units aren't known."""
    first = 0 if begin is None else moment(report, begin)
    last = report.steps if end is None else moment(report, end)
    if not 0 <= first < last <= report.steps:
        ends = [report.units.clock(step) if report.units.known else str(step) for step in (0, report.steps)]
        raise Problem(f"--from and --until: expected times from {ends[0]} to {ends[1]}, the first before the last")
    return first, last


def moment(report: Report, text: str) -> float:
    """The step of a clock time, or of a number of steps where the units aren't known."""
    if report.units.step is None:
        if not text.isdigit():
            raise Problem(f"{text}: the units aren't known, so a time is a number of steps")
        return int(text)
    seconds = float(clock(text, "time")) - (report.units.start or 0)
    return (seconds if seconds >= 0 else seconds + DAY) / report.units.step


def legend_below(drawn: Figure, handles: Sequence[Artist]) -> None:
    """Puts a legend below the axes, in as many rows as its texts need, for which the picture grows."""
    labels = ["\n".join(wrap(handle.get_label(), LETTERS_IN_LEGEND)) for handle in handles]
    renderer = FigureCanvasAgg(drawn).get_renderer()
    for columns in range(len(handles), 0, -1):
        legend = drawn.legend(handles=handles, labels=labels, loc="lower center", ncol=columns, borderaxespad=0.1)
        box = legend.get_window_extent(renderer)
        if box.width <= drawn.bbox.width or columns == 1:
            break
        legend.remove()
    width, height = drawn.get_size_inches()
    below = box.height / drawn.dpi + LEGEND_APART
    height += max(0.0, below - LEGEND_ROOM)
    drawn.set_size_inches(width, height)
    drawn.set_layout_engine("constrained", rect=(0, below / height, 1, 1 - below / height))
    legend.set_in_layout(False)


def named(*axes: Axes) -> list[Artist]:
    """What axes have drawn that has a name, in the order in which it was drawn; each name once."""
    found = {label: handle for one in axes for handle, label in zip(*one.get_legend_handles_labels())}
    return list(found.values())


def style(i: int) -> dict[str, Any]:
    """The look of the i-th line: each differs from the others in shade and in dashes."""
    return {"color": SHADES[i % len(SHADES)], "linestyle": DASHES[i % len(DASHES)], "linewidth": 1.6}
