"""Pictures and pages of reports."""

from __future__ import annotations

from collections.abc import Sequence
from pathlib import Path
from typing import TYPE_CHECKING, Literal, TypedDict, Unpack

from ..problem import Problem, check_options
from .sources import ReportSource, report_from

if TYPE_CHECKING:
    from matplotlib.figure import Figure

Kind = Literal["time-space", "n-curves", "queue", "delay", "map", "mfd"]


class PictureOptions(TypedDict, total=False):
    """What a picture shows, by the options of `ctm-tools plot KIND`; `begin` is its --from."""

    begin: str | None
    until: str | None
    road: str | None  # time-space, as the next four
    first: str | None
    last: str | None
    of: str
    lines: Sequence[str]
    cells: Sequence[str]  # n-curves, as the next two
    background: float | None
    shifted: bool
    roads: Sequence[str]  # queue
    interval: str | None  # mfd


def plot(report: ReportSource, kind: Kind, output: str | Path | None = None, **options: Unpack[PictureOptions]) -> Figure:
    """A picture of a report as a figure of matplotlib: time-space, n-curves, queue, delay, map or mfd.

    `report` is a report, a file of one, or a study, which is run. The options are those of `ctm-tools plot KIND`, and
    `begin` is its --from: `plot(report, "time-space", road="m", begin="07:00", until="08:00")`. With `output`, whose
    ending says the format, the picture is written there too.
    """
    from ..plots.figure import save, target
    from ..plots.pictures import picture

    check_options(options, PictureOptions)
    read = report_from(report)
    path = target(read, kind, output) if output is not None else None
    drawn = picture(read, kind, **options)
    if path is not None:
        save(drawn, path)
    return drawn


def page(*reports: ReportSource, output: str | Path | None = None, map_behind: bool = False, crs: str | None = None,
         tiles: str | None = None) -> str:
    """The page for a browser of a report, or of several side by side, as HTML; with `output` it is written there too.

    `map_behind` has a map stand behind the roads, with `crs` and `tiles` as `ctm-tools report` has them.
    """
    from ..files.writing import write
    from ..pages.background import STREETS, Background
    from ..pages.html_page import page_of

    if not reports:
        raise Problem("a page needs a report")
    background = Background(crs, tiles or STREETS) if map_behind else None
    text = page_of([report_from(report) for report in reports], background=background)
    if output is not None:
        write(output, text)
    return text
