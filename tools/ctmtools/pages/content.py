"""What a page shows of its reports, as the data that its script reads, and where it comes from."""

from __future__ import annotations

import datetime
import subprocess
from base64 import b64encode
from collections.abc import Sequence
from dataclasses import dataclass
from functools import lru_cache
from importlib import import_module
from pathlib import Path
from typing import Any

import numpy

from ..files.reading import read_bytes
from ..problem import Problem
from ..program.calls import TOP, of_the_package
from ..report.comparability import names_of
from ..report.measures import hour_of
from ..report.queues import SLOW
from ..report.reading import Report
from ..report.summary import number_text
from ..texts.text_table import listed
from .background import Background
from .draws import draws_of
from .frames import Frames, bounds_of
from .networks import closures_of, is_measured, network_of, roads_of, signals_of, speed_limits, titles_of, whole_roads
from .tables import approaches_of, differing, greens_of, queues_of, reports_of, table_of, unlike_lines
from .ways import ways_of

NEAR = 0.99  # of the greatest density, from which on a frame counts as one of the densest
LOGOS = {".png": "image/png", ".jpg": "image/jpeg", ".jpeg": "image/jpeg", ".svg": "image/svg+xml"}
MOST_LOGO = 1_000_000  # bytes
MOST_TITLES = 3  # in the title of a page
SHOWN = {"density": ("vehicles/km", "vehicles in a cell"), "flow": ("vehicles/h", "vehicles in a step"),
         "speed": ("km/h", "cells in a step"), "place": ("km", "cell")}


@dataclass(frozen=True)
class Heading:
    """What a page's maker says of it: a title in place of the studies', who made it, and a picture, its file."""

    title: str | None = None
    author: str | None = None
    logo: Path | None = None

    def logo_data(self) -> str | None:
        """The picture as an address that holds all of it; the problem of a file that is none, or a large one."""
        if self.logo is None:
            return None
        kind = LOGOS.get(self.logo.suffix.lower())
        if kind is None:
            raise Problem(f"--logo {self.logo}: expected a picture, {', '.join(LOGOS)}")
        self._check_logo(self.logo)
        content = read_bytes(self.logo)
        return f"data:{kind};base64,{b64encode(content).decode()}"

    def _check_logo(self, logo: Path) -> None:
        """Refuses what may have no end and what is too large, before any of it is read."""
        if logo.is_fifo() or logo.is_socket() or logo.is_char_device() or logo.is_block_device():
            raise Problem(f"--logo {logo}: is a pipe or a device, and a file is wanted")
        if logo.is_file() and (size := logo.stat().st_size) > MOST_LOGO:
            raise Problem(f"--logo {logo}: has {size:,} bytes, and a page takes {MOST_LOGO:,}")


def data_of(reports: Sequence[Report], background: Background | None = None, draws: Path | None = None,
            heading: Heading | None = None, names: Sequence[str] | None = None) -> dict[str, Any]:
    """What the page shows: networks, and for each report its frames, the tables, and where the page opens.

    `draws` is the folder of draws of a report's network, by default one that stands beside a report. `names` are what the reports
    are called, by default as `compare` calls them.
    """
    first, names = reports[0], names or names_of(reports)
    _need_alike(reports)
    bounds, measured = bounds_of(reports), all(map(is_measured, reports))
    frames = [Frames(report, bounds, measured) for report in reports]
    place = background.place_of(first) if background else lambda line: line
    networks: list[dict[str, Any]] = []
    shown = []
    for report, own in zip(reports, frames):
        network = network_of(report, measured, place)
        if network not in networks:
            networks.append(network)
        shown.append({"network": networks.index(network), "limits": speed_limits(report), "closures": closures_of(report),
                      "signals": signals_of(report), "queues": queues_of(report, bounds), **own.data()})
    heading = heading or Heading()
    return {"title": heading.title or _title(reports), "author": heading.author or "", "logo": heading.logo_data(), "subtitle": _subtitle(reports),
            "provenance": provenance(reports), "notes": _notes(reports, bounds), "names": names, "slow": SLOW,
            "measured": measured, "hour": hour_of(first), "units": _units(first, measured),
            "schematic": not first.units.points, "times": _labels(first, bounds), "clock": _clock(first, bounds),
            "networks": networks, "titles": titles_of(reports), "reports": shown, "opening": opening(frames),
            "tables": {"roads": table_of(reports), "cells": differing(reports, names), "told": unlike_lines(reports, names),
                       "reports": reports_of(reports, names) if len(reports) > 1 else None, "greens": greens_of(reports, names),
                       "approaches": approaches_of(reports, names)},
            "ways": ways_of(reports), "draws": draws_of(reports, names, draws), "background": background.data() if background else None}


def _need_alike(reports: Sequence[Report]) -> None:
    first = reports[0]
    for report in reports:
        report.need_records()
        if "road" not in report.need_network().kinds.values():
            raise Problem(f"{report.name}: its network has no road that a page could show")
        if report.steps != first.steps or (report.units.step, report.units.start) != (first.units.step, first.units.start):
            raise Problem(f"{report.name}: is of other times than {first.name}, so they can't stand side by side; "
                          "`ctm-tools compare` prints their totals")


def opening(frames: Sequence[Frames]) -> dict[str, Any]:
    """Where the page opens: on the road with the greatest delay in any of the reports, also before its stop line, at the time of its
    greatest density.

    Of several such times it is the one at which most vehicles are on the road; its cell is that with the most delay. Of roads
    without delay it is the one to whose cells most vehicles came.
    """
    roads = [(i, road, cells) for i, own in enumerate(frames) for road, cells in roads_of(own.report).items()]
    whole = [whole_roads(own.report) for own in frames]

    def costs(row: tuple[int, str, list[str]]) -> tuple[float, float]:
        """The delay of a road with the cells before its stop line, and who came to it."""
        i, road, cells = row
        found = frames[i].report.cells
        return float(found.wait[whole[i][road]].sum()), float(found.come[cells].sum())

    i, road, cells = max(roads, key=costs)
    own, waits = frames[i], frames[i].report.cells.wait
    density = own.density[:, own.report.cells.index.get_indexer(cells)]
    lengths = numpy.array([(own.report.units.length(cell) if own.measured else None) or 1.0 for cell in cells])
    dense = density.max(axis=1) >= NEAR * density.max()
    return {"report": i, "road": road, "cell": waits[cells].idxmax(),
            "frame": int(numpy.where(dense, density @ lengths, -1).argmax())}


def _units(report: Report, measured: bool) -> dict[str, str]:
    known = {"density": measured, "place": measured, "flow": report.units.known, "speed": measured and report.units.known}
    return {name: SHOWN[name][0 if known[name] else 1] for name in SHOWN}


def _title(reports: Sequence[Report]) -> str:
    """The titles of the reports; of more than three, which the table below names, the first one's."""
    titles = list(dict.fromkeys(report.title for report in reports))
    return listed(titles) if len(titles) <= MOST_TITLES else f"{titles[0]} and {len(reports) - 1} other reports"


def _subtitle(reports: Sequence[Report]) -> str:
    """The time of the study, and the vehicles and the delay of a report that stands alone."""
    units, total = reports[0].units, reports[0].sums
    time = f"{units.clock(0)} to {units.clock(reports[0].steps)}" if units.known else f"{reports[0].steps} steps"
    if len(reports) > 1:
        return time
    return (f"{time}. {number_text(total.entered)} vehicles entered, {number_text(total.left)} left, {number_text(total.inside)} are still "
            f"inside, delay {number_text(units.hours(total.delay))} {units.delay_unit}")


def _notes(reports: Sequence[Report], bounds: Sequence[int]) -> str:
    step, every = reports[0].units.step, max(int(report.times[1] - report.times[0]) for report in reports)
    seen = f" Queues and travel times are seen every {_lasting(step, every)}, as the run is recorded." if every > 1 else ""
    return (f"Density, flow and speed are means over {_lasting(step, bounds[1] - bounds[0])}.{seen} A cell stands in a queue "
            f"where its traffic moves slower than {SLOW:.0%} of the free-flow speed. Delay is the program's: the time beyond one "
            "step in each cell"
            f"{', so it counts driving at a speed limit too' if any(report.need_network().paces for report in reports) else ''}.")


def _lasting(step: float | None, steps: int) -> str:
    return f"{steps} step{'s'[:steps > 1]}" if step is None else f"{steps * step:g} s"


def _labels(report: Report, bounds: Sequence[int]) -> list[str]:
    units = report.units
    seconds = units.step is not None and any(bound * units.step % 60 for bound in bounds)
    return [units.clock(bound, seconds) for bound in bounds]


def _clock(report: Report, bounds: Sequence[int]) -> dict[str, Any]:
    """The bounds of the frames on the axes of time: seconds after midnight, or steps where these aren't known."""
    step, start = report.units.step, report.units.start or 0
    return {"known": step is not None, "bounds": [bound if step is None else start + bound * step for bound in bounds]}


def provenance(reports: Sequence[Report]) -> str:
    """A line on each report's study, its files and the day of its file, and on what made the page and when."""
    return f"{'; '.join(map(_study, reports))}. Page made on {datetime.date.today().isoformat()} by {version()}."


@lru_cache(maxsize=None)
def version() -> str:
    """The version and the commit of these tools, as `ctm --version` has them: of their repository, or of their package."""
    built = of_the_package("BUILD")
    if built:
        return built.read_text("utf-8").partition("\n")[0]
    try:
        told = subprocess.run([TOP / "ctm", "--version"], capture_output=True, text=True, timeout=20, check=True)
    except (OSError, subprocess.SubprocessError):
        number = getattr(import_module("ctmtools"), "__version__", "")
        return " ".join(filter(None, ["ctm-tools", number])) + ", outside of its repository and of a package"
    return told.stdout.strip()


def _study(report: Report) -> str:
    path = Path(report.name)
    network = f", network {Path(report.units.network.path).name}" if report.units.network.path else ""
    written = f" of {_day(path)}" if path.is_file() else ""
    return f"Study “{report.title}”{network}, report {path.name}{written}"


def _day(path: Path) -> str:
    return datetime.date.fromtimestamp(path.stat().st_mtime).isoformat()
