"""The triangle of flow and density that fits a detector's data: free-flow speed, capacity, wave speed and jam density."""

from __future__ import annotations

from collections.abc import Iterable, Sequence
from dataclasses import dataclass, replace
from pathlib import Path

import numpy
import pandas

from ..arrays import Numbers
from ..detectors.file_set import paths_of
from ..detectors.formats import BEGINS_WITH_TIME, TIMES, plain
from ..detectors.options import Wanted
from ..detectors.reading import read
from ..detectors.table import Source, counted, source_of
from ..problem import Problem
from ..report.queues import SLOW

Names = str | Path | Iterable[str | Path]
LEAST = 8  # rows
LEAST_SPREAD = 0.2  # of the way from the top to the jam density, over which queued rows have to lie to give its slope


@dataclass(frozen=True)
class Triangle:
    """A triangle of one lane, in km/h, vehicles/h and vehicles/km, and what it misses in the root mean square.

    Of the `queued` rows four of five lie between the densities `low` and `high`.
    """

    speed: float
    capacity: float
    wave: float
    jam: float
    rmse: float
    rows: int
    queued: int
    low: float
    high: float

    @property
    def warning(self) -> str | None:
        """A line that says that the rows of queued traffic lie too near together for the branch that they are on."""
        if self.high - self.low >= LEAST_SPREAD * (self.jam - self.capacity / self.speed):
            return None
        return (f"warning: most rows of queued traffic lie between {self.low:.0f} and {self.high:.0f} vehicles/km, too near "
                "together to determine a wave speed and a jam density")


def read_states(names: Names, lanes: float | None = None, wanted: Wanted = Wanted(), length: float | None = None) -> pandas.DataFrame:
    """Flow and density of a lane: of a file with the columns flow, and density or speed, or of files of detectors.

    A density is that in the files, else flow by speed, else occupancy by the effective length of a vehicle in m.
    """
    paths = paths_of(names)
    source = source_of(paths[0], wanted.separator)
    if len(paths) == 1 and not _has_times(source):
        states, lines = _of_columns(source, lanes or 1, wanted.decimal), list[str]()
    else:
        states, lines = _of_detectors(paths, lanes, wanted, length)
    found = states.replace([numpy.inf, -numpy.inf], numpy.nan).dropna()
    found = found[(found.flow > 0) & (found.density > 0)].reset_index(drop=True)
    if len(found) < LEAST:
        raise Problem(f"{paths[0]}: has {len(found)} rows with a flow and a density above 0, and {LEAST} are needed")
    found.attrs["lines"] = lines
    return found


def _has_times(source: Source) -> bool:
    """Whether a file has times, as those of detectors do, and not flows and densities alone."""
    return any(plain(name) in TIMES for name in source.first) or BEGINS_WITH_TIME.fullmatch((source.first or [""])[0]) is not None


def _of_columns(source: Source, lanes: float, decimal: str | None) -> pandas.DataFrame:
    """Flow and density of the columns flow, and density or speed; texts that are no numbers are left out."""
    names = {name.lower(): i for i, name in enumerate(source.first)}
    if "flow" not in names or not {"density", "speed"} & set(names):
        raise Problem(f"{source.path}: needs the columns flow and density, or flow and speed; it has {', '.join(names)}")
    texts = source.rows(source.head + 1, [names[name] for name in ("flow", "density", "speed") if name in names])
    sign = decimal or "."
    columns = {name: pandas.to_numeric(texts[names[name]].astype(str).str.replace(sign, ".", regex=False), errors="coerce")
               for name in ("flow", "density", "speed") if name in names}
    flow = columns["flow"] / lanes
    density = columns["density"] / lanes if "density" in columns else flow / columns["speed"]
    return pandas.DataFrame({"flow": flow, "density": density})


def _of_detectors(paths: Sequence[Path], lanes: float | None, wanted: Wanted, length: float | None) -> tuple[pandas.DataFrame, list[str]]:
    """Flow and density of a lane of one station, and what was read and left out."""
    found = read(paths, replace(wanted, lanes=lanes))
    rows = found.rows
    if rows.station.nunique() > 1:
        raise Problem(f"{found.files.name}: has {counted(list(rows.station.unique()))}; choose one by "
                      "--station")
    count = lanes or rows.lanes.fillna(1)
    flow, density = rows.flow / count, rows.density / count
    density = density.fillna(flow / rows.speed)
    if length is not None:
        density = density.fillna(rows.occupancy / 100 / (length / 1000))
    if density.isna().all():
        raise Problem(f"{found.files.name}: has neither densities nor speeds" + (
            "; of occupancies say --vehicle-length, the length of a vehicle and of the detector, as 6.5" if rows.occupancy.notna().any()
            else ""))
    lines = [*found.lines, f"of {float(numpy.max(count)):g} lane{'s' * bool(numpy.max(count) != 1)}"]
    return pandas.DataFrame({"flow": flow, "density": density}), lines


def fit(states: pandas.DataFrame) -> Triangle:
    """The triangle that fits flow and density, by least squares that single rows far off pull little."""
    from scipy.optimize import least_squares

    density, flow = states.density.to_numpy(), states.flow.to_numpy()
    speed, capacity = numpy.quantile(flow / density, 0.85), numpy.quantile(flow, 0.95)
    top = capacity / speed
    queued = flow < SLOW * speed * density
    if queued.sum() < 3:
        raise Problem(f"{int(queued.sum())} rows are of queued traffic, too few for a wave speed and a jam density")
    jam = max(float(density.max()) * 1.2, 2 * top)

    def misses(terms: Numbers) -> Numbers:
        free, wave, most = terms
        missed: Numbers = (numpy.minimum(free * density, wave * (most - density)) - flow) / capacity
        return missed

    start = numpy.clip([speed, capacity / (jam - top), jam], [2, 2, jam], [240, 90, jam])
    bounds = [1, 1, density.max()], [250, 100, 400 + density.max()]
    found = least_squares(misses, start, loss="soft_l1", f_scale=0.1, bounds=bounds, x_scale=start)
    free, wave, most = map(float, found.x)
    peak = free * wave * most / (free + wave)
    rmse = float(numpy.sqrt((misses(found.x) ** 2).mean()) * capacity)
    behind = density[density > peak / free]
    low, high = map(float, numpy.quantile(behind, [0.1, 0.9])) if len(behind) else (0.0, 0.0)
    return Triangle(free, peak, wave, most, rmse, len(states), len(behind), low, high)
