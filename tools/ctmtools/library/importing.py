"""Networks of other programs, and maps, as studies, and what detectors saw, as frames and as a diagram."""

from __future__ import annotations

from collections.abc import Sequence
from pathlib import Path
from typing import TYPE_CHECKING, Unpack

from ..detectors.options import DetectorOptions, StationOptions, wanted_by
from ..imports.importing import ImportOptions, OsmOptions, SumoOptions, from_gmns, from_osm, from_sumo
from ..problem import check_options
from ..study.study import Study, read_study

if TYPE_CHECKING:
    import pandas

    from ..calibration.diagram import Triangle


def import_sumo(network: str | Path, output: str | Path, **options: Unpack[SumoOptions]) -> Study:
    """The study that `ctm-tools import sumo` makes of a network of SUMO and writes to `output`.

    The options are the command's: `routes="town.rou.xml"`, or a list of files, `step="2 s"`, `until="1 h"`. What can't be kept
    stands in the study's notes, its `remarks`.
    """
    check_options(options, SumoOptions)
    return read_study(from_sumo(network, output, **options).path)


def import_gmns(folder: str | Path, output: str | Path, **options: Unpack[ImportOptions]) -> Study:
    """The study that `ctm-tools import gmns` makes of a folder in GMNS and writes to `output`; its options are the command's."""
    check_options(options, ImportOptions)
    return read_study(from_gmns(folder, output, **options).path)


def import_osm(map_file: str | Path, output: str | Path, **options: Unpack[OsmOptions]) -> Study:
    """The study that `ctm-tools import osm` makes of a map of OpenStreetMap and writes to `output`; its options are the command's.

    Beside it stand the table to fill in, NAME.demand.csv or NAME.trips.csv, and what became of the map, NAME.places.csv.
    """
    check_options(options, OsmOptions)
    return read_study(from_osm(map_file, output, **options).path)


def read_detectors(files: str | Path | Sequence[str | Path], **options: Unpack[DetectorOptions]) -> pandas.DataFrame:
    """The rows of files of detectors: station, time, flow, speed, occupancy, density, observed, lanes, file, line.

    The options are those of `ctm-tools detectors`: `station="400001"`, `dates=["weekdays"]`, `average="median"`,
    `leave_out=["all"]`, `interval="5 min"`, `lanes=3`. Times are local; without dates they are of 1 January 1900. In
    `frame.attrs` stand the lines of the command in `told`, the rows that were `left_out` with their `rule`, and `interval_s`.
    """
    from ..detectors.reading import read, times_of

    found = read(files, wanted_by(**options))
    frame = found.rows.assign(time=times_of(found), station=found.rows.station.astype(str))
    frame = frame[["station", "time", "flow", "speed", "occupancy", "density", "observed", "lanes", "file", "line"]]
    frame["file"] = [str(found.files.parts[int(file)].path) for file in frame.file]
    frame.attrs = {"told": found.lines, "left_out": found.left[["station", "day", "second", "flow", "rule", "line"]],
                   "interval_s": found.interval, "units": {"flow": "vehicles/h", "speed": "km/h", "occupancy": "%",
                                                           "density": "vehicles/km"}}
    return frame


def diagram(files: str | Path | Sequence[str | Path], lanes: float | None = None, vehicle_length: float | None = None,
            **options: Unpack[StationOptions]) -> Triangle:
    """The triangle of flow and density that fits a detector's data: speed, capacity, wave and jam of a lane.

    `vehicle_length`, in m, makes densities of occupancies, and the other options are those of `read_detectors`.
    """
    from ..calibration.diagram import fit, read_states

    return fit(read_states(files, lanes, wanted_by(**options), vehicle_length))
