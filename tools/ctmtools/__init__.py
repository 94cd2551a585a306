"""Companion of `ctm` for engineers: studies in physical units, faults explained, tables, plots, comparisons, sweeps.

`read_study(path)` reads a study, `build(study)` gives its network, `run(study)` its report, `sweep(study, vary)` a row
for each combination of varied values. `read_report(path)` gives a report that stands in a file, and
`read_network(path)` a network file as data frames, in vehicles and steps.

Of a report, `states(report)` is the tidy table of vehicles, flow (vehicles/h), density (vehicles/km) and
speed (km/h) over time, `totals(report)` its delays (vehicle-hours) by cell, `queues_of(report)` its queues,
`travel_times(report, chain_of(report, road="m"), every=900)` the travel times along a chain of cells,
`compare(first, second)` what two of them differ by, `by_lane_group(report)` what is lost at fixed greens by coming at random,
`plot(report, kind)` a picture, and `page(report)` a page for a browser.

`read_detectors(files)` reads files of detectors in whatever format they come. `assign`, `choose`, `draw`, `optimise`, `meter`,
`calibrate` and `diagram` are the commands of their names; `import_sumo`, `import_gmns` and `import_osm` make studies of other
programs' networks and of maps.
"""

from __future__ import annotations

from importlib import import_module
from typing import TYPE_CHECKING, Any

if TYPE_CHECKING:
    from .library.importing import diagram as diagram
    from .library.importing import import_gmns as import_gmns
    from .library.importing import import_osm as import_osm
    from .library.importing import import_sumo as import_sumo
    from .library.importing import read_detectors as read_detectors
    from .library.many import assign as assign
    from .library.many import calibrate as calibrate
    from .library.many import choose as choose
    from .library.many import draw as draw
    from .library.many import optimise as optimise
    from .library.many import sweep as sweep
    from .library.pictures import page as page
    from .library.pictures import plot as plot
    from .library.report import Report as Report
    from .library.report import read_report as read_report
    from .library.runs import build as build
    from .library.runs import compare as compare
    from .library.runs import meter as meter
    from .library.runs import run as run
    from .network_file.network import Network as Network
    from .network_file.network import read_network as read_network
    from .problem import Problem as Problem
    from .report.by_road import by_road as by_road
    from .report.states import queues_of as queues_of
    from .report.states import states as states
    from .report.states import totals as totals
    from .report.travel import chain_of as chain_of
    from .report.travel import travel_times as travel_times
    from .study.folder import allow_files as allow_files
    from .study.study import Study as Study
    from .study.study import read_study as read_study
    from .yielding.fixed_greens import by_lane_group as by_lane_group

__version__ = "1.0"  # the program's, in launcher/words.table

# The public names by where they are at home; each is loaded when it is first asked for.
NAMES = {
    "library.importing": ("diagram", "import_gmns", "import_osm", "import_sumo", "read_detectors"),
    "library.many": ("assign", "calibrate", "choose", "draw", "optimise", "sweep"),
    "library.pictures": ("page", "plot"),
    "library.report": ("Report", "read_report"),
    "library.runs": ("build", "compare", "meter", "run"),
    "network_file.network": ("Network", "read_network"),
    "problem": ("Problem",),
    "report.by_road": ("by_road",),
    "report.states": ("queues_of", "states", "totals"),
    "report.travel": ("chain_of", "travel_times"),
    "study.folder": ("allow_files",),
    "study.study": ("Study", "read_study"),
    "yielding.fixed_greens": ("by_lane_group",),
}
HOMES = {name: home for home, names in NAMES.items() for name in names}
__all__ = sorted(HOMES)


def __getattr__(name: str) -> Any:
    if name not in HOMES:
        raise AttributeError(f"module {__name__} has no attribute {name}")
    return getattr(import_module(f".{HOMES[name]}", __name__), name)


def __dir__() -> list[str]:
    return __all__
