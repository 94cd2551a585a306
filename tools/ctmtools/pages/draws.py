"""The draws of a page: how the delays of each plan are distributed, the sum of that, and what the draws show of it."""

from __future__ import annotations

from collections.abc import Sequence
from contextlib import suppress
from pathlib import Path
from typing import Any

import numpy

from ..arrays import Numbers
from ..network_file.checksums import checksum
from ..problem import Problem
from ..report.reading import Report
from ..uncertainty.messages import HEADS, compared_lines, plan_lines, spread_rows
from ..uncertainty.reliability import PERCENTS
from ..uncertainty.results import BESIDE, Draws, bars_of, read_results

MOST_POINTS = 1000  # of the sum of a plan's draws


def draws_of(reports: Sequence[Report], names: Sequence[str], folder: Path | None = None) -> dict[str, Any] | None:
    """The draws that a folder has of the network of a report; without a folder those beside a report, None where none are of it."""
    results = _beside(reports) if folder is None else read_results(folder)
    if results is None:
        return None
    if not _is_of(results, reports):
        raise Problem(f"{folder}: its draws are of other networks than {', '.join(report.name for report in reports)}; run the studies "
                      "as they are, or draw them anew")
    called = dict(zip(_networks(reports), names))
    ends, shares = bars_of(results.delays_by_plan)
    return {"head": f"Delay in {results.count:,} draw{'s'[:results.count != 1]}, seed {results.seed}", "columns": ["", *HEADS],
            "ends": [float(end) for end in ends], "percents": PERCENTS,
            "plans": [{"name": _name(results, plan, called), **_plan(results, plan, shares)} for plan in results.plans],
            "compared": [line for plan in results.plans[1:] for line in compared_lines(results, plan)]}


def _beside(reports: Sequence[Report]) -> Draws | None:
    """The draws that stand beside the first report that has some of its network."""
    for report in reports:
        folder = Path(report.name).with_suffix(".draw")
        if (folder / BESIDE).exists():
            with suppress(Problem):  # what isn't whole is of no report
                found = read_results(folder)
                if _is_of(found, [report]):
                    return found
    return None


def _is_of(results: Draws, reports: Sequence[Report]) -> bool:
    """Whether a plan as it stands has the network of one of the reports."""
    return bool(set(results.networks.values()).intersection(_networks(reports)))


def _networks(reports: Sequence[Report]) -> list[str]:
    """The checksums of the networks of reports."""
    return [checksum(report.need_network().content) for report in reports]


def _name(results: Draws, plan: str, called: dict[str, str]) -> str:
    """What a plan is called: as its report on the page, else by its title; with the name that the lines have of it."""
    name = called.get(results.networks[plan], results.titles[plan])
    return name if name == plan else f"{name} ({plan})"


def _plan(results: Draws, plan: str, shares: dict[str, Numbers]) -> dict[str, Any]:
    if plan not in shares:
        return {"rows": [], "lines": ["No run succeeded."], "shares": [], "sum": [], "at": []}
    values = numpy.sort(results.delays_by_plan[plan])
    ranks = numpy.unique(numpy.linspace(1, len(values), min(len(values), MOST_POINTS)).round().astype(int))
    return {"rows": list(spread_rows(results, plan)), "lines": list(plan_lines(results, plan)),
            "shares": [round(float(share), 6) for share in shares[plan]],
            "sum": [[round(float(values[rank - 1]), 6), round(float(rank / len(values)), 6)] for rank in ranks],
            "at": [float(value) for value in numpy.percentile(values, PERCENTS)]}
