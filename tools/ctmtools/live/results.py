"""What a study's text comes to: built and run as `ctm-tools run` does it, and what the page shows of it."""

from __future__ import annotations

import json
import re
from base64 import b64decode
from collections import OrderedDict
from collections.abc import Sequence
from dataclasses import dataclass
from functools import cached_property
from hashlib import sha256
from pathlib import Path
from typing import Any

from ..files.writing import write
from ..files.written_over import guard_output
from ..network_file.checksums import marked
from ..pages.content import data_of
from ..pages.frames import Frames, bounds_of
from ..pages.html_page import page_of
from ..pages.networks import closures_of, is_measured, signals_of, speed_limits
from ..problem import Problem
from ..report.reading import Report
from ..runs.outputs import guard_report
from ..runs.running import Prepared, kept, opened, placed, run
from ..study.study import Study
from ..sweeps.sweeping import measures_of

HERE = "at hand"  # what the study that is changed is called beside plans
MOST_KEPT = 12  # results, so that a plan beside which another stands isn't run again
FAULT = re.compile(r"([A-Za-z_][\w-]*(?:(?:\.[\w-]+)|(?:\[\d+\]))*): (.*)", re.DOTALL)


@dataclass(eq=False)
class Result:
    """A study that was run: its text, what was prepared of it, and the report."""

    text: str
    prepared: Prepared
    content: bytes
    report: Report

    @property
    def told(self) -> list[str]:
        """What `run` prints of the study before the results."""
        return self.prepared.told

    @cached_property
    def measures(self) -> dict[str, float]:
        """The measures of a sweep's rows."""
        return measures_of(self.report)


class Results:
    """The results of texts, of which the last ones are kept."""

    def __init__(self, path: Path) -> None:
        self.path = path
        self._kept: OrderedDict[str, Result] = OrderedDict()

    def of(self, text: str) -> Result:
        """The result of a study's text, or the problem that it has none."""
        found = self._kept.get(text) or run_text(text, self.path)
        self._kept[text] = found
        self._kept.move_to_end(text)
        while len(self._kept) > MOST_KEPT:
            self._kept.popitem(last=False)
        return found


def run_text(text: str, path: Path) -> Result:
    """Builds the study of a text and runs it, as `ctm-tools run` does of its file. Nothing is written."""
    prepared = opened(Study.of_text(text, path).scenario)
    content, report = run(prepared.content, str(prepared.path), prepared.units, network=prepared.network)
    marked(report.units, prepared.content, prepared.network.steps)
    report.name = str(path.with_suffix(".report"))
    return Result(text, prepared, content, report)


def fault_of(problem: Problem, path: Path) -> dict[str, str]:
    """A problem as the page marks it: the key that it speaks of, as patches name it, and the line."""
    line = str(problem).removeprefix(f"{path}: ")
    found = FAULT.match(line)
    key = re.sub(r"\[(\d+)\]", r".\1", found[1]) if found else ""
    return {"key": key, "line": line}


def write_report(result: Result, path: Path) -> Path:
    """Writes the report, units and network of a result beside its study, as `ctm-tools run` does, and gives the report's path."""
    target = path.with_suffix(".report")
    guard_report(target)
    kept(target, placed(result.prepared, target), result.content, result.report)
    return target


def write_page(results: Sequence[Result], path: Path) -> Path:
    """Writes the page of results, as `ctm-tools report` makes it, beside the study, and gives its path."""
    target = guard_output(path.with_suffix(".html"))
    write(target, page_of([result.report for result in results]))
    return target


def page_data(results: Sequence[Result], names: Sequence[str]) -> dict[str, Any]:
    """What the page of `report` shows of results, the last of which is at hand, with a checksum of what it is laid out by.

    Those of other times than the last one are left out, since they can't stand beside it.
    """
    last = results[-1].report
    alike = [i for i, result in enumerate(results) if _times(result.report) == _times(last)]
    reports, own = [results[i].report for i in alike], [names[i] for i in alike]
    data = data_of(reports, names=own)
    if len(reports) > 1:
        data["title"] = last.title
    data["shape"] = _checksum([data[name] for name in ("networks", "times", "names", "units", "schematic")])
    data["alone"] = bool(data["ways"] or data["draws"])  # so it is drawn as a whole
    return data


def picture_data(result: Result, bounds: Sequence[int]) -> dict[str, Any]:
    """What changes of a picture whose frames have these bounds and whose network is the same."""
    frames = Frames(result.report, bounds, is_measured(result.report))
    return {"report": {"limits": speed_limits(result.report), "closures": closures_of(result.report),
                       "signals": signals_of(result.report), **frames.data()}}


def layout_of(result: Result) -> str:
    """A checksum of what the frames of a result are laid out by: its cells with their places and lanes, its points and times."""
    report = result.report
    return _checksum([_times(report), report.units.cells, report.units.roads, report.units.points, report.names])


def frame_bounds(results: Sequence[Result]) -> list[int]:
    """The bounds of the frames that results share."""
    return bounds_of([result.report for result in results])


def _times(report: Report) -> tuple[Any, ...]:
    return report.steps, report.units.step, report.units.start


def _checksum(value: Any) -> str:
    return sha256(json.dumps(value, default=str, sort_keys=True).encode()).hexdigest()[:16]


def packet(data: dict[str, Any]) -> bytes:
    """What is sent of a page's data: its head as JSON with its length before it, and behind it the arrays that it names.

    In the head the text of an array is its place and its length in bytes, on multiples of four.
    """
    arrays: list[bytes] = []
    reports = [_apart(report, arrays) for report in data.get("reports", ())]
    head = {**data, **({"reports": reports} if reports else {})}
    if "report" in data:
        head["report"] = _apart(data["report"], arrays)
    spelled = json.dumps(head, separators=(",", ":"), allow_nan=False).encode()
    spelled += b" " * (-len(spelled) % 4)
    return len(spelled).to_bytes(4, "little") + spelled + b"".join(arrays)


def _apart(report: dict[str, Any], arrays: list[bytes]) -> dict[str, Any]:
    """A report whose arrays stand in the list, and in it where."""
    def put(text: str) -> list[int]:
        content = b64decode(text)
        place = sum(map(len, arrays))
        arrays.append(content + b"\0" * (-len(content) % 4))
        return [place, len(content)]

    named = {name: {**report[name], "text": put(report[name]["text"])} for name in ("density", "flow")}
    return {**report, **named, "queued": put(report["queued"])}
