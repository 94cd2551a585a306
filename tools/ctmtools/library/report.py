"""A report with all that can be asked of it, by a dot."""

from __future__ import annotations

import io
from base64 import b64encode
from dataclasses import fields
from html import escape
from pathlib import Path
from typing import TYPE_CHECKING, Unpack

from ..problem import Problem
from ..report import reading
from ..report.by_road import by_road
from ..report.reading import Report as Data
from ..report.states import queues_of, states, totals
from ..report.summary import page as summary_lines
from ..report.travel import chain_of, travel_times
from .pictures import Kind, PictureOptions, page, plot

if TYPE_CHECKING:
    import pandas
    from matplotlib.figure import Figure


class Report(Data):
    """A report, as `run` and `read_report` give it, with its units and its network where these are known.

    `cells`, `total`, `times`, `vehicles` and `left` are what the program wrote, in vehicles and steps. The methods give
    frames in the engineer's units, whose names stand in `frame.attrs["units"]`, and pictures. Two reports are equal where they
    are the same one.
    """

    @classmethod
    def of(cls, data: Data) -> Report:
        """The report with methods of one that has none."""
        return data if isinstance(data, cls) else cls(**{field.name: getattr(data, field.name) for field in fields(data)})

    def states(self) -> pandas.DataFrame:
        """A row for each recorded step and cell, as `ctmtools.states` has it."""
        return states(self)

    def totals(self, value_of_time: float | None = None) -> pandas.DataFrame:
        """A row for each cell at the last step, as `ctmtools.totals` has it."""
        return totals(self, value_of_time)

    def queues(self) -> pandas.DataFrame:
        """A row for each queue, as `ctmtools.queues_of` has it."""
        return queues_of(self)

    def travel_times(self, begin: str | None = None, end: str | None = None, road: str | None = None,
                     every: float | None = None) -> pandas.DataFrame:
        """Travel times by the time of setting out, as `ctmtools.travel_times` has them: along a road, or from a place to another.

        A place is `ROAD.KM`, a gate or an exit; without any it is the longest route from a gate. `every` is the span of a row
        in seconds, else there is one for the whole time.
        """
        return travel_times(self, chain_of(self, begin, end, road), every)

    def by_road(self, every: float | None = None, value_of_time: float | None = None) -> pandas.DataFrame:
        """A row for each road and gate, and each `every` seconds, as `ctmtools.by_road` has it."""
        return by_road(self, every, value_of_time)

    def cell(self, name: str) -> pandas.DataFrame:
        """The rows of `states` of a cell, by time."""
        if name not in self.names:
            raise Problem(f"{self.name}: there is no cell {name}")
        frame = states(self)
        return _rows(frame, frame.cell == name)

    def road(self, name: str) -> pandas.DataFrame:
        """The rows of `states` of a road's cells, by time and in the direction of travel."""
        if name not in self.units.roads:
            raise Problem(f"{self.name}: there is no road {name}" + ("" if self.units.known else ", as the units aren't known"))
        frame = states(self)
        return _rows(frame, frame.cell.isin(self.units.roads[name]))

    def plot(self, kind: Kind, output: str | Path | None = None, **options: Unpack[PictureOptions]) -> Figure:
        """A picture, as `ctmtools.plot` has it."""
        return plot(self, kind, output, **options)

    def page(self, output: str | Path | None = None) -> str:
        """The page for a browser, as `ctmtools.page` has it."""
        return page(self, output=output)

    def _repr_html_(self) -> str:
        """What a notebook shows: the figures that `run` prints, and the picture over time and place, where there are records."""
        text = f"<pre>{escape(chr(10).join(summary_lines(self)))}</pre>"
        if not self.recorded:
            return text
        image = io.BytesIO()
        try:
            self.plot("time-space").savefig(image, format="png")
        except Problem as problem:  # as of a network that has no route
            return f"{text}<p>{escape(str(problem))}</p>"
        return f'{text}<img alt="{escape(self.title)}" src="data:image/png;base64,{b64encode(image.getvalue()).decode()}">'


def _rows(frame: pandas.DataFrame, chosen: pandas.Series) -> pandas.DataFrame:
    found = frame[chosen].reset_index(drop=True)
    found.attrs = frame.attrs
    return found


def read_report(path: str | Path, units: str | Path | None = None, network: str | Path | None = None) -> Report:
    """The report in a file, in vehicles and steps, with the units that stand beside it and the network they name.

    `units` and `network` are paths that are taken in place of these. A network is also found beside the report, under
    its name with the ending .csv.
    """
    return Report.of(reading.read_report(path, units, network))
