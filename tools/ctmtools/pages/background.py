"""A map behind the roads of a page: tiles of a server, which the browser fetches where there is a network."""

from __future__ import annotations

import re
from dataclasses import dataclass

from ..problem import Problem
from ..report.reading import Report
from ..study.coordinates import METRES, moved, system
from .networks import Place

STREETS = "https://tile.openstreetmap.org/{z}/{x}/{y}.png"
CREDIT = "© OpenStreetMap contributors"
BESIDE = "'self' file:"  # of tiles that stand beside the page
ORIGIN = re.compile(r"((?:https?|file)://[\w.\[\]:-]*)/")
MERCATOR = "EPSG:3857"  # the plane in which tiles lie


@dataclass(frozen=True)
class Background:
    """A server of tiles, and the projected coordinate system in which the points of a study are, in km.

    Without one it is that which the units of the report name.
    """

    crs: str | None = None
    tiles: str = STREETS

    def place_of(self, report: Report) -> Place:
        """What takes a line of the map from the study's km to m in the plane of the tiles."""
        if not report.units.points:
            raise Problem(f"{report.name}: its roads have no points, so no map can stand behind them")
        crs, key = self._crs_of(report)
        if not system(crs, key).is_projected:
            raise Problem(f"{key}: expected a projected system, in which points in km lie, found {crs}")
        return lambda line: moved([(x * METRES, y * METRES) for x, y in line], crs, MERCATOR, key)

    def _crs_of(self, report: Report) -> tuple[str, str]:
        """The coordinate system of a report's points, and where it is said."""
        if self.crs:
            return self.crs, "--crs"
        if report.units.crs:
            return report.units.crs, f"{report.name}: crs"
        raise Problem(f"{report.name}: where its roads lie on the earth isn't known; --crs names the system of their points")

    @property
    def origin(self) -> str:
        """The server of the tiles, as a content policy names it."""
        found = ORIGIN.match(self.tiles)
        if not found and "://" in self.tiles:
            raise Problem(f"--tiles: expected the address of a server, as {STREETS}, found {self.tiles}")
        return found[1] if found else BESIDE

    def data(self) -> dict[str, str]:
        """The background for the page."""
        return {"tiles": self.tiles, "credit": CREDIT if self.tiles == STREETS else ""}
