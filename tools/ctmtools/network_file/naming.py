"""Cells, steps and amounts of a network as messages name them: in the engineer's units where these are known."""

from __future__ import annotations

from typing import Any

from ..units import Units
from .network import Network


class Naming:
    """Names of what is in a network. The units say of which road a cell is where the network was built of a study."""

    def __init__(self, network: Network, units: Units | None = None) -> None:
        self.network, self.units = network, units or Units()

    @property
    def of_study(self) -> bool:
        """Whether roads, kilometres and clock times are known."""
        return bool(self.units.known and self.units.cells)

    def place(self, cell: str) -> dict[str, Any] | None:
        """The road and the kilometres of a cell; None where they aren't known, as of one that was added by hand."""
        return self.units.cells.get(cell) if self.of_study else None

    def cell(self, cell: str, last: str | None = None) -> str:
        """A cell with its kind, or with its road and its kilometres, up to the end of a later cell if one is given."""
        place = self.place(cell)
        if place is None:
            return f"the {self.network.kinds[cell]} {cell}"
        if cell in self.units.within:
            return f"road {self.units.made_place(cell)}"
        return f"road {place['road']} from km {place['from_km']:.6g} to {self.units.cells[last or cell]['to_km']:.6g}"

    def time(self, step: int) -> str:
        """A step, or its clock time."""
        return self.units.clock(step) if self.of_study else f"step {step}"

    def lasting(self, steps: int) -> str:
        """A number of steps, or their seconds."""
        return f"{steps} steps" if self._seconds is None else f"{steps * self._seconds:g} s"

    def flow(self, vehicles: float) -> str:
        """Vehicles in a step, or in an hour."""
        if self._seconds is None:
            return f"{vehicles:.6g} vehicles a step"
        return f"{vehicles * 3600 / self._seconds:,.6g} vehicles/h"

    def speed(self, cell: str, above: int, below: int) -> str:
        """A part of a road's own free-flow speed, or the speed."""
        place = self.place(cell)
        own = f"{above}/{below} of its own" if above < below else "its own"
        return own if place is None else f"{place['free_flow_kmh'] * above / below:.6g} km/h"

    @property
    def _seconds(self) -> float | None:
        """The seconds of a step, where the network is of a study."""
        return self.units.step if self.of_study else None
