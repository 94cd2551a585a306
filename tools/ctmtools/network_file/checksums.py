"""Whether a file of units and a network are of one another: the units keep the checksum of their network."""

from __future__ import annotations

import hashlib
from dataclasses import replace
from pathlib import Path
from typing import TYPE_CHECKING

from ..problem import Problem
from ..units import OfNetwork, Units, read_units, units_path

if TYPE_CHECKING:
    from .network import Network


def checksum(content: bytes) -> str:
    """The checksum of a network's or a report's bytes."""
    return hashlib.sha256(content).hexdigest()


def marked(units: Units, content: bytes, steps: int) -> None:
    """Notes in units of which network they are."""
    units.network = OfNetwork(units.network.path, steps, checksum(content))


def units_of(network: Network, path: str | Path) -> Units:
    """The units that stand beside a network's file, which have to be of it."""
    units = read_units(units_path(path))
    check_network(network, units, path, units_path(path))
    return of_runs(units, network)


def of_runs(units: Units, network: Network) -> Units:
    """The units of a network, without what the runs of another one settled, as where it was edited since."""
    if units.network.checksum == checksum(network.content):
        return units
    return replace(units, at_random=replace(units.at_random, giving_way=[]))


def check_network(network: Network, units: Units, name: str | Path, units_name: str | Path) -> None:
    """Refuses units that are of another network; one that was edited by hand has their cells and steps still."""
    if units.network.checksum in (None, checksum(network.content)):
        return
    if units.network.steps not in (None, network.steps):
        raise Problem(f"{units_name}: is of another network than {name}: of {units.network.steps:,} steps, and not {network.steps:,}")
    strange = next((cell for cell in units.cells if network.kinds.get(cell) != "road"), None)
    if strange is not None:
        raise Problem(f"{units_name}: is of another network than {name}, which has no road {strange}")
