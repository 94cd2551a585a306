"""A study to begin with: one road with a junction at its end, with values that are typical of a kind of road."""

from __future__ import annotations

from dataclasses import dataclass


@dataclass(frozen=True)
class RoadKind:
    """What is typical of a lane of a kind of road: km/h, km/h, vehicles/km and vehicles/h; and a road of that kind to begin with."""

    free_flow_speed: int
    wave_speed: int
    jam_density: int
    saturation_flow: int
    step: int  # s
    length: str  # km, in whole cells
    lanes: int

    def capacity_of(self, percent: int) -> int:
        """So much of what the lanes of the road can carry, vehicles/h."""
        return self.lanes * self.saturation_flow * percent // 100


KINDS = {"motorway": RoadKind(110, 18, 140, 2000, 10, "5.5", 2), "rural": RoadKind(80, 18, 140, 1600, 9, "4", 1),
         "arterial": RoadKind(50, 18, 140, 1800, 6, "3", 2), "local": RoadKind(30, 15, 140, 1200, 6, "2", 1)}
KEYS = ("free_flow_speed", "wave_speed", "jam_density", "saturation_flow")
TABLE_HEAD = ("# Values typical of a lane, by kind of road. They are to begin with: measure yours, or fit them to detectors\n"
              "# (ctm-tools diagram, ctm-tools calibrate).\n#\n"
              f"#   {'kind':<10}{'free-flow speed':>17}{'wave speed':>12}{'jam density':>16}{'saturation flow':>19}\n"
              f"#   {'':<10}{'km/h':>17}{'km/h':>12}{'vehicles/km':>16}{'vehicles/h':>19}\n")
STUDY = '''\
title = "My road"
step = {step}  # s; a cell is as long as what is driven in one step at free flow
start = "06:00"
end = "10:00"  # late enough that the queue has gone

[lane]
free_flow_speed = {free_flow_speed}  # km/h, typical
wave_speed = {wave_speed}  # km/h, typical: the speed at which a queue's waves run backwards
jam_density = {jam_density}  # vehicles/km, typical: standing vehicles on a kilometre
saturation_flow = {saturation_flow}  # vehicles/h, typical: the most that a lane carries for long

[roads.main]
length = {length}  # km; begin it far enough upstream that no queue reaches the gate
lanes = {lanes}
# sections = [{{ from = 1.0, lanes = 1 }}]  # where the lanes change

[gates.upstream]  # where vehicles come in
into = "main"
demand = [
    ["06:00", "07:00", {before}],  # vehicles/h
    ["07:00", "08:00", {peak}],
    ["08:00", "09:30", {after}],
]

[exits.downstream]  # where they go out
from = "main"
capacity = {exit}  # vehicles/h that the junction at the end of the road lets through

# Works, for example. Take the # away to close a lane, and compare the two reports with ctm-tools compare.
# [[closures]]
# road = "main"
# from = 0.5  # km
# to = 1.0
# lanes = 1
# start = "09:00"
# end = "10:00"
'''


def beginning(kind: str) -> str:
    """The text of a study to begin with, whose road is of one of the `KINDS`."""
    road = KINDS[kind]
    return TABLE_HEAD + "".join(map(_row, KINDS)) + "\n" + STUDY.format(
        **vars(road), before=road.capacity_of(50), peak=road.capacity_of(75), after=road.capacity_of(40), exit=road.capacity_of(70))


def _row(kind: str) -> str:
    values = (getattr(KINDS[kind], key) for key in KEYS)
    return f"#   {kind:<10}" + "".join(f"{value:>{width}}" for value, width in zip(values, (17, 12, 16, 19))) + "\n"
