"""A short road from a gate to an exit, as a study to which tests add what they are about."""

from pathlib import Path

from ctmtools import build, read_study

HEAD = """
step = 10
start = "06:00"
end = "{end}"
[lane]
free_flow_speed = 90
wave_speed = 18
jam_density = 144
saturation_flow = 2160
"""

# Two hours of a gate that lets 1,200 vehicles/h pass; in the first 1,500 a factor of them come.
GATE = """
step = 60
start = "06:00"
end = "08:00"
lane = { free_flow_speed = 60, wave_speed = 20, jam_density = 140, saturation_flow = 1800 }
roads = { m = { length = 1, lanes = 1 } }
exits = { off = { from = "m" } }
gates = { on = { into = "m", capacity = 1200, demand = [["06:00", "07:00", 1500]] } }
"""


def corridor_text(parts="", lanes=2, demand=1000, end="07:00", gate="", head=HEAD):
    """The study of a road of 1 km, four cells, from a gate to an exit, with other parts."""
    return head.format(end=end) + f"""[roads.m]
length = 1
lanes = {lanes}
[gates.g]
into = "m"
demand = {demand}
{gate}[exits.x]
from = "m"
{parts}"""


def corridor(folder, *terms, **named):
    """The built network of such a study."""
    path = Path(folder) / "study.toml"
    path.write_text(corridor_text(*terms, **named))
    return build(read_study(path))
