"""A one-way street through two signals, 400 m apart, as a study of the tools and as a network of SUMO, for bench/towns."""
from dataclasses import dataclass, replace

from sumo_streets import RED, Streets, edge, nodes, signal
from town_junctions import LANE, STEP

AFAR, BETWEEN = 300, 400  # m
MAIN, SIDES = "Wi Mi Eo", ("Ni So", "Ti Uo")
GAP, LEAST = 3, 5  # s of a green that follows traffic


@dataclass(frozen=True)
class Arterial:
    """So many vehicles/h along the street and on each street that crosses it; the second signal begins `offset` s later."""

    along: float
    across: float
    offset: int
    is_actuated: bool = False
    green: int = 44
    other: int = 28

    @property
    def cycle(self):
        return self.green + self.other + 2 * RED

    @property
    def watched_flow(self):
        return self.along

    @property
    def watched_roads(self):
        return ["W-M"]

    @property
    def watched_approaches(self):
        return ["W", "M"]

    def with_watched(self, flow):
        return replace(self, along=flow)

    def streets(self):
        rows = nodes(("W", -AFAR, 0, "priority"), ("A", 0, 0, "traffic_light"), ("B", BETWEEN, 0, "traffic_light"), ("E", BETWEEN + AFAR, 0, "priority"),
                     *((name, x, y, "priority") for name, x, y in (("N", 0, AFAR), ("S", 0, -AFAR), ("T", BETWEEN, AFAR), ("U", BETWEEN, -AFAR))))
        edges = "".join(edge(*ends, 2) for ends in (("Wi", "W", "A"), ("Mi", "A", "B"), ("Eo", "B", "E"), ("Ni", "N", "A"), ("So", "A", "S"),
                                                    ("Ti", "T", "B"), ("Uo", "B", "U")))
        joins = "".join(f'<connection from="{start}" to="{end}" fromLane="0" toLane="0"/>'
                        for start, end in (("Wi", "Mi"), ("Mi", "Eo"), ("Ni", "So"), ("Ti", "Uo")))
        signals = self._signal("A", "Ws", "Ns", 0) + self._signal("B", "Ms", "Ts", self.offset)
        return Streets(rows, edges, {MAIN: self.along, **dict.fromkeys(SIDES, self.across)}, joins, signals, [MAIN])

    def _signal(self, name, along, across, offset):
        first, second = ((LEAST, one) if self.is_actuated else one for one in (self.green, self.other))
        return signal(name, ((first, along), (RED, ""), (second, across), (RED, "")), offset, "actuated" if self.is_actuated else "static")

    def study(self, lasting):
        text = f'step = {STEP}\nstart = "07:00"\nduration = {lasting}\n{LANE}[roads]\n'
        text += "".join(f'{name} = {{ length = "{length} m", lanes = 1 }}\n' for name, length in (
            ("W", AFAR), ("M", BETWEEN), ("E", 100), ("N", AFAR), ("S", 100), ("T", AFAR), ("U", 100)))
        text += "[gates]\n" + "".join(f'g{name} = {{ into = "{name}", demand = {flow:.4f} }}\n' for name, flow in (
            ("W", self.along), ("N", self.across), ("T", self.across)))
        text += "[exits]\n" + "".join(f'x{name} = {{ from = "{name}" }}\n' for name in "ESU")
        for names, offset in (("WNMS", 0), ("MTEU", self.offset)):
            first, second, *into = names
            follow = [f", actuated = {{ least = {LEAST}, most = {green}, gap = {GAP} }}" if self.is_actuated else ""
                      for green in (self.green, self.other)]
            text += (f'[[junctions]]\nfrom = ["{first}", "{second}"]\ninto = ["{into[0]}", "{into[1]}"]\nshares = [[1, 0], [0, 1]]\n'
                     f'cycle = {self.cycle}\nintergreen = {RED}\noffset = {offset}\nwithin = true\n'
                     f'phases = [{{ from = ["{first}"], green = {self.green}{follow[0]} }}, '
                     f'{{ from = ["{second}"], green = {self.other}{follow[1]} }}]\n')
        return text
