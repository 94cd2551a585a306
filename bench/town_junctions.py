"""A junction of a town, or a roundabout, told once, as a study of the tools and as a network of SUMO, for bench/towns."""
from dataclasses import dataclass, field, replace

from sumo_streets import ARMS, BEHIND, FAR, RED, RIGHT_OF, Streets, edge, nodes, signal

STEP = 2  # s
LANE = "lane = { free_flow_speed = 50, wave_speed = 20, jam_density = 133, saturation_flow = 1800 }\n"
KINDS = {"r": "minor-right", "s": "minor-through", "l": "minor-left"}
RING, RING_SPEED = 20, 8  # m and m/s
INTO_TWO = 'critical_gap = "4.328 s", follow_up = "2.535 s"'  # 1,420·exp(-0.00085·v)
VEHICLE = 7.5  # m


def towards(arm, turn):
    """The arm by which one leaves who comes from another and turns so."""
    return {"r": RIGHT_OF[arm], "s": BEHIND[arm], "l": BEHIND[RIGHT_OF[arm]]}[turn]


@dataclass(frozen=True)
class Arm:
    """Who comes by an arm: the turns of each lane, from the right, and vehicles/h by turn.

    Its last lane begins `pocket` m before the stop line, by default where the street does. A `flare` is room for so many vehicles
    beside those of the street's one lane.
    """

    lanes: tuple[str, ...]
    flows: dict[str, float]
    pocket: int = 0
    flare: int = 0
    has_priority: bool = False

    @property
    def groups(self):
        """The turns that stand in the same lanes, with how many lanes."""
        found = []
        for lane in self.lanes:
            if found and set(found[-1][0]) & set(lane):
                found[-1] = "".join(dict.fromkeys(found[-1][0] + lane)), found[-1][1] + 1
            else:
                found.append((lane, 1))
        return found


@dataclass(frozen=True)
class Phase:
    """A green in s, of the movements that are named, as "Ns"; those that give way have a question mark. An actuated one has a least."""

    green: int
    moves: str
    least: int = 0

    @property
    def ways(self):
        return [word.rstrip("?") for word in self.moves.split()]


@dataclass(frozen=True)
class Junction:
    """Arms that meet, their phases, and the movements that are watched; sort is that of SUMO's node."""

    sort: str
    arms: dict[str, Arm]
    watched: tuple[str, ...]
    phases: tuple[Phase, ...] = ()
    lanes_out: dict[str, int] = field(default_factory=dict)

    def flow(self, way):
        return self.arms[way[0]].flows.get(way[1], 0) if way[0] in self.arms else 0

    @property
    def watched_flow(self):
        return sum(self.flow(way) for way in self.watched)

    @property
    def watched_roads(self):
        """The roads of the study by which the watched leave the stop line."""
        return [f"{one[0]}-o{towards(*one)}" for one in self.watched]

    @property
    def watched_approaches(self):
        return list(dict.fromkeys(one[0] for one in self.watched))

    def watches(self, approach, movement):
        """Whether a row of `table --by movement` is of a watched movement; an approach with pockets has a row for each of them."""
        return any(approach.split("-")[0] == one[0] and movement == f"o{towards(*one)}" for one in self.watched)

    def with_watched(self, flow):
        """The same with so many on the watched movements, parted as before."""
        factor, arms = flow / self.watched_flow, {}
        for name, arm in self.arms.items():
            arms[name] = replace(arm, flows={turn: one * (factor if name + turn in self.watched else 1) for turn, one in arm.flows.items()})
        return replace(self, arms=arms)

    @property
    def outs(self):
        return list(dict.fromkeys(towards(name, turn) for name, arm in self.arms.items() for turn in arm.flows))

    def out_lanes(self, out):
        return self.lanes_out.get(out) or max(sum("s" in lane for lane in arm.lanes) for name, arm in self.arms.items()
                                             if BEHIND[name] == out) if BEHIND[out] in self.arms else self.lanes_out.get(out, 1)

    def streets(self):
        """The network of SUMO; a street with a pocket or a flare has a second edge, `Sj`, from where that begins."""
        rows, edges, joins, flows = [("J", 0, 0, self.sort)], "", "", {}
        used = {*self.arms, *self.outs}
        rows += [(name, FAR * x, FAR * y, "priority") for name, (x, y) in ARMS.items() if name in used]
        for name, arm in self.arms.items():
            rows += self._mid(name, arm)
            own, more = self._approach(name, arm)
            edges, joins = edges + own, joins + more
            flows |= {self.route(name + turn): flow for turn, flow in arm.flows.items()}
        edges += "".join(edge(f"{out}o", "J", out, 3, max(1, self.out_lanes(out))) for out in self.outs)
        return Streets(nodes(*rows), edges, flows, joins, self._signal() if self.phases else "", [self.route(way) for way in self.watched])

    def route(self, way):
        arm = self.arms[way[0]]
        return " ".join([f"{way[0]}i", *([f"{way[0]}j"] if arm.pocket or arm.flare else []), f"{towards(*way)}o"])

    def _mid(self, name, arm):
        if not (arm.pocket or arm.flare):
            return []
        back = arm.pocket + 10 if arm.pocket else arm.flare * VEHICLE + 12  # the junction itself takes some
        x, y = ARMS[name]
        return [(f"{name}m", back * x, back * y, "priority")]

    def _approach(self, name, arm):
        """The edges of an approach, and what leads where."""
        rank, lanes = 3 if arm.has_priority else 2, len(arm.lanes)
        last, joins = f"{name}i", ""
        if arm.pocket or arm.flare:
            last = f"{name}j"
            edges = edge(f"{name}i", name, f"{name}m", rank, lanes - 1) + edge(last, f"{name}m", "J", rank, lanes)
            for lane in range(lanes):
                joins += f'<connection from="{name}i" to="{last}" fromLane="{min(lane, lanes - 2)}" toLane="{lane}"/>'
        else:
            edges = edge(last, name, "J", rank, lanes)
        ahead = 0
        for place, lane in enumerate(arm.lanes):
            for turn in lane:
                out = towards(name, turn)
                to = ahead if turn == "s" else self.out_lanes(out) - 1 if turn == "l" else 0
                joins += f'<connection from="{last}" to="{out}o" fromLane="{place}" toLane="{max(0, to)}"/>'
            ahead += "s" in lane
        return edges, joins

    def _signal(self):
        rows = []
        for phase, behind in zip(self.phases, [*self.phases[1:], self.phases[0]]):
            lasting = (phase.least, phase.green) if phase.least else phase.green
            stays = " ".join(word for word in behind.moves.split() if word.rstrip("?") in phase.ways)
            rows += [(lasting, phase.moves), (RED, stays)]
        return signal("J", rows, sort="actuated" if any(phase.least for phase in self.phases) else "static")

    def study(self, lasting):
        """The text of a study in which so many s all come evenly."""
        text = f'step = {STEP}\nstart = "07:00"\nduration = {lasting}\n{LANE}[roads]\n'
        for name, arm in self.arms.items():
            text += f'{name} = {{ length = "300 m", lanes = {len(arm.lanes) - bool(arm.pocket or arm.flare)} }}\n'
        text += "".join(f'o{out} = {{ length = "100 m", lanes = {max(1, self.out_lanes(out))} }}\n' for out in self.outs) + "[gates]\n"
        text += "".join(f'g{name} = {{ into = "{name}", demand = {sum(arm.flows.values()):.4f} }}\n' for name, arm in self.arms.items())
        text += "[exits]\n" + "".join(f'x{out} = {{ from = "o{out}" }}\n' for out in self.outs)
        names = ", ".join(f'"{name}"' for name in self.arms), ", ".join(f'"o{out}"' for out in self.outs)
        shares = ", ".join("[" + ", ".join(f"{self._to(name, out):.4f}" for out in self.outs) + "]" for name in self.arms)
        text += f"[[junctions]]\nfrom = [{names[0]}]\ninto = [{names[1]}]\nshares = [{shares}]\n"
        return text + self._pockets() + self._flares() + (self._phases() if self.phases else "") + self._yields()

    def _to(self, name, out):
        return sum(flow for turn, flow in self.arms[name].flows.items() if towards(name, turn) == out)

    def _pockets(self):
        rows = []
        for name, arm in self.arms.items():
            groups = [([turn for turn in turns if turn in arm.flows], count) for turns, count in arm.groups]
            groups = [one for one in groups if one[0]]
            if len(groups) < 2 or arm.flare:
                continue
            for turns, count in groups[-1:] if arm.pocket else groups:
                length = f', length = "{arm.pocket} m"' if arm.pocket else ""
                rows.append(f'{{ movements = [{", ".join(way(name + turn) for turn in turns)}], lanes = {count}{length} }}')
        return f"pockets = [{', '.join(rows)}]\n" if rows else ""

    def _flares(self):
        rows = [f'{{ from = "{name}", vehicles = {arm.flare} }}' for name, arm in self.arms.items() if arm.flare]
        return f"flares = [{', '.join(rows)}]\n" if rows else ""

    def _phases(self):
        rows, start = [], 0
        for phase in self.phases:
            gives = [way(word[:2]) for word in phase.moves.split() if word.endswith("?")]
            more = f", permitted = [{', '.join(gives)}]" if gives else ""
            if phase.least:
                more += f", actuated = {{ least = {phase.least}, most = {phase.green}, gap = 3 }}"
            sources = f'from = [{", ".join(dict.fromkeys(chr(34) + one[0] + chr(34) for one in phase.ways))}]'
            moves = sources if phase.least else f'movements = [{", ".join(map(way, phase.ways))}]'
            rows.append(f"{{ {moves}, start = {start}, green = {phase.green}{more} }}")
            start += phase.green + RED
        return f"cycle = {start}\nintergreen = {RED}\nphases = [{', '.join(rows)}]\n"

    def _yields(self):
        if self.phases:
            permitted = dict.fromkeys(word[:2] for phase in self.phases for word in phase.moves.split() if word.endswith("?"))
            rows = [f'{{ movement = {way(one)}, yields_to = [{way(BEHIND[one[0]] + "s")}] }}' for one in permitted]
        else:
            rows = [self._of_sign(name, turn) for name, arm in self.arms.items() for turn in arm.flows]
        rows = [row for row in rows if row]
        return f"yields = [{', '.join(rows)}]\n" if rows else ""

    def _of_sign(self, name, turn):
        """Who gives way at a sign, to the flows that conflict by the manual."""
        streams = [f'{way(one)[:-1]}, {part:g}]' for one, part in self.conflicts(name, turn)]
        if not streams:
            return ""
        kind, legs = KINDS[turn] if not self.arms[name].has_priority else "major-left", "" if BEHIND[name] in self.arms else ", legs = 3"
        return (f'{{ movement = {way(name + turn)}, kind = "{kind}", priority_lanes = {self.priority_lanes}{legs if turn == "l" else ""}, '
                f'yields_to = [{", ".join(streams)}] }}')

    @property
    def priority_lanes(self):
        return 2 * max(sum("s" in lane for lane in arm.lanes) for arm in self.arms.values() if arm.has_priority)

    def conflicts(self, name, turn):
        """The movements to which one gives way, each with the part of its flow that counts (HCM 2010, chapter 19)."""
        left, right, ahead = BEHIND[RIGHT_OF[name]], RIGHT_OF[name], BEHIND[name]
        if self.arms[name].has_priority:
            found = [(ahead + "s", 1), (ahead + "r", 1)] if turn == "l" else []
        elif turn == "r":
            found = [(left + "s", 2 / self.priority_lanes), (left + "r", 0.5)]
        elif turn == "s":
            found = [(left + "l", 2), (left + "s", 1), (left + "r", 0.5), (right + "l", 2), (right + "s", 1), (right + "r", 1)]
        else:
            found = [(left + "l", 2), (left + "s", 1), (left + "r", 0.5), (right + "l", 2), (right + "s", 1), (right + "r", 0.5),
                     (ahead + "s", 0.5), (ahead + "r", 0.5)]
        return [(one, part) for one, part in found if self.flow(one)]


def way(name):
    """A movement of a study."""
    return f'["{name[0]}", "o{towards(*name)}"]'


@dataclass(frozen=True)
class Roundabout:
    """Four arms with vehicles/h by turn, and the lanes of the ring and of the arms."""

    flows: dict[str, dict[str, float]]
    watched: tuple[str, ...]
    ring: int = 1
    entries: int = 1

    @property
    def watched_flow(self):
        return sum(self.flows[name][turn] for name, turn in self.watched)

    @property
    def watched_roads(self):
        return ["S"]

    def watches(self, approach, movement):
        return approach == "S"

    def with_watched(self, flow):
        factor = flow / self.watched_flow
        return replace(self, flows={name: {turn: one * (factor if name + turn in self.watched else 1) for turn, one in turns.items()}
                                    for name, turns in self.flows.items()})

    def circulating(self, arm):
        """The vehicles/h that pass an entry."""
        left, ahead = BEHIND[RIGHT_OF[arm]], BEHIND[arm]
        return self.flows[left]["s"] + self.flows[left]["l"] + self.flows[ahead]["l"]

    def route(self, name):
        at, edges = name[0], [f"{name[0]}i"]
        for _ in range("rsl".index(name[1]) + 1):
            edges, at = [*edges, f"c{at}"], RIGHT_OF[at]
        return " ".join([*edges, f"{at}o"])

    def streets(self):
        rows = nodes(*((f"r{arm}", RING * x, RING * y, "priority") for arm, (x, y) in ARMS.items()),
                     *((arm, FAR * x, FAR * y, "priority") for arm, (x, y) in ARMS.items()))
        edges = "".join(edge(f"{arm}i", arm, f"r{arm}", 1, self.entries) + edge(f"{arm}o", f"r{arm}", arm, 1, self.entries) +
                        edge(f"c{arm}", f"r{arm}", f"r{RIGHT_OF[arm]}", 3, self.ring, speed=RING_SPEED) for arm in ARMS)
        names = " ".join(f"r{arm}" for arm in ARMS), " ".join(f"c{arm}" for arm in ARMS)
        flows = {self.route(name + turn): flow for name, turns in self.flows.items() for turn, flow in turns.items()}
        return Streets(rows, edges + f'<roundabout nodes="{names[0]}" edges="{names[1]}"/>', flows, watched=list(map(self.route, self.watched)))

    def study(self, lasting):
        """The text of a study: on the ring a road past each exit, `p`, and one past each entry, `c`, as in docs/VALIDATION.md."""
        text = f'step = {STEP}\nstart = "07:00"\nduration = {lasting}\n{LANE}[roads]\n'
        text += "".join(f'{arm} = {{ length = "300 m", lanes = {self.entries} }}\nc{arm} = {{ length = "30 m", lanes = {self.ring} }}\n'
                        f'p{arm} = {{ length = "30 m", lanes = {self.ring} }}\n' for arm in ARMS)
        more = f"\n{INTO_TWO}" if self.ring > 1 else ""
        for arm in ARMS:
            before = BEHIND[RIGHT_OF[arm]]  # who enters there comes past this exit next
            on, off = self.circulating(arm), self._leave(arm)
            text += (f'[gates.g{arm}]\ninto = "{arm}"\ndemand = {sum(self.flows[arm].values()):.4f}\n[exits.x{arm}]\n'
                     f'[[merges]]\nfrom = ["p{arm}", "{arm}"]\ninto = "c{arm}"\npriorities = [1, 1]\nyields_to = "p{arm}"\n'
                     f'kind = "roundabout"{more.replace(", ", chr(10))}\n'
                     f'[[diverges]]\nfrom = "c{before}"\ninto = ["p{arm}", "x{arm}"]\nshares = [{on:.4f}, {off:.4f}]\n')
        return text

    def _leave(self, arm):
        return sum(flow for name, turns in self.flows.items() for turn, flow in turns.items() if towards(name, turn) == arm)
