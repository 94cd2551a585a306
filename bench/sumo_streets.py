"""Networks of SUMO in which some give way, and what SUMO makes of them, for bench/giving-way.

A network is made by netconvert of nodes, edges and signals that stand here, but RiLSA's, which Debian's package sumo-tools brings.
Beside it one without signs and signals is made of the same streets: what a vehicle alone loses there, as in turning, is no loss by
giving way.
"""
import os
import statistics
import subprocess
import sys
from collections import Counter
from dataclasses import dataclass, field
from pathlib import Path
from random import Random
from xml.etree import ElementTree

TOOLS = Path(os.environ.get("SUMO_HOME", "/usr/share/sumo")) / "tools"
RILSA = TOOLS / "sumolib" / "scenario" / "scenarios" / "RealWorld" / "RiLSA_example1"
STEP = 0.25  # s
# By default some are faster than others, as SUMO has it, so that platoons form behind the slow ones.
CAR = '<vType id="car" speedFactor="1" speedDev="0"/>' if os.environ.get("SPEEDS") == "one" else '<vType id="car"/>'
FAR = 300  # m to the ends of the roads
RED = 4  # s at the end of each phase
ALONE, APART = 12, 67  # vehicles of each route that drive alone, and s between them
BEGINS = 300  # s until those who pass are counted
LONGEST_WAIT = 20  # s for room, after which a vehicle of a queue that is to stand doesn't come
MOST_MEMORY, LONGEST_RUN = 4_000_000_000, 1200  # bytes and s of a run, since one whose streets are jammed for good doesn't end
ARMS = {"N": (0, 1), "E": (1, 0), "S": (0, -1), "W": (-1, 0)}
RIGHT_OF = {"N": "W", "W": "S", "S": "E", "E": "N"}  # where who comes from an arm turns right
NO_TURNS = "--no-turnarounds", "true"
BEHIND = {"N": "S", "S": "N", "E": "W", "W": "E"}


@dataclass
class Streets:
    """A network, the vehicles/h of each route, and the routes of those whose loss is compared, by default all."""

    nodes: str
    edges: str
    flows: dict[str, float]
    joins: str = ""
    signal: str = ""
    watched: list[str] = field(default_factory=list)

    def __post_init__(self):
        self.watched = self.watched or list(self.flows)


def nodes(*rows):
    return "".join(f'<node id="{name}" x="{x}" y="{y}" type="{sort}"/>' for name, x, y, sort in rows)


def edge(name, start, end, priority=1, lanes=1, speed=13.89):
    return f'<edge id="{name}" from="{start}" to="{end}" priority="{priority}" numLanes="{lanes}" speed="{speed}"/>'


def side_street(priority, side):
    """One turns right out of a side street into a road."""
    rows = nodes(("W", -FAR, 0, "priority"), ("E", FAR, 0, "priority"), ("J", 0, 0, "priority"), ("S", 0, -FAR, "priority"))
    edges = edge("main", "W", "J", 3) + edge("side", "S", "J") + edge("out", "J", "E", 3)
    return Streets(rows, edges, {"main out": priority, "side out": side}, watched=["side out"])


def arms(sort, lanes):
    """Four arms that meet in J, each with a street in and a street out."""
    rows = nodes(("J", 0, 0, sort), *((arm, FAR * x, FAR * y, "priority") for arm, (x, y) in ARMS.items()))
    return rows, "".join(edge(f"{arm}i", arm, "J", 2, lanes) + edge(f"{arm}o", "J", arm, 2) for arm in ARMS)


def join(arm, to, lane):
    return f'<connection from="{arm}i" to="{to}o" fromLane="{lane}" toLane="0"/>'


def permitted_left(towards, left, through=200, first=30, second=30):
    """One direction turns left out of a lane of its own through the other, which drives through, in 30 s of a cycle of 60 s."""
    rows, edges = arms("traffic_light", 1)
    edges = edges.replace(edge("Si", "S", "J", 2), edge("Si", "S", "J", 2, lanes=2))
    joins = "".join(join(*ends) for ends in (("N", "S", 0), ("S", "N", 0), ("S", "W", 1), ("E", "W", 0), ("W", "E", 0)))
    flows = {"Ni So": towards, "Si Wo": left, "Si No": through, "Ei Wo": through, "Wi Eo": through}
    return Streets(rows, edges, flows, joins, two_phases(first, second))


def two_phases(first, second):
    """North and south are green together, then west and east, each for so long, the last of it red."""
    greens = [" ".join(f"{arm}r {arm}s {arm}l?" for arm in arms) for arms in ("NS", "WE")]
    return signal("J", ((first - RED, greens[0]), (RED, ""), (second - RED, greens[1]), (RED, "")))


def signal(name, phases, offset=0, sort="static"):
    """A signal of phases: how long each lasts, or the least and the most, and who is green in it, as `letter` has it."""
    rows = "".join(f'<phase {_lasting(lasting)} state="{greens}"/>' for lasting, greens in phases)
    return f'<tlLogic id="{name}" type="{sort}" programID="made" offset="{offset}">{rows}</tlLogic>'


def _lasting(lasting):
    if isinstance(lasting, tuple):
        return f'duration="{lasting[0]}" minDur="{lasting[0]}" maxDur="{lasting[1]}"'
    return f'duration="{lasting}"'


def letter(greens, arm, turn):
    """SUMO's letter of a movement in a phase, in which `Ns` is green and `Nl?` too, but gives way."""
    words = greens.split()
    return "G" if arm + turn in words else "g" if f"{arm}{turn}?" in words else "r"


def crossing():
    """All turn at all arms, a lane for through and right and one for left, in a cycle of 70 s."""
    rows, edges = arms("traffic_light", 2)
    joins, flows = "", {}
    for arm in ARMS:
        right, ahead, left = RIGHT_OF[arm], BEHIND[arm], BEHIND[RIGHT_OF[arm]]
        joins += "".join(join(arm, to, lane) for to, lane in ((right, 0), (ahead, 0), (left, 1)))
        flows |= {f"{arm}i {right}o": 60, f"{arm}i {ahead}o": 350 if arm in "NS" else 250, f"{arm}i {left}o": 80}
    return Streets(rows, edges, flows, joins, two_phases(38, 32))


def roundabout(ahead):
    """A ring of four arms of 20 m radius, of whose drivers a half drive through and a quarter turn to each side."""
    ring = {"N": (0, 20), "W": (-20, 0), "S": (0, -20), "E": (20, 0)}
    rows = nodes(*((f"r{arm}", *at, "priority") for arm, at in ring.items()),
                 *((arm, FAR * x, FAR * y, "priority") for arm, (x, y) in ARMS.items()))
    edges = "".join(edge(f"{arm}i", arm, f"r{arm}", 1) + edge(f"{arm}o", f"r{arm}", arm, 1) +
                    edge(f"c{arm}", f"r{arm}", f"r{RIGHT_OF[arm]}", 3, speed=8) for arm in ARMS)
    flows = {}
    for arm in ARMS:
        way, at = f"{arm}i", arm
        for flow in (ahead / 2, ahead, ahead / 2):
            way, at = f"{way} c{at}", RIGHT_OF[at]
            flows[f"{way} {at}o"] = flow
    names = " ".join(f"r{arm}" for arm in ring), " ".join(f"c{arm}" for arm in ring)
    return Streets(rows, edges + f'<roundabout nodes="{names[0]}" edges="{names[1]}"/>', flows)


def rilsa(part):
    """Example 1 of RiLSA with its own signal as sumo-tools has them, and a part of its vehicles, all as cars."""
    routes = Counter(route.get("edges") for route in ElementTree.parse(RILSA / "routes.rou.xml").getroot().iter("route"))
    return Streets("", "", {route: round(part * count) for route, count in sorted(routes.items())})


def run(*words, **named):
    """Runs a command within bounds of memory and time, and ends with what it says where it fails."""
    try:
        ended = subprocess.run(["prlimit", f"--as={MOST_MEMORY}", *map(str, words)], capture_output=True, text=True,
                               timeout=LONGEST_RUN, **named)
    except subprocess.TimeoutExpired:
        sys.exit(f"{words[0]}: hasn't ended after {LONGEST_RUN} s")
    if ended.returncode:
        sys.exit(f"{words[0]}: {ended.stderr.strip()[-500:] or ended.stdout.strip()[-500:]}")
    return ended.stdout


class Sumo:
    """A network in a folder, n.net.xml, the one without signs and signals, free.net.xml, and their runs."""

    def __init__(self, folder, streets):
        self.folder, self.streets, self.routes = Path(folder), streets, list(streets.flows)
        if streets.nodes:
            self._convert()
        else:
            self._take_rilsa()
        self._free()
        self.alone = self._lost_alone() if sum(streets.flows.values()) else {}

    def _convert(self):
        """The network, and its signals, whose movements are known by the first letter of their street and by their turn."""
        made = self.streets
        for name, inside, text in ("nod", "nodes", made.nodes), ("edg", "edges", made.edges), ("con", "connections", made.joins):
            (self.folder / f"n.{name}.xml").write_text(f"<{inside}>{text}</{inside}>")
        words = ["netconvert", "-n", "n.nod.xml", "-e", "n.edg.xml", "-x", "n.con.xml", "-o", "n.net.xml", *NO_TURNS]
        run(*words, cwd=self.folder)
        if not made.signal:
            return
        net = ElementTree.parse(self.folder / "n.net.xml").getroot()
        signals = ElementTree.fromstring(f"<tlLogics>{made.signal}</tlLogics>")
        for one in signals:
            links = sorted((int(link.get("linkIndex")), link.get("from")[0], link.get("dir").lower())
                           for link in net.iter("connection") if link.get("tl") == one.get("id"))
            for phase in one:
                phase.set("state", "".join(letter(phase.get("state"), arm, turn) for _, arm, turn in links))
        ElementTree.ElementTree(signals).write(self.folder / "n.tll.xml")
        run(*words, "-i", "n.tll.xml", cwd=self.folder)

    def _take_rilsa(self):
        """RiLSA's network with its own program in place of the one that netconvert made up."""
        net = ElementTree.parse(RILSA / "net.net.xml")
        for old, new in zip(net.getroot().iter("tlLogic"), ElementTree.parse(RILSA / "tls.add.xml").getroot().iter("tlLogic")):
            old[:] = list(new)
        net.write(self.folder / "n.net.xml")

    def _free(self):
        net = ElementTree.parse(self.folder / "n.net.xml").getroot()
        free = "".join(f'<node id="{node.get("id")}" type="unregulated"/>' for node in net.iter("junction")
                       if node.get("type") not in ("internal", "dead_end"))
        (self.folder / "free.nod.xml").write_text(f"<nodes>{free}</nodes>")
        run("netconvert", "-s", "n.net.xml", "-n", "free.nod.xml", "-o", "free.net.xml", *NO_TURNS, cwd=self.folder)

    def write_vehicles(self, vehicles, name="r"):
        """Writes vehicles and the routes that they drive to NAME.rou.xml."""
        routes = "".join(f'<route id="{i}" edges="{edges}"/>' for i, edges in enumerate(self.routes))
        (self.folder / f"{name}.rou.xml").write_text(f"<routes>{CAR}{routes}{vehicles}</routes>")

    def _trips(self, vehicles, *words, net="n.net.xml", step=STEP, name="r"):
        """The trips of vehicles by a run of SUMO, each with the number of its route; runs of several names go side by side."""
        self.write_vehicles(vehicles, name)
        run("sumo", "-n", net, "-r", f"{name}.rou.xml", "--no-step-log", "--no-warnings", "--time-to-teleport", -1, "--step-length",
            step, "--tripinfo-output", f"{name}.trips.xml", *words, cwd=self.folder)
        found = ElementTree.parse(self.folder / f"{name}.trips.xml").getroot()
        return [(int(trip.get("id").split(".")[0]), trip) for trip in found.iter("tripinfo")]

    def random(self, flows, lasting):
        """Vehicles of some routes that come at random, so many in an hour."""
        numbered = ((self.routes.index(route), flow) for route, flow in flows.items())
        return "".join(f'<flow id="{i}" type="car" route="{i}" begin="0" end="{lasting}" period="exp({flow / 3600:.6f})" '
                       'departSpeed="max"/>' for i, flow in numbered)

    def even(self, flows, lasting, seed):
        """Vehicles of some routes that come evenly, so many in an hour, the first of each at a time of its own by the seed."""
        begins = Random(seed)
        rows = sorted((begins.random() * 3600 / flow, self.routes.index(route), 3600 / flow) for route, flow in flows.items())
        return "".join(f'<flow id="{i}" type="car" route="{i}" begin="{begin:.2f}" end="{lasting}" period="{period:.4f}" '
                       'departSpeed="max"/>' for begin, i, period in rows)

    def _lost_alone(self):
        """What a vehicle of each route loses in the mean, in s, that is alone on streets without signs and signals."""
        vehicles = "".join(f'<vehicle id="{i}.{k}" type="car" route="{i}" depart="{APART * (ALONE * i + k)}" departSpeed="max"/>'
                           for i in range(len(self.routes)) for k in range(ALONE))
        each = {}
        for route, trip in self._trips(vehicles, net="free.net.xml"):
            each.setdefault(route, []).append(float(trip.get("timeLoss")))
        return {route: statistics.mean(lost) for route, lost in each.items()}

    def lost(self, seed, lasting, evenly=False):
        """What the watched vehicles lose in the mean, in s, beside one that is alone; they come at random, or evenly."""
        watched, flows = [self.routes.index(route) for route in self.streets.watched], self.streets.flows
        vehicles = self.even(flows, lasting, seed) if evenly else self.random(flows, lasting)
        trips = self._trips(vehicles, "--seed", seed, name=f"{'even' if evenly else 'random'}{seed}")
        return statistics.mean(float(trip.get("timeLoss")) + float(trip.get("departDelay")) - self.alone[route]
                               for route, trip in trips if route in watched)

    def passed(self, flows, lasting, step=STEP):
        """The vehicles/h of each of some routes that pass in the mean where so many come, or would."""
        trips = self._trips(self.random(flows, lasting), "--end", lasting, "--max-depart-delay", LONGEST_WAIT, step=step)
        count = Counter(route for route, trip in trips if float(trip.get("arrival")) > BEGINS)
        return [3600 * count[self.routes.index(route)] / (lasting - BEGINS) for route in flows]
