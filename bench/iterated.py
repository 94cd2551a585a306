"""SUMO's duaIterate and `ctm-tools assign` on one network: what rerouted and rerouted-queues share."""
import os
import re
import subprocess
import sys
from collections import Counter
from dataclasses import dataclass, field
from pathlib import Path
from xml.etree import ElementTree

TOP = Path(__file__).resolve().parents[1]
TOOLS = Path(os.environ.get("SUMO_HOME", "/usr/share/sumo")) / "tools"
sys.path[:0] = [str(TOOLS), str(TOP / "tools")]


def run(*words):
    """Runs a command in the folder of all, and ends with what it says where it fails."""
    ended = subprocess.run([str(word) for word in words], capture_output=True, text=True,
                           env={**os.environ, "SUMO_HOME": str(TOOLS.parent)})
    if ended.returncode:
        sys.exit(f"{words[0]}: {ended.stderr.strip()[-500:] or ended.stdout.strip()[-500:]}")


@dataclass
class Driven:
    """What an iteration or a round came to: the hours of all drivers, those of delay, and for each street its vehicles.

    `taken` has the hours of those who drive on each street, from their gate to their exit; `ways` are the rows of a round.
    """

    name: str
    hours: float = 0.0
    delay: float = 0.0
    streets: Counter = field(default_factory=Counter)
    taken: Counter = field(default_factory=Counter)
    ways: list = field(default_factory=list)

    def add(self, streets, vehicles, hours):
        """Adds vehicles that take so many hours together over some streets."""
        self.hours += hours
        self.streets.update(dict.fromkeys(streets, vehicles))
        self.taken.update(dict.fromkeys(streets, hours))


class Roads:
    """The streets of a network by the names of the roads that the import makes of them.

    Where streets follow each other as one road it has the name of the first, and the others none.
    """

    def __init__(self, net, study):
        import sumolib

        self.net = sumolib.net.readNet(f"{net}.net.xml")
        streets = {_road(street): street for street in self.net.getEdges()}
        self.street = {name: street for name, street in streets.items() if name in study.roads}

    def of(self, street):
        """The road that a street belongs to."""
        street = self.net.getEdge(street)
        while _road(street) not in self.street:
            (street,) = (before for before in street.getIncoming() if before.allows("passenger"))
        return _road(street)

    def streets(self, roads, last):
        """The streets of a way by its roads, to the last of its streets."""
        found = [self.street[road] for road in roads if road in self.street]
        way = found[:1]
        for street in [*found[1:], self.net.getEdge(last)]:
            way += self.net.getShortestPath(way[-1], street)[0][1:]
        return [street.getID() for street in way]


def _road(street):
    return re.sub(r"[^A-Za-z0-9_-]", "_", street.getID())


def trips_of(path):
    """What each vehicle of a file of SUMO's trip information took, in s."""
    return {trip.get("id"): {name: float(trip.get(name)) for name in ("duration", "departDelay", "timeLoss")}
            for trip in ElementTree.parse(path).getroot()}


def lost(trips):
    """The vehicle-hours of delay of trips; who waits to depart loses that time too."""
    return sum(trip["timeLoss"] + trip["departDelay"] for trip in trips.values()) / 3600


def by_sumo(net, number):
    """An iteration of duaIterate, by the ways and the times of its vehicles; who waits to depart takes that time too."""
    folder = Path(f"{number:03d}")
    trips = trips_of(folder / f"tripinfo_{number:03d}.xml")
    vehicles = list(ElementTree.parse(folder / f"{net}_{number:03d}.rou.xml").getroot().iter("vehicle"))
    late = len(vehicles) - len(trips)
    found = Driven(f"SUMO, iteration {number + 1}" + (f", {late} not arrived" if late else ""), delay=lost(trips))
    for vehicle in vehicles:
        trip = trips.get(vehicle.get("id"), {"duration": 0, "departDelay": 0})
        found.add(vehicle.find("route").get("edges").split(), 1, (trip["duration"] + trip["departDelay"]) / 3600)
    return found


def iterate(net, times, *options):
    """Runs duaIterate so many times over NET.net.xml and NET.trips.xml; gives all its iterations."""
    run("/usr/bin/python3", "-Es", TOOLS / "assign" / "duaIterate.py", "-n", f"{net}.net.xml", "-t", f"{net}.trips.xml", "-l", times, *options)
    return [by_sumo(net, number) for number in range(times)]


def mean_of(found):
    """The mean of several iterations, named with the least and the most delay of them."""
    count, delays = len(found), [one.delay for one in found]
    mean = Driven(f"SUMO, last {count}: {min(delays):.1f} to {max(delays):.1f}", sum(one.hours for one in found) / count,
                  sum(delays) / count)
    for one in found:
        for own, whole in ((mean.streets, one.streets), (mean.taken, one.taken)):
            own.update({street: value / count for street, value in whole.items()})
    return mean


def by_ctm(net, gap, rounds, *options):
    """The first and the last round of `assign` over the study that `import sumo` makes of the same files.

    Their streets are those that are roads of the study, by SUMO's names, also where nobody drives.
    """
    from ctmtools.assignment.assigning import Assignment
    from ctmtools.study.reading import read_scenario

    run(TOP / "ctm-tools", "import", "sumo", f"{net}.net.xml", "--routes", f"{net}.trips.xml", "--trips", *options, "-o", f"{net}.toml")
    made, all_ = Assignment(read_scenario(f"{net}.toml"), 1), []
    made.start()
    streets = {name: street.getID() for name, street in Roads(net, made.study).street.items()}
    for done in made.rounds(gap, rounds):
        found = Driven(f"assign, round {done.number}, gap {done.gap.relative:.4f}", delay=done.delay, ways=made.rows())
        found.streets.update(dict.fromkeys(streets.values(), 0))
        for row in found.ways:
            found.add({streets[road] for road in row.roads if road in streets}, row.vehicles, row.vehicles * row.minutes / 60)
        all_.append(found)
    return all_[0], all_[-1]
