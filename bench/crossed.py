"""The delay of each model where its drivers take the ways of the other's, for bench/rerouted.

It tells what of the difference is in how the models let traffic move, and what in the ways that drivers choose.
"""
from collections import Counter, defaultdict
from pathlib import Path
from xml.etree import ElementTree

from iterated import TOP, Roads, lost, run, trips_of


def by_ctm_on(net, number, *options):
    """The vehicle-hours of delay in the study of an iteration's vehicles, each on its way there."""
    import ctmtools

    study = f"{net}-{number:03d}.toml"
    run(TOP / "ctm-tools", "import", "sumo", f"{net}.net.xml", "--routes", f"{number:03d}/{net}_{number:03d}.rou.xml", *options, "-o", study)
    report = ctmtools.run(study)
    return report.units.hours(report.total.delay)


def by_sumo_on(net, ways, interval, *options):
    """The vehicle-hours of delay in SUMO, whose vehicles part in each interval of choice as the rows of an assignment say."""
    from ctmtools.study.reading import read_scenario

    roads, by_pair = Roads(net, read_scenario(f"{net}.toml")), defaultdict(list)
    for row in ways:
        by_pair[row.source, row.into, row.seconds].append(row)
    taken, vehicles = defaultdict(Counter), []
    trips = ElementTree.parse(f"{net}.trips.xml").getroot().iter("trip")
    for depart, number, start, end in sorted((float(trip.get("depart")), trip.get("id"), trip.get("from"), trip.get("to")) for trip in trips):
        pair = f"in-{roads.of(start)}", f"out-{roads.of(end)}", int(depart // interval * interval)
        row = _next(by_pair[pair], taken[pair])
        route = " ".join(roads.streets(row.roads, end))
        vehicles.append(f'<vehicle id="{number}" depart="{depart}"><route edges="{route}"/></vehicle>')
    Path("crossed.rou.xml").write_text("<routes>" + "\n".join(vehicles) + "</routes>")
    run("sumo", "-n", f"{net}.net.xml", "-r", "crossed.rou.xml", "--tripinfo-output", "crossed.xml", "--no-step-log", *options)
    trips = trips_of("crossed.xml")
    if len(trips) < len(vehicles):
        print(f"{len(vehicles) - len(trips)} vehicles don't arrive")
    return lost(trips)


def _next(rows, taken):
    """The way that is the farthest behind its part of the vehicles so far; one more takes it."""
    all_, count = sum(row.vehicles for row in rows), taken.total() + 1
    found = max(rows, key=lambda row: count * row.vehicles / all_ - taken[row.way])
    taken[found.way] += 1
    return found
