"""ctm-tools import"""

from __future__ import annotations

from typing import Unpack

import click

from ..imports.importing import (GMNS, HEADWAYS, OSM, SUMO, WITHOUT_DISTRICTS, ImportOptions, OsmOptions, SumoOptions, from_gmns, from_osm,
                                 from_sumo)
from .options import ALLOW_FILES, FORCE, OUTPUT_FILE, Finite
from .telling import tell

EPILOG = """\b
Examples:
  ctm-tools import sumo town.net.xml --routes town.rou.xml -o town.toml
  ctm-tools import sumo town.net.xml --routes cars.rou.xml --routes lorries.rou.xml --until "1 h" --step 2

  ctm-tools import osm town.osm.pbf --box 11.55,48.13,11.58,48.15 -o town.toml

What can't be kept is printed, and stands in the study's notes, which `build` and `run` print too."""

OUTPUT = click.option("-o", "--output", metavar="STUDY.toml", type=OUTPUT_FILE, help="Where the study goes.")
STEP = click.option("--step", default=SUMO["step"], show_default=True, metavar="TIME", help="The length of a step.")
AFTER = click.option("--after", default=SUMO["after"], show_default=True, metavar="TIME", help="How long the study goes on then.")
HEADWAY = click.option("--headway", default=SUMO["headway"], show_default=True, metavar="SECONDS", type=Finite(*HEADWAYS),
                       help="Between two vehicles that follow each other; with 7.5 m a vehicle it gives each lane's capacity.")


@click.group("import", epilog=EPILOG)
def command() -> None:
    """Make a study of another program's network, or of a map."""


@command.command("sumo", epilog="""\b
Example:
  ctm-tools import sumo town.net.xml --routes town.rou.xml --until "1 h" -o town.toml

Read are the edges with their lanes for cars, connections, priorities and signals; of the route files vehicles, trips and flows,
which give demand and turning shares by --interval. Streets without vehicles are left out.""")
@click.argument("network", metavar="NET.net.xml", type=click.Path())
@click.option("--routes", metavar="FILE.rou.xml", type=click.Path(), multiple=True,
              help="A file of vehicles, trips or flows; may be given again.")
@click.option("--additional", metavar="FILE.add.xml", type=click.Path(), multiple=True,
              help="A file of types, routes, trips or signs that is read before the routes; may be given again.")
@click.option("--trips", is_flag=True, help="Keep how many drive from where to where as trips, for `ctm-tools assign`.")
@ALLOW_FILES
@click.option("--taz", metavar="FILE.taz.xml", type=click.Path(), help="With --trips: the districts of matrices.")
@click.option("--matrix", "matrices", metavar="FILE.od", type=click.Path(), multiple=True,
              help="With --trips: a matrix of SUMO's, of format O or V; may be given again.")
@FORCE
@OUTPUT
@STEP
@click.option("--start", default=SUMO["start"], show_default=True, metavar="TIME", help="The clock time of SUMO's second 0.")
@click.option("--until", default=SUMO["until"], show_default=True, metavar="TIME", help="Until when vehicles come.")
@AFTER
@click.option("--interval", default=SUMO["interval"], show_default=True, metavar="TIME",
              help="The spans by which demand and shares change.")
@HEADWAY
def sumo(network: str, output: str | None, **options: Unpack[SumoOptions]) -> None:
    """Make a study of a network of SUMO, and of its routes."""
    if (options["matrices"] or options["taz"]) and not (options["trips"] and options["matrices"] and options["taz"]):
        raise click.UsageError(WITHOUT_DISTRICTS)
    tell(*from_sumo(network, output, **options).lines)


@command.command("gmns", epilog="""\b
Example:
  ctm-tools import gmns town -o town.toml

Of the folder are read node.csv, link.csv, movement.csv, signal_timing_plan.csv, signal_timing_phase.csv,
signal_phase_mvmt.csv, signal_coordination.csv and of config.csv the units (else km and km/h) and the coordinate system.
Demand is no part of GMNS: it comes from demand.csv with the columns link_id, start, end (s) and flow (vehicles/h), turning
shares from a column `share` of movement.csv, else by lanes.""")
@click.argument("folder", metavar="FOLDER", type=click.Path())
@FORCE
@OUTPUT
@STEP
@click.option("--start", default=GMNS["start"], show_default=True, metavar="TIME", help="The clock time of second 0.")
@click.option("--until", default=GMNS["until"], show_default=True, metavar="TIME", help="How long the study is.")
@click.option("--trips", is_flag=True, help="Take demand.csv as DTALite's trips between zones, for `ctm-tools assign`.")
@click.option("--after", default=GMNS["after"], show_default=True, metavar="TIME", help="With --trips: how long it goes on then.")
def gmns(folder: str, output: str | None, **options: Unpack[ImportOptions]) -> None:
    """Make a study of a network in GMNS, a folder of CSV files."""
    tell(*from_gmns(folder, output, **options).lines)


@command.command("osm", epilog="""\b
Examples:
  ctm-tools import osm town.osm -o town.toml
  ctm-tools import osm bavaria.osm.pbf --box 11.55,48.13,11.58,48.15 --roads motorway,primary,secondary
  ctm-tools import osm town.osm --trips --start 06:00 --until "3 h"

A map of OpenStreetMap as XML, packed by gzip or not, or as .pbf. It is made a network by netconvert of Debian's package sumo;
a box, and a map that is no XML, need osmium of osmium-tool. No connection to a network is used. Beside STUDY.toml are written
STUDY.demand.csv, a table of the gates in which you fill in the vehicles of each hour (with --trips STUDY.trips.csv, of gates
and exits), and STUDY.places.csv, what became of signals, roundabouts, gaps and ways without lanes or speeds, with longitude
and latitude.""")
@click.argument("map_file", metavar="MAP.osm", type=click.Path())
@click.option("--box", metavar="WEST,SOUTH,EAST,NORTH", help="The part of the map that is taken, in degrees.")
@click.option("--roads", metavar="CLASS,..", help="The classes of road that are taken, each with its ramps, as motorway,primary; "
              "else all that cars may use.")
@click.option("--trips", is_flag=True, help="Ask how many drive from where to where, for `ctm-tools assign`, in place of how many come.")
@FORCE
@OUTPUT
@STEP
@click.option("--start", default=OSM["start"], show_default=True, metavar="TIME", help="The clock time at which the study begins.")
@click.option("--until", default=OSM["until"], show_default=True, metavar="TIME", help="How long vehicles come.")
@AFTER
@HEADWAY
def osm(map_file: str, output: str | None, **options: Unpack[OsmOptions]) -> None:
    """Make a study of a map of OpenStreetMap."""
    tell(*from_osm(map_file, output, **options).lines)
