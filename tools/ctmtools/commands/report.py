"""ctm-tools report"""

from __future__ import annotations

from pathlib import Path

import click

from ..files.writing import write
from ..files.written_over import guard_output
from ..problem import Problem
from ..report.reading import read_report
from .options import FORCE, OUTPUT_FILE, on_reports
from .telling import tell

EPILOG = """\b
Examples:
  ctm-tools report bottleneck.report
  ctm-tools report bottleneck.report bottleneck-staggered.report -o staggered.html
  ctm-tools report uncertain.report uncertain-shoulder.report --draws uncertain.draw

The page is one file that needs no network: the map with a slider of time, density, flow or speed over time and place on a
road, the curves of the cell that is clicked, and a table of roads, junctions and gates that is sorted by a click on its
heads. Of several reports it shows each, or what it has more than the first, and what `compare` prints. Draws of what is
uncertain are shown with how their delay is distributed. All reports need records; their means are over as many steps as keep
the page small. It needs Debian's node-d3 when it is made, whose script goes into the page.

With --map-behind a map of OpenStreetMap stands behind the roads wherever the page is looked at with a network connection:
the browser fetches it, and that server learns which place is looked at. It needs points of the roads in a system that is
known, in km, and Debian's python3-pyproj."""


@click.command(epilog=EPILOG)
@click.argument("reports", metavar="REPORT..", type=click.Path(), nargs=-1, required=True)
@FORCE
@click.option("-o", "--output", metavar="FILE.html", type=OUTPUT_FILE, help="Where the page goes.")
@click.option("--map-behind", is_flag=True, help="Show a map behind the roads, where the browser has a network.")
@click.option("--crs", metavar="EPSG:CODE", help="The projected system of the roads' points, where the report doesn't name it.")
@click.option("--tiles", metavar="URL", help="The server of that map, with {z}, {x} and {y}; by default OpenStreetMap's.")
@click.option("--draws", metavar="FOLDER", type=click.Path(),
              help="What draw wrote of a network of the reports; by default REPORT.draw beside one, where that is of its network.")
@click.option("--title", metavar="TEXT", help="The page's title, in place of the studies'.")
@click.option("--author", metavar="TEXT", help="The author's name, below the title.")
@click.option("--logo", metavar="FILE.png|svg|jpg", type=click.Path(), help="A picture at the head of the page.")
@on_reports
def command(reports: tuple[str, ...], output: str | None, map_behind: bool, crs: str | None, tiles: str | None, draws: str | None,
            title: str | None, author: str | None, logo: str | None, units: str | None, network: str | None) -> None:
    """Make a page for a browser of a report, or of several side by side."""
    from ..pages.background import STREETS, Background
    from ..pages.content import Heading
    from ..pages.html_page import page_of

    target = guard_output(output or Path(reports[0]).stem + ".html")
    if Path(target).suffix.lower() not in (".html", ".htm"):
        raise Problem(f"{target}: a page's name ends with .html")
    if (crs or tiles) and not map_behind:
        raise click.UsageError("--crs and --tiles go with --map-behind")
    background = Background(crs, tiles or STREETS) if map_behind else None
    text = page_of([read_report(path, units, network) for path in reports], background=background,
                   draws=None if draws is None else Path(draws),
                   heading=Heading(title, author, None if logo is None else Path(logo)))
    write(target, text)
    tell(f"{target}: {len(text.encode()):,} bytes")
