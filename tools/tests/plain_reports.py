"""Reports by the plain recurrences, with their networks, as tests of several files take them."""

import plain_model

from ctmtools.network_file.network import network_of
from ctmtools.report.reading import report_of


def plain_report(text, every=1, name="made"):
    """The report of a network's text."""
    report = report_of(plain_model.report(text.encode(), every), name)
    report.network = network_of(text.encode())
    return report


def reported(made, every=1):
    """The report of a built study, in its units."""
    report = plain_report(made.text, every)
    report.units = made.units
    return report


def at_a_light(*steps):
    """A cell that is green in steps 0 to 4 of each 10, and a vehicle that comes to its gate in each of some steps."""
    return plain_report("ctm,1\nsteps,40\ngate,g,9,0\nroad,a,60,9,1,5,0\nexit,x,9\nlink,g,a\nlink,a,x\nsignal,a,10,0,0,5\n" +
                        "".join(f"demand,g,{step},{step + 1},1\n" for step in steps), name="light")
