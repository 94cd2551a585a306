"""Reports of small networks, worked on paper by docs/MODEL.md, its own examples among them."""

import re
from fractions import Fraction

import pytest
from conftest import hold
from format_tables import MODEL, rows_of
from plain_model import PARTS, printed
from plain_model import report as plain_report
from worked import CITY, FULL_REPORT, FULL_ROAD, TURN, TWO_ROADS, TWO_ROADS_REPORT, lines

# The name of each network, the network and its report.
NETWORKS = [
    ("what waits in a gate", lines("ctm,1; steps,3; gate,g,2,4; exit,x,2; link,g,x"),
     lines("report,3,2; cell,g,0.000000,0.000000,4.000000,2.000000; cell,x,4.000000,4.000000,0.000000,0.000000; "
           "total,0.000000,0.000000,4.000000,2.000000")),
    ("a full road", FULL_ROAD, FULL_REPORT),
    ("a road without room", lines("ctm,1; steps,2; gate,g,2,0; road,a,0,2,1,1,0; link,g,a; demand,g,0,1,4"),
     lines("report,2,2; cell,g,4.000000,4.000000,0.000000,4.000000; cell,a,0.000000,0.000000,0.000000,0.000000; "
           "total,4.000000,4.000000,0.000000,4.000000")),
    ("a link from a road to itself", lines("ctm,1; steps,2; road,a,6,2,1,1,3; link,a,a"),
     lines("report,2,1; cell,a,3.000000,4.000000,4.000000,2.000000; total,3.000000,0.000000,0.000000,2.000000")),
    ("two roads", TWO_ROADS, TWO_ROADS_REPORT),
    ("a merge into too little room",
     lines("ctm,1; steps,1; gate,g,3,3; gate,h,3,1; road,e,10,2,1,1,0; merge,g,h,e,1,1"),
     lines("report,1,3; cell,g,2.000000,0.000000,1.000000,2.000000; cell,h,0.000000,0.000000,1.000000,0.000000; "
           "cell,e,2.000000,2.000000,0.000000,0.000000; total,4.000000,0.000000,0.000000,2.000000")),
    ("a diverge that shares in whole parts",
     lines("ctm,1; steps,1; road,b,10,10,1,1,0.000007; road,c,1,0.000001,1,1,0; exit,x,0.0001; diverge,b,c,x,1,2"),
     lines("report,1,3; cell,b,0.000004,0.000000,0.000003,0.000004; cell,c,0.000001,0.000001,0.000000,0.000000; "
           "cell,x,0.000002,0.000002,0.000000,0.000000; total,0.000005,0.000000,0.000002,0.000004")),
    ("other shares in the second of three steps", TURN,
     lines("report,3,3; cell,b,0.000000,0.000000,9.000000,9.000000; cell,x,4.000000,4.000000,0.000000,0.000000; "
           "cell,y,5.000000,5.000000,0.000000,0.000000; total,0.000000,0.000000,9.000000,9.000000")),
    ("a signal that is red, green twice, and red",
     lines("ctm,1; steps,4; gate,g,1,10; exit,x,5; link,g,x; signal,g,4,3,0,2"),
     lines("report,4,2; cell,g,8.000000,0.000000,2.000000,35.000000; cell,x,2.000000,2.000000,0.000000,0.000000; "
           "total,8.000000,0.000000,2.000000,35.000000")),
    ("limits that overlap", lines("ctm,1; steps,3; gate,g,5,10; exit,x,9; link,g,x; limit,g,0,2,1; limit,g,1,3,3"),
     lines("report,3,2; cell,g,3.000000,0.000000,7.000000,18.000000; cell,x,7.000000,7.000000,0.000000,0.000000; "
           "total,3.000000,0.000000,7.000000,18.000000")),
    ("a limit above the capacity", lines("ctm,1; steps,2; gate,g,1,10; exit,x,9; link,g,x; limit,g,1,2,8"),
     lines("report,2,2; cell,g,1.000000,0.000000,9.000000,10.000000; cell,x,9.000000,9.000000,0.000000,0.000000; "
           "total,1.000000,0.000000,9.000000,10.000000")),
    ("demands that overlap", lines("ctm,1; steps,3; gate,g,0,0; demand,g,0,2,1.5; demand,g,1,3,0.25"),
     lines("report,3,1; cell,g,3.500000,3.500000,0.000000,4.750000; total,3.500000,3.500000,0.000000,4.750000")),
    ("cells that nothing joins", lines("ctm,1; steps,2; gate,g,2,1; road,a,6,2,1,1,3; exit,x,2"),
     lines("report,2,3; cell,g,1.000000,0.000000,0.000000,2.000000; cell,a,3.000000,0.000000,0.000000,6.000000; "
           "cell,x,0.000000,0.000000,0.000000,0.000000; total,4.000000,0.000000,0.000000,8.000000")),
    ("a merge back into a road that it comes from",
     lines("ctm,1; steps,1; road,a,6,2,1,1,5; gate,g,2,2; merge,a,g,a,1,1"),
     lines("report,1,2; cell,a,5.500000,1.000000,0.500000,4.500000; cell,g,1.500000,0.000000,0.500000,1.500000; "
           "total,7.000000,0.000000,0.000000,6.000000")),
    ("a diverge back into the road that it comes from",
     lines("ctm,1; steps,1; road,a,6,4,1,1,4; exit,x,9; diverge,a,a,x,1,1"),
     lines("report,1,2; cell,a,2.000000,2.000000,4.000000,0.000000; cell,x,2.000000,2.000000,0.000000,0.000000; "
           "total,2.000000,0.000000,2.000000,0.000000")),
]


@pytest.mark.parametrize("network, report", [case[1:] for case in NETWORKS], ids=[case[0] for case in NETWORKS])
def test_the_report_of_a_network(network, report, run):
    hold((0, report, b""), run(["run"], input=network))


@pytest.mark.parametrize("network, report", [case[1:] for case in NETWORKS], ids=[case[0] for case in NETWORKS])
def test_the_plain_model_gives_that_report_too(network, report):
    assert plain_report(network) == report


CUT = TWO_ROADS.replace(b"ctm,1", b"ctm,2") + lines("region,g,1; region,a,0; region,b,1; region,x,0")


@pytest.mark.parametrize("words, network", [
    pytest.param(["--regions", "4"], TWO_ROADS, id="each cell a region"),
    pytest.param([], CUT, id="regions of the file whose cells aren't side by side"),
    pytest.param(["--regions", "3"], CUT, id="the same, and another number of regions asked for"),
    pytest.param(["--regions", "3", "--workers", "2"], CUT, id="the same by two workers"),
])
def test_two_roads_that_are_cut(words, network, run):
    hold((0, TWO_ROADS_REPORT, b""), run(["run", *words], input=network))


# What the report ends in. In the first network the gate holds 2.903447 at step 1, grows by 0.903447 a step up to 20.068940
# at step 20, and then falls by 2 a step. Its waits are 189.723870 up to step 20 and 72.620460 from step 21 on. The figures
# of the second are those of the same recurrences, worked by a program of their own.
ENDS = [
    ("a long queue", lines("ctm,1; steps,42; gate,g,2,0; road,m0,12,4,1,2,0; exit,out,4; link,g,m0; link,m0,out; "
                           "demand,g,0,20,2.903447"),
     lines("cell,out,58.068940,58.068940,0.000000,0.000000; total,0.000000,58.068940,58.068940,262.344330")),
    ("a city", CITY, lines("cell,x5,3.000000,3.000000,0.000000,0.000000; total,22.694448,4.750000,25.055552,95.572931")),
]


@pytest.mark.parametrize("network, end", [case[1:] for case in ENDS], ids=[case[0] for case in ENDS])
def test_what_the_report_of_a_network_ends_in(network, end, run):
    assert plain_report(network).endswith(end)
    hold((0, plain_report(network), b""), run(["run"], input=network))


def worked(heads):
    """The numbers of each row of a table of docs/MODEL.md, in parts where they are amounts. Of what is worked out it is the end."""
    for row in rows_of(heads, MODEL):
        amounts, weights, *ends = row.strip("| ").split(" | ")
        scale = PARTS if "vehicles" in amounts else 1
        yield (*(int(Fraction(number) * scale) for number in re.findall(r"[\d.]+", amounts)),
               *map(int, weights.split(", ")),
               *(int(Fraction(number) * scale) for end in ends[1:] for number in end.split(" = ")[-1].split(", ")))


# What two gates send and a road receives, the priorities, and what passes from each gate; what a gate sends and two exits
# receive, the shares, what leaves, and what enters each.
MERGES = list(worked("`S1`, `S2`, `R` | `P1`, `P2` | `a` | `y1` | `y2`"))
DIVERGES = list(worked("`S`, `R1`, `R2` in parts | `B1`, `B2` | `k` | Leaves | Enter"))


def test_each_row_of_the_tables_of_the_model_is_read():
    assert (len(MERGES), len(DIVERGES)) == (6, 3)


def report_of_a_step(cells):
    """The report of one step of cells, each with its name, what it holds at first, what enters and what leaves."""
    rows = [(name, held + enters - leaves, enters, leaves, 0 if name in "xy" else held - leaves)
            for name, held, enters, leaves in cells]
    inside = sum(row[1] for row in rows if row[0] not in "xy")
    left = sum(row[1] for row in rows if row[0] in "xy")
    total = ("total", inside, 0, left, sum(row[4] for row in rows))
    shown = [("cell," + row[0], *row[1:]) for row in rows] + [total]
    return lines("; ".join([f"report,1,{len(cells)}", *(",".join([head, *map(printed, row)]) for head, *row in shown)]))


@pytest.mark.parametrize("first, second, room, first_priority, second_priority, from_first, from_second", MERGES)
def test_the_worked_merges(first, second, room, first_priority, second_priority, from_first, from_second, run):
    network = lines(f"ctm,1; steps,1; gate,g,9,{printed(first)}; gate,h,9,{printed(second)}; road,e,9,{printed(room)},1,1,0; "
                    f"merge,g,h,e,{first_priority},{second_priority}")
    report = report_of_a_step([("g", first, 0, from_first), ("h", second, 0, from_second),
                               ("e", 0, from_first + from_second, 0)])
    hold((0, report, b""), run(["run"], input=network))


@pytest.mark.parametrize("sent, first, second, first_share, second_share, leaves, into_first, into_second", DIVERGES)
def test_the_worked_diverges(sent, first, second, first_share, second_share, leaves, into_first, into_second, run):
    network = lines(f"ctm,1; steps,1; gate,g,9,{printed(sent)}; exit,x,{printed(first)}; exit,y,{printed(second)}; "
                    f"diverge,g,x,y,{first_share},{second_share}")
    report = report_of_a_step([("g", sent, 0, leaves), ("x", 0, into_first, 0), ("y", 0, into_second, 0)])
    hold((0, report, b""), run(["run"], input=network))
