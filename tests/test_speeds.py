"""Speeds of roads, worked on paper by docs/MODEL.md: what a slower road sends, beside limits, signals, merges and diverges, and
a road out of which nothing comes until its speed rises. The report is the same by several workers in several regions.
"""

import functools

import pytest
from conftest import hold
from plain_model import Plain, parts_of
from plain_model import report as plain_report
from saved import Saved
from worked import SPEED, lines

# A road that holds 999 parts at a thousandth of its speed, and a gate that brings it one part more: only then does one leave,
# until the speed is the road's own again.
HELD = lines("ctm,3; steps,600; gate,g,2,0; road,a,6,2,1,1,0.000999; exit,x,2; link,g,a; link,a,x; demand,g,300,301,0.000001; "
             "speed,a,0,500,1,1000")

# The name of each network, the network and its report.
NETWORKS = [
    ("half the speed", lines("ctm,3; steps,1; road,a,10,5,1,1,5; exit,x,9; link,a,x; speed,a,0,1,1,2"),
     lines("report,1,2; cell,a,2.500000,0.000000,2.500000,2.500000; cell,x,2.500000,2.500000,0.000000,0.000000; "
           "total,2.500000,0.000000,2.500000,2.500000")),
    ("a part that never comes to the end", lines("ctm,3; steps,3; road,a,10,5,1,1,0.000001; exit,x,9; link,a,x; speed,a,0,3,1,2"),
     lines("report,3,2; cell,a,0.000001,0.000000,0.000000,0.000003; cell,x,0.000000,0.000000,0.000000,0.000000; "
           "total,0.000001,0.000000,0.000000,0.000003")),
    # of 3 parts 1 leaves, of the 2 left 1, and of the last none
    ("three parts of which one stays", lines("ctm,3; steps,3; road,a,10,5,1,1,0.000003; exit,x,9; link,a,x; speed,a,0,3,1,2"),
     lines("report,3,2; cell,a,0.000001,0.000000,0.000002,0.000004; cell,x,0.000002,0.000002,0.000000,0.000000; "
           "total,0.000001,0.000000,0.000002,0.000004")),
    # 5 of 12 leave by the capacity, 1 of 7 by the first limit, 3 of 6 by the speed below the second, 1.5 of 3, and then all
    ("the least of the capacity, a limit and a speed",
     lines("ctm,3; steps,5; road,a,12,5,1,1,12; exit,x,9; link,a,x; speed,a,0,4,1,2; limit,a,1,2,1; limit,a,2,3,4"),
     lines("report,5,2; cell,a,0.000000,0.000000,12.000000,17.500000; cell,x,12.000000,12.000000,0.000000,0.000000; "
           "total,0.000000,0.000000,12.000000,17.500000")),
    # a holds 0, 2, 3.5, 3.125, 2.4375, 1.84375 and 0.921875; g holds 6, 4, 2, 1.5 and 0.625
    ("a speed that changes before a queue",
     lines("ctm,3; steps,7; gate,g,2,6; road,a,4,2,1,1,0; exit,x,2; link,g,a; link,a,x; speed,a,0,3,1,4; speed,a,3,6,1,2"),
     lines("report,7,3; cell,g,0.000000,0.000000,6.000000,8.125000; cell,a,0.000000,6.000000,6.000000,7.828125; "
           "cell,x,6.000000,6.000000,0.000000,0.000000; total,0.000000,0.000000,6.000000,15.953125")),
    # a holds 4, and behind each step 1, 0.5, 0.5, 0.5, 0.25, 0.125, 0.125, 0.125 and 0
    ("a speed at a light that is green in two steps of four",
     lines("ctm,3; steps,9; road,a,10,3,1,1,4; exit,x,9; link,a,x; signal,a,4,0,0,2; speed,a,1,6,1,2"),
     lines("report,9,2; cell,a,0.000000,0.000000,4.000000,3.125000; cell,x,4.000000,4.000000,0.000000,0.000000; "
           "total,0.000000,0.000000,4.000000,3.125000")),
    # first a sends 1.5 and b 3, of which 1.5 and 2.5 find room; then 4.5 and 0.25, of which 3.75 and 0.25 do
    ("speeds before a merge",
     lines("ctm,3; steps,2; road,a,9,9,1,1,6; road,b,9,9,1,1,3; road,e,10,4,1,1,0; merge,a,b,e,1,1; speed,a,0,1,1,4; speed,b,1,2,1,2"),
     lines("report,2,3; cell,a,0.750000,0.000000,5.250000,5.250000; cell,b,0.250000,0.000000,2.750000,0.750000; "
           "cell,e,8.000000,8.000000,0.000000,4.000000; total,9.000000,0.000000,0.000000,10.000000")),
    # of 9 vehicles 3 come to the end, so that 1 turns to x and 2 to y; then of 6 come 2, and a turn shares them alike
    ("a speed before a diverge",
     lines("ctm,3; steps,2; road,b,9,9,1,1,9; exit,x,9; exit,y,9; diverge,b,x,y,1,2; turn,b,1,2,1,1; speed,b,0,2,1,3"),
     lines("report,2,3; cell,b,4.000000,0.000000,5.000000,10.000000; cell,x,2.000000,2.000000,0.000000,0.000000; "
           "cell,y,3.000000,3.000000,0.000000,0.000000; total,4.000000,0.000000,5.000000,10.000000")),
    # of 10 parts 5 come to the end, and of 7 parts 3: each time 1 and 2 leave; of the last 4 come 2, which can't be shared
    ("parts that come to the end and can't be shared",
     lines("ctm,3; steps,3; road,b,9,9,1,1,0.000010; exit,x,9; exit,y,9; diverge,b,x,y,1,2; speed,b,0,3,1,2"),
     lines("report,3,3; cell,b,0.000004,0.000000,0.000006,0.000015; cell,x,0.000002,0.000002,0.000000,0.000000; "
           "cell,y,0.000004,0.000004,0.000000,0.000000; total,0.000004,0.000000,0.000006,0.000015")),
    # a quarter of 16, half of 12, a third of 6 and a quarter of 4 leave
    ("the last of several speeds",
     lines("ctm,3; steps,4; road,a,16,16,1,1,16; exit,x,16; link,a,x; speed,a,0,9,1,4; speed,a,1,3,1,2; speed,a,2,3,1,3"),
     lines("report,4,2; cell,a,3.000000,0.000000,13.000000,25.000000; cell,x,13.000000,13.000000,0.000000,0.000000; "
           "total,3.000000,0.000000,13.000000,25.000000")),
    # 2 come in each step from the second on; in the third 1 of 2 leaves, in the fourth 1.5 of 3, and in the fifth all 3.5
    ("a speed from its first step to the one before its last",
     lines("ctm,3; steps,6; gate,g,2,0; road,a,8,4,1,1,0; exit,x,9; link,g,a; link,a,x; demand,g,0,9,2; speed,a,2,4,1,2"),
     lines("report,6,3; cell,g,2.000000,12.000000,10.000000,0.000000; cell,a,2.000000,10.000000,8.000000,2.500000; "
           "cell,x,8.000000,8.000000,0.000000,0.000000; total,4.000000,12.000000,8.000000,2.500000")),
    ("speeds that make no difference: the road's own, one past the last step, and those of a road out of which nothing leads",
     lines("ctm,3; steps,2; road,a,6,2,1,1,4; road,b,6,2,1,1,3; exit,x,9; link,a,x; speed,a,0,100000,1000,1000; speed,a,2,9,1,2; "
           "speed,a,99999,100000,1,1000; speed,b,0,2,1,2"),
     lines("report,2,3; cell,a,0.000000,0.000000,4.000000,2.000000; cell,b,3.000000,0.000000,0.000000,6.000000; "
           "cell,x,4.000000,4.000000,0.000000,0.000000; total,3.000000,0.000000,4.000000,8.000000")),
    # it receives 3 and then 1.5 as at its own speed, and sends nothing, since nothing leads out of it
    ("a slow road receives as a fast one",
     lines("ctm,3; steps,2; gate,g,9,9; road,a,6,4,1,2,0; link,g,a; speed,a,0,2,1,1000"),
     lines("report,2,2; cell,g,4.500000,0.000000,4.500000,10.500000; cell,a,4.500000,4.500000,0.000000,3.000000; "
           "total,9.000000,0.000000,0.000000,13.500000")),
    # of 4 half leave and come back at once: it holds 4 for ever
    ("a slow road that leads into itself", lines("ctm,3; steps,3; road,a,8,3,1,1,4; link,a,a; speed,a,0,9,1,2"),
     lines("report,3,1; cell,a,4.000000,6.000000,6.000000,6.000000; total,4.000000,0.000000,0.000000,6.000000")),
    # 5 of 13 leave, where 6.5 come to the end; then a quarter of 8, half of 6, and all
    ("a speed above the capacity and one below it", SPEED,
     lines("report,4,2; cell,a,0.000000,0.000000,13.000000,17.000000; cell,x,13.000000,13.000000,0.000000,0.000000; "
           "total,0.000000,0.000000,13.000000,17.000000")),
    ("a pause that ends as a speed rises", HELD,
     lines("report,600,3; cell,g,0.000000,0.000001,0.000001,0.000000; cell,a,0.000000,0.000001,0.001000,0.499500; "
           "cell,x,0.001000,0.001000,0.000000,0.000000; total,0.000000,0.000001,0.001000,0.499500")),
]
BY_NAME = pytest.mark.parametrize("network, report", [case[1:] for case in NETWORKS], ids=[case[0] for case in NETWORKS])


@BY_NAME
def test_the_report_of_a_network(network, report, run):
    hold((0, report, b""), run(["run"], input=network))


@BY_NAME
def test_the_plain_model_gives_that_report_too(network, report):
    assert plain_report(network) == report


# Roads that nothing joins, each of which lets go of what it holds at a step of its own, one road that never does, and a queue
# that goes on meanwhile. Each is a region of its own, and one more region has the whole queue.
PAUSES = lines("; ".join([
    "ctm,3; steps,400",
    *(f"road,a{i},6,2,1,1,0.000{i}00; exit,x{i},2; link,a{i},x{i}; speed,a{i},0,{20 + 40 * i},1,1000; region,a{i},{i}; region,x{i},{i}"
      for i in range(9)),
    "road,b,6,2,1,1,0.000999; road,c,6,2,1,2,0; link,b,c; speed,b,0,100000,1,1000; region,b,9; region,c,9",
    "gate,g,3,90; road,d,9,3,1,2,4; road,e,9,2,1,3,0; exit,y,1; link,g,d; link,d,e; link,e,y; speed,d,5,300,1,3; speed,e,9,90,2,5",
    "region,g,10; region,d,10; region,e,10; region,y,10"]))
# A chain out of whose third road nothing comes for a long time, while its gate brings more and its light changes.
CHAIN = lines("ctm,3; steps,300; gate,g,0.0001,0; road,a,6,2,1,1,0; road,b,6,2,1,2,0.0004; road,c,6,2,1,1,0.0005; road,d,6,2,1,1,0; "
              "road,e,6,2,1,1,0.000003; exit,x,0.0002; link,g,a; link,a,b; link,b,c; link,c,d; link,d,e; link,e,x; "
              "demand,g,100,102,0.00015; signal,b,9,0,0,5; speed,c,0,200,1,1000; speed,d,0,250,1,2; speed,e,0,100000,1,3; "
              "limit,x,210,215,0")
PAUSED = {"a pause that ends": HELD, "pauses that nothing joins": PAUSES, "a chain that is held up": CHAIN}
PAUSED = pytest.mark.parametrize("network", PAUSED.values(), ids=PAUSED)
plainly = functools.cache(plain_report)


@pytest.mark.parametrize("words", ["--every 1", "--regions 2 --workers 2 --every 1", "--regions 3 --every 7", "--regions 3 --workers 2",
                                   "--regions 512 --workers 4", "--regions 512 --workers 16 --every 50", "--regions 4 --cut grown"])
@PAUSED
def test_a_road_that_is_held_up_and_let_go(network, words, run):
    words = words.split()
    every = int(words[words.index("--every") + 1]) if "--every" in words else 0
    hold((0, plainly(network, every), b""), run(["run", *words], input=network))


@pytest.mark.parametrize("until", [1, 199, 200, 201, 299])
@PAUSED
def test_a_road_that_is_held_up_in_a_saved_run(network, until, run):
    status, text, err = run(["save", "--until", str(until), "--regions", "4", "--workers", "2"], input=network)
    assert (status, err) == (0, b"")
    assert all(until <= step <= until + 4 for step in Saved(text).steps)
    for workers in ("1", "4"):
        hold((0, plainly(network), b""), run(["resume", "--workers", workers], input=text))


@PAUSED
def test_a_road_that_is_held_up_in_a_run_in_parts(network, run):
    hold((0, plainly(network), b""), run(["recut", "--parts", "64", "--regions", "3", "--workers", "2"], input=network))


@pytest.mark.parametrize("words", [["--regions", "2"], ["--regions", "512", "--workers", "2"], ["--cut", "grown", "--regions", "2"]],
                         ids=" ".join)
@BY_NAME
def test_the_course_in_several_regions(network, report, words, run):
    hold((0, plainly(network, 1), b""), run(["run", "--every", "1", *words], input=network))


@pytest.mark.parametrize("num, den, flow", [(1, 1, "4"), (1, 2, "3"), (1, 4, "2"), (1, 10, "1")])
def test_a_slow_road_passes_what_both_branches_of_its_diagram_allow(num, den, flow, run):
    """Of 12 places n are taken: n times the speed leaves and half of the rest comes in, so 12 times both by their sum passes."""
    network = lines(f"ctm,3; steps,400; gate,g,9,9000; road,a,12,9,1,2,0; exit,x,9; link,g,a; link,a,x; speed,a,0,400,{num},{den}")
    model = Plain(network)
    for _ in range(399):
        model.step()
    before = model.gone["a"]
    model.step()
    assert model.gone["a"] - before == pytest.approx(parts_of(flow), abs=2)
    hold((0, plain_report(network), b""), run(["run"], input=network))


def test_the_best_of_plans_with_speeds(run):
    """In both steps half of what is held leaves, or in the second two thirds: 4 and 2 wait, or 4 and 1.333334."""
    base = lines("ctm,3; steps,2; road,a,8,8,1,1,8; exit,x,9; link,a,x; speed,a,0,2,1,2")
    plans = [b"", lines("speed,a,1,2,2,3"), lines("speed,a,1,2,1,4; speed,a,1,2,2,3; limit,a,1,2,1")]
    told = lines("plan,0,6.000000; plan,1,5.333334; plan,2,7.000000; choice,1")
    hold((0, told, b""), run(["choose"], input=b"==\n".join([base, *plans])))
