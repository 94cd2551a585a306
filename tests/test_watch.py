"""The shots of a watch are those of the recurrences, whoever takes the network through its steps meanwhile."""

import functools

import pytest
from conftest import hold
from made_networks import made_network
from plain_model import report as plain_report
from shots import Network, faults_of_watch
from test_cuttings import CHAIN, NETWORKS, cut
from test_regions_and_workers import JUNCTIONS, PARTS, dealt_out
from test_speeds import CHAIN as SLOW_CHAIN
from test_speeds import PAUSES
from worked import FULL_REPORT, FULL_ROAD, FULL_SHOT, FULL_SHOT_AFTER, RAMPS, TWO_ROADS, TWO_ROADS_REPORT, lines

# A shot of the two roads, cut into four regions, of which the gate is a step ahead of the others.
GATE_AHEAD = lines("shot,1,6.000000,2.000000,8.000000,0.000000,0.000000; "
                   "region,0,1; region,1,0; region,2,0; region,3,0; "
                   "flight,0,2.000000; flight,1,0.000000; flight,2,0.000000; "
                   "row,g,6.000000,0.000000,2.000000,6.000000; row,a,0.000000,0.000000,0.000000,0.000000; "
                   "row,b,0.000000,0.000000,0.000000,0.000000; row,x,0.000000,0.000000,0.000000,0.000000")

# Texts that differ from that of the gate ahead: what of it is other, the fault that is to be found, and where it differs.
OTHER_SHOTS = [
    ("a region past its goal", "shot 1: region 0 stands at step 5, and not from 0 to 4", ("region,0,1", "region,0,5")),
    ("a region two steps ahead", "shot 1: the regions of connector 0 stand at steps 0 and 2", ("region,0,1", "region,0,2")),
    ("a part more inside", "shot 1: inside is 6000001 parts and by the rows 6000000", ("1,6.000000", "1,6.000001")),
    ("a part more in flight", "shot 1: flight is 2000001 parts and by the rows 2000000", (",2.000000,8", ",2.000001,8")),
    ("a part more at the start", "shot 1: initial is 8000001 parts and by the rows 8000000", ("8.000000", "8.000001")),
    ("a part that came from nowhere",
     "shot 1: inside and flight are 8000000 parts, and initial and entered less left 8000001",
     ("8.000000,0.000000", "8.000000,0.000001"), ("row,g,6.000000,0.000000", "row,g,6.000000,0.000001")),
    ("a flight the other way", "shot 1: flight 0 is -2000000 parts and by the rows 2000000",
     ("flight,0,2.000000", "flight,0,-2.000000")),
    ("a road too full", "shot 1: a holds 6000001 parts, more than its room, 6000000", ("row,a,0.000000", "row,a,6.000001")),
    ("a wait too short", "shot 1: the row of g isn't that of step 1", (",6.000000\nrow,a", ",5.999999\nrow,a")),
    ("a flight left out", "shot 1: 'row,g,6.000000,0.000000,2.000000,6.000000' stands where a line flight,2 should",
     ("flight,2,0.000000\n", "")),
    ("a sign before nothing", "shot 1: 'flight,1,-0.000000' stands where a line flight,1 should",
     ("flight,1,0", "flight,1,-0")),
    ("another number", "shot 1: 'shot,2,6.000000,2.000000,8.000000,0.000000,0.000000' stands where a line shot,1 should",
     ("shot,1", "shot,2")),
    ("another report", "what stands behind the shots isn't the report", ("total,4", "total,5")),
    ("more behind the report", "what stands behind the shots isn't the report", (",12.000000\n", ",12.000000\n\n")),
]


network_of = functools.cache(Network)


def faults_of_two_roads(text):
    return list(faults_of_watch(network_of(TWO_ROADS), 4, 1, TWO_ROADS_REPORT, text.encode()))


def test_the_reader_finds_no_fault_with_a_shot_that_was_worked_on_paper():
    assert faults_of_two_roads((GATE_AHEAD + TWO_ROADS_REPORT).decode()) == []


@pytest.mark.parametrize("wanted, places", [(case[1], case[2:]) for case in OTHER_SHOTS], ids=[case[0] for case in OTHER_SHOTS])
def test_the_reader_finds_each_fault_that_is_put_into_it(wanted, places):
    text = (GATE_AHEAD + TWO_ROADS_REPORT).decode()
    for old, new in places:
        assert old in text
        text = text.replace(old, new, 1)
    assert wanted in faults_of_two_roads(text)


@pytest.fixture
def check_watch(run):
    """Watches a network with these options, and holds its text against the network and against the report of a run."""
    def check(content, **options):
        words = [word for name, value in options.items() for word in (f"--{name}", str(value))]
        status, text, err = run(["watch", *words], input=content)
        assert (status, err) == (0, b"")
        report = run(["run", "--every", str(options.get("every", 0))], input=content)[1]
        regions, shots = options.get("regions", 1), options.get("shots", 4)
        assert next(faults_of_watch(network_of(content), regions, shots, report, text), "no fault") == "no fault"
    return check


def test_the_report_of_junctions_is_that_of_the_recurrences(run):
    hold((0, plain_report(JUNCTIONS, 1), b""), run(["run", "--every", "1"], input=JUNCTIONS))


@pytest.mark.parametrize("every", [0, 7])
@pytest.mark.parametrize("shots", [1, 4, 9, 30, 64])
@pytest.mark.parametrize("regions", [2, 5, 7, 16, 60])
def test_shots_of_junctions_by_four_workers(regions, shots, every, check_watch):
    check_watch(JUNCTIONS, workers=4, regions=regions, shots=shots, every=every)


@pytest.mark.parametrize("workers, regions", [(1, 1), (1, 7), (16, 5), (16, 60)])
def test_shots_of_junctions_by_other_numbers(workers, regions, check_watch):
    check_watch(JUNCTIONS, workers=workers, regions=regions, shots=64)


@pytest.mark.parametrize("content, options", [
    pytest.param(dealt_out(JUNCTIONS, 9), {"workers": 4, "regions": 2, "shots": 64}, id="regions dealt out by the file"),
    pytest.param(PARTS, {"workers": 4, "regions": 512, "shots": 64}, id="parts that nothing joins"),
    pytest.param(CHAIN, {"workers": 4, "regions": 8, "shots": 64}, id="a chain, each cell a region"),
    pytest.param(NETWORKS["a ring"], {"workers": 2, "regions": 4, "shots": 9, "every": 2}, id="a ring, each cell a region"),
    pytest.param(cut(NETWORKS["a merge into too little room"], "3120"), {"workers": 4, "shots": 8},
                 id="a merge, dealt out by the file"),
    pytest.param(cut(NETWORKS["a diverge whose shares change"], "0101"), {"workers": 3, "shots": 5},
                 id="a diverge, dealt out by the file"),
    pytest.param(made_network(8, 600, 40), {"workers": 16, "regions": 512, "shots": 7}, id="the most regions and workers"),
    pytest.param(TWO_ROADS, {"workers": 2, "regions": 4, "shots": 64, "every": 1}, id="more shots than steps"),
    pytest.param(TWO_ROADS, {}, id="not said how many"),
    pytest.param(RAMPS, {"workers": 4, "regions": 127, "shots": 30}, id="ramps, signals and an incident"),
    pytest.param(SLOW_CHAIN, {"workers": 4, "regions": 7, "shots": 30}, id="a chain that is held up, each cell a region"),
    pytest.param(PAUSES, {"workers": 4, "shots": 64, "every": 40}, id="pauses that nothing joins"),
    pytest.param(made_network(7, 60, 100, regions=9, speeds=0.5), {"workers": 4, "shots": 16, "every": 7}, id="junctions with speeds"),
])
def test_shots_of_other_networks(content, options, check_watch):
    check_watch(content, **options)


def test_two_shots_of_a_full_road(run):
    """The second is taken at either of its two goals."""
    full = run(["watch", "--shots", "2"], input=FULL_ROAD)
    wanted = [(0, FULL_SHOT + second + FULL_REPORT, b"")
              for second in (FULL_SHOT_AFTER, FULL_SHOT.replace(b"shot,1", b"shot,2"))]
    hold(full if full in wanted else wanted[0], full)
