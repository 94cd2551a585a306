"""Grown regions: the text of `cut`, whose cutting no candidate betters, and runs that are cut so."""

import random
import re

import pytest
from conftest import TOP, hold
from made_networks import made_network
from messages import fault
from plain_cutting import Plan
from plain_model import report as plain_report
from shots import Network, faults_of_watch
from worked import CORRIDOR, RAMPS, REPORT, lines

TWO_CHAINS = lines("ctm,1; steps,1; road,a,6,2,1,2,0; road,c,6,2,1,2,0; road,b,6,2,1,2,0; road,d,6,2,1,2,0; link,a,b; link,c,d")
DIVERGE = lines("ctm,1; steps,1; gate,g,2,0; road,a,6,2,1,2,0; road,b,6,2,1,2,0; exit,x,2; exit,y,2; link,g,a; diverge,b,x,y,1,1")


def cutting_of(content, regions, run):
    """What `cut` says: the number of regions, what the even and the grown cutting cut, and the region of each cell."""
    status, text, err = run(["cut", "--regions", str(regions)], input=content)
    assert (status, err) == (0, b"")
    head, *rows = [line.split(",") for line in text.decode().splitlines()]
    assert head[0] == "cut" and {row[0] for row in rows} == {"cell"}
    assert [row[1] for row in rows] == Plan(content).names
    return *map(int, head[1:]), [int(row[2]) for row in rows]


@pytest.mark.parametrize("content, text", [
    (TWO_CHAINS, lines("cut,2,2,0; cell,a,0; cell,c,1; cell,b,0; cell,d,1")),
    (DIVERGE, lines("cut,2,1,0; cell,g,0; cell,a,0; cell,b,1; cell,x,1; cell,y,1")),
], ids=["two chains", "a diverge"])
def test_a_grown_cutting(content, text, run):
    hold((0, text, b""), run(["cut", "--regions", "2"], input=content))


TIED = lines("ctm,1; steps,1; gate,a,2,0; exit,b,2; exit,c,2; exit,d,2; diverge,a,c,d,1,1")


def test_of_two_orders_that_cut_as_few_it_is_that_of_the_file(run):
    """In two regions of two cells the file's order gives a b | c d, and the walk a c | d b. Both cut the diverge."""
    hold((0, lines("cut,2,1,1; cell,a,0; cell,b,0; cell,c,1; cell,d,1"), b""), run(["cut", "--regions", "2"], input=TIED))


def test_of_two_cuttings_in_one_order_each_call_gives_the_same(run):
    """No connector is cut by a | b c, nor by a b | c."""
    content = lines("ctm,1; steps,1; exit,a,2; exit,b,2; exit,c,2")
    texts = [lines(f"cut,2,0,0; cell,a,0; cell,b,{middle}; cell,c,1") for middle in (0, 1)]
    told = run(["cut", "--regions", "2"], input=content)
    assert told in [(0, text, b"") for text in texts]
    hold(told, run(["cut", "--regions", "2"], input=content))


def test_one_region_and_as_many_as_cells(run):
    hold((0, lines("cut,1,0,0; cell,in,0; cell,a,0; cell,out,0"), b""), run(["cut"], input=CORRIDOR))
    hold((0, lines("cut,3,2,2; cell,in,0; cell,a,1; cell,out,2"), b""), run(["cut", "--regions", "512"], input=CORRIDOR))


def test_the_regions_of_the_file_are_not_looked_at(run):
    regions = TWO_CHAINS.replace(b"ctm,1", b"ctm,2") + lines("region,a,1; region,b,1; region,c,0; region,d,2")
    hold(run(["cut", "--regions", "2"], input=TWO_CHAINS), run(["cut", "--regions", "2"], input=regions))


def test_a_fault_of_a_network_that_is_to_be_cut(run):
    hold((3, b"", fault("5 code 5 BadNumber")), run(["cut"], input=CORRIDOR.replace(b"exit,out,2", b"exit,out,x")))


def is_best(content, k, run):
    """The cutting is a candidate, and no candidate cuts fewer connectors."""
    plan = Plan(content)
    told, even, grown, regions = cutting_of(content, k, run)
    assert told == min(k, len(plan.cells))
    assert regions in plan.candidates(told)
    assert (even, grown) == (plan.cuts(plan.even(told)), plan.cuts(regions))
    assert grown == plan.fewest(told)


@pytest.mark.parametrize("seed", range(500))
def test_no_candidate_cuts_fewer(seed, run):
    content = made_network(1000 + seed, 2 + seed % 11, 3)
    is_best(content, 1 + seed % 7, run)


EXAMPLES = sorted((TOP / "examples").glob("*.csv"))


@pytest.mark.parametrize("path", EXAMPLES, ids=lambda path: path.stem)
def test_an_example_cut_in_two_and_in_three(path, run):
    for k in 2, 3:
        is_best(path.read_bytes(), k, run)


def shuffled(content, seed):
    """The network with its cells in random order."""
    head, cells, rest = [], [], []
    for line in content.splitlines(True):
        (cells if re.match(rb"(road|gate|exit),", line) else head if re.match(rb"(ctm|steps),", line) else rest).append(line)
    random.Random(seed).shuffle(cells)
    return b"".join([*head, *cells, *rest])


@pytest.mark.parametrize("seed", range(3))
def test_a_corridor_in_random_order_is_cut_along_its_roads(seed, run):
    """Even regions of the order of the file cut most of its 101 connectors."""
    content = shuffled(RAMPS, seed)
    is_best(content, 8, run)
    _, even, grown, _ = cutting_of(content, 8, run)
    assert 6 * grown < even


@pytest.mark.parametrize("workers", ["1", "4"])
@pytest.mark.parametrize("regions", ["2", "7", "512"])
def test_the_report_is_the_same_in_grown_regions(regions, workers, run):
    content = shuffled(made_network(9, 40, 60), 2)
    words = ["run", "--regions", regions, "--workers", workers, "--every", "7"]
    hold((0, plain_report(content, 7), b""), run([*words, "--cut", "grown"], input=content))
    hold((0, plain_report(content, 7), b""), run([*words, "--cut=even"], input=content))


def test_a_watch_shows_the_grown_regions(run):
    content = shuffled(made_network(9, 40, 60), 3)
    regions = zip(Plan(content).names, cutting_of(content, 5, run)[3])
    with_regions = content + lines("; ".join(f"region,{name},{region}" for name, region in regions))
    status, text, err = run(["watch", "--shots", "3", "--regions", "5", "--cut", "grown", "--workers", "2"], input=content)
    assert (status, err) == (0, b"")
    faults = faults_of_watch(Network(with_regions), 5, 3, plain_report(content), text)
    assert next(faults, "no fault") == "no fault"


def test_a_run_is_saved_in_grown_regions(run):
    content = shuffled(made_network(9, 40, 60), 4)
    regions = cutting_of(content, 5, run)[3]
    status, text, err = run(["save", "--until", "9", "--regions", "5", "--cut", "grown"], input=content)
    assert (status, err) == (0, b"")
    assert [int(line.split(b",")[1]) for line in text.splitlines() if line.startswith(b"row,")] == regions
    hold((0, plain_report(content), b""), run(["resume"], input=text))


def test_the_regions_of_the_file_come_first(run):
    content = CORRIDOR.replace(b"ctm,1", b"ctm,2") + lines("region,in,1; region,a,0; region,out,1")
    for words in (["run"], ["run", "--regions", "2"]):
        hold((0, REPORT, b""), run([*words, "--cut", "grown"], input=content))
    text = run(["save", "--until", "3", "--regions", "3", "--cut", "grown"], input=content)[1]
    assert [line.split(b",")[1] for line in text.splitlines() if line.startswith(b"row,")] == [b"1", b"0", b"1"]


@pytest.mark.parametrize("cells, workers, regions", [
    (3, 4, 1), (2, 16, 1), (4000, 4, 1), (9999, 2, 1), (9999, 16, 1), (10000, 1, 1), (10000, 2, 16), (10000, 3, 24), (10000, 4, 32),
    (10000, 16, 78), (10111, 10, 78), (10112, 10, 79), (16383, 16, 127), (16384, 16, 128), (20000, 16, 128),
])
def test_regions_are_chosen_by_the_cells_and_the_workers(cells, workers, regions, run):
    """One for one worker and below 10,000 cells, else 8 for each worker, or fewer, so that each has 128 cells or more."""
    names = ["g", *(f"r{i}" for i in range(cells - 2)), "x"]
    chain = lines("; ".join(["ctm,1; steps,1; gate,g,2,0", *(f"road,{it},6,2,1,2,0" for it in names[1:-1]), "exit,x,2",
                             *(f"link,{one},{other}" for one, other in zip(names, names[1:]))]))
    status, text, err = run(["save", "--until", "1", "--regions", "auto", "--workers", str(workers)], input=chain)
    assert (status, err) == (0, b"")
    assert len({line.split(b",")[1] for line in text.splitlines() if line.startswith(b"row,")}) == regions
