"""The report of a network is the same in any number of regions, whichever cells are in each, whoever takes it through its
steps, and however often it is run.
"""

import re

import pytest
from conftest import hold
from made_networks import made_network
from worked import RAMPS, RAMPS_TOTALS, lines

JUNCTIONS = made_network(5, 60, 300)
PARTS = made_network(6, 120, 200, parts=5)
APART = lines("ctm,1; steps,50; " + "; ".join(f"gate,g{i},{i % 3},{i}; demand,g{i},0,9,0.7" for i in range(40)))


def dealt_out(network, count):
    """The network with its cells dealt out to so many regions, one after the other."""
    names = re.findall(rb"^(?:road|gate|exit),([^,]+)", network, re.MULTILINE)
    regions = b"".join(b"region,%s,%d\n" % (name, i % count) for i, name in enumerate(names))
    return network.replace(b"ctm,1\n", b"ctm,2\n", 1) + regions


def by_workers(workers, regions, *words):
    return ["run", "--workers", str(workers), "--regions", str(regions), *words]


@pytest.fixture(scope="module")
def whole(run):
    """What a run of a network by one worker in one region gives, recorded or not; each is run once."""
    kept = {}

    def ended(network, *words):
        if (network, words) not in kept:
            kept[network, words] = run(["run", *words], input=network)
        status, _, err = kept[network, words]
        assert (status, err) == (0, b"")
        return kept[network, words]
    return ended


def test_totals_of_a_corridor_with_ramps_signals_and_an_incident(whole):
    assert whole(RAMPS)[1].splitlines(True)[-1] == RAMPS_TOTALS


@pytest.mark.parametrize("count", [1, 2, 7, 126, 127, 128, 512])
def test_a_corridor_cut_by_an_option(count, run, whole):
    hold(whole(RAMPS), run(["run", "--regions", str(count)], input=RAMPS))


@pytest.mark.parametrize("count", [2, 7, 127])
def test_a_corridor_dealt_out_by_the_file(count, run, whole):
    hold(whole(RAMPS), run(["run"], input=dealt_out(RAMPS, count)))


@pytest.mark.parametrize("regions", [2, 5, 7, 16, 60])
def test_twenty_runs_of_junctions_by_four_workers(regions, run, whole):
    for _ in range(20):
        hold(whole(JUNCTIONS), run(by_workers(4, regions), input=JUNCTIONS))


@pytest.mark.parametrize("workers, regions", [(2, 1), (4, 2), (16, 1), (16, 2), (16, 5)])
def test_junctions_by_other_numbers(workers, regions, run, whole):
    hold(whole(JUNCTIONS), run(by_workers(workers, regions), input=JUNCTIONS))


@pytest.mark.parametrize("workers, regions", [(4, 7), (16, 60)])
def test_junctions_recorded(workers, regions, run, whole):
    hold(whole(JUNCTIONS, "--every", "7"), run(by_workers(workers, regions, "--every", "7"), input=JUNCTIONS))


@pytest.mark.parametrize("workers, regions", [(2, 3), (4, 9)])
def test_junctions_dealt_out_by_the_file(workers, regions, run, whole):
    hold(whole(JUNCTIONS), run(by_workers(workers, 1), input=dealt_out(JUNCTIONS, regions)))


@pytest.mark.parametrize("regions", [2, 5, 64, 512])
@pytest.mark.parametrize("workers", [2, 4, 16])
def test_parts_that_nothing_joins(workers, regions, run, whole):
    hold(whole(PARTS), run(by_workers(workers, regions), input=PARTS))


def test_cells_that_nothing_joins(run, whole):
    hold(whole(APART), run(by_workers(4, 40), input=APART))
