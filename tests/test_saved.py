"""Runs that are saved near a step and gone on with: what a saved text shows is a moment of the recurrences, what comes of it is
the report of the whole run, and a text that can't be gone on from has a named answer.
"""

import functools
import itertools
import random

import pytest
from conftest import hold
from made_networks import made_network
from messages import TOO_LARGE, fault
from plain_model import report as plain_report
from saved import Saved, kinds_of, of_the_other_future, saved_text
from shots import Network
from test_cuttings import CHAIN, NETWORKS, cut
from test_regions_and_workers import JUNCTIONS, PARTS, dealt_out
from worked import CITY, CORRIDOR, RAMPS, REPORT, SAVED, TWO_ROADS, lines

network_of = functools.cache(Network)
plainly = functools.cache(plain_report)

# The row lines of the saved corridor, which is cut into the gate and the rest, with the gate a step ahead.
GATE_AHEAD = [(0, 2_000_000, 4_000_000, 2_000_000, 2_000_000, 4_000_000), (1, 0, 0, 0, 0, 0), (1, 0, 0, 0, 0, 0)]
SPELLING, CUTTING, START = (b"ctm: saved: code %d %s\n" % told for told in ((1, b"Spelling"), (3, b"Cutting"), (4, b"Start")))

# The most bytes that a network behind `net` may have, and that a saved text may have.
MOST_NETWORK, MOST_TEXT = 16_777_216, 67_108_864


def faults_of_saved(network, content, regions, until, saved):
    """What is wrong with a text that is to save this network near a step, by the recurrences and the cutting."""
    cutting, near = network.cutting(regions), min(until, network.steps)
    if len(saved.steps) != max(cutting) + 1 or saved.network != content:
        yield "it has other regions or another network"
        return
    for region, step in enumerate(saved.steps):
        if not near <= step <= min(near + 4, network.steps):
            yield f"region {region} stands at step {step}"
            return
    for ups, downs in network.connectors:
        steps = [saved.steps[cutting[i]] for i in ups + downs]
        if max(steps) > min(steps) + 1:
            yield f"neighbours stand at steps {min(steps)} and {max(steps)}"
    for i, name in enumerate(network.names):
        step = saved.steps[cutting[i]]
        earlier = network.states[step - 1][i].n if step else 0
        if saved.rows[i:i + 1] != [(cutting[i], *network.states[step][i], earlier)]:
            yield f"the line of {name} isn't that of step {step}"
    if len(saved.rows) != len(network.names):
        yield "it has more row lines than cells"


@pytest.fixture
def save(run):
    """Saves a network near a step, and holds the text against the recurrences."""
    def made(content, until=None, regions=1, workers=1):
        near = [] if until is None else ["--until", str(until)]
        words = ["save", *near, "--regions", str(regions), "--workers", str(workers)]
        status, text, err = run(words, input=content)
        assert (status, err) == (0, b"")
        assert next(faults_of_saved(network_of(content), content, regions, until or 0, Saved(text)), "no fault") == "no fault"
        return text
    return made


def test_saved_texts_that_were_worked_on_paper_have_no_fault():
    assert SAVED == saved_text([2, 1], GATE_AHEAD, CORRIDOR)
    assert (Saved(SAVED).steps, Saved(SAVED).rows, Saved(SAVED).network) == ([2, 1], GATE_AHEAD, CORRIDOR)
    assert list(faults_of_saved(network_of(CORRIDOR), CORRIDOR, 1, 1, Saved(saved_text([1], [
        (0, 4_000_000, 4_000_000, 0, 0, 0), (0, 0, 0, 0, 0, 0), (0, 0, 0, 0, 0, 0)], CORRIDOR)))) == []


@pytest.mark.parametrize("workers", [1, 2, 16])
def test_the_corridor_goes_on(workers, run):
    hold((0, REPORT, b""), run(["resume", "--workers", str(workers)], input=SAVED))


@pytest.mark.parametrize("until, regions, workers", [(0, 1, 1), (0, 3, 2), (1, 2, 1), (2, 3, 4), (3, 3, 2), (4, 2, 1),
                                                     (100_000, 512, 16)])
def test_the_corridor_is_saved_and_goes_on(until, regions, workers, save, run):
    hold((0, REPORT, b""), run(["resume", "--workers", str(workers)], input=save(CORRIDOR, until, regions, workers)))


def test_a_run_is_saved_near_step_0_where_no_step_is_asked_for(save, run):
    hold((0, plainly(JUNCTIONS), b""), run(["resume"], input=save(JUNCTIONS, None, 7, 4)))


OTHERS = {
    "junctions": (JUNCTIONS, 7),
    "junctions dealt out by the file": (dealt_out(JUNCTIONS, 9), 1),
    "parts that nothing joins": (PARTS, 512),
    "a chain, each cell a region": (CHAIN, 8),
    "ramps, signals and an incident": (RAMPS, 16),
    "a city": (CITY, 17),
    "two roads": (TWO_ROADS, 4),
    "a merge, dealt out by the file": (cut(NETWORKS["a merge into too little room"], "3120"), 1),
    "a diverge whose shares change": (NETWORKS["a diverge whose shares change"], 4),
    "a pause that ends as a speed rises": (NETWORKS["a pause that ends as a speed rises"], 4),
}


@pytest.mark.parametrize("third", [0, 1, 2, 3])
@pytest.mark.parametrize("content, regions", OTHERS.values(), ids=OTHERS)
def test_saved_and_gone_on_with(content, regions, third, save, run):
    text = save(content, network_of(content).steps * third // 3, regions, 4)
    for workers in ("1", "4", "4"):
        hold((0, plainly(content), b""), run(["resume", "--workers", workers], input=text))


KINDS = {"road", "gate", "exit", "link", "merge", "diverge", "signal", "limit", "demand", "turn"}


@functools.cache
def made_networks():
    """200 made networks that have each kind of record, and 100 of other seeds with speeds too. Every third has no regions of
    its own, and every other holds little at first, so that for a while nothing moves in some of its regions.
    """
    def made(begin, count, speeds):
        made = (made_network(seed, 30 + seed % 30, 20 + seed % 21, regions=seed % 3 * 4, filled=(1, 0.2)[seed % 2], speeds=speeds)
                for seed in itertools.count(begin))
        return itertools.islice((content for content in made if kinds_of(content) >= KINDS), count)
    return [*made(0, 200, speeds=0), *made(1_000, 100, speeds=0.5)]


@pytest.mark.parametrize("number", range(300))
def test_a_made_network_saved_and_gone_on_with_twice(number, save, run):
    """It is saved at the first step, at the last one, and at two between."""
    content = made_networks()[number]
    for third in range(4):
        text = save(content, network_of(content).steps * third // 3, 6, 4)
        for workers in ("1", "4"):
            hold((0, plainly(content), b""), run(["resume", "--workers", workers], input=text))


def test_most_made_networks_have_regions_too():
    assert sum(kinds_of(content) >= KINDS | {"region"} for content in made_networks()) > 150


def test_a_hundred_made_networks_have_speeds_too():
    assert [kinds_of(content) >= KINDS | {"speed"} for content in made_networks()] == [False] * 200 + [True] * 100


def test_what_is_changed_from_the_saved_step_on_is_another_run(save, run):
    """A limit, a demand, a turn and more steps than the saved run has, in no step before the greatest saved one."""
    text = save(CITY, 1, 17, 4)
    begin = max(Saved(text).steps)
    changes = lines(f"limit,x5,{begin},9,0.5; demand,g5,{begin},9,1.25; turn,m3,{begin},9,5,1")
    content = CITY.replace(b"steps,5", b"steps,9") + changes
    hold((0, plainly(content), b""), run(["resume"], input=text.replace(CITY, content)))


@pytest.mark.parametrize("number", [*range(50), *range(200, 250)])
def test_another_future_is_the_whole_run_of_another_network(number, save, run):
    """From the greatest saved step on other limits, demands, turns and speeds, and another number of steps."""
    content, draw = made_networks()[number], random.Random(number)
    text = save(content, network_of(content).steps // 3, 6, 4)
    saved = Saved(text)
    other = of_the_other_future(content, max(saved.steps), draw)
    assert plainly(other) != plainly(content)
    hold((0, plainly(other), b""), run(["resume"], input=saved_text(saved.steps, saved.rows, other)))


def test_the_regions_are_those_of_the_row_lines(run):
    """The network has regions of its own, which aren't used."""
    content = CORRIDOR.replace(b"ctm,1", b"ctm,2") + lines("region,in,2; region,a,0; region,out,1")
    hold((0, REPORT, b""), run(["resume"], input=saved_text([2, 1], GATE_AHEAD, content)))


def test_other_rows_are_another_run(run):
    """The road has 2 vehicles more than have come from the gate: 2 more stand there at the end."""
    rows = [GATE_AHEAD[0], (1, 2_000_000, 2_000_000, 0, 0, 0), GATE_AHEAD[2]]
    status, text, err = run(["resume"], input=saved_text([2, 1], rows, CORRIDOR))
    assert (status, err) == (0, b"")
    assert text.startswith(b"report,3,3\ncell,in,0.000000,4.000000,4.000000,2.000000\n")


def edited(old, new):
    assert old in SAVED
    return SAVED.replace(old, new, 1)


ROWS = SAVED.splitlines(True)[3:6]
FULL_ROW = b"row,1,6000001,6000001,0,0,0\n"

# The name of each text that can't be gone on from, the text, its status and the line on standard error.
REFUSED = [
    ("nothing", b"", 8, SPELLING),
    ("a network", CORRIDOR, 8, SPELLING),
    ("another first word", edited(b"saved", b"kept"), 8, SPELLING),
    ("another form", edited(b"saved,1,2", b"saved,2,2"), 8, SPELLING),
    ("no region", edited(b"saved,1,2", b"saved,1,0"), 8, SPELLING),
    ("more regions than there may be", edited(b"saved,1,2", b"saved,1,513"), 8, SPELLING),
    ("more regions than step lines", edited(b"saved,1,2", b"saved,1,3"), 8, SPELLING),
    ("fewer regions than step lines", edited(b"saved,1,2", b"saved,1,1"), 8, SPELLING),
    ("a leading zero", edited(b"step,2", b"step,02"), 8, SPELLING),
    ("a leading zero of the regions", edited(b"saved,1,2", b"saved,1,02"), 8, SPELLING),
    ("a leading zero of a row", edited(ROWS[1], b"row,1,0,0,0,0,01\n"), 8, SPELLING),
    ("two zeros", edited(b",0,0\nnet", b",0,00\nnet"), 8, SPELLING),
    ("a sign", edited(b"step,2", b"step,+2"), 8, SPELLING),
    ("a space", edited(b"step,2", b"step, 2"), 8, SPELLING),
    ("a decimal", edited(b"step,2", b"step,2.0"), 8, SPELLING),
    ("no number", edited(b"step,2", b"step,"), 8, SPELLING),
    ("a field too many", edited(b"step,2", b"step,2,"), 8, SPELLING),
    ("a field too few", edited(b",0,0\nnet", b",0\nnet"), 8, SPELLING),
    ("a carriage return", edited(b"step,2\n", b"step,2\r\n"), 8, SPELLING),
    ("a blank line", edited(b"net", b"\nnet"), 8, SPELLING),
    ("a comment", edited(b"step", b"# so\nstep"), 8, SPELLING),
    ("2^64", edited(b"step,2", b"step,18446744073709551616"), 8, SPELLING),
    ("2^64 parts", edited(ROWS[1], b"row,1,18446744073709551616,0,0,0,0\n"), 8, SPELLING),
    ("21 digits", edited(b"step,2", b"step,100000000000000000000"), 8, SPELLING),
    ("no line `net`", edited(b"net\n", b""), 8, SPELLING),
    ("a word behind `net`", edited(b"net\n", b"net,1\n"), 8, SPELLING),
    ("a longer network than a file may be", SAVED + b"#" * (MOST_NETWORK + 1 - len(CORRIDOR)), 8, SPELLING),
    ("no network", SAVED[:-len(CORRIDOR)], 3, fault("1 code 1 NoHeader")),
    ("a fault of the network", edited(b"exit,out,2", b"exit,out,x"), 3, fault("5 code 5 BadNumber")),
    ("a fault of the network before others", edited(ROWS[2], b"").replace(b"steps,3", b"steps,0"), 3,
     fault("2 code 6 OutOfRange")),
    ("a row line too few", edited(ROWS[2], b""), 8, CUTTING),
    ("a row line too many", edited(b"net", ROWS[2] + b"net"), 8, CUTTING),
    ("a region past the last", edited(ROWS[1], b"row,2,0,0,0,0,0\n"), 8, CUTTING),
    ("a region past all that there may be", edited(ROWS[1], b"row,512,0,0,0,0,0\n"), 8, CUTTING),
    ("the region 2^32", edited(ROWS[1], b"row,4294967296,0,0,0,0,0\n"), 8, CUTTING),
    ("a region without cells", SAVED.replace(b"row,1,", b"row,0,"), 8, CUTTING),
    ("neighbours two steps apart", edited(b"step,1", b"step,0"), 8, START),
    ("regions past the last step", edited(b"step,2\nstep,1", b"step,4\nstep,4"), 8, START),
    ("the step 2^64 - 1", edited(b"step,2", b"step,18446744073709551615"), 8, START),
    ("a road past its room", edited(ROWS[1], FULL_ROW), 8, START),
    ("2^64 - 1 parts on a road", edited(ROWS[1], b"row,1,18446744073709551615,0,0,0,0\n"), 8, START),
    ("a road that held more than its room", edited(ROWS[1], b"row,1,0,0,0,0,6000001\n"), 8, START),
    ("a part from nowhere", edited(ROWS[1], b"row,1,1,0,0,0,0\n"), 8, START),
    ("an exit that gave back", edited(ROWS[1] + ROWS[2], ROWS[1] + b"row,1,0,1,1,0,0\n"), 8, START),
    ("rows in another order", edited(b"".join(ROWS), b"".join(reversed(ROWS))), 8, START),
    ("something before step 0",
     saved_text([0, 0], [(0, 0, 0, 0, 0, 1), (1, 0, 0, 0, 0, 0), (1, 0, 0, 0, 0, 0)], CORRIDOR), 8, START),
]


@pytest.mark.parametrize("text, status, told", [case[1:] for case in REFUSED], ids=[case[0] for case in REFUSED])
def test_what_cannot_be_gone_on_from(text, status, told, run):
    hold((status, b"", told), run(["resume"], input=text))


def test_a_text_that_is_broken_off(run):
    """Behind `net` each beginning of the network has its own answer: its fault, too few cells, or what comes of it."""
    head = len(SAVED) - len(CORRIDOR)
    for size in range(head):
        hold((8, b"", SPELLING), run(["resume"], input=SAVED[:size]))
    for size in range(len(CORRIDOR)):
        status, counts, told = run(["check"], input=CORRIDOR[:size])
        if status:
            hold((3, b"", told), run(["resume"], input=SAVED[:head + size]))
        elif not counts.startswith(b"network,3,"):
            hold((8, b"", CUTTING), run(["resume"], input=SAVED[:head + size]))
        else:
            status, text, err = run(["resume"], input=SAVED[:head + size])
            assert (status, text[:10], err) == (0, b"report,3,3", b"")


def test_the_longest_texts(run):
    longest = SAVED + b"#" * (MOST_NETWORK - len(CORRIDOR) - 1) + b"\n"
    hold((0, REPORT, b""), run(["resume"], input=longest))
    hold((8, b"", SPELLING), run(["resume"], input=b"#" * MOST_TEXT))
    hold((4, b"", TOO_LARGE), run(["resume"], input=b"#" * (MOST_TEXT + 1)))
    hold((4, b"", TOO_LARGE), run(["save"], input=b"#" * (MOST_NETWORK + 1)))


def test_a_fault_of_a_network_that_is_to_be_saved(run):
    hold((3, b"", fault("5 code 5 BadNumber")), run(["save"], input=CORRIDOR.replace(b"exit,out,2", b"exit,out,x")))
