"""The laws of delay and queues of docs/MODEL.md in the records of the lane drop, with the numbers that stand there."""

import re
from bisect import bisect_right
from itertools import pairwise
from pathlib import Path

import pytest
from format_tables import MODEL
from plain_model import parts_of

LAWS = MODEL.split("\n## Laws of delay and queues\n")[1].split("\n## ")[0]
LANE_DROP = (Path(__file__).parent.parent / "examples" / "bottleneck.csv").read_bytes()
ROADS = [f"m{k:02}" for k in range(1, 31)]
INSIDE = ["on", *ROADS]
CLOSED = b"limit,m21,%d,1260,6\n"  # a lane of two, till 09:30


class Records:
    """What each cell holds and what has gone out of it at each step, and what it has waited in the end, in parts."""

    def __init__(self, report):
        self.held, self.gone, self.wait, self.delay = {}, {}, {}, 0
        for kind, *fields in (line.split(",") for line in report.decode().splitlines()):
            if kind == "at":
                _, name, held, gone = fields
                self.held.setdefault(name, []).append(parts_of(held))
                self.gone.setdefault(name, []).append(parts_of(gone))
            elif kind == "cell":
                self.wait[fields[0]] = parts_of(fields[-1])
            elif kind == "total":
                self.delay = parts_of(fields[-1])

    def arrivals(self, name):
        """What has come to a cell by each step: it holds that, or has passed it on. None starts with anything here."""
        return [held + gone for held, gone in zip(self.held[name], self.gone[name], strict=True)]


@pytest.fixture(scope="module")
def recorded(run):
    def of(network):
        status, report, _ = run(["run", "--every", "1"], input=network)
        assert status == 0
        return Records(report)

    return of


@pytest.fixture(scope="module")
def lane_drop(recorded):
    return recorded(LANE_DROP)


def vehicles(amount):
    return amount * 1_000_000


def told(sentence):
    """The numbers that the page has in a sentence, where this one has {}."""
    found = re.findall(r"([\d,]*\d(?:\.\d)?)".join(map(re.escape, sentence.split("{}"))), LAWS)
    assert len(found) == 1, sentence
    return [float(number) if "." in number else int(number.replace(",", "")) for number in found[0]]


def test_delay_is_an_area(lane_drop):
    through, spent, roads, passed, delay = told("{} vehicles spend {} vehicle-steps inside, and pass a gate and {} roads, "
                                                "which is {}. What is left is the delay, {}.")
    assert [lane_drop.gone[name][-1] for name in INSIDE] == [vehicles(through)] * (1 + roads)
    assert passed == through * (1 + roads)
    assert vehicles(spent) == sum(sum(lane_drop.held[name][:-1]) for name in INSIDE)
    assert vehicles(delay) == lane_drop.delay == vehicles(spent - passed)


@pytest.mark.parametrize("name", ["m08", "m20", "m21"])
def test_the_wait_in_a_cell_is_the_area_between_its_curves(name, lane_drop):
    strips = [came - went for came, went in zip(lane_drop.arrivals(name), lane_drop.gone[name][1:])]
    assert min(strips) >= 0
    assert sum(strips) == lane_drop.wait[name]


def steps_waited(came, gone, part):
    """The steps that a part has waited by the last one of the curves: one that is still there goes at the next or later."""
    return max(0, bisect_right(gone, part) - bisect_right(came, part) - 1)


@pytest.mark.parametrize("last", [400, 806, 808, 1260])
def test_the_wait_in_a_cell_is_what_its_parts_have_waited(last, lane_drop):
    came, gone = lane_drop.arrivals("m20")[: last + 1], lane_drop.gone["m20"][: last + 1]
    # Parts between two of these numbers come and go together.
    groups = pairwise(sorted({0, *came, *gone}))
    waited = sum((end - part) * steps_waited(came, gone, part) for part, end in groups)
    assert waited == sum(lane_drop.held["m20"][:last]) - gone[last]


@pytest.mark.parametrize(("last", "waited"), [(803, 0), (806, 2), (808, 3), (1_440, 3)])
def test_a_part_waits_for_all_its_steps_but_one(last, waited, lane_drop):
    came, gone = lane_drop.arrivals("m20")[: last + 1], lane_drop.gone["m20"][: last + 1]
    assert steps_waited(came, gone, vehicles(8_000) - 1) == waited


def test_a_part_leaves_after_those_before_it(lane_drop):
    vehicle, *steps, held, leave = told("The last part of the {}th vehicle comes to m20 by step {} and leaves by step {}: the cell "
                                        "then holds {} vehicles, but for rounding, of which {} leave in a step.")
    part = vehicles(vehicle) - 1
    came = next(step for step, parts in enumerate(lane_drop.arrivals("m20")) if parts > part)
    went = next(step for step, parts in enumerate(lane_drop.gone["m20"]) if parts > part)
    assert [came, went] == steps
    for step in range(came, went):
        assert lane_drop.held["m20"][step] == pytest.approx(vehicles(held), abs=10)
        assert lane_drop.gone["m20"][step + 1] - lane_drop.gone["m20"][step] == vehicles(leave)


def test_a_bottleneck_passes_its_capacity(lane_drop):
    held, gone = lane_drop.held["m21"], lane_drop.gone["m21"]
    capacity, first, last, steps, out, quarter, *flows, rest, least = told(
        "m21, holds its capacity of {} at each step from {} to {}. So in these {} steps {} vehicles leave it: all that come from "
        "07:00 until the queue has cleared, `{}·({} + {} + {}) + {}·{}`.")
    assert [step for step, parts in enumerate(held) if parts >= vehicles(capacity)] == list(range(first, last + 1))
    assert (last + 1 - first, capacity * steps, quarter * sum(flows) + rest * least) == (steps, out, out)
    assert gone[last + 1] - gone[first] == vehicles(out)
    assert max(after - before for before, after in zip(gone, gone[1:])) == vehicles(capacity)


def test_what_comes_later_changes_nothing_before(lane_drop, recorded):
    begin, both, before, first, rate, steps = told("closed from step {} on, have both let {} vehicles out of m21 by then: "
                                                   "{} by step {}, and {} in each of {} steps.")
    closed = recorded(LANE_DROP + CLOSED % begin)
    for name in [*INSIDE, "off"]:
        assert closed.held[name][:begin + 1] == lane_drop.held[name][:begin + 1]
        assert closed.gone[name][:begin + 1] == lane_drop.gone[name][:begin + 1]
    gone = closed.gone["m21"]
    assert (gone[begin], gone[first]) == (vehicles(both), vehicles(before))
    assert [after - before for before, after in zip(gone[first:], gone[first + 1:begin + 1])] == [vehicles(rate)] * steps
    assert closed.delay > lane_drop.delay
