"""The table of the village in examples/README.md: what passes and the delays on paper, and the delays of the runs beside these."""

import re
from math import exp

import pytest

from .examples import EXAMPLES

ROAD, SIDE = 600, 450  # vehicles/h of today
QUEUES = 0.9944  # h: from 07:01, when the road has its whole flow, to 08:00:40
TRAFFIC = [1, 1.1, 1.2, 1.3, 1.4, 1.5]


def stop_passes(traffic):
    flow = ROAD * traffic
    return flow * exp(-6.2 * flow / 3600) / (1 - exp(-3.3 * flow / 3600))


def roundabout_passes(traffic):
    return 1380 * exp(-0.00102 * ROAD * traffic)


def queue_delay(traffic, passes, empty):
    """Vehicle-hours of a queue that grows by what comes too much, and goes at what passes once the road is empty."""
    queue = max(0.0, SIDE * traffic - passes) * QUEUES
    return queue * (QUEUES + queue / empty) / 2


def stop_delay(traffic):
    return queue_delay(traffic, stop_passes(traffic), 3600 / 3.3)


def roundabout_delay(traffic):
    return queue_delay(traffic, roundabout_passes(traffic), 1800)


def signal_delay(traffic):
    """Vehicle-hours of two reds in each of 40 cycles: q·r²/2/(1 - q/0.5)."""
    reds = ((ROAD * traffic / 3600, 44), (SIDE * traffic / 3600, 54))
    return sum(come * red ** 2 / 2 / (1 - come / 0.5) for come, red in reds) * 40 / 3600


def test_the_table_of_the_village_is_that_of_paper():
    text = (EXAMPLES / "README.md").read_text().partition("## A village\n")[2]
    rows = [[float(cell) for cell in row.strip("| ").split("|")] for row in re.findall(r"^\| 1[\d. |]+\|$", text, re.MULTILINE)[:6]]
    assert [row[0] for row in rows] == TRAFFIC
    for traffic, stop, by_stop, stop_paper, ring, by_ring, ring_paper, by_signal, signal_paper in rows:
        assert (stop, ring) == (pytest.approx(stop_passes(traffic), abs=0.06), pytest.approx(roundabout_passes(traffic), abs=0.06))
        on_paper = [stop_delay(traffic), roundabout_delay(traffic), signal_delay(traffic)]
        assert [stop_paper, ring_paper, signal_paper] == pytest.approx(on_paper, rel=0.002, abs=0.006)
        assert [by_stop, by_ring, by_signal] == pytest.approx(on_paper, rel=0.005, abs=0.02)


def test_a_stop_a_roundabout_and_a_signal_are_best_up_to_the_traffic_that_the_page_says():
    # Up to 1.07 the stop has no queue, up to 1.345 the roundabout, whose queue costs as much as the signal's reds at 1.37.
    assert stop_delay(1.065) == 0 < stop_delay(1.07) and roundabout_delay(1.345) == 0 < roundabout_delay(1.35)
    assert roundabout_delay(1.36) < signal_delay(1.36) and roundabout_delay(1.37) > signal_delay(1.37)
    assert stop_delay(1.1) > signal_delay(1.1)
