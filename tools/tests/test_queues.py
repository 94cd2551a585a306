"""Queues: where they begin, what is one queue, their course over time, and what the page tells of them."""

import numpy
import pytest

from ctmtools.network_file.network import network_of
from ctmtools.report.reading import report_of
from ctmtools.report.summary import page
from ctmtools.report.queue_heads import heads
from ctmtools.report.queues import course, queues_in, reach_of_part, standing
from ctmtools.report.upstream import spills

from .corridor import corridor
from .plain_reports import plain_report


def test_platoons_in_free_flow_are_no_queue():
    roads = [f"c{i:02d}" for i in range(40)]
    links = zip(["g", *roads], [*roads, "x"])
    made = plain_report("ctm,1\nsteps,200\ngate,g,9,0\nexit,x,9\n" + "".join(f"road,{name},60,9,1,5,0\n" for name in roads) +
                        "".join(f"link,{up},{down}\n" for up, down in links) +
                        "".join(f"demand,g,{step},{step + 3},6\n" for step in range(0, 200, 10)), 10)
    assert made.total.delay == 0 and queues_in(made) == []


def test_the_queue_of_a_lane_drop(report):
    queue, = queues_in(report("bottleneck"))
    units = report("bottleneck").units
    assert (queue.origin, queue.farthest, queue.reach) == ("m20", "m08", pytest.approx(3.25))
    assert units.clock(queue.end, True) == "08:40:50"  # 45 steps after 08:30 at the gate, 200 s down the road
    assert queue.most == pytest.approx(450, abs=1)
    assert units.hours(queue.delay) == pytest.approx(461.25, abs=0.3)


def test_a_queue_at_a_signal_is_one(report):
    queues = queues_in(report("arterial-0"))
    assert sorted(queue.origin for queue in queues) == ["c04", "c08", "c12", "c16", "c20"]
    assert all(queue.spells == 30 for queue in queues)  # a cycle of 120 s for an hour
    hours = {queue.origin: report("arterial-0").units.hours(queue.delay) for queue in queues}
    assert hours == pytest.approx({"c04": 6.75, "c08": 8.25, "c12": 6, "c16": 6, "c20": 6})


def test_the_approaches_of_a_grid_are_one_queue_each(report):
    read = report("grid")
    signals = list(read.network.signals.cell)
    assert sorted(queue.origin for queue in queues_in(read)) == sorted(signals) and len(signals) == 8
    lines = list(page(read))
    assert all(sum(line.startswith(f"  {cell} (") for line in lines) == 1 for cell in signals)


def test_a_ramp_meter_is_one_queue(report):
    read = report("meter")
    queue = queues_in(read)[0]
    # 900 vehicles/h come from 06:45 to 08:00, and two in each 10 s, 720 vehicles/h, are let on; then 270 vehicles/h come.
    assert (queue.origin, read.units.clock(queue.most_at, True)) == ("town", "07:59:55")
    assert queue.most == pytest.approx(1.25 * (900 - 720), abs=2)
    assert read.units.hours(queue.delay) == pytest.approx(225 * (1.25 + 225 / 450) / 2, rel=0.01)
    assert len(queues_in(read)) == 2  # and the vehicles that the meter lets on two by two, at the motorway


def signalled(*demands):
    """The report of a road with a signal of ten steps, five of them green, and a vehicle a step in some spans."""
    text = ("ctm,1\nsteps,200\ngate,g,9,0\nroad,a,60,9,1,5,0\nexit,x,9\nlink,g,a\nlink,a,x\nsignal,a,10,0,0,5\n" +
            "".join(f"demand,g,{begin},{end},1\n" for begin, end in demands))
    return plain_report(text)


@pytest.mark.parametrize("vehicles, steps", [(0.15, [9]), (0.09, [])])
def test_a_tenth_of_a_vehicle_that_waits_for_a_step_stands_in_a_queue(vehicles, steps):
    # Who comes in step 7 stands before the red of step 9, and leaves in step 10.
    text = (f"ctm,1\nsteps,40\ngate,g,9,0\nroad,a,60,9,1,5,0\nexit,x,9\nlink,g,a\nlink,a,x\nsignal,a,10,0,0,5\ndemand,g,7,8,{vehicles}\n")
    assert standing(plain_report(text)).a.to_numpy().nonzero()[0].tolist() == steps


def test_a_queue_that_stays_away_for_more_than_two_cycles_is_another():
    # A vehicle stands at the stop line two steps after it came to the gate. The last red before the pause ends with
    # step 39; the first behind it begins with step 55 or 85.
    queue, = queues_in(signalled((0, 40), (54, 93)))
    assert (queue.start, queue.spells) == (5, 8)
    first, second = sorted(queues_in(signalled((0, 40), (84, 123))), key=lambda queue: queue.start)
    assert (first.start, second.start, first.spells, second.spells) == (5, 86, 4, 4)


def test_the_queues_at_a_signal_of_a_part_of_the_time_are_told_one_by_one(tmp_path):
    # 1,000 vehicles/h come to a signal that is green for half of each minute and lets 4,320 pass: each green clears what
    # the red before it held back. For half an hour it is made of limits, and limits have no cycle.
    signal = '[[signals]]\nroad = "m"\ncycle = 60\ngreen = 30\n'
    for terms, spells in (("", [60]), ('start = "06:00"\nend = "06:30"\n', 30 * [1])):
        made = corridor(tmp_path, signal + terms)
        report = plain_report(made.text)
        assert [queue.spells for queue in queues_in(report)] == spells


def test_short_queues_are_counted_in_one_line():
    # At x a vehicle more comes in each of 60 steps than leave. At y 6 vehicles come at once, four times, and 2 leave in a
    # step: 4 wait, and then 2.
    text = ("ctm,1\nsteps,200\ngate,g,9,0\ngate,h,9,0\nroad,a,300,9,1,5,0\nroad,b,60,9,1,5,0\nexit,x,2\nexit,y,2\n"
            "link,g,a\nlink,a,x\nlink,h,b\nlink,b,y\ndemand,g,0,60,3\n" +
            "".join(f"demand,h,{step},{step + 1},6\n" for step in (0, 40, 80, 120)))
    lines = list(page(plain_report(text)))
    assert [line for line in lines if "short" in line] == [
        "  and 4 short queues, the longest of 1 cell from b at 2, 24 vehicle-steps in all, cleared in less than 12 steps each"]
    assert sum(line.startswith("  a ") for line in lines) == 1 and not any(line.startswith("  b ") for line in lines)


def test_where_all_queues_are_short_they_are_told():
    text = ("ctm,1\nsteps,50\ngate,h,9,0\nroad,b,60,9,1,5,0\nexit,y,2\nlink,h,b\nlink,b,y\ndemand,h,0,1,6\n")
    lines = list(page(plain_report(text)))
    assert any(line.startswith("  b ") for line in lines) and not any("short" in line for line in lines)


def test_more_queues_than_rows_are_counted():
    text = "ctm,1\nsteps,60\n" + "".join(
        f"gate,g{i},9,0\nroad,r{i},300,9,1,5,0\nexit,x{i},2\nlink,g{i},r{i}\nlink,r{i},x{i}\ndemand,g{i},0,{30 - i},3\n"
        for i in range(15))
    lines = [line for line in page(plain_report(text)) if "more queues" in line]
    # In k steps 1, 2, .. k vehicles wait, and then two fewer in each: 243 vehicle-steps for k = 18, 217 for 17, 192 for 16.
    assert lines == ["  and 3 more queues, the longest of 1 cell from r12 at 2, 652 vehicle-steps in all"]


def test_a_queue_all_round_a_ring_is_headed_where_it_stood_first():
    made = plain_report("ctm,1\nsteps,9\ngate,g,9,0\nroad,a,60,9,1,5,0\nroad,b,60,9,1,5,0\nroad,t,60,9,1,5,0\nlink,g,t\nmerge,b,t,a,1,1\nlink,a,b\n")
    # Each cell comes to stand while the one behind it does: a and b first, and t, which leads to a, from step 3 on.
    assert heads(made, {"t": [(3, 9)], "a": [(0, 4), (6, 9)], "b": [(0, 6), (8, 9)]}) == [(0, "a")]


def test_queues_in_gates_alone_are_counted_by_their_vehicles():
    text = "ctm,1\nsteps,60\n" + "".join(
        f"gate,g{i},2,0\nroad,r{i},300,9,1,5,0\nexit,x{i},9\nlink,g{i},r{i}\nlink,r{i},x{i}\ndemand,g{i},0,{30 - i},3\n"
        for i in range(15))
    lines = [line for line in page(plain_report(text)) if "more queues" in line]
    assert lines == ["  and 3 more queues, the greatest of 18 vehicles in the gate g12 at 18, 652 vehicle-steps in all"]


@pytest.mark.parametrize("name", ["bottleneck", "interchange", "event", "arterial-0", "grid", "meter", "street"])
def test_the_course_of_a_queue_has_the_figures_of_the_page(report, name):
    read = report(name)
    for queue in queues_in(read):
        run = course(read, queue)
        assert (run.reach.max(), run.waiting.max()) == pytest.approx((queue.reach, queue.most))
        assert run.reach.loc[queue.reached] == run.reach.max() and run.waiting.loc[queue.most_at] == run.waiting.max()
        assert (run.waiting * numpy.diff(read.times)).sum() == pytest.approx(queue.delay)


def test_queues_that_meet_are_one(report):
    first, second = queues_in(report("interchange"))
    assert (first.origin, first.farthest, first.reach) == ("r2", "m10", pytest.approx(4.25))
    assert (second.origin, second.delay) == ("a2", pytest.approx(64_800, abs=3))
    queue, = queues_in(report("event"))
    assert queue.origin == "stadium"
    assert [(other.cell, other.reach) for other in queue.others] == [("n20", pytest.approx(1.5))]
    assert queue.reach == 0 and queue.longest_reach == pytest.approx(1.5)


def closed(tmp_path, rows, demand=4860, lanes=3, after=0):
    """The report of a road of three lanes, 13.5 vehicles in each cell, part of which is closed from 06:10 to 06:40."""
    parts = "".join(f'[[closures]]\nroad = "m"\nstart = "06:10"\nend = "06:40"\n{row}\n' for row in rows)
    made = corridor(tmp_path, parts, lanes, f'[["06:00", "06:20", {demand}], ["06:20", "07:00", {after}]]')
    return plain_report(made.text)


@pytest.mark.parametrize("lanes, slow", [(1.1, False), (1.5, True), (2, True), (3, True)])
def test_the_queue_at_a_closure_is_headed_before_it_whatever_the_share(tmp_path, lanes, slow):
    # Of 18 the closure leaves 11.4, 9, 6 or 0 of the 13.5 that come and that stand in m3 and m4 when it begins.
    read = closed(tmp_path, [f"from = 0.5\nlanes = {lanes}"])
    queue, = queues_in(read)
    assert (queue.origin, queue.start, queue.farthest, queue.reach) == ("m2", 60 if slow else 61, "m1", 2)
    assert ("m4" in queue.spans) == slow and not queue.others


def test_of_closures_that_follow_each_other_the_tightest_is_the_head(tmp_path):
    wide, tight = "from = 0.25\nto = 0.5\nlanes = {}", "from = 0.5\nlanes = {}"
    for first, second, head in ((1.5, 2, "m2"), (2, 1.5, "m1"), (2, 2, "m1")):
        queue, = queues_in(closed(tmp_path, [wide.format(first), tight.format(second)]))
        assert queue.origin == head and not queue.others


def test_what_is_slow_in_a_closure_is_of_the_queue_before_it():
    # c and d pass 12. d holds 18 and is slow, c between them 12.5 and isn't; b, to which 15 come in a step, is from step 1 on.
    rows = "".join(f"road,{name},108,18,1,5,{first}\n" for name, first in zip("abcd", (15, 15, 12.5, 18)))
    links = "".join(f"link,{up},{down}\n" for up, down in zip("gabcd", "abcdx"))
    made = plain_report(f"ctm,1\nsteps,60\ngate,g,18,15\n{rows}exit,x,18\n{links}limit,c,0,40,12\nlimit,d,0,40,12\n"
                    "demand,g,0,20,15\n")
    queue, = queues_in(made)
    assert queue.origin == "b" and {"b", "d"} <= set(queue.spans) and "c" not in queue.spans and queue.start == 0


def test_a_stop_line_in_a_closed_road_is_the_head(tmp_path):
    # In the red nothing passes m4, less than the two lanes that are left would.
    read = closed(tmp_path, ["from = 0.5\nlanes = 1"], 1800)
    signal = '[[signals]]\nroad = "m"\ncycle = 60\ngreen = 20\n'
    parts = signal + '[[closures]]\nroad = "m"\nfrom = 0.5\nlanes = 1\n'
    made = corridor(tmp_path, parts, 3, '[["06:00", "06:20", 1800], ["06:20", "07:00", 0]]')
    assert not queues_in(read) and queues_in(plain_report(made.text))[0].origin == "m4"


def test_where_nobody_waits_before_a_closure_its_queue_is_in_it(tmp_path):
    # At 06:10 a vehicle less comes than m3 and m4 pass from then on, so that they empty from m3 on.
    made = corridor(tmp_path, '[[closures]]\nroad = "m"\nfrom = 0.5\nstart = "06:10"\nend = "06:40"\nlanes = 2\n', 3,
                    '[["06:00", "06:09:30", 4860], ["06:09:30", "07:00", 1800]]')
    queue, = queues_in(plain_report(made.text))
    assert (queue.origin, queue.start) == ("m4", 60) and set(queue.spans) == {"m3", "m4"}


def test_the_reach_of_a_part_begins_with_it(report):
    read = report("event")
    queue, = queues_in(read)
    part, = queue.others
    reach = reach_of_part(read, queue, part)
    assert reach.max() == pytest.approx(part.reach)
    assert (reach.loc[:part.start - 1] == 0).all() and reach.loc[part.start] > 0


def test_a_queue_that_still_stands():
    # b leads nowhere. Of the 9 vehicles it holds 5.75 at the end and a behind it 2.25; the last stands in no queue.
    made = plain_report("ctm,1\nsteps,9\ngate,g,1,0\nroad,a,6,2,1,2,0\nroad,b,6,2,1,2,0\nlink,g,a\nlink,a,b\ndemand,g,0,9,1\n")
    queue, = queues_in(made)
    assert queue.end is None and queue.origin == "b"
    lines = "\n".join(page(made))
    assert "not by the end" in lines
    assert "Still inside at the end: 9 vehicles, of which 8 stand in queues: 8 in that from b." in lines


def test_through_traffic_at_the_end_is_no_queue():
    made = plain_report("ctm,1\nsteps,9\ngate,g,2,0\nroad,a,6,2,1,2,0\nroad,b,6,2,1,2,0\nexit,x,2\nlink,g,a\nlink,a,b\n"
                    "link,b,x\ndemand,g,0,9,1\n")
    assert list(page(made))[-1] == "Still inside at the end: 3 vehicles, none of them in a queue."


def two_bottlenecks():
    return plain_report(two_bottlenecks_text())


def two_bottlenecks_text():
    """A road of twenty cells whose tenth passes 4 vehicles in a step, and to which 6 come; from step 60 on 2 leave at its end."""
    cells = [f"c{i:02d}" for i in range(1, 21)]
    rows = "".join(f"road,{cell},36,{4 if cell == 'c10' else 6},1,5,0\n" for cell in cells)
    links = "".join(f"link,{up},{down}\n" for up, down in zip(["g", *cells], [*cells, "x"]))
    return (f"ctm,1\nsteps,220\ngate,g,6,0\n{rows}exit,x,6\n{links}limit,x,60,220,2\ndemand,g,0,220,6\n")


def test_a_queue_that_touches_another_reaches_back_to_it_and_no_farther():
    # In a queue that 2 leave a cell holds 36 - 5 · 2 = 26: with 2 more in each step its tail goes 11 steps from cell to cell,
    # and stands at c10, eleven cells back, before step 200. What stands before c10 since step 3 is of the first queue.
    read = two_bottlenecks()
    queue, = queues_in(read)
    part, = queue.others
    assert (queue.origin, queue.farthest, queue.reach) == ("c09", "c01", 9)
    assert (part.cell, part.reach, queue.longest_reach) == ("c20", 11, 20)
    assert reach_of_part(read, queue, part).max() == 11
    assert any("was joined by one that began at c20 at 60 and reached back 11 cells" in line or
               "was joined by one that began at c20 at 61 and reached back 11 cells" in line for line in page(read))


def test_a_queue_that_reaches_the_upstream_end_is_told_with_who_wait_behind_it():
    read = two_bottlenecks()
    queue, = queues_in(read)
    spill, = spills(read, queue)
    # All that come and don't fit on the road wait in the gate; at the last step 6 come, and at most 2 go in.
    assert spill.gate == "g" and spill.most_at == 219
    assert spill.most == pytest.approx(read.vehicles.g[219] - (read.left.g[220] - read.left.g[219]))
    line, = [line for line in page(read) if "upstream end" in line]
    assert line == (f"  The queue of c09 reaches the upstream end of the model at {spill.start}: up to {spill.most:,.0f} vehicles "
                    "wait in the gate g, at 219, so it is longer than reported.")


def test_a_queue_that_reaches_a_gate_where_vehicles_wait_already_is_told():
    # Of 7 a step that come to the gate 6 go in, so one more waits in each step from the first on. The queue of c10 is as before.
    read = plain_report(two_bottlenecks_text().replace("demand,g,0,220,6", "demand,g,0,220,7"))
    alone = two_bottlenecks()
    queue, = queues_in(read)
    assert queue.origin == "g" and {part.cell for part in queue.others} == {"c09", "c20"}
    spill, = spills(read, queue)
    was, = spills(alone, queues_in(alone)[0])
    # It reaches the gate when c01 queues, a step or some before the gate of the other did.
    assert (spill.origin, spill.gate, spill.most_at) == ("c09", "g", 219) and was.start - 3 <= spill.start <= was.start
    assert spill.most == pytest.approx(was.most + 220, abs=1)
    assert any(line.startswith(f"  The queue of c09 reaches the upstream end of the model at {spill.start}: ") for line in page(read))


def test_a_queue_that_begins_in_a_gate_is_told_as_before(report):
    read = report("meter")
    assert not any(spills(read, queue) for queue in queues_in(read))
    assert not any("upstream end" in line for line in page(read))


@pytest.mark.parametrize("vehicles, stands", [(0.102, True), (0.098, False)])
def test_a_cell_that_holds_less_than_a_tenth_of_a_vehicle_is_empty(vehicles, stands):
    rows = "".join(f"at,{step},a,{vehicles},0\n" for step in range(3))
    report = report_of(f"report,2,1\n{rows}cell,a,{vehicles},{vehicles},0,{2 * vehicles}\ntotal,{vehicles},{vehicles},0,{2 * vehicles}\n".encode(), "c")
    report.network = network_of(b"ctm,1\nsteps,2\nroad,a,60,9,1,5,0\n")
    assert standing(report).a.tolist() == [stands] * 2


PLATOONS = ("ctm,1\nsteps,600\ngate,g,9,0\nexit,x,9\n" + "".join(f"road,c{i:02d},60,9,1,5,0\n" for i in range(20)) +
            "road,d,40,5,1,5,0\n" + "".join(f"link,{up},{down}\n" for up, down in zip(
                ["g", *(f"c{i:02d}" for i in range(20)), "d"], [*(f"c{i:02d}" for i in range(20)), "d", "x"])) +
            "".join(f"demand,g,{step},{step + 6},9\n" for step in range(0, 300, 15)))


@pytest.mark.parametrize("every", [1, 7, 60])
def test_queues_cost_no_more_than_their_cells_have_waited_whatever_is_recorded(every):
    made = plain_report(PLATOONS, every)
    queues = queues_in(made)
    assert sum(queue.delay for queue in queues) <= made.total.delay + 1e-6
    for queue in queues:
        assert queue.delay <= made.cells.wait[list(queue.spans)].sum() + 1e-6
    assert queues or every == 60
