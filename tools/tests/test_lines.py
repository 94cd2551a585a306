"""The lines of pages and tables letter by letter: numbers, columns, how many queues are told and what of the others."""

from types import SimpleNamespace

import pandas
import pytest

from ctmtools.commands.compare import _travel, signed
from ctmtools.report.queues import queues_in
from ctmtools.report.summary import _lasting, clock, kilometre, length, number_text, page, where
from ctmtools.texts.text_table import table
from ctmtools.units import Units

from .plain_reports import plain_report


@pytest.mark.parametrize("value, text", [(0, "0"), (0.004, "0"), (0.006, "0.01"), (2.5, "2.5"), (12, "12"), (1234.567, "1,234.57"),
                                         (120000, "120,000")])
def test_numbers_have_thousands_apart_and_at_most_two_decimals(value, text):
    assert number_text(value) == text
    assert signed(value) == (f"+{text}" if text != "0" else "0") and signed(-value) == (f"-{text}" if text != "0" else "0")


@pytest.mark.parametrize("value, text", [(3, "3.00"), (3.25, "3.25"), (3.125, "3.125"), (3.1204, "3.12"), (0.5, "0.50")])
def test_kilometres_have_three_decimals_where_there_are_metres(value, text):
    assert kilometre(value) == text


@pytest.mark.parametrize("seconds, text", [(0, "0.0 s"), (119.9, "119.9 s"), (120, "2.0 min"), (675, "11.2 min")])
def test_a_long_time_is_told_in_minutes(seconds, text):
    assert _lasting(seconds) == text


def test_columns_stand_under_their_heads():
    assert list(table([("road", "km", ""), ("m", "12.50", "far"), ("north", "5", "")], right=(1,))) == [
        "  road      km", "  m      12.50  far", "  north      5"]


def test_roads_whose_travel_time_differs():
    frame = pandas.DataFrame({"first": [9.0, 5, 5, 5, 5, 5, 5, 12.5], "second": [12.5, 4, 4, 4, 4, 4, 4, 12.504]},
                             index=["north", *"abcdef", "same"])
    frame["rise"] = frame["second"] - frame["first"]
    assert list(_travel(frame)) == ["", "Mean travel time from end to end in min, 6 of 7 roads that differ:", "",
                                    "  road   A     B  B - A", "  north  9  12.5   +3.5", *(f"  {road}      5     4     -1" for road in "abcde")]
    assert not list(_travel(frame[frame.index == "same"]))


def test_places_of_a_page():
    known = SimpleNamespace(units=Units(step=10, start=21600, cells={"m1": {"road": "m", "from_km": 0, "to_km": 0.25, "lanes": 2}}))
    bare = SimpleNamespace(units=Units())
    assert where(known, "m1") == "m1 (m km 0.25)" and where(known, "m1", True) == "m1 (m km 0.00)" and where(bare, "m1") == "m1"
    assert clock(known, 6) == "06:01:00" and clock(bare, 6) == "6"
    assert length(known, 0.25) == "0.25 km" and length(bare, 1) == "1 cell" and length(bare, 2) == "2 cells" and length(bare, 0) == "in the gate"


def corridors(steps, **demands):
    """The report of roads side by side, each with an exit that passes one vehicle in a step, while two come in so many first steps.

    The first two stand on the road at step 2, where one goes out in each step from then on. After D steps of demand it holds
    D + 1 vehicles at most, at step D + 1, and none from step 2 D + 2 on.
    """
    records = ["ctm,1", f"steps,{steps}"]
    for name, demand in demands.items():
        records += [f"gate,g{name},9,0", f"road,{name},60,9,1,5,0", f"exit,x{name},1", f"link,g{name},{name}", f"link,{name},x{name}",
                    f"demand,g{name},0,{demand},2"]
    return plain_report("\n".join([*records, ""]), name="made.report")


def test_a_queue_from_its_beginning_to_its_end():
    queue, = queues_in(corridors(60, a=20))
    # It holds 2 and passes 1 at step 2; at step 41 it holds the last one, which passes freely.
    assert (queue.origin, queue.start, queue.end, queue.reach, queue.reached) == ("a", 2, 41, 1, 2)
    assert (queue.most, queue.most_at, queue.delay, queue.spells) == (20, 21, sum(range(1, 21)) + sum(range(20)), 1)


def test_the_most_costly_queues_have_a_row_and_the_others_are_counted():
    report = corridors(60, **{f"r{i:02}": 20 for i in range(1, 14)}, r14=19, s1=4, s2=4)
    lines = list(page(report))
    assert lines[:4] == ["made: 60 steps, 48 cells", "",
                         f"Vehicles  {13 * 40 + 38 + 16} entered, {13 * 40 + 38 + 16} left, 0 are still inside",
                         f"Delay     {13 * 400 + 361 + 32:,} vehicle-steps"]
    rows = [line for line in lines if line.startswith("  r")]
    assert rows[0].split() == ["r01", "2", "1", "cell", "r01", "2", "20", "21", "41", "400"] and len(rows) == 12
    assert "  and 2 more queues, the longest of 1 cell from r13 at 2, 761 vehicle-steps in all" in lines
    assert "  and 2 short queues, the longest of 1 cell from s1 at 2, 32 vehicle-steps in all, cleared in less than 12 steps each" in lines
    assert lines[-1] == "Nothing is left inside at the end." and not any("comes back" in line for line in lines)


def test_one_more_queue_and_one_short_one():
    lines = list(page(corridors(60, **{f"r{i:02}": 20 for i in range(1, 14)}, s=4)))
    assert "  and 1 more queue, of 1 cell from r13 at 2, 400 vehicle-steps in all" in lines
    assert "  and 1 short queue, of 1 cell from s at 2, 16 vehicle-steps in all, cleared in less than 12 steps" in lines


# A queue lasts from step 2 to 2 D + 1.
@pytest.mark.parametrize("demand, short", [(6, True), (7, False)])
def test_a_queue_of_twelve_steps_is_no_short_one(demand, short):
    lines = list(page(corridors(60, a=20, b=demand)))
    assert any("short queue" in line for line in lines) == short and any(line.startswith("  b ") for line in lines) != short


def test_short_queues_alone_have_their_rows():
    lines = list(page(corridors(60, a=4)))
    assert [line.split()[0] for line in lines if line.startswith("  a ")] == ["a"] and not any("short" in line for line in lines)


def test_what_stands_in_queues_at_the_end():
    report = corridors(30, **{f"r{i:02}": 20 for i in range(1, 11)})
    # Of 40 vehicles 28 have gone out in the steps 2 to 29.
    named = ", ".join(f"12 in that from r{i:02}" for i in range(1, 9))
    assert list(page(report))[-1] == f"Still inside at the end: 120 vehicles, of which 120 stand in queues: {named}, 24 in 2 more."
    assert list(page(corridors(30, a=20, b=15)))[-1] == \
        "Still inside at the end: 14 vehicles, of which 14 stand in queues: 12 in that from a, 2 in that from b."


def test_the_travel_times_of_a_page():
    report = corridors(60, a=20)
    report.units = Units(step=60, start=0, roads={"a": ["a"]}, cells={"a": {"road": "a", "from_km": 0, "to_km": 0.25, "lanes": 1}})
    lines = list(page(report))
    # Who is the N-th enters at 1 + N/2 and leaves at 2 + N: of 40 they need 11 steps in the mean, and those of the last pair 20.5.
    begin = lines.index("Travel time from end to end, of vehicles that have arrived:")
    assert lines[begin + 2:begin + 4] == ["  road    km  at free flow      mean   longest  for departures at",
                                          "  a     0.25        60.0 s  11.0 min  20.5 min  00:20:00"]
    assert lines[3] == "Delay     6.67 vehicle-hours, 10.0 min for each vehicle that entered"
