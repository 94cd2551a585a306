"""Closures, openings, limits and signals that hold for a time: what is left where they overlap, worked on paper."""

import plain_model
import pytest

from ctmtools import Problem
from ctmtools.report.queues import queues_in
from ctmtools.report.reading import report_of

from .corridor import corridor
from .examples import TOOLS
from .plain_reports import reported

STEP = 10  # s, of the corridor; a lane passes 6 vehicles in it and has room for 36 in a cell of 250 m
WORKS = '[[closures]]\nroad = "m"\nfrom = 0.5\nto = 0.75\nlanes = 1\n'
CRASH = WORKS + 'start = "06:10"\nend = "06:40"\n'
SHOULDER = '[[openings]]\nroad = "m"\nlanes = 1\nstart = "06:10"\nend = "06:30"\n'


def limits(made):
    return [line.split(",")[1:] for line in made.text.splitlines() if line.startswith("limit,")]


def delay(made):
    """The delay of a built study in vehicle-steps, by the plain recurrences."""
    return float(plain_model.report(made.text.encode()).splitlines()[-1].split(b",")[4])


@pytest.mark.parametrize("works", [WORKS + CRASH, CRASH + WORKS], ids=["works first", "crash first"])
def test_lanes_of_closures_that_overlap_add_up(tmp_path, works):
    made = corridor(tmp_path, works, lanes=3, demand=3600, end="09:00")
    assert limits(made) == [["m3", "0", "60", "12"], ["m3", "60", "240", "6"], ["m3", "240", "1080", "12"]]
    assert made.remarks == ["closures[1] and closures[2] overlap on road m from km 0.5 to 0.75, 06:10 to 06:40: 1 of 3 "
                            "lanes and 2,160 vehicles/h are left"]
    # 10 come in a step and 6 pass, so 720 wait after 180 steps. In one more the 10 pass that stand in the cell, and then
    # 12 in each, so 2 fewer wait after each.
    assert delay(made) == pytest.approx(720 * 180 / 2 + 720 + 720 * 360 / 2, abs=0.01)


def test_a_closure_lies_on_its_cells_behind_a_change_of_lanes_too(tmp_path):
    narrow = '[[roads.m.sections]]\nfrom = 0.25\nlanes = 2\n'
    assert limits(corridor(tmp_path, narrow + WORKS, lanes=3)) == [["m3", "0", "360", "6"]]


def test_what_is_left_is_never_below_nothing(tmp_path):
    made = corridor(tmp_path, 2 * CRASH.replace("lanes = 1", "lanes = 2"), lanes=3)
    assert limits(made) == [["m3", "60", "240", "0"]]
    assert "0 of 3 lanes and 0 vehicles/h are left" in made.remarks[0]


@pytest.mark.parametrize("order", [1, -1])
def test_the_least_capacity_holds(tmp_path, order):
    rows = [CRASH, WORKS.replace("lanes = 1", "capacity = 900"), WORKS.replace("lanes = 1", "capacity = 1800")]
    assert limits(corridor(tmp_path, "".join(rows[::order]))) == [["m3", "0", "360", "2.5"]]


def test_a_closure_never_gives_a_road_more_than_it_has(tmp_path):
    for more in ("capacity = 9000\n", "lanes = 0\nsaturation_flow = 3000\n"):
        made = corridor(tmp_path, WORKS.replace("lanes = 1\n", more))
        assert limits(made) == [["m3", "0", "360", "12"]]


def test_closures_overlap_where_both_are(tmp_path):
    made = corridor(tmp_path, WORKS.replace("0.75", "1.0") + CRASH.replace("from = 0.5", "from = 0.25"), lanes=3)
    assert limits(made) == [["m2", "60", "240", "12"], ["m3", "0", "60", "12"], ["m3", "60", "240", "6"],
                            ["m3", "240", "360", "12"], ["m4", "0", "360", "12"]]
    assert len(made.remarks) == 1 and "from km 0.5 to 0.75" in made.remarks[0]


def test_no_part_of_a_road_is_told_twice(tmp_path):
    wide = WORKS.replace("0.5", "0.25").replace("0.75", "1")
    shoulder = '[[openings]]\nroad = "m"\nfrom = 0.5\nto = 0.75\nlanes = 1\n'
    told = corridor(tmp_path, 2 * wide + shoulder, lanes=3).remarks[1:]
    both, left = "closures[1] and closures[2] overlap on road m from km", "06:00 to 07:00: 1 of 3 lanes and"
    assert told == [f"{both} 0.25 to 0.5, {left} 2,160 vehicles/h are left",
                    f"{both} 0.75 to 1, {left} 2,160 vehicles/h are left",
                    "closures[1] and closures[2] and openings[1] overlap on road m from km 0.5 to 0.75, 06:00 to 07:00: "
                    "1 of 3 lanes and 1 opened and 4,320 vehicles/h are left"]


@pytest.mark.parametrize("part, told", [
    (CRASH.replace("06:40", "07:30"), "closures[1].end: 07:30 is behind the study's end, 07:00, and is cut there"),
    (SHOULDER.replace("06:30", "07:10"), "openings[1].end: 07:10 is behind the study's end, 07:00, and is cut there"),
    (CRASH.replace("06:40", "07:00"), None)])
def test_an_end_behind_the_studys_end_is_told(tmp_path, part, told):
    assert [line for line in corridor(tmp_path, part).remarks if "behind" in line] == ([told] if told else [])


def test_limits_of_a_gate_that_overlap(tmp_path):
    made = corridor(tmp_path, gate='limits = [["06:00", "06:20", 720], ["06:10", "06:30", 360]]\n')
    assert limits(made) == [["g", "0", "60", "2"], ["g", "60", "180", "1"]]
    assert made.remarks == ["gates.g.limits[1] and gates.g.limits[2] overlap 06:10 to 06:20: 360 vehicles/h are left"]


def test_an_opened_lane_carries_vehicles(tmp_path):
    peak = '[["06:00", "06:10", 1800], ["06:10", "06:20", 5400], ["06:20", "06:40", 1800]]'
    made = corridor(tmp_path, SHOULDER, demand=peak)
    assert limits(made) == [[f"m{i}", "60", "180", "18"] for i in range(1, 5)]
    # Without the room of three lanes the two could carry 12 in a step for long, whatever the limit says.
    assert "road,m1,108,12,1,5,0" in made.text and "gate,g,18,0" in made.text and "exit,x,18" in made.text
    assert delay(made) == pytest.approx(0, abs=0.001)
    # Two lanes pass 12 of the 15 in a step: 180 wait after 60 steps, and 7 fewer in each that follows.
    assert delay(corridor(tmp_path, demand=peak)) == pytest.approx(180 * 60 / 2 + 180 * 180 / 7 / 2, rel=0.01)
    assert "roads.m" not in str(made.warnings) and "room of the opened lanes" in made.remarks[0]


def test_an_opening_adds_to_what_closures_leave(tmp_path):
    both = SHOULDER + 'from = 0.5\nto = 0.75\nsaturation_flow = 1800\n'
    assert limits(corridor(tmp_path, both + CRASH)) == [["m3", "60", "180", "11"], ["m3", "180", "240", "6"]]
    capacity = CRASH.replace("lanes = 1", "capacity = 720")
    assert limits(corridor(tmp_path, both + capacity)) == [["m3", "60", "180", "7"], ["m3", "180", "240", "2"]]


def test_lanes_closed_beyond_the_roads_own_are_of_the_opened(tmp_path):
    both = SHOULDER + "from = 0.5\nto = 0.75\n" + 2 * CRASH.replace("lanes = 1", "lanes = 1.25")
    assert limits(corridor(tmp_path, both)) == [["m3", "60", "180", "3"], ["m3", "180", "240", "0"]]


@pytest.mark.parametrize("rows, wanted", [
    (CRASH.replace("lanes = 1", "lanes = -1"), "closures[1].lanes: a number of lanes isn't negative"),
    (SHOULDER.replace("lanes = 1", "lanes = 0"), "openings[1].lanes: must be above 0"),
    (CRASH.replace("06:10", "05:30"), "closures[1].start: 05:30 is before the study's start, 06:00"),
    (CRASH.replace("06:40", "05:30"), "closures[1].end: 05:30 is before the study's start, 06:00"),
    (CRASH.replace("06:10", "08:30").replace("06:40", "08:40"), "closures[1].start: 08:30 is outside the study's time"),
    (CRASH.replace("06:40", "06:05"), "closures[1].end: the end isn't after the start")])
def test_mistakes_blame_the_key_that_has_them(tmp_path, rows, wanted):
    with pytest.raises(Problem) as found:
        corridor(tmp_path, rows)
    assert wanted in str(found.value)


def test_a_closure_shorter_than_a_cell_is_told_as_it_is_modelled(tmp_path):
    made = corridor(tmp_path, WORKS.replace("0.75", "0.8").replace("0.5", "0.7"))
    assert limits(made) == [["m4", "0", "360", "6"]]
    told = [str(note) for note in made.rounding.differing]
    assert told == ["place of closures[1], from: 0.7 km asked, 0.75 km modelled",
                    "place of closures[1], to: 0.8 km asked, 1 km modelled"]


SIGNAL = '[[signals]]\nroad = "{}"\ncycle = 60\ngreen = 20\nstart = "06:10"\nend = "06:12"\n'
REDS = [["62", "66", "0"], ["68", "72", "0"]]


@pytest.mark.parametrize("road, cell", [("g", "g"), ("m", "x")])
def test_a_signal_that_runs_for_a_time(tmp_path, road, cell):
    made = corridor(tmp_path, SIGNAL.format(road))
    assert limits(made) == [[cell, *red] for red in REDS] and not made.remarks and "signal," not in made.text


@pytest.mark.parametrize("road", "gm")
def test_it_holds_back_what_a_signal_of_all_the_time_does(tmp_path, road):
    demand = '[["06:10", "06:30", 1080]]'
    all_the_time = '[[signals]]\nroad = "{}"\ncycle = 60\ngreen = 20\n'.format(road)
    for_a_time = all_the_time + 'start = "06:05"\n'
    one, other = (corridor(tmp_path, signal, demand=demand).text.encode() for signal in (all_the_time, for_a_time))
    assert plain_model.report(one, 1) == plain_model.report(other, 1)


def test_within_a_road_its_cell_takes_nothing_in_while_it_is_red(tmp_path):
    made = corridor(tmp_path, SIGNAL.format("m") + "at = 0.5\nfirst_green = 20\n")
    assert limits(made) == [["m2", "60", "62", "0"], ["m2", "64", "68", "0"], ["m2", "70", "72", "0"]]
    assert made.remarks[0].startswith("signals[1] has a start or an end, so in its red nothing comes into the cell before")


def test_within_a_road_who_waits_waits_up_to_a_step_longer(tmp_path):
    signal = '[[signals]]\nroad = "m"\nat = 0.5\ncycle = 120\ngreen = 60\n'
    demand = '[["06:10", "07:00", 720]]'
    exact, made = (delay(corridor(tmp_path, signal + start, demand=demand, end="07:30"))
                   for start in ("", 'start = "06:05"\n'))
    # In each of 25 reds of 6 steps 2 vehicles come in a step, and the green clears them.
    assert 0.9 * 25 * 12 < made - exact <= 25 * 12


def test_the_queue_at_a_signal_that_runs_for_a_time_is_one(tmp_path):
    signal = '[[signals]]\nroad = "m"\nat = 0.5\ncycle = 120\ngreen = 60\nstart = "06:05"\n'
    made = corridor(tmp_path, signal, demand='[["06:00", "06:39:30", 720]]')
    assert made.units.cycles == {"m2": 12}
    queue, = queues_in(reported(made))
    # It is red in each even minute from 06:06 on, for the last time with vehicles before it at 06:38.
    assert (queue.origin, queue.start, queue.spells) == ("m2", 36, 17)


def test_plans_of_a_signal_by_time_of_day(tmp_path):
    second = SIGNAL.format("g").replace("06:12", "06:14").replace("06:10", "06:12").replace("20", "40")
    reds = [*REDS, ["76", "78", "0"], ["82", "84", "0"]]
    assert limits(corridor(tmp_path, SIGNAL.format("g") + second)) == [["g", *red] for red in reds]
    with pytest.raises(Problem, match=r"signals\[2\]: at this stop line signals\[1\] runs at the same time"):
        corridor(tmp_path, 2 * SIGNAL.format("g"))


RAMP = """[roads.a]
length = 0.5
lanes = 1
[gates.r]
into = "a"
demand = 1800
{}[[on_ramps]]
road = "m"
ramp = "a"
at = 0.5
priorities = [3, 1]
"""


def passed(made, cell):
    """The vehicles that leave a cell before 07:00, from then to 09:00, and after that."""
    gone = report_of(plain_model.report(made.text.encode(), 1)).left[cell]
    return gone[360], gone[1080] - gone[360], gone.iloc[-1] - gone[1080]


def test_the_meter_of_the_page_on_saved_moments(tmp_path):
    text = (TOOLS / "docs" / "saved.md").read_text().split("## A ramp meter by time of day")[1]
    meter, rate = text.split("```")[1], text.split("`limits` of the ramp's gate, `")[1].split("`")[0]
    made = corridor(tmp_path, RAMP.format("") + meter, end="10:00")
    before, metered, after = passed(made, "a2")
    # 5 come in a step. Of 240 greens the first two pass the 5 that stand before the line, the others 6 each.
    assert before == pytest.approx(5 * (360 - 3)) and metered == pytest.approx(240 * 6 - 2)
    assert after == pytest.approx(6 * 360)
    made = corridor(tmp_path, RAMP.format(rate + "\n"), end="10:00")
    assert passed(made, "r")[1] == pytest.approx(720 * 2)
