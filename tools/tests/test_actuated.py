"""Signals whose greens follow traffic: the cycle that they settle at, worked out on paper, and what a study can't mean."""

import itertools
import re
from types import SimpleNamespace

import pytest

from ctmtools import Problem, build, read_study
from ctmtools.texts.amounts import PARTS
from ctmtools.moments import actuated_signals
from ctmtools.moments.actuated_signals import ActuatedSignals
from ctmtools.moments.moment import Runner
from ctmtools.program.calls import ask
from ctmtools.runs.running import opened
from ctmtools.study.plan import Actuation

from .examples import EXAMPLES
from .validation_tables import rows_under

STUDY = """step = 1
start = "07:00"
end = "07:08"
[lane]
free_flow_speed = 36
wave_speed = 18
jam_density = 160
saturation_flow = 1800
[roads]
a = {{ length = 0.3, lanes = 1 }}
b = {{ length = 0.3, lanes = 1 }}
x = {{ length = 0.1, lanes = 1 }}
y = {{ length = 0.1, lanes = 1 }}
[gates]
ga = {{ into = "a", demand = {a} }}
gb = {{ into = "b", demand = {b} }}
[exits]
ox = {{ from = "x" }}
oy = {{ from = "y" }}
[[junctions]]
from = ["a", "b"]
into = ["x", "y"]
shares = [[1, 0], [0, 1]]
cycle = 60
intergreen = 4
phases = [{{ from = ["a"], green = 26, actuated = {first} }}, {{ from = ["b"], green = 26, actuated = {follow} }}]
{more}
"""
FOLLOW = "{ least = 5, most = 40, gap = 4 }"


def write(tmp_path, a=540, b=360, follow=FOLLOW, more=""):
    path = tmp_path / "study.toml"
    path.write_text(STUDY.format(a=a, b=b, first=follow, follow=follow.partition(", permitted")[0], more=more))
    return path


def settled_greens(prepared):
    """The mean greens and the mean cycle that are told, in s."""
    line = next(line for line in prepared.told if "in the second half" in line)
    return [float(number) for number in re.findall(r"\d+\.\d", line)]


@pytest.mark.parametrize("a, b, greens, cycle", [
    # C = (8 + 2·4 - 4·Y)/(1 - Y) with Y = 0.3 + 0.2, and each green is y·(C - 4) + 4.
    (540, 360, (11.2, 8.8), 28),
    # Y = 0.3 + 0.3: C = (16 - 2.4)/0.4 = 34.
    (540, 540, (13, 13), 34),
    # The least where few come: 5 + 5 + 8.
    (36, 36, (5, 5), 18)])
def test_the_greens_settle_at_those_of_paper(tmp_path, recording_program, a, b, greens, cycle):
    found = settled_greens(opened(write(tmp_path, a, b)))
    # A green is rounded up to whole steps of 1 s.
    assert found[:2] == pytest.approx(greens, abs=1.2) and found[2] == pytest.approx(cycle, abs=2.4)
    row, = (row for row in rows_under("Come, vehicles/h | Greens on paper, s | Cycle | By the program | Cycle") if row[0].startswith(f"{a} and {b}"))
    assert row[3:] == [f"{found[0]:.0f} and {found[1]:.0f}", f"{found[2]:.0f}"]


THIRD = """[roads.c]
length = 0.3
lanes = 1
[roads.z]
length = 0.1
lanes = 1
[gates.gc]
into = "c"
demand = 36
[exits.oz]
from = "z"
"""


def test_a_green_of_two_streets_lasts_until_the_longer_queue_is_gone(tmp_path, recording_program):
    text = STUDY.format(a=540, b=360, first=FOLLOW, follow=FOLLOW, more=THIRD)
    for two, three in (('["a", "b"]', '["a", "b", "c"]'), ('["x", "y"]', '["x", "y", "z"]'), ('["a"]', '["a", "c"]'),
                       ("[[1, 0], [0, 1]]", "[[1, 0, 0], [0, 1, 0], [0, 0, 1]]")):
        text = text.replace(two, three)
    path = tmp_path / "study.toml"
    path.write_text(text)
    # As without c, of which few come.
    found = settled_greens(opened(path))
    assert found[:2] == pytest.approx([11.2, 8.8], abs=1.2) and found[2] == pytest.approx(28, abs=2.4)


def test_greens_that_need_less_last_the_least(tmp_path, recording_program):
    # Where few come 0.02·(28 - 4) + 4 = 4.5 s would do.
    found = opened(write(tmp_path, 36, 36, "{ least = 10, most = 40, gap = 4 }"))
    # Roads of 300 m have 30 cells of 10 m.
    assert settled_greens(found) == [10, 10, 28] and found.units.cycles == {"a30": 28, "b30": 28}


def test_all_stop_lines_are_red_until_the_first_green_begins(tmp_path):
    path = write(tmp_path)
    path.write_text(path.read_text().replace("cycle = 60", "cycle = 76").replace('{ from = ["a"]', '{ from = ["a"], start = 10'))
    study = read_study(path).scenario
    assert [one.text for one in ActuatedSignals(build(study), study, None).reds] == ["limit,a30,0,10,0", "limit,b30,0,10,0"]


@pytest.mark.parametrize("seconds, is_kept", [(0, False), (3, True)])
def test_what_was_reached_is_kept_once_two_seconds_have_passed(tmp_path, program, monkeypatch, seconds, is_kept):
    written, clock = [], itertools.count(0, seconds)  # which goes on by so much each time that it is read
    monkeypatch.setattr(actuated_signals, "monotonic", lambda: next(clock))
    monkeypatch.setattr(actuated_signals, "write", lambda path, _: written.append(path.name))
    study = read_study(write(tmp_path)).scenario
    ActuatedSignals(build(study), study, Runner("study"), tmp_path / "kept").run()
    assert set(written) == ({"kept"} if is_kept else set())


def test_a_bar_is_told_how_far_greens_have_come_and_there_is_none_without_runs(tmp_path, recording_program):
    shown, passed = [], []

    def bar(count):
        shown.append(count)
        return passed.append

    opened(EXAMPLES / "bottleneck.toml", bar)
    assert not shown
    path = write(tmp_path, 36, 36, "{ least = 10, most = 40, gap = 4 }")
    path.write_text(path.read_text().replace('end = "07:08"', 'end = "07:07:56"'))
    opened(path, bar)
    # A green begins each 14 s, and none at the end.
    assert shown == [476] and sum(passed) == 462


def test_greens_that_are_too_short_last_the_most(tmp_path, recording_program):
    assert settled_greens(opened(write(tmp_path, 1200, 1200)))[:2] == [40, 40]


def test_the_network_with_its_greens_is_run_again_byte_for_byte(tmp_path, tool, recording_program):
    write(tmp_path)
    status, out, _ = tool("run", "study.toml")
    assert status == 0 and "in the second half its greens last" in out and "warning" not in out
    assert ask(("run", "--every", "1"), (tmp_path / "study.csv").read_bytes()).out == (tmp_path / "study.report").read_bytes()


def test_build_tells_that_its_greens_are_fixed(tmp_path, tool):
    write(tmp_path)
    assert "junctions[1]: its greens are as long as `green` says in this network" in tool("build", "study.toml")[1]


@pytest.mark.parametrize("changes, why", [
    ({"follow": "{ least = 50, most = 40, gap = 4 }"}, "phases[1].actuated.least: must be above 0 s and at most the most, 40 s"),
    ({"follow": "{ least = 5, most = 40, gap = 41 }"}, "phases[1].actuated.gap: must be at most the most, 40 s"),
    ({"follow": "{ least = 5, most = 40 }"}, "phases[1].actuated.gap: is missing"),
    ({"more": 'yields = [{ movement = ["a", "x"], yields_to = [["b", "y"]] }]'}, "is permitted in no phase"),
    ({"follow": FOLLOW + ', permitted = [["a", "x"]]', "more": 'yields = [{ movement = ["a", "x"], yields_to = [["b", "y"]] }]'},
     "a movement gives way at a signal in fixed greens alone, and those of this junction follow traffic")])
def test_what_a_study_cant_mean_is_refused(tmp_path, changes, why):
    with pytest.raises(Problem) as refused:
        read_study(write(tmp_path, **changes))
    assert why in str(refused.value)


def test_a_gap_may_be_as_long_as_the_most(tmp_path):
    (junction,) = read_study(write(tmp_path, follow="{ least = 40, most = 40, gap = 40 }")).scenario.actuated
    assert {phase.actuation for phase in junction.phases} == {Actuation(40, 40, 40)}


SIGNALS = STUDY.partition("[[junctions]]")[0].replace("[roads]", "[roads]\nz = {{ length = 0.1, lanes = 1 }}").replace(
    "x = {{ length = 0.1, lanes = 1 }}\ny = {{ length = 0.1, lanes = 1 }}\n", "").replace(
    'ox = {{ from = "x" }}\noy = {{ from = "y" }}', 'oz = {{ from = "z" }}') + """[[merges]]
from = ["a", "b"]
into = "z"
priorities = [1, 1]
[[signals]]
road = "a"
cycle = 60
green = 26
actuated = {{ least = 5, most = 40, gap = 4 }}
[[signals]]
road = "b"
cycle = 60
green = 26
first_green = 30
{second}
"""


def signals(tmp_path, second="actuated = { least = 5, most = 40, gap = 4 }", a=540, b=360):
    path = tmp_path / "study.toml"
    path.write_text(SIGNALS.format(a=a, b=b, second=second))
    return path


def test_signals_whose_roads_merge_take_turns_as_phases_do(tmp_path, recording_program):
    # As the junction: C = (8 + 2·4 - 4·Y)/(1 - Y) = 28 with Y = 0.3 + 0.2, and greens of y·(C - 4) + 4.
    found = settled_greens(opened(signals(tmp_path)))
    assert found[:2] == pytest.approx([11.2, 8.8], abs=1.2) and found[2] == pytest.approx(28, abs=2.4)


def test_signals_that_are_green_together_before_the_others_are_one_phase(tmp_path):
    path = signals(tmp_path)
    path.write_text(path.read_text().replace("first_green = 30", "first_green = 0"))
    (junction,) = read_study(path).scenario.actuated
    assert [phase.lines for phase in junction.phases] == [[("a", None), ("b", None)]] and junction.phases[0].pause == 34


def test_a_signal_without_actuated_keeps_its_green_between_the_others(tmp_path, recording_program):
    found = settled_greens(opened(signals(tmp_path, second="")))
    # The green of b lasts 26 s, and a's is g = 0.3·(C - 4) + 4 with a cycle of C = g + 34, so 13/0.7 = 18.6.
    assert found[1] == 26 and found[0] == pytest.approx(18.6, abs=1.5)


def test_a_stop_line_alone_has_its_red_between_its_greens(tmp_path, recording_program):
    text = SIGNALS.format(a=540, b=36, second="").replace('road = "b"\ncycle = 60\ngreen = 26\nfirst_green = 30', "").rpartition("[[signals]]")[0]
    path = tmp_path / "study.toml"
    path.write_text(text.replace('road = "a"\ncycle', 'road = "a"\nat = 0.2\ncycle'))
    # The red lasts 34 s, so its green as above 18.6.
    assert settled_greens(opened(path))[0] == pytest.approx(18.6, abs=1.5)


@pytest.mark.parametrize("second, why", [
    ("actuated = { least = 50, most = 40, gap = 4 }", "signals[2].actuated.least: must be above 0 s and at most the most, 40 s"),
    ('start = "07:05"', "signals[2].actuated: greens that follow traffic do so for the whole study, without start and end"),
    ('end = "07:05"', "signals[2].actuated: greens that follow traffic do so for the whole study, without start and end")])
def test_signals_that_cant_follow_traffic_are_refused(tmp_path, second, why):
    with pytest.raises(Problem) as refused:
        read_study(signals(tmp_path, second=second))
    assert why in str(refused.value)


def test_signals_that_merge_have_one_cycle_and_greens_apart(tmp_path):
    for changed, why in (("cycle = 70", "signals[2].cycle: signals[1] meets it and follows traffic, so both have one cycle"),
                         ("first_green = 20", "signals[1].green: greens that follow traffic stand one behind the other")):
        path = signals(tmp_path)
        text = path.read_text()
        key = changed.split()[0]
        head, _, tail = text.rpartition("[[signals]]")
        path.write_text(head + "[[signals]]" + re.sub(rf"{key} = \d+", changed, tail, count=1))
        with pytest.raises(Problem) as refused:
            read_study(path)
        assert why in str(refused.value)


SIDE_STREET = """[roads.before]
length = 0.2
lanes = 1
[roads.side]
length = 0.2
lanes = 1
[roads.behind]
length = 0.2
lanes = 1
[gates.main]
into = "before"
demand = 600
[gates.village]
into = "side"
demand = 600
[exits.out]
from = "behind"
[[merges]]
from = ["before", "side"]
into = "behind"
priorities = [1, 1]
yields_to = "before"
"""


def test_greens_follow_traffic_in_each_run_that_settles_who_gives_way(tmp_path, tool, recording_program):
    write(tmp_path, more=SIDE_STREET)
    status, out, _ = tool("run", "study.toml")
    # The greens are those of paper without a side street, and its limit that of Harders past 600 vehicles/h.
    greens = settled_greens(SimpleNamespace(told=out.splitlines()))
    assert greens[:2] == pytest.approx([11.2, 8.8], abs=1.2) and greens[2] == pytest.approx(28, abs=2.4)
    assert re.search(r"^\s*merges\[1\], side: 50[45] to \d+ vehicles/h may pass through gaps", out, re.MULTILINE)
    again = ask(("run", "--every", "1"), (tmp_path / "study.csv").read_bytes())
    assert status == 0 and again.out == (tmp_path / "study.report").read_bytes()


@pytest.mark.parametrize("waiting, come, steps", [(0, 0, 0), (4, 0, 8), (4, 3, 18.5), (4, 6, 100)])
def test_when_a_queue_is_gone(waiting, come, steps):
    # One passes in two steps. Where 3 came in 10 steps, 0.3 of the 4 who stand there drive, and 0.3 come in each step that 0.5 leave.
    moment = SimpleNamespace(rows=[SimpleNamespace(n=waiting * PARTS, come=come * PARTS)])
    own = SimpleNamespace(moment=moment, places={"a": 0}, seen={"a": (0, 0)},
                          network=SimpleNamespace(capacities={"a": 0.5}, steps=100, paces={}))
    assert ActuatedSignals._clearing(own, ["a"], 10) == pytest.approx(steps)
