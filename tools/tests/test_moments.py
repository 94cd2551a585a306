"""Saved moments: their text, going on from one to a later one, and networks that have a moment in common."""

import plain_model
import pytest

from ctmtools import Problem
from ctmtools.moments.agreement import difference
from ctmtools.moments.moment import Moment, Row, Runner, moment_of, rows_of
from ctmtools.network_file.records import with_steps
from ctmtools.network_file.kinds import record
from ctmtools.network_file.naming import Naming
from ctmtools.network_file.network import network_of
from ctmtools.units import Units

from .examples import EXAMPLES

CORRIDOR = b"ctm,1\nsteps,3\ngate,in,2,0\nroad,a,6,2,1,2,0\nexit,out,2\nlink,in,a\nlink,a,out\ndemand,in,0,1,4\n"
# The saved text of docs/FORMAT.md.
SAVED = b"""saved,1,3
step,2
step,1
step,1
row,0,2000000,4000000,2000000,2000000,4000000
row,1,0,0,0,0,0
row,2,0,0,0,0,0
net
""" + CORRIDOR


def test_the_saved_text_of_the_documents():
    moment = moment_of(SAVED, "s")
    gate = Row(0, 2_000_000, 4_000_000, 2_000_000, 2_000_000, 4_000_000)
    assert moment == Moment([2, 1, 1], [gate, Row(1, 0, 0, 0, 0, 0), Row(2, 0, 0, 0, 0, 0)], CORRIDOR)
    assert moment.last == 2 and moment.text == SAVED


@pytest.mark.parametrize("text, told", [
    (b"", "no saved run"), (CORRIDOR, "no saved run"), (SAVED.replace(b"saved,1,3", b"saved,2,3"), "no saved run"),
    (SAVED[:SAVED.index(b"\nnet")], "is cut short"), (SAVED.replace(b"saved,1,3", b"saved,1,4"), "is cut short"),
    (SAVED.replace(b"step,2", b"step,02"), "is cut short"), (SAVED.replace(b"row,1,0,", b"row,1,"), "is cut short"),
    (SAVED.replace(b"saved,1,3", b"saved,1,0"), "is cut short")])
def test_what_is_no_saved_text(text, told):
    with pytest.raises(Problem, match=told):
        moment_of(text, "s")


def test_a_network_with_other_steps_and_with_other_records():
    assert with_steps(CORRIDOR, 2) == CORRIDOR.replace(b"steps,3", b"steps,2")
    assert with_steps(CORRIDOR.replace(b"steps,3", b'"st"eps,"03"'), 2) == CORRIDOR.replace(b"steps,3", b"steps,2")
    longer = network_of(CORRIDOR).with_more([record("limit", "in", 0, 1, 1_500_000)])
    assert longer.content == CORRIDOR + b"limit,in,0,1,1.5\n" and longer.limits_of == {"in": [(0, 1, 1.5)]}
    shorter = longer.without([record("demand", "in", 0, 1, 4_000_000)])
    assert shorter.content == CORRIDOR.replace(b"demand,in,0,1,4\n", b"limit,in,0,1,1.5\n") and shorter.demands.empty


def test_a_cell_has_the_name_of_its_road_where_the_seconds_of_a_step_are_known_too():
    cells = {"a": {"road": "m", "from_km": 0.25, "to_km": 0.5}}
    names = [Naming(network_of(CORRIDOR), Units(step=step, cells=cells)).cell("a") for step in (None, 10)]
    assert names == ["the road a", "road m from km 0.25 to 0.5"]


def plainly(content, steps):
    """The rows of the recurrences at some steps, and those of what each cell held a step before."""
    plain, found = plain_model.Plain(content), {}
    held = {}
    while plain.time <= max(steps):
        if plain.time in steps:
            found[plain.time] = [(plain.n[name], plain.come[name], plain.gone[name], plain.wait[name], held.get(name, 0))
                                 for name in plain.names]
        held = dict(plain.n)
        plain.step()
    return found


@pytest.mark.parametrize("regions, workers", [(1, 1), (5, 2), (512, 3)])
@pytest.mark.parametrize("name", ["interchange", "event", "arterial-wave"])
def test_moments_of_a_run(name, regions, workers, program):
    content = (EXAMPLES / f"{name}.csv").read_bytes()
    third, half = (network_of(content).steps // part for part in (3, 2))
    rows = plainly(content, {1, third, half})
    runner = Runner(name, regions, workers)
    moment = runner.moment(content, 1)
    for step in (1, third, half):
        moment = moment if step == 1 else runner.later(moment, step)
        assert set(moment.steps) == {step} and [row[1:] for row in moment.rows] == rows[step]
        assert len(moment.steps) == min(regions, len(moment.rows)) and moment.network == content
    assert runner.report(moment) == (EXAMPLES / f"{name}.report").read_bytes() == runner.whole(content)


def test_the_rows_of_a_report_are_in_parts():
    assert rows_of(b"report,3,1\ncell,a,2.000000,4.000000,2.500000,1000000.000001\ntotal,2.0,4.0,2.0,2.0\n") == [
        (2_000_000, 4_000_000, 2_500_000, 1_000_000_000_001)]


def test_a_program_that_saves_nothing(plain):
    with pytest.raises(Problem, match="has no mode save"):
        Runner("n").moment(CORRIDOR, 1)


# A network, what is changed of it, from which step on it differs, and what is told.
NET = b"""ctm,2
steps,60
gate,g,5,0
road,a,12,3,1,5,0
road,b,12,3,1,5,0
exit,x,4
exit,y,4
link,g,a
link,a,b
diverge,b,x,y,3,1
signal,a,6,0,0,3
limit,b,10,20,2
limit,b,15,30,1
demand,g,0,30,2
demand,g,10,40,1.5
turn,b,20,30,1,1
"""


@pytest.mark.parametrize("old, new, step, told", [
    ("steps,60", "steps,50", None, None), ("ctm,2", "# as it was\nctm,2", None, None), ("road,a,12,", "road,a,012.0,", None, None),
    ("limit,b,15,30,1", "limit,b,15,30,2", 15, "the capacity of the road b is 2 vehicles a step, and 1 vehicles a step in the saved"),
    ("limit,b,15,30,1", "limit,b,15,50,1\nlimit,b,30,50,3", None, None),
    ("limit,b,10,20,2\nlimit,b,15,30,1", "limit,b,15,30,1\nlimit,b,10,20,2", 15, "the capacity of the road b is 2"),
    ("limit,b,15", "limit,b,40,60,1\nlimit,b,15", None, None), ("limit,b,15", "limit,b,39,60,1\nlimit,b,15", 39, "is 1 vehicles"),
    ("demand,g,0,30,2", "demand,g,0,10,2\ndemand,g,10,30,2", None, None),
    ("demand,g,10,40,1.5", "demand,g,10,38,1.5", 38, "the demand of the gate g is 0 vehicles a step, and 1.5"),
    ("demand,g,10,40,1.5", "demand,g,10,60,1.5", None, None),
    ("turn,b,20,30,1,1", "turn,b,25,30,1,1", 20, "the ratio of turning shares behind the road b is 3 to 1, and 1 to 1 in the saved"),
    ("turn,b,20,30,1,1", "turn,b,20,30,1,1\nturn,b,35,36,3,1", None, None),
    ("signal,a,6,0,0,3", "signal,a,6,0,0,4", 3, "the light of the road a is green, and red in the saved"),
    ("signal,a,6,0,0,3", "signal,a,12,6,0,3", 0, "the light of the road a is red, and green in the saved"),
    ("signal,a,6,0,0,3", "signal,a,60,0,0,3", 6, "is red"), ("signal,a,6,0,0,3\n", "", 3, "is green, and red"),
    ("road,a,12,3", "road,a,12.5,3", 0, "the N of road a is 12.5, and 12 in the saved one"),
    ("diverge,b,x,y,3,1", "diverge,b,x,y,2,1", 0, "the B1 of diverge b x y is 2, and 3 in the saved one"),
    ("diverge,b,x,y,3,1", "diverge,b,y,x,3,1", 0, "where the saved one has the connector diverge b x y, it has diverge b y x"),
    ("exit,y,4", "exit,y,4\nexit,z,4", 0, "it has 6 cells, and the saved one 5"),
    ("road,b,12", "road,c,1,1,1,1,0\nroad,b,12", 0, "where the saved one has the cell road b, it has road c")])
def test_what_two_networks_differ_in_below_step_40(old, new, step, told):
    other = network_of(NET.replace(old.encode(), new.encode()))
    found = difference(network_of(NET), other, 40, Naming(other))
    assert (found and found.step) == step
    assert told is None or told in found.told


@pytest.mark.parametrize("old, new", [("limit,b,15", "limit,b,40,60,1\nlimit,b,15"), ("demand,g,10,40,1.5", "demand,g,10,60,1.5"),
                                      ("steps,60", "steps,45"), ("turn,b,20", "turn,b,40,60,1,2\nturn,b,20")])
def test_a_moment_is_gone_on_with_as_another_network(old, new, program):
    runner, other = Runner("n", 3), NET.replace(old.encode(), new.encode())
    assert runner.report(runner.moment(NET, 40).of(other)) == plain_model.report(other)
