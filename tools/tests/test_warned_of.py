"""Warnings of networks to their edges: where each begins, and the whole line of it."""

import pytest

from ctmtools.network_file.network import network_of
from ctmtools.network_file.warnings import shortened, warnings_of
from ctmtools.units import Units

HEAD = "ctm,2\nsteps,9\ngate,g,18,0\nroad,a,108,18,1,5,0\nroad,b,108,18,1,5,0\nexit,x,18\n"
LINKS = "link,g,a\nlink,a,b\nlink,b,x\n"
DEMAND = "demand,g,0,9,6\n"
WHOLE = HEAD + LINKS + DEMAND
UNITS = Units(step=10, start=21600, cells={name: {"road": "m", "from_km": i / 4, "to_km": (i + 1) / 4, "lanes": 3, "free_flow_kmh": 90}
                                           for i, name in enumerate("ab")})


def lines(text, units=None):
    return shortened(warnings_of(network_of(text.encode()), units))


@pytest.mark.parametrize("text", [
    WHOLE, WHOLE.replace(",6\n", ",36\n"), WHOLE + "limit,g,0,4,40\n",
    WHOLE + "limit,a,3,5,18\n", WHOLE + "limit,a,3,5,18.00001\n", WHOLE + "limit,a,3,5,1\nlimit,a,5,6,1\n", WHOLE + "limit,a,8,9,1\n",
    WHOLE + "signal,a,9,0,8,9\n", WHOLE + "signal,a,90,0,8,30\n", WHOLE + "signal,a,90,81,89,90\n", HEAD.replace("18,1,5,0\nroad,b", "18,1,5,4\nroad,b")
    + LINKS + DEMAND, HEAD.replace("gate,g,18,0", "gate,g,18,5") + LINKS, WHOLE.replace("108,18,1,5,0\nexit", "108,18.000001,1,5,0\nexit")])
def test_what_is_not_warned_of(text):
    assert lines(text) == []


@pytest.mark.parametrize("text, line", [
    (WHOLE.replace(",6\n", ",36.000001\n"), "line 10: the demand of 36 in a step is far above the gate g's Q of 18. A demand is vehicles in a step; with a "
     "step of 10 s, 36 vehicles/h are 0.1."),
    (WHOLE + "limit,a,3,5,18.0001\n", "line 11: the limit of a from step 3 on, 18.0001 vehicles a step, is above the 18 vehicles a step that it can carry "
     "for long, N·A/(A + B)"),
    (WHOLE + "limit,a,9,10,1\n", "line 11: this limit begins behind the last step, 8, so it does nothing"),
    (WHOLE + "signal,a,90,80,0,10\n", "line 11: the signal of a is green in no step of the run: its cycle of 90 steps is longer than the run of 9"),
    (WHOLE + "signal,a,90,0,9,30\n", "line 11: the signal of a is green in no step of the run: its cycle of 90 steps is longer than the run of 9"),
    (WHOLE.replace("108,18,1,5,0\nexit", "90,18,1,5,0\nexit"), "line 5: the road b can carry N·A/(A + B) = 15 vehicles a step for long, which is below its Q "
     "of 18"),
    (HEAD + LINKS.replace("link,b,x\n", "") + DEMAND, "line 5: the road b is a dead end: nothing leads out of it, so what comes in stays. Is a link,b,x "
     "forgotten?"),
    (WHOLE + "road,c,6,1,1,2,0\n", "line 11: the road c is a dead end: nothing leads out of it, so what comes in stays.")])
def test_whole_lines(text, line):
    assert line in lines(text)


def test_of_a_limit_that_is_the_roads_own_capacity_nothing_more_is_told():
    # A road of Q 20 that carries 18 for long is told, limit or not.
    wide = WHOLE.replace("108,18,1,5,0\nexit", "108,20,1,5,0\nexit")
    assert lines(wide + "limit,b,3,5,20\n") == lines(wide) and len(lines(wide)) == 1
    assert len(lines(wide + "limit,b,3,5,20.000001\n")) == 2


def test_lines_in_the_units_of_a_study():
    assert lines(WHOLE.replace(",6\n", ",37\n"), UNITS) == ["line 10: the demand of gate g from 06:00 on, 13,320 vehicles/h, is far above its capacity of "
                                                            "6,480 vehicles/h"]
    assert lines(WHOLE + "limit,a,3,5,20\n", UNITS) == ["line 11: the limit of a from 06:00:30 on, 7,200 vehicles/h, is above the 6,480 vehicles/h that it "
                                                        "can carry for long, N·A/(A + B)"]
    assert lines(WHOLE + "signal,a,90,0,9,30\n", UNITS) == ["line 11: the signal of a is green in no step of the run: its cycle of 900 s is longer than the study"]
    assert lines(WHOLE.replace("108,18,1,5,0", "90,18,1,5,0"), UNITS) == [
        "line 4: road m from km 0 to 0.5 can carry 5,400 vehicles/h for long by its jam density and its speeds, which is below its saturation flow of "
        "6,480 vehicles/h"]
    assert lines(HEAD + LINKS.replace("link,b,x\n", "") + DEMAND, UNITS)[0] == \
        "line 5: road m at km 0.5 leads neither to an exit nor to a road, so vehicles that come there stay"
    assert lines(WHOLE + "demand,g,2,4,1\n", UNITS) == ["line 11: the demands of g overlap from 06:00:20 on; their amounts add up"]
    assert lines(WHOLE + DEMAND, UNITS) == ["line 11: two demands of g are the same from 06:00 on; their amounts add up"]


def test_what_nothing_reaches_is_told_once_for_all_behind_it():
    behind = "".join(f"road,{name},6,1,1,2,0\n" for name in "cde") + "exit,y,1\nexit,z,1\nlink,c,d\ndiverge,d,e,y,1,1\nlink,e,z\n"
    assert lines(WHOLE + behind) == ["line 11: no vehicle ever reaches the road c, nor 4 more behind it: no gate leads to it"]
    # Two that lead to one: what is behind both is told of the first.
    two = "".join(f"road,{name},6,1,1,2,0\n" for name in "cde") + "exit,y,1\nmerge,c,d,e,1,1\nlink,e,y\n"
    assert lines(WHOLE + two) == ["line 11: no vehicle ever reaches the road c, nor 2 more behind it: no gate leads to it",
                                  "line 12: no vehicle ever reaches the road d: no gate leads to it"]


def test_five_of_a_kind_are_told():
    gates = "".join(f"gate,g{i},1,0\nexit,x{i},1\nlink,g{i},x{i}\n" for i in range(7))
    told = lines(WHOLE + gates)
    assert len(told) == 6 and told[-1] == "and 2 more: gates without demand" and told[0] == "line 11: the gate g0 has no demand: no vehicle comes"
    assert len(lines(WHOLE + gates[:gates.index("gate,g5")])) == 5
