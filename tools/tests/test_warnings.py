"""What lint warns of, though the program accepts it."""

import pytest

from ctmtools.network_file.network import network_of, read_network
from ctmtools.network_file.warnings import shortened, warnings_of
from ctmtools.units import Units

from .examples import EXAMPLES

HEAD = "ctm,1\nsteps,9\ngate,on,18,0\nroad,m01,108,18,1,5,0\nroad,m02,108,18,1,5,0\nexit,off,12\n"
LINKS = "link,on,m01\nlink,m01,m02\nlink,m02,off\n"
DEMAND = "demand,on,0,9,6\n"
CASES = {
    "nothing": (HEAD + LINKS + DEMAND, []),
    "a forgotten link": (HEAD + LINKS.replace("link,m01,m02\n", "") + DEMAND,
                         ["line 4: the road m01 is a dead end", "Is a link,m01,m02 forgotten?",
                          "line 5: no vehicle ever reaches the road m02, nor 1 more behind it"]),
    "a gate without demand": (HEAD + LINKS, ["line 3: the gate on has no demand"]),
    "vehicles per hour as an amount": (HEAD + LINKS + DEMAND.replace(",6", ",5040"),
                                       ["line 10: the demand of 5040 in a step is far above the gate on's Q of 18",
                                        "5040 vehicles/h are 14."]),
    "a demand twice": (HEAD + LINKS + DEMAND + DEMAND,
                       ["line 11: demand,on,0,9,6 stands in line 10 too; their amounts add up"]),
    "demands that overlap": (HEAD + LINKS + DEMAND + "demand,on,5,9,1\n",
                             ["line 11: the demands of on overlap from step 5"]),
    "limits that overlap": (HEAD + LINKS + DEMAND + "limit,m01,0,4,6\nlimit,m01,3,5,1\n",
                            ["line 12: the limits of m01 overlap from step 3 on, with line 11; the last one in the file "
                             "holds there"]),
    "limits that overlap the other way": (HEAD + LINKS + DEMAND + "limit,m01,3,5,1\nlimit,m01,0,4,6\n",
                                          ["line 12: the limits of m01 overlap from step 3 on, with line 11"]),
    "limits that follow each other": (HEAD + LINKS + DEMAND + "limit,m01,3,5,1\nlimit,m01,0,3,6\nlimit,m02,0,9,1\n", []),
    "turns that overlap": (HEAD.replace("ctm,1", "ctm,2") + "exit,x,9\ndiverge,m02,off,x,1,1\n"
                           + LINKS.replace("link,m02,off\n", "") + DEMAND + "turn,m02,0,4,1,2\nturn,m02,2,9,2,1\n",
                           ["line 13: the turns of m02 overlap from step 2 on, with line 12; the last one in the file"]),
    "speeds that overlap": (HEAD.replace("ctm,1", "ctm,3") + LINKS + DEMAND + "speed,m01,0,4,3,5\nspeed,m01,2,9,1,2\nspeed,m02,0,4,3,5\n",
                            ["line 12: the speeds of m01 overlap from step 2 on, with line 11; the last one in the file holds there"]),
    "a speed behind the end": (HEAD.replace("ctm,1", "ctm,3") + LINKS + DEMAND + "speed,m01,9,12,3,5\n",
                               ["line 11: this speed begins behind the last step, 8, so it does nothing"]),
    "a limit that the room doesn't allow for long": (
        HEAD + LINKS + DEMAND + "limit,m01,2,4,24\n",
        ["line 11: the limit of m01 from step 2 on, 24 vehicles a step, is above the 18 vehicles a step that it can"]),
    "a limit twice": (HEAD + LINKS + DEMAND + 2 * "limit,m01,0,3,1\n", ["line 12", "the second does nothing"]),
    "a road that can't carry Q": (HEAD.replace("m01,108", "m01,90") + LINKS + DEMAND,
                                  ["line 4: the road m01 can carry N·A/(A + B) = 15 vehicles a step for long, which is below"]),
    "a signal that is never green": (HEAD + LINKS + DEMAND + "signal,m01,40,0,20,30\n",
                                     ["line 11: the signal of m01 is green in no step of the run"]),
    "a ring that nothing reaches": (HEAD + LINKS + DEMAND + "road,a,6,1,1,2,0\nroad,b,6,1,1,2,0\nlink,a,b\nlink,b,a\n",
                                   ["line 11: no vehicle ever reaches the road a, nor 1 more behind it"]),
    "a demand behind the end": (HEAD + LINKS + DEMAND + "demand,on,9,12,1\n",
                                ["line 11: this demand begins behind the last step"]),
}


@pytest.mark.parametrize("case", CASES)
def test_warnings(case):
    text, wanted = CASES[case]
    lines = "\n".join(shortened(warnings_of(network_of(text.encode()))))
    assert all(part in lines for part in wanted), lines
    assert bool(lines) == bool(wanted)


@pytest.mark.parametrize("path", sorted(EXAMPLES.glob("*.csv")), ids=lambda path: path.stem)
def test_the_examples_give_no_warning(path):
    assert warnings_of(read_network(path)) == []


def test_an_amount_is_told_with_the_step_that_is_known():
    text = HEAD + LINKS + DEMAND.replace(",6", ",3600")
    assert "with the step of 5 s, 3600 vehicles/h are 5." in shortened(warnings_of(network_of(text.encode()), Units(step=5)))[0]


def test_many_warnings_of_a_kind_are_counted():
    text = HEAD + LINKS + DEMAND + "".join(f"road,x{i},108,18,1,5,0\n" for i in range(9))
    lines = shortened(warnings_of(network_of(text.encode())))
    assert "and 4 more: dead ends" in lines and "and 4 more: cells that nothing reaches" in lines
