"""Small networks, cut in every way and by several workers: the report is that of the recurrences, taken one step of the
whole network at a time, and each step is recorded as they have it.
"""

import functools

import pytest
from conftest import hold
from plain_model import report as plain_report
from worked import lines

# Networks of the cells a, b, c and d.
NETWORKS = {
    "a ring": "road,a,10,3,1,2,7.5; road,b,8,2,1,1,8; road,c,9,4,2,3,0; road,d,6,2.5,1,3,1.25; "
              "link,a,b; link,b,c; link,c,d; link,d,a",
    "a road that leads into itself": "road,a,6,2,1,1,3; gate,b,2,5; road,c,5,2,1,2,4; exit,d,1.5; link,a,a; link,b,c; "
                                     "link,c,d; demand,b,2,5,0.75",
    "a merge into too little room": "gate,a,3,6; road,b,7,3,1,2,7; road,c,5,2,1,1,2; exit,d,1; merge,a,b,c,3,1; link,c,d; "
                                    "demand,a,1,4,2",
    "a diverge whose shares change": "gate,a,4,9; road,b,9,4,1,1,3; exit,c,1; road,d,3,2,1,2,0.5; link,a,b; "
                                     "diverge,b,c,d,1,3; turn,b,2,5,2,1",
    "a signal and limits": "gate,a,2,8; road,b,6,3,1,2,1; road,c,6,3,1,2,6; exit,d,2; link,a,b; link,b,c; link,c,d; "
                           "signal,b,4,1,0,2; limit,c,2,7,0.5; limit,d,4,6,0; demand,a,0,9,0.333333",
}
NETWORKS = {name: lines(f"ctm,2; steps,10; {records}") for name, records in NETWORKS.items()}

# The same with speeds.
SLOWED = {
    "a pause that ends as a speed rises": "road,a,10,3,1,2,0.0009; road,b,8,2,1,1,0; road,c,9,4,2,3,0.5; exit,d,1; link,a,b; "
                                          "link,b,c; link,c,d; speed,a,0,30,1,1000; speed,c,20,25,1,3",
    "speeds before a merge": "road,a,9,4,1,1,6; road,b,9,4,1,1,3.5; road,c,7,3,1,2,2; exit,d,2; merge,a,b,c,3,1; link,c,d; "
                             "speed,a,0,5,1,4; speed,b,3,30,2,7; speed,c,2,9,1,2; speed,a,9,40,1,1000",
    "speeds before a diverge whose shares change": "gate,a,4,9; road,b,9,4,1,1,3; exit,c,1; road,d,3,2,1,2,0.5; link,a,b; "
                                                   "diverge,b,c,d,1,3; turn,b,2,5,2,1; speed,b,1,20,1,3; speed,d,0,9,1,2",
    "speeds, a light and limits": "gate,a,2,8; road,b,6,3,1,2,1; road,c,6,3,1,2,6; exit,d,2; link,a,b; link,b,c; link,c,d; "
                                  "signal,b,4,1,0,2; limit,c,2,7,0.5; limit,d,4,6,0; speed,b,0,40,3,5; speed,c,5,30,1,7",
    "a slow ring": "road,a,10,3,1,2,7.5; road,b,8,2,1,1,8; road,c,9,4,2,3,0; road,d,6,2.5,1,3,1.25; link,a,b; link,b,c; link,c,d; "
                   "link,d,a; speed,a,0,9,1,9; speed,b,4,40,5,6; speed,c,0,40,1,2; speed,c,10,20,1,1",
}
NETWORKS |= {name: lines(f"ctm,3; steps,40; {records}") for name, records in SLOWED.items()}

# Of each cutting the regions of a, b, c and d.
CUTTINGS = ["0000", "0011", "0101", "1001", "0120", "2100", "0123", "3120"]

# A gate, six roads and an exit, one behind the other.
CHAIN = lines("ctm,1; steps,200; gate,a,2,3; road,b,10,3,1,2,7.5; road,c,8,2,1,1,8; road,d,9,4,2,3,0; road,e,6,2.5,1,3,1.25; "
              "road,f,7,3,1,2,0; road,g,9,2,1,1,9; exit,h,1.5; link,a,b; link,b,c; link,c,d; link,d,e; link,e,f; link,f,g; "
              "link,g,h; demand,a,0,150,1.7; limit,h,40,60,0; signal,e,6,2,0,3")

plainly = functools.cache(plain_report)


def cut(network, regions):
    return network + lines("; ".join(f"region,{name},{region}" for name, region in zip("abcd", regions)))


@pytest.mark.parametrize("every, workers", [(1, 3), (2, 2), (3, 2)])
@pytest.mark.parametrize("regions", CUTTINGS)
@pytest.mark.parametrize("name", NETWORKS)
def test_a_cutting_of_the_file(name, regions, every, workers, run):
    words = ["run", "--workers", str(workers), "--every", str(every)]
    hold((0, plainly(NETWORKS[name], every), b""), run(words, input=cut(NETWORKS[name], regions)))


@pytest.mark.parametrize("regions, workers", [(1, 1), (2, 2), (3, 2), (3, 16), (4, 2), (512, 1), (512, 4)])
@pytest.mark.parametrize("name", NETWORKS)
def test_an_even_cutting(name, regions, workers, run):
    words = ["run", "--regions", str(regions), "--workers", str(workers), "--every", "1"]
    hold((0, plainly(NETWORKS[name], 1), b""), run(words, input=NETWORKS[name]))


@pytest.mark.parametrize("regions, workers", [(8, 4), (8, 16), (3, 2), (5, 4)])
def test_a_chain(regions, workers, run):
    words = ["run", "--regions", str(regions), "--workers", str(workers), "--every", "1"]
    hold((0, plainly(CHAIN, 1), b""), run(words, input=CHAIN))
