"""Files that were worked on paper and what is written of them: a corridor of three cells, its report, that in which every
other step is recorded, and two saved texts of it; a full road, the two shots of it and its report; two roads and their
report; a road whose vehicles turn; a road whose speed changes; a queue with four plans; a city; and a larger network with its
totals.
"""

from pathlib import Path


def lines(text):
    """A file or a report, written with `; ` for a line end."""
    return text.replace("; ", "\n").encode() + b"\n"


CORRIDOR = lines("ctm,1; steps,3; gate,in,2,0; road,a,6,2,1,2,0; exit,out,2; link,in,a; link,a,out; demand,in,0,1,4")
REPORT = lines("report,3,3; cell,in,0.000000,4.000000,4.000000,2.000000; cell,a,2.000000,4.000000,2.000000,0.000000; "
               "cell,out,2.000000,2.000000,0.000000,0.000000; total,2.000000,4.000000,2.000000,2.000000")
RECORDED = lines("report,3,3; at,0,in,0.000000,0.000000; at,0,a,0.000000,0.000000; at,0,out,0.000000,0.000000; "
                 "at,2,in,2.000000,2.000000; at,2,a,2.000000,0.000000; at,2,out,0.000000,0.000000; "
                 "at,3,in,0.000000,4.000000; at,3,a,2.000000,2.000000; at,3,out,2.000000,0.000000") + REPORT.split(b"\n", 1)[1]
SAVED = lines("saved,1,2; step,2; step,1; row,0,2000000,4000000,2000000,2000000,4000000; row,1,0,0,0,0,0; "
              "row,1,0,0,0,0,0; net") + CORRIDOR
SAVED_LAST = lines("saved,1,3; step,3; step,3; step,3; row,0,0,4000000,4000000,2000000,2000000; "
                   "row,1,2000000,4000000,2000000,0,2000000; row,2,2000000,2000000,0,0,0; net") + CORRIDOR
FULL_ROAD = lines("ctm,1; steps,1; gate,g,2,4; road,a,6,2,1,1,6; link,g,a")
FULL_REPORT = lines("report,1,2; cell,g,4.000000,0.000000,0.000000,4.000000; "
                    "cell,a,6.000000,0.000000,0.000000,6.000000; total,10.000000,0.000000,0.000000,10.000000")
FULL_SHOT = lines("shot,1,10.000000,0.000000,10.000000,0.000000,0.000000; region,0,0; "
                  "row,g,4.000000,0.000000,0.000000,0.000000; row,a,6.000000,0.000000,0.000000,0.000000")
FULL_SHOT_AFTER = lines("shot,2,10.000000,0.000000,10.000000,0.000000,0.000000; region,0,1; "
                        "row,g,4.000000,0.000000,0.000000,4.000000; row,a,6.000000,0.000000,0.000000,6.000000")

TWO_ROADS = lines("ctm,1; steps,4; gate,g,2,8; road,a,6,2,1,1,0; road,b,6,2,1,1,0; exit,x,2; "
                  "link,g,a; link,a,b; link,b,x")
TWO_ROADS_REPORT = lines("report,4,4; cell,g,0.000000,0.000000,8.000000,12.000000; "
                         "cell,a,2.000000,8.000000,6.000000,0.000000; cell,b,2.000000,6.000000,4.000000,0.000000; "
                         "cell,x,4.000000,4.000000,0.000000,0.000000; total,4.000000,0.000000,4.000000,12.000000")

# Ten vehicles at a gate that lets one of them go in each of four steps, four timings of its signal, and the choice.
QUEUE = lines("ctm,1; steps,4; gate,g,1,10; exit,x,5; link,g,x")
TIMINGS = ["signal,g,4,3,0,2", "signal,g,4,0,0,2", "signal,g,4,0,0,4", "signal,g,4,1,0,4"]
QUEUE_PLANS = QUEUE + b"".join(b"==\n" + lines(timing) for timing in TIMINGS)
QUEUE_CHOICE = lines("plan,0,35.000000; plan,1,33.000000; plan,2,30.000000; plan,3,30.000000; choice,2")

# A corridor with ramps, signals and an incident: the made network of size 100 and seed 7, and the line of its totals, as a
# model from docs/FORMAT.md and docs/MODEL.md alone works it out.
RAMPS = Path(__file__).with_name("ramps.csv").read_bytes()
RAMPS_TOTALS = lines("total,0.000026,103.403700,103.403674,155.661787")

# A road whose vehicles turn otherwise in the second of three steps, and a network that has each kind of record three times
# or more.
TURN = lines("ctm,2; steps,3; road,b,10,3,1,1,9; exit,x,10; exit,y,10; diverge,b,x,y,1,2; turn,b,1,2,2,1")
# A road at half its speed in three of four steps, and at a quarter in the second of these.
SPEED = lines("ctm,3; steps,4; road,a,13,5,1,1,13; exit,x,9; link,a,x; speed,a,0,3,1,2; speed,a,1,2,1,4")
CITY = lines("ctm,2; steps,5; gate,g1,3,3; gate,g2,3,2; gate,g3,2,4; gate,g4,2,1; gate,g5,4,2; road,m1,10,4,1,2,4; "
             "road,m2,8,4,1,2,3; road,m3,8,4,1,1,7; road,m4,9,5,1,1,5; road,m5,9,5,1,2,6; road,m6,5,2,1,1,1; "
             "road,m7,5,2,1,1,5; exit,x1,2; exit,x2,2; exit,x3,1; exit,x4,3; exit,x5,2; merge,g1,g2,m1,1,1; "
             "merge,m1,g3,m2,3,1; merge,m2,g4,m3,1,2; diverge,m3,x1,m4,1,1; diverge,m4,x2,m5,1,2; diverge,m5,x3,x4,1,3; "
             "link,g5,m6; link,m6,m7; link,m7,x5; signal,g1,4,1,0,2; signal,m2,3,0,0,2; signal,m7,2,1,0,1; limit,x1,0,2,1; "
             "limit,m4,1,4,2; limit,x5,2,5,1; demand,g1,0,2,1.5; demand,g3,1,4,0.5; demand,g3,2,3,0.25; turn,m3,0,2,1,3; "
             "turn,m4,1,3,2,1; turn,m5,2,5,1,1")
