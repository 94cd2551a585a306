"""As many records of each kind, recorded values and rows of shots as there may be, and more."""

import subprocess

import pytest
from conftest import hold
from messages import TOO_LARGE_RECORD, TOO_LARGE_SHOTS, fault
from worked import lines

ROADS = {count: "; ".join(f"road,x{i},1,1,1,1,0" for i in range(count)) for count in (100_000, 200_000)}
FORK = "gate,g,1,0; exit,x,1; exit,y,1; diverge,g,x,y,1,1"

# Most records: their kind, the head of the file, its number of records, a record for each number i, how many of them a
# file may have, and what `check` answers to so many. With one more it is a fault.
MOST = [
    ("cells", "ctm,1; steps,3", 2, lambda i: f"exit,x{i},1", 100_000, "network,100000,0,3,0,0,0"),
    ("connectors", "ctm,1; steps,3; " + ROADS[100_000], 100_002, lambda i: f"link,x{i},x{i}", 100_000,
     "network,100000,100000,3,0,0,0"),
    ("limits", "ctm,1; steps,3; " + FORK, 6, lambda i: f"limit,g,{i % 1000},100000,1", 100_000,
     "network,3,1,3,0,100000,0"),
    ("demands", "ctm,1; steps,3; " + FORK, 6, lambda i: f"demand,g,{i % 1000},100000,1", 100_000,
     "network,3,1,3,0,0,100000"),
    ("cells of format 2", "ctm,2; steps,3", 2, lambda i: f"exit,x{i},1", 200_000, "network2,200000,0,3,0,0,0,0"),
    ("connectors of format 2", "ctm,2; steps,3; " + ROADS[200_000], 200_002, lambda i: f"link,x{i},x{i}", 200_000,
     "network2,200000,200000,3,0,0,0,0"),
    ("limits of format 2", "ctm,2; steps,3; " + FORK, 6, lambda i: f"limit,g,{i % 1000},100000,1", 200_000,
     "network2,3,1,3,0,200000,0,0"),
    ("demands of format 2", "ctm,2; steps,3; " + FORK, 6, lambda i: f"demand,g,{i % 1000},100000,1", 200_000,
     "network2,3,1,3,0,0,200000,0"),
    ("turns", "ctm,2; steps,3; " + FORK, 6, lambda i: f"turn,g,{i % 1000},100000,1,2", 200_000,
     "network2,3,1,3,0,0,0,200000"),
    ("cells of format 3", "ctm,3; steps,3", 2, lambda i: f"exit,x{i},1", 200_000, "network3,200000,0,3,0,0,0,0,0"),
    ("connectors of format 3", "ctm,3; steps,3; " + ROADS[200_000], 200_002, lambda i: f"link,x{i},x{i}", 200_000,
     "network3,200000,200000,3,0,0,0,0,0"),
    ("limits of format 3", "ctm,3; steps,3; " + FORK, 6, lambda i: f"limit,g,{i % 1000},100000,1", 200_000,
     "network3,3,1,3,0,200000,0,0,0"),
    ("demands of format 3", "ctm,3; steps,3; " + FORK, 6, lambda i: f"demand,g,{i % 1000},100000,1", 200_000,
     "network3,3,1,3,0,0,200000,0,0"),
    ("turns of format 3", "ctm,3; steps,3; " + FORK, 6, lambda i: f"turn,g,{i % 1000},100000,1,2", 200_000,
     "network3,3,1,3,0,0,0,200000,0"),
    ("speeds", "ctm,3; steps,3; road,a,6,2,1,1,0", 3, lambda i: f"speed,a,{i % 1000},100000,1,2", 200_000,
     "network3,1,0,3,0,0,0,0,200000"),
]


@pytest.mark.parametrize("kind, head, records, record, most, counts", MOST, ids=[case[0] for case in MOST])
def test_the_most_records_of_a_kind_and_one_more(kind, head, records, record, most, counts, run):
    text = lines(head) + "".join(record(i) + "\n" for i in range(most)).encode()
    hold((0, lines(counts), b""), run(["check"], input=text))
    more = text + lines(record(most))
    hold((3, b"", fault(f"{records + most + 1} code 14 TooMany")), run(["check"], input=more))


def exits(count, steps):
    """A file of exits alone."""
    return lines(f"ctm,1; steps,{steps}; " + "; ".join(f"exit,x{i},1" for i in range(count)))


def exits_report(count, steps):
    """Their report, in which each step is recorded."""
    zero = ",0.000000"
    step = "".join(f"at,T,x{i}{zero * 2}\n" for i in range(count))
    course = "".join(step.replace("T", str(t)) for t in range(steps + 1))
    last = "".join(f"cell,x{i}{zero * 4}\n" for i in range(count))
    return f"report,{steps},{count}\n{course}{last}total{zero * 4}\n".encode()


@pytest.mark.parametrize("count, steps", [(4_000, 999), (39, 100_000)])
def test_a_run_of_the_most_values(count, steps, run):
    hold((0, exits_report(count, steps), b""), run(["run", "--every", "1"], input=exits(count, steps)))


@pytest.mark.parametrize("count, steps", [(40, 100_000), (4_001, 999), (97_561, 40), (100_000, 100_000)])
def test_a_run_of_more_values(count, steps, run):
    """The third would record one value more than it may. The last would take hours and 160 GB if it ran."""
    hold((4, b"", TOO_LARGE_RECORD), run(["run", "--every", "1"], input=exits(count, steps)))


@pytest.mark.parametrize("count, shots, steps, every, status, told", [
    (62_500, 64, 1, 0, 0, b""),
    (62_501, 64, 1, 0, 4, TOO_LARGE_SHOTS),
    (97_561, 41, 1, 0, 4, TOO_LARGE_SHOTS),
    (62_501, 64, 62, 1, 4, TOO_LARGE_SHOTS),
    (62_501, 64, 63, 1, 4, TOO_LARGE_RECORD),
    (97_561, 1, 40, 1, 4, TOO_LARGE_RECORD),
])
def test_a_watch_of_the_most_rows_and_of_more(count, shots, steps, every, status, told, run):
    """The third would show one row more than it may, and the last would record one value more."""
    words = ["watch", "--shots", str(shots), "--every", str(every)]
    hold((status, None, told), run(words, input=exits(count, steps), stdout=subprocess.DEVNULL))
