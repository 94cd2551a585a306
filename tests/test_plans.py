"""The choice among plans: which delays and which plan are told, where the input is cut, and what is refused."""

import re
from pathlib import Path

import pytest
from conftest import hold
from plain_model import Plain
from worked import CORRIDOR, QUEUE, QUEUE_CHOICE, QUEUE_PLANS, TIMINGS, lines

STREET = (Path(__file__).parents[1] / "examples/arterial-ten.plans").read_bytes()


def with_plans(plans, base=QUEUE, separator=b"==\n"):
    return separator.join([base, *(lines(plan) if plan else b"" for plan in plans)])


def waited(vehicle_steps, count=1, choice=0):
    """The text of so many plans with one delay."""
    return lines("; ".join(f"plan,{p},{vehicle_steps}.000000" for p in range(count)) + f"; choice,{choice}")


# The name of each case, its input and its text. Without a signal 9, 8, 7 and 6 vehicles wait, 30 in all.
CHOICES = [
    ("the first of the least", QUEUE_PLANS, QUEUE_CHOICE),
    ("lines that end in two bytes", QUEUE_PLANS.replace(b"\n", b"\r\n"), QUEUE_CHOICE),
    ("one plan", with_plans(TIMINGS[1:2]), waited(33)),
    ("sixteen equal plans", with_plans(TIMINGS[1:2] * 16), waited(33, 16)),
    ("a plan of no bytes", with_plans([""]), waited(30)),
    ("a separator at the end without a line feed", QUEUE + b"==", waited(30)),
    ("two plans of no bytes, the second at the end", QUEUE + b"==\n==", waited(30, 2)),
    ("plans of comments and blank lines", with_plans(["# nothing; ", "; "]), waited(30, 2)),
    ("the least last", with_plans(TIMINGS[:3]), QUEUE_CHOICE.replace(b"plan,3,30.000000\n", b"")),
    ("the least first", with_plans(TIMINGS[2::-1]), lines("plan,0,30.000000; plan,1,33.000000; plan,2,35.000000; choice,0")),
    ("plans with cells of their own",
     with_plans(["gate,h,1,2", "gate,h,1,1"]), lines("plan,0,38.000000; plan,1,34.000000; choice,1")),
    ("an exit that fills up and waits for nothing", with_plans([""], lines("ctm,1; steps,2; gate,g,3,3; exit,x,3; link,g,x")),
     waited(0)),
    ("a network of which nothing waits, in regions of its own",
     with_plans(["region,x,1"], lines("ctm,2; steps,2; gate,g,3,3; exit,x,3; link,g,x; region,g,0")), waited(0)),
]


@pytest.mark.parametrize("given, text", [case[1:] for case in CHOICES], ids=[case[0] for case in CHOICES])
def test_the_choice(given, text, run):
    hold((0, text, b""), run(["choose"], input=given))


# The name of each case, its input and the number of its separators.
COUNTED = [
    ("a network alone", CORRIDOR, 0),
    ("nothing", b"", 0),
    ("seventeen plans", with_plans(TIMINGS[:1] * 17), 17),
    ("many plans behind a base with a fault", b"lane,x\n" + b"==\n" * 1000, 1000),
    ("a space behind the signs", QUEUE + b"== \n", 0),
    ("a space before them", QUEUE + b" ==\n", 0),
    ("three signs", QUEUE + b"===\n", 0),
    ("one sign", QUEUE + b"=\n", 0),
    ("the signs at the end of a line", QUEUE + b"# ==\n", 0),
    ("a carriage return and the end", QUEUE + b"==\r", 0),
    ("a carriage return alone", QUEUE + b"==\rexit,y,1\n", 0),
    ("two carriage returns", QUEUE + b"==\r\r\n", 0),
]


@pytest.mark.parametrize("given, found", [case[1:] for case in COUNTED], ids=[case[0] for case in COUNTED])
def test_no_plans_or_too_many(given, found, run):
    hold((9, b"", b"ctm: plans: %d\n" % found), run(["choose"], input=given))


# The name of each case, its input and what is told.
FAULTS = [
    ("an unknown cell in the second plan", with_plans([TIMINGS[0], "signal,h,4,0,0,2"]), "plan 1 record 6 code 8 Unknown"),
    ("the first of two plans with a fault", with_plans(["", "lane,x", "exit,x,5"]), "plan 1 record 6 code 2 BadKind"),
    ("a second signal in the second record of a plan", with_plans(["", f"{TIMINGS[0]}; {TIMINGS[1]}"]),
     "plan 1 record 7 code 7 Repeated"),
    ("a base with a fault", with_plans(TIMINGS, lines("ctm,1; lane,x")), "plan 0 record 2 code 2 BadKind"),
    ("a base that lacks what the first plan has", with_plans(["steps,4", ""], QUEUE.replace(b"steps,4\n", b"")),
     "plan 1 record 5 code 12 NoSteps"),
    ("a speed in a plan of a base in format 1", with_plans(["", "speed,g,0,1,1,2"]), "plan 1 record 6 code 2 BadKind"),
    ("a speed of a gate in a plan", with_plans(["speed,g,0,1,1,2"], QUEUE.replace(b"ctm,1", b"ctm,3")), "plan 0 record 6 code 9 WrongKind"),
    ("no base", b"==\n" + QUEUE + b"==\n", "plan 1 record 1 code 1 NoHeader"),
    ("a separator in a quoted field", lines('ctm,1; steps,4; gate,g,1,10; exit,"x; ==; y",5'), "plan 0 record 4 code 4 BadName"),
]


@pytest.mark.parametrize("given, told", [case[1:] for case in FAULTS], ids=[case[0] for case in FAULTS])
def test_a_candidate_with_a_fault(given, told, run):
    hold((3, b"", f"ctm: network: {told}\n".encode()), run(["choose"], input=given))


def test_sixteen_offsets_of_a_street_are_chosen_among_as_by_sixteen_runs(run):
    base, *plans = STREET.split(b"==\n")
    assert len(plans) == 16
    delays = []
    for plan in plans:
        status, report, err = run(["run"], input=base + plan)
        assert (status, err) == (0, b"")
        delays.append(re.search(rb"\ntotal,.*,(\S+)\n$", report)[1].decode())
    best = min(range(16), key=lambda p: float(delays[p]))
    told = "; ".join(f"plan,{p},{delay}" for p, delay in enumerate(delays))
    hold((0, lines(f"{told}; choice,{best}"), b""), run(["choose"], input=STREET))
    assert best == 4 and delays.count(delays[best]) == 1
    model = Plain(base + plans[best])
    for _ in range(model.steps):
        model.step()
    assert delays[best] == f"{sum(model.wait.values()) / 1_000_000:.6f}"
