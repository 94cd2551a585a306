"""The worked examples of docs/MODEL.md, and three more on paper: their figures are those that the program records."""

import re
from fractions import Fraction
from math import prod

import pytest
from conftest import TOP
from format_tables import MODEL, rows_of
from worked import CORRIDOR, SPEED, TURN, lines

SIGNAL = lines("ctm,1; steps,4; gate,g,1,10; exit,x,5; link,g,x; signal,g,4,3,0,2")
LIMITS = lines("ctm,1; steps,4; gate,g,5,10; exit,x,9; link,g,x; limit,g,0,2,1; limit,g,1,3,3")

# Worked on paper. Of two limits that hold the later record does; the columns are the step, the capacity, what passes, what the
# gate then holds, and what waits in the step.
LIMITS_ON_PAPER = """
| 0 | 1 | 1 | 9 | 9 |
| 1 | 3 | 3 | 6 | 6 |
| 2 | 3 | 3 | 3 | 3 |
"""
# A turn gives a diverge other shares in the step 1; the columns are the step, the shares, what is sent, how many times the
# shares pass, what enters each exit, what the road then holds, and what waits in the step.
TURN_ON_PAPER = """
| 0 | 1, 2 | 3 | 1 | 1 | 2 | 6 | 6 |
| 1 | 2, 1 | 3 | 1 | 2 | 1 | 3 | 3 |
| 2 | 1, 2 | 3 | 1 | 1 | 2 | 0 | 0 |

After 3 steps `x` holds 4 and `y` 5, and the total delay is 9 vehicle-steps.
"""
# Of two speeds that hold the later record does; the columns are the step, the speed, what comes to the end of the road, what
# is sent, what the road then holds, and what waits in the step.
SPEED_ON_PAPER = """
| 0 | 1/2 | 6.5 | 5 | 8 | 8 |
| 1 | 1/4 | 2 | 2 | 6 | 6 |
| 2 | 1/2 | 3 | 3 | 3 | 3 |
| 3 | 1/1 | 3 | 3 | 0 | 0 |

After 4 steps `x` holds 13, and the total delay is 17 vehicle-steps.
"""


def section(heading):
    return MODEL.split(f"\n### {heading}\n")[1].split("\n### ")[0].split("\n## ")[0]


# The text with each table of steps, its network, and for columns of the table what they have of which cell. What is sent all
# goes here, and so does as much as a limit lets through.
TABLES = [
    (section("Links"), CORRIDOR, {1: "goes in", 3: "goes a", 5: "goes in", 6: "goes a", 7: "holds in", 8: "holds a", 9: "holds out",
                        10: "waited in"}),
    (section("A signal"), SIGNAL, {3: "goes g", 4: "holds g", 5: "waits g"}),
    (LIMITS_ON_PAPER, LIMITS, {1: "goes g", 2: "goes g", 3: "holds g", 4: "waits g"}),
    (TURN_ON_PAPER, TURN, {2: "goes b", 4: "comes x", 5: "comes y", 6: "holds b", 7: "waits b"}),
    (SPEED_ON_PAPER, SPEED, {3: "goes a", 4: "holds a", 5: "waits a"}),
]


def fields_of(report):
    """The fields of the lines of a report."""
    return [line.split(",") for line in report.decode().splitlines()]


@pytest.fixture
def recorded(run):
    """The report of a network in which each step is recorded."""
    return lambda network: run(["run", "--every", "1"], input=network)[1]


class Course:
    """What a cell holds, and what has gone out of it, at each step of a report."""

    def __init__(self, report, cell):
        told = [fields for fields in fields_of(report) if fields[0] == "at" and fields[2] == cell]
        self.held, self.gone = ([Fraction(fields[column]) for fields in told] for column in (3, 4))

    def figure(self, what, step):
        """What the page tells of a step: what has waited in all, what goes, comes or waits in it, or is held behind it."""
        if what == "waited":
            return sum(self.figure("waits", earlier) for earlier in range(step + 1))
        goes = self.gone[step + 1] - self.gone[step]
        return {"goes": goes, "comes": self.held[step + 1] - self.held[step] + goes, "waits": self.held[step] - goes,
                "holds": self.held[step + 1]}[what]


@pytest.mark.parametrize("text, network, columns", TABLES, ids=["links", "a signal", "limits", "turning shares", "speeds"])
def test_the_steps_of_a_worked_example(text, network, columns, recorded):
    rows = re.findall(r"^\| (\d+ \|.*) \|$", text, re.MULTILINE)
    report = recorded(network)
    assert len(rows) >= 3
    for row in rows:
        cells = row.split(" | ")
        told = {column: Fraction(re.match(r"[\d.]+", cells[column])[0]) for column in columns}
        assert told == {column: Course(report, what.split()[1]).figure(what.split()[0], int(cells[0]))
                        for column, what in columns.items()}


@pytest.mark.parametrize("text, network, told", [
    (section("Links"), CORRIDOR, "The total delay is {total} vehicle-steps."),
    (section("A signal"), SIGNAL, "The total delay after 4 steps is {total} vehicle-steps."),
    (section("A merge"), lines("ctm,1; steps,1; gate,g,3,3; gate,h,3,1; road,e,10,2,1,1,0; merge,g,h,e,1,1"),
     "After one step `g` holds {g}, which have waited, `h` holds {h}, and `e` holds {e}."),
    (TURN_ON_PAPER, TURN, "After 3 steps `x` holds {x} and `y` {y}, and the total delay is {total} vehicle-steps."),
    (SPEED_ON_PAPER, SPEED, "After 4 steps `x` holds {x}, and the total delay is {total} vehicle-steps."),
], ids=["links", "signal", "merge", "turning shares", "speeds"])
def test_what_is_told_of_the_end_of_a_worked_example(text, network, told, recorded):
    report = fields_of(recorded(network))
    held = {fields[1]: Fraction(fields[2]) for fields in report if fields[0] == "cell"}
    assert told.format(**held, total=Fraction(report[-1][-1])) in text


def shown(amount):
    return f"{float(amount):g}"


def middle(*amounts):
    return f"mid({', '.join(map(shown, amounts))}) = {shown(sorted(amounts)[1])}"


@pytest.mark.parametrize("row", rows_of("`S1`, `S2`, `R` | `P1`, `P2` | `a` | `y1` | `y2`", MODEL))
def test_the_working_of_a_merge_is_by_the_rule_of_the_page(row):
    amounts, priorities, *told = row.strip("| ").split(" | ")
    first, second, room = map(Fraction, re.findall(r"[\d.]+", amounts))
    one, other = map(int, priorities.split(", "))
    part = one * room // (one + other) if "parts" in amounts else one * room / (one + other)
    assert told == (["not asked", shown(first), shown(second)] if room >= first + second else
                    [shown(part), middle(first, room - second, part), middle(second, room - first, room - part)])


@pytest.mark.parametrize("row", rows_of("`S`, `R1`, `R2` in parts | `B1`, `B2` | `k` | Leaves | Enter", MODEL))
def test_the_working_of_a_diverge_is_by_the_rule_of_the_page(row):
    sent, first, second, one, other = map(int, re.findall(r"\d+", row)[:5])
    most = sent // (one + other), first // one, second // other
    k = min(most)
    assert row.strip("| ").split(" | ")[2:] == [
        f"min({', '.join(map(str, most))}) = {k}", f"{k * (one + other)}", f"{k * one}, {k * other}"]


def test_a_road_receives_the_same_at_each_occupancy_that_the_page_names(recorded):
    room, slow, fast, flow, least, most, received = re.search(
        r"with `N = (\d+)`, `A/B = (\d+)/(\d+)` and a flow of (\d+), each `n` from ([\d.]+) to ([\d.]+) receives ([\d.]+);",
        MODEL).groups()
    part = Fraction(1, 1_000_000)
    alike = [Fraction(least) + k * part for k in range(int((Fraction(most) - Fraction(least)) / part) + 1)]
    tried = [alike[0] - part, *alike, alike[-1] + part]
    report = recorded(lines("; ".join(["ctm,1; steps,1", *(
        f"gate,g{k},99,99; road,r{k},{room},99,{slow},{fast},{float(held):.6f}; link,g{k},r{k}" for k, held in enumerate(tried))])))
    amounts = [Course(report, f"r{k}").figure("comes", 0) for k in range(len(tried))]
    assert set(amounts[1:-1]) == {Fraction(received)} == {Fraction(flow)}
    assert amounts[0] > amounts[1] and amounts[-1] < amounts[-2]


@pytest.mark.parametrize("gate, road, told", [
    (2, 1, "`inside` is {inside}, the flight of the first link is {flight}, and `entered` is {entered}."),
    (1, 2, "`inside` is {inside} and that flight is {flight}."),
], ids=["the gate ahead", "the road ahead"])
def test_the_books_of_a_gate_and_a_road_at_other_steps(gate, road, told, recorded):
    report = recorded(CORRIDOR)
    first, second = Course(report, "in"), Course(report, "a")
    flight = first.gone[gate] - (second.held[road] + second.gone[road])
    figures = {"inside": first.held[gate] + second.held[road], "flight": flight, "entered": first.held[gate] + first.gone[gate]}
    assert told.format(**figures) in (TOP / "docs/inside/REGIONS.md").read_text().split("\n## Flights and books\n")[1]


@pytest.mark.parametrize("ramp, delay", [(1, 52), (2, 53)])
def test_a_wider_ramp_adds_to_the_delay(ramp, delay, recorded):
    """A paradox, on paper in examples/README.md: one vehicle more can go from the ramp in a step, and one more waits in four steps."""
    report = recorded(lines(f"ctm,1; steps,4; gate,g,2,10; gate,r,{ramp},3; road,m,12,4,1,2,12; exit,x,4; merge,g,r,m,1,3; link,m,x"))
    assert Fraction(fields_of(report)[-1][-1]) == delay


def test_the_amounts_of_the_lane_drop_are_worked_out_of_an_engineer_s_words():
    workings = re.findall(r"`([NQ]) = (\S+(?: × \S+)+) = (\d+)`", MODEL)
    assert [prod(map(Fraction, working.split(" × "))) for _, working, _ in workings] == [int(told) for _, _, told in workings]
    amounts = {name: told for name, _, told in workings}
    assert f"\nroad,m01,{amounts['N']},{amounts['Q']},1,5,0\n" in (TOP / "examples/bottleneck.csv").read_text()
