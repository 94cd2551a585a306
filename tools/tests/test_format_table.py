"""What a network file may hold, against the tables of docs/FORMAT.md: fields, ranges edge by edge, and the frames read of it."""

import re

import pytest

from ctmtools.texts.amounts import PARTS
from ctmtools.network_file.faults import first_fault
from ctmtools.network_file.kinds import COUNTED, KINDS, MOST_RECORDS, Record, headings, kinds_of, record_of
from ctmtools.network_file.network import clipped, network_of, fault_line
from ctmtools.network_file.records import read_records
from ctmtools.study.network_text import form_of

from .examples import TOOLS

FORMAT = (TOOLS.parent / "docs/FORMAT.md").read_text()
ROW = re.compile(r"\| `(?P<kind>\w+)`(?P<form>, from format 2 on|, in format 3)? \| (?P<terms>[^|]*) \| (?P<count>\d) \| `(?P<example>[^`]*)` \|")
ROWS = {found["kind"]: found for found in map(ROW.fullmatch, FORMAT.splitlines()) if found}
EXAMPLE = ("ctm,3", "steps,9", "gate,g,18,2.5", "road,a,108,12,1,5,7.25", "road,b,60.5,9,2,3,0", "road,c,60,9,1,1,0", "exit,x,12.5", "exit,y,3",
           "link,g,a", "diverge,a,b,c,3,4", "merge,b,c,x,5,6", "signal,a,8,7,2,5", "limit,b,1,4,2.5", "demand,g,0,3,1.25", "turn,a,2,5,8,9",
           "speed,b,1,6,3,5")


def terms_of(kind):
    """What the table says of each field behind a kind."""
    terms = [re.sub(r", (each )?(a road|an exit) .*", "", term) for term in ROWS[kind]["terms"].split("; ")]
    return [one for term in terms for one in ([term.replace("first and the second", which) for which in ("first", "second")]
                                              if "first and the second" in term else [term])]


def sort_of(term, kind):
    """The sort of field that a term of the table is of, which is that of its kind where it names a cell of an earlier record."""
    sorts = {"whole": "whole", "amount": "amount", "new name": "new", "upstream": "up", "downstream": "down"}
    return next((sort for word, sort in sorts.items() if word in term), kind)


def test_the_kinds_and_their_fields_are_those_of_the_table():
    assert kinds_of(3) == tuple(KINDS) == tuple(ROWS)
    assert kinds_of(2) == tuple(kind for kind, row in ROWS.items() if row["form"] != ", in format 3")
    assert kinds_of(1) == tuple(kind for kind, row in ROWS.items() if not row["form"])
    for kind, row in ROWS.items():
        assert len(KINDS[kind].fields) + 1 == int(row["count"]) == len(terms_of(kind)) + 1
        assert [field.sort for field in KINDS[kind].fields] == [sort_of(term, kind) for term in terms_of(kind)]


@pytest.mark.parametrize("kind", KINDS)
def test_the_names_and_edges_of_fields_are_those_of_the_table(kind):
    for term, field in zip(terms_of(kind), KINDS[kind].fields):
        name = re.match("`(\\w+)`: |the (.*cell (?:up|down)stream)", term)
        assert name is None or field.name == (name[1] or name[2])
        edges = re.search(r"(?:whole (\S+)|amount) to (\S+)$", term.replace("`", ""))
        if edges:
            number = str(field.most.number // PARTS) if field.sort == "amount" and not field.most.field else str(field.most)
            assert [str(field.least).replace(" ", ""), number.replace(" ", "")] == [edges[1] or "0", edges[2]]
            said = f"{edges[1] or 0} to {edges[2]}".replace("+", " + ").replace("-", " - ")
            assert field.expected.endswith(f", {said}" if field.sort == "whole" else f", {said}, with a point and at most six decimals")


@pytest.mark.parametrize("kind", KINDS)
def test_a_record_is_written_as_it_is_read(kind):
    example = ROWS[kind]["example"]
    assert record_of(example).kind == kind and record_of(example).text == example


def test_so_many_records_are_counted_as_the_table_of_formats_says():
    (sorts, *most), (turns, *most_turns), (speeds, *most_speeds) = re.findall(r"\| Most ([^|]*) \| ([^|]*) \| ([^|]*) \| ([^|]*) \|", FORMAT)
    assert COUNTED == (*re.split(", | and ", sorts), turns, speeds)
    assert [f"{count:,} of each" for count in MOST_RECORDS.values()] == most
    assert most_turns == ["none", *(f"{MOST_RECORDS[form]:,}" for form in (2, 3))] and most_speeds == ["none", "none", f"{MOST_RECORDS[3]:,}"]


def test_a_built_network_says_the_fields_of_its_records():
    assert headings("speed") == "speed,cell,from,to,NUM,DEN"
    assert headings("road") == "road,name,N,Q,A,B,first" and headings("demand") == "demand,gate,from,to,vehicles in a step"
    assert headings("link", "merge", "diverge") == "link,up,down; merge,first up,second up,down,P1,P2; diverge,up,first down,second down,B1,B2"


# Records behind the example, each with the fault that the table gives it, if any, and at which field.
@pytest.mark.parametrize("record, fault", [
    ("road,z,100000,100000,1000,1000,100000", None), ("road,z,100000.000001,1,1,1,0", 2), ("road,z,1,100000.000001,1,1,0", 3),
    ("road,z,1,1,0,1,0", 4), ("road,z,1,1,1001,1001,0", 4), ("road,z,1,1,3,2,0", 5), ("road,z,1,1,3,3,0", None), ("road,z,1,1,1,1001,0", 5),
    ("road,z,2,9,1,1,2", None), ("road,z,2,9,1,1,2.000001", 6), ("gate,z,100000,9999000", None), ("gate,z,1,10000000.000001", 3),
    ("gate,z,100000.1,1", 2), ("exit,z,100000", None), ("exit,z,100000.000001", 2),
    ("signal,b,1,0,0,1", None), ("signal,b,100000,99999,99999,100000", None), ("signal,b,0,0,0,1", 2), ("signal,b,100001,0,0,1", 2),
    ("signal,b,4,4,0,1", 3), ("signal,b,4,3,4,4", 4), ("signal,b,4,3,3,3", 5), ("signal,b,4,3,3,5", 5), ("signal,b,4,0,0,4", None),
    ("limit,x,99999,100000,100000", None), ("limit,x,100000,100000,1", 2), ("limit,x,5,5,1", 3), ("limit,x,5,100001,1", 3), ("limit,x,0,1,0", None),
    ("limit,x,0,1,100000.000001", 4), ("demand,g,99999,100000,10000000", None), ("demand,g,0,1,10000000.000001", 4), ("demand,g,0,0,1", 3),
    ("turn,a,99999,100000,1,1000", None), ("turn,a,0,1,0,1", 4), ("turn,a,0,1,1,0", 5), ("turn,a,0,1,1001,1", 4), ("turn,a,0,1,1,1001", 5),
    ("turn,a,6,6,1,1", 3), ("speed,b,99999,100000,1,1000", None), ("speed,b,100000,100000,1,2", 2), ("speed,b,5,5,1,2", 3),
    ("speed,b,5,100001,1,2", 3), ("speed,b,0,1,0,1", 4), ("speed,b,0,1,1001,1001", 4), ("speed,b,0,1,1000,1000", None),
    ("speed,b,0,1,2,1", 5), ("speed,b,0,1,2,2", None), ("speed,b,0,1,1,1001", 5), ("region,x,511", None), ("region,x,512", 2)])
def test_ranges_to_their_edges(record, fault):
    found = first_fault(read_records("\n".join([*EXAMPLE, record, ""]).encode()))
    if fault is None:
        assert found is None or found.record == len(EXAMPLE) + 2  # a region alone leaves a gap, which is of the whole file
    else:
        assert (found.code, found.place) == ("OutOfRange", fault)


@pytest.mark.parametrize("record, wanted", [("steps,1", None), ("steps,100000", None), ("steps,0", 1), ("steps,100001", 1)])
def test_the_number_of_steps(record, wanted):
    found = first_fault(read_records(f"ctm,1\n{record}\nexit,x,1\n".encode()))
    assert (found and found.place) == wanted


@pytest.mark.parametrize("joint, fault", [("merge,b,c,x,1,1000", None), ("merge,b,c,x,0,1", 4), ("merge,b,c,x,1,1001", 5), ("diverge,a,x,y,1000,1", None),
                                          ("diverge,a,x,y,1001,1", 4), ("diverge,a,x,y,1,0", 5)])
def test_priorities_and_shares_to_their_edges(joint, fault):
    found = first_fault(read_records("\n".join([*EXAMPLE[:8], joint, ""]).encode()))
    assert (found and (found.code, found.place)) == (fault and ("OutOfRange", fault))


def test_the_frames_of_a_network():
    network = network_of("\n".join([*EXAMPLE, ""]).encode())
    assert network.steps == 9 and network.cells.index.tolist() == ["g", "a", "b", "c", "x", "y"]
    assert network.cells[["kind", "Q", "first"]].values.tolist() == [["gate", 18, 2.5], ["road", 12, 7.25], ["road", 9, 0], ["road", 9, 0],
                                                                     ["exit", 12.5, 0], ["exit", 3, 0]]
    assert network.cells.loc["a":"c", ["N", "A", "B"]].values.tolist() == [[108, 1, 5], [60.5, 2, 3], [60, 1, 1]]
    assert network.cells.record.tolist() == [3, 4, 5, 6, 7, 8]
    assert network.links.values.tolist() == [["g", "a", "link", 1, 9], ["a", "b", "diverge", 3, 10], ["a", "c", "diverge", 4, 10],
                                             ["b", "x", "merge", 5, 11], ["c", "x", "merge", 6, 11]]
    assert network.signals.values.tolist() == [["a", 8, 7, 2, 5, 12]] and network.limits.values.tolist() == [["b", 1, 4, 2.5, 13]]
    assert network.demands.values.tolist() == [["g", 0, 3, 1.25, 14]] and network.turns.values.tolist() == [["a", 2, 5, 8, 9, 15]]
    assert network.speeds.values.tolist() == [["b", 1, 6, 3, 5, 16]]


@pytest.mark.parametrize("text, line", [
    (b"ctm,1\nexit,x,1,2\n", "line 2, `exit,x,1,2`: BadCount; expected 3 fields: exit,name,Q. Is a decimal comma meant? Write 1,2 with a point."),
    (b"ctm,1\nexit,x,y\n", "line 2, field 3 (Q), `y`: BadNumber; expected vehicles in a step, 0 to 100000, with a point and at most six decimals."),
    (b"ctm,1\nsteps,1\n", "the whole file: NoCells; expected at least one road, gate or exit."),
    (b"", "line 1: NoHeader; expected `ctm,1`, `ctm,2` or `ctm,3` and nothing more. The file is empty.")])
def test_a_fault_in_one_line(text, line):
    records = read_records(text)
    assert fault_line(text, records, first_fault(records)) == line


def test_a_long_field_is_clipped():
    assert clipped(60 * "a") == 60 * "a" and clipped(61 * "a") == 60 * "a" + ".." and clipped("a\tb") == "a b"


@pytest.mark.parametrize("kind", ["road", "link", "limit", "demand"])
def test_a_network_of_more_records_than_format_1_has_is_of_format_2(kind):
    assert form_of([Record(kind, ())] * 100_000) == 1 and form_of([Record(kind, ())] * 100_001) == 2
