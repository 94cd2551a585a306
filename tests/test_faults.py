"""Files with a fault: which record is told and with which code; the table of docs/FORMAT.md among them."""

import re

import pytest
from conftest import hold
from format_tables import rows_of
from messages import fault
from worked import CORRIDOR, TURN, lines

TABLE = rows_of("Code | Name | Example | Record")
ROW = re.compile(r"\|(?: (\d+))? \|(?: `(\w+)`)? \| `([^`]+)`(?:, then ([\d,]+) exits of different names)?(?: \([^|]*\))?"
                 r" \| (\d+) \|")


def examples():
    """Of each row of the table that is read its file and what is told of it."""
    code = name = None
    for row in filter(None, map(ROW.fullmatch, TABLE)):
        code, name = row[1] or code, row[2] or name
        exits = "".join(f"; exit,x{i},1" for i in range(int((row[4] or "0").replace(",", ""))))
        yield pytest.param(lines(row[3] + exits), f"{row[5]} code {code} {name}", id=f"{name}: {row[3]}")


def test_each_row_of_the_table_of_faults_is_read():
    assert [row for row in TABLE if not ROW.fullmatch(row)] == []
    assert [row[1] for row in map(ROW.fullmatch, TABLE) if row[1]] == [str(code) for code in range(1, 18)]


@pytest.mark.parametrize("given, told", examples())
def test_the_example_of_a_fault(given, told, run):
    hold((3, b"", fault(told)), run(["run"], input=given))


FORK = "ctm,2; gate,g,1,0; exit,x,2; exit,y,2; diverge,g,x,y,1,1"
CORRIDOR_IN_FORMAT_2 = CORRIDOR.decode().replace("ctm,1", "ctm,2").rstrip().replace("\n", "; ")

SLOWED = "ctm,3; road,a,6,2,1,1,0; speed,"

# The name of each case, its file and what is told of it.
CASES = [
    ("a format that is none", "ctm,4", "1 code 1 NoHeader"),
    ("the number of format 3 with a zero", "ctm,03", "1 code 1 NoHeader"),
    ("a first record of format 3 with a field too many", "ctm,3,", "1 code 1 NoHeader"),
    ("a turn in format 1", "ctm,1; turn,p,0,1,1,1", "2 code 2 BadKind"),
    ("a ratio above 1", "ctm,1; road,a,6,2,2,1,0", "2 code 6 OutOfRange"),
    ("a limit of no step", "ctm,1; exit,x,2; limit,x,5,5,1", "3 code 6 OutOfRange"),
    ("a green past the cycle", "ctm,1; gate,g,1,0; signal,g,4,0,2,5", "3 code 6 OutOfRange"),
    ("a merge with a priority of 0", "ctm,1; gate,g,1,0; gate,h,1,0; exit,x,2; merge,g,h,x,0,1", "5 code 6 OutOfRange"),
    ("a diverge with a share too great", "ctm,1; gate,g,1,0; exit,x,2; exit,y,2; diverge,g,x,y,1,1001", "5 code 6 OutOfRange"),
    ("a turn with a share of 0", FORK + "; turn,g,0,1,0,1", "6 code 6 OutOfRange"),
    ("a region number too great", "ctm,2; exit,x,2; region,x,512", "3 code 6 OutOfRange"),
    ("a second signal", "ctm,1; gate,g,1,0; signal,g,4,0,0,2; signal,g,4,0,0,2", "4 code 7 Repeated"),
    ("a second region", "ctm,2; exit,x,2; region,x,0; region,x,0", "4 code 7 Repeated"),
    ("a signal of an unknown cell", "ctm,1; signal,p,4,0,0,2", "2 code 8 Unknown"),
    ("a limit of an unknown cell", "ctm,1; limit,p,0,1,1", "2 code 8 Unknown"),
    ("a turn of an unknown cell", "ctm,2; turn,p,0,1,1,1", "2 code 8 Unknown"),
    ("a region of an unknown cell", "ctm,2; region,p,0", "2 code 8 Unknown"),
    ("a merge into a gate", "ctm,1; gate,g,1,0; gate,h,1,0; merge,g,h,g,1,1", "4 code 9 WrongKind"),
    ("a diverge out of an exit", "ctm,1; exit,x,2; exit,y,2; diverge,x,x,y,1,1", "4 code 9 WrongKind"),
    ("a signal at an exit", "ctm,1; exit,x,2; signal,x,4,0,0,2", "3 code 9 WrongKind"),
    ("a first record of format 2 with a field too many", "ctm,2,", "1 code 1 NoHeader"),
    ("the number of a format with a zero", "ctm,02", "1 code 1 NoHeader"),
    ("a first record that is another kind", "steps,3; ctm,1", "1 code 1 NoHeader"),
    ("a first record with a space", "ctm, 1", "1 code 1 NoHeader"),
    ("turns in format 1", TURN.decode().replace("ctm,2", "ctm,1").rstrip().replace("\n", "; "), "7 code 2 BadKind"),
    ("a kind in upper case", "ctm,1; Exit,x,2", "2 code 2 BadKind"),
    ("a kind behind a space", "ctm,1;  exit,x,2", "2 code 2 BadKind"),
    ("a line of one space", "ctm,1;  ; exit,x,2", "2 code 2 BadKind"),
    ("a name that is empty", "ctm,1; exit,,2", "2 code 4 BadName"),
    ("a name that isn't ASCII", "ctm,1; exit,é,2", "2 code 4 BadName"),
    ("a number with a space", "ctm,1; steps, 3", "2 code 5 BadNumber"),
    ("a number with a sign", "ctm,1; steps,+3", "2 code 5 BadNumber"),
    ("a number that isn't whole", "ctm,1; steps,3.0", "2 code 5 BadNumber"),
    ("an amount that begins with its point", "ctm,1; exit,x,.5", "2 code 5 BadNumber"),
    ("an amount that ends with its point", "ctm,1; exit,x,5.", "2 code 5 BadNumber"),
    ("an amount below 0", "ctm,1; exit,x,-1", "2 code 5 BadNumber"),
    ("an amount with an exponent", "ctm,1; exit,x,1e3", "2 code 5 BadNumber"),
    ("a region that has no number", "ctm,2; exit,x,2; region,x,", "3 code 5 BadNumber"),
    ("a turn of no step", FORK + "; turn,g,5,5,1,1", "6 code 6 OutOfRange"),
    ("a turn with a share too great", FORK + "; turn,g,0,1,1,1001", "6 code 6 OutOfRange"),
    ("a turn without a diverge", "ctm,2; gate,g,1,0; exit,x,2; exit,y,2; turn,g,0,1,1,1", "5 code 9 WrongKind"),
    ("a turn of a cell that a diverge leads into", FORK + "; turn,x,0,1,1,1", "6 code 9 WrongKind"),
    ("a cell named before its record", "ctm,1; gate,g,1,0; link,g,x; exit,x,2", "3 code 8 Unknown"),
    ("a cell by a name in upper case", "ctm,1; gate,g,1,0; exit,x,2; link,g,X", "4 code 8 Unknown"),
    ("a cell by a name that is none", "ctm,1; gate,g,1,0; exit,x,2; link,g,x x", "4 code 8 Unknown"),
    ("a demand of an unknown gate", "ctm,1; demand,p,0,1,1", "2 code 8 Unknown"),
    ("a merge of an unknown cell", "ctm,1; gate,g,1,0; exit,x,2; merge,g,p,x,1,1", "4 code 8 Unknown"),
    ("a diverge into an unknown cell", "ctm,1; gate,g,1,0; exit,x,2; diverge,g,x,p,1,1", "4 code 8 Unknown"),
    ("a demand of a road", "ctm,1; road,a,6,2,1,1,0; demand,a,0,1,1", "3 code 9 WrongKind"),
    ("a link into a gate", "ctm,1; gate,g,1,0; gate,h,1,0; link,g,h", "4 code 9 WrongKind"),
    ("a diverge into a gate", "ctm,1; gate,g,1,0; exit,x,2; gate,h,1,0; diverge,g,x,h,1,1", "5 code 9 WrongKind"),
    ("a merge out of an exit", "ctm,1; gate,g,1,0; exit,x,2; exit,y,2; merge,g,x,y,1,1", "5 code 9 WrongKind"),
    ("a link out of a cell that a diverge leads out of", FORK + "; exit,z,2; link,g,z", "7 code 11 OutTaken"),
    ("a link into a cell that a diverge leads into", FORK + "; gate,h,1,0; link,h,x", "7 code 10 InTaken"),
    ("a cell without a region", "ctm,2; steps,1; exit,x,2; exit,y,2; region,x,0", "6 code 16 NoRegion"),
    ("a corridor of which a cell has no region", CORRIDOR_IN_FORMAT_2 + "; region,in,0; region,a,1", "11 code 16 NoRegion"),
    ("a region alone, with the greatest number", "ctm,2; steps,1; exit,x,2; region,x,511", "5 code 17 RegionGap"),
    ("a corridor without the region 1", CORRIDOR_IN_FORMAT_2 + "; region,in,0; region,a,2; region,out,2",
     "12 code 17 RegionGap"),
    # what is told of speeds
    ("a speed in format 1", SLOWED.replace("ctm,3", "ctm,1") + "a,0,1,1,2", "3 code 2 BadKind"),
    ("a speed in format 2", SLOWED.replace("ctm,3", "ctm,2") + "a,0,1,1,2", "3 code 2 BadKind"),
    ("a speed in upper case", SLOWED.replace("speed", "Speed") + "a,0,1,1,2", "3 code 2 BadKind"),
    ("a speed of an unknown road", SLOWED + "p,0,1,1,2", "3 code 8 Unknown"),
    ("a speed of a road before its record", "ctm,3; speed,a,0,1,1,2; road,a,6,2,1,1,0", "2 code 8 Unknown"),
    ("a speed of a name that is none", SLOWED + "a a,0,1,1,2", "3 code 8 Unknown"),
    ("a speed of a gate", "ctm,3; gate,g,1,0; speed,g,0,1,1,2", "3 code 9 WrongKind"),
    ("a speed of an exit", "ctm,3; exit,x,1; speed,x,0,1,1,2", "3 code 9 WrongKind"),
    ("a speed whose first step isn't whole", SLOWED + "a,0.0,1,1,2", "3 code 5 BadNumber"),
    ("a speed whose last step has a sign", SLOWED + "a,0,+1,1,2", "3 code 5 BadNumber"),
    ("a speed of a decimal", SLOWED + "a,0,1,0.5,1", "3 code 5 BadNumber"),
    ("a speed by no number", SLOWED + "a,0,1,1,", "3 code 5 BadNumber"),
    ("a speed of no step", SLOWED + "a,5,5,1,2", "3 code 6 OutOfRange"),
    ("a speed of 0", SLOWED + "a,0,1,0,1", "3 code 6 OutOfRange"),
    ("a speed above the road's own", SLOWED + "a,0,1,2,1", "3 code 6 OutOfRange"),
    ("a speed by a number too great", SLOWED + "a,0,1,1,1001", "3 code 6 OutOfRange"),
    ("a region that a road with a speed hasn't", "ctm,3; steps,1; exit,x,1; road,a,6,2,1,1,0; region,x,0; speed,a,0,1,1,2", "7 code 16 NoRegion"),
    ("a road that isn't known before a number of a speed", SLOWED + "p,x,x,x,x", "3 code 8 Unknown"),
    ("a gate before a number of a speed", "ctm,3; gate,g,1,0; speed,g,x,1,1,2", "3 code 9 WrongKind"),
    ("the first step of a speed before its last", SLOWED + "a,100000,x,1,2", "3 code 6 OutOfRange"),
    ("the last step of a speed before its first number", SLOWED + "a,1,1,x,2", "3 code 6 OutOfRange"),
    ("the first number of a speed before its second", SLOWED + "a,0,1,1001,x", "3 code 6 OutOfRange"),
    ("a speed with a fault behind one without", SLOWED + "a,0,1,1,2; speed,a,0,1,1,0", "4 code 6 OutOfRange"),
    # which of two faults is told
    ("the fault of the first record", "ctm,1; lane,x; exit,x", "2 code 2 BadKind"),
    ("the first record before all others", "ctm,4; lane,x", "1 code 1 NoHeader"),
    ("the number of fields before a second number of steps", "ctm,1; steps,3; steps", "3 code 3 BadCount"),
    ("a second number of steps before its spelling", "ctm,1; steps,3; steps,x", "3 code 7 Repeated"),
    ("the leftmost field", "ctm,1; exit,a b,x", "2 code 4 BadName"),
    ("a name that is taken before a number out of range", "ctm,1; exit,x,2; exit,x,100001", "3 code 7 Repeated"),
    ("an exit upstream before an unknown cell downstream", "ctm,1; exit,x,2; link,x,p", "3 code 9 WrongKind"),
    ("no steps before no cells", "ctm,2", "2 code 12 NoSteps"),
    ("no cells, where neither has a region", "ctm,2; steps,3", "3 code 13 NoCells"),
    ("too many vehicles before a cell without a region",
     "ctm,2; steps,1; gate,g,1,10000000; gate,h,1,1; region,g,0", "6 code 15 TooMuch"),
    ("a cell without a region before a region number left out",
     "ctm,2; steps,1; exit,x,1; exit,y,1; region,x,5", "6 code 16 NoRegion"),
    # what isn't counted as a record
    ("a fault behind comments and blank lines", "# one; ctm,1; ; # two; lane,x", "2 code 2 BadKind"),
]


@pytest.mark.parametrize("file, told", [case[1:] for case in CASES], ids=[case[0] for case in CASES])
def test_a_file_with_a_fault(file, told, run):
    hold((3, b"", fault(told)), run(["run"], input=lines(file)))


# A record of each kind, with all the fields that it needs. A fault in their number is told before all others of the record.
FULL_RECORDS = ["steps,1", "road,a,6,2,1,1,0", "gate,g,1,0", "exit,x,1", "link,p,q", "merge,p,q,r,1,1", "diverge,p,q,r,1,1",
                "signal,p,4,0,0,2", "limit,p,0,1,1", "demand,p,0,1,1", "turn,p,0,1,1,1", "region,p,0"]


@pytest.mark.parametrize("form, record", [*((form, record) for form in (2, 3) for record in FULL_RECORDS), (3, "speed,p,0,1,1,1")])
def test_a_field_too_few_and_one_too_many(form, record, run):
    for other in (record.rpartition(",")[0], record + ",1", record + ","):
        hold((3, b"", fault("2 code 3 BadCount")), run(["run"], input=lines(f"ctm,{form}; {other}")))


@pytest.mark.parametrize("words", [["run"], ["run", "--regions", "3", "--workers", "2"], ["watch"], ["save"], ["recut"], ["cut"],
                                   ["check"], ["convert"]], ids=" ".join)
@pytest.mark.parametrize("given, told", [
    (b"", "1 code 1 NoHeader"), (lines("ctm,1; steps,3"), "3 code 13 NoCells"), (lines(SLOWED + "a,0,1,2,1"), "3 code 6 OutOfRange")])
def test_a_fault_is_told_in_each_mode(words, given, told, run):
    hold((3, b"", fault(told)), run(words, input=given))


# Files that break off, and what is told of each, with and without a line end.
BROKEN_OFF = [
    (b"ctm,1", "2 code 12 NoSteps"),
    (b"ctm,1\nsteps,", "2 code 5 BadNumber"),
    (b"ctm,1\nsteps,3\nga", "3 code 2 BadKind"),
    (b"ctm,1\nsteps,3\ngate,in,2", "3 code 3 BadCount"),
    (b"ctm,1\nsteps,3\ngate,in,2,", "3 code 5 BadNumber"),
    (b"ctm,1\nexit,\xff,2", "2 code 4 BadName"),
]


@pytest.mark.parametrize("end", [b"", b"\n"])
@pytest.mark.parametrize("text, told", BROKEN_OFF)
def test_a_file_that_breaks_off(text, told, end, run):
    hold((3, b"", fault(told)), run(["run"], input=text + end))


def test_a_comment_that_breaks_off(run):
    """It gives a record of one empty field; with a line end it gives none."""
    hold((3, b"", fault("4 code 2 BadKind")), run(["check"], input=b"ctm,1\nsteps,3\nexit,x,2\n# the end"))
    hold((0, b"network,1,0,3,0,0,0\n", b""), run(["check"], input=b"ctm,1\nsteps,3\nexit,x,2\n# the end\n"))


@pytest.mark.parametrize("place", range(len(CORRIDOR) + 1))
def test_the_corridor_broken_off(place, run):
    """Where it breaks off behind a record it is a network, from its first cell on. Each answer is on one stream."""
    text = CORRIDOR[:place]
    is_network = len(text.split()) > 2 and CORRIDOR.startswith(text.rstrip() + b"\n")
    status, out, err = run(["run"], input=text)
    assert (status, out != b"", err != b"") == ((0, True, False) if is_network else (3, False, True))
