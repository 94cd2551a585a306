"""Each fault of docs/FORMAT.md found here as by the program, and the hints on what a slip was meant to be."""

import re
from pathlib import Path

import pytest

from ctmtools.network_file.faults import first_fault
from ctmtools.network_file.kinds import NUMBERS
from ctmtools.network_file.network import fault_line
from ctmtools.network_file.records import read_records

FORMAT = Path(__file__).resolve().parents[2] / "docs" / "FORMAT.md"
ROW = re.compile(r"\|(?: (\d+))? \|(?: `(\w+)`)? \| `([^`]+)`(?: \([^|]*\))? \| (\d+) \|")


def rows_of_faults():
    code = None
    for found in filter(None, map(ROW.fullmatch, FORMAT.read_text().splitlines())):
        code = found[2] or code
        yield found[3], code, int(found[4])


# Faults in other fields and kinds than those of the table.
MORE = [
    ("ctm,4", "NoHeader", 1), ("ctm,1; turn,p,0,1,1,1", "BadKind", 2), ("ctm,1; road,a,6,2,2,1,0", "OutOfRange", 2),
    ("ctm,1; exit,x,2; limit,x,5,5,1", "OutOfRange", 3), ("ctm,1; gate,g,1,0; signal,g,4,0,2,5", "OutOfRange", 3),
    ("ctm,1; gate,g,1,0; gate,h,1,0; exit,x,2; merge,g,h,x,0,1", "OutOfRange", 5),
    ("ctm,1; gate,g,1,0; exit,x,2; exit,y,2; diverge,g,x,y,1,1001", "OutOfRange", 5),
    ("ctm,2; gate,g,1,0; exit,x,2; exit,y,2; diverge,g,x,y,1,1; turn,g,0,1,0,1", "OutOfRange", 6),
    ("ctm,2; exit,x,2; region,x,512", "OutOfRange", 3), ("ctm,1; gate,g,1,0; signal,g,4,0,0,2; signal,g,4,0,0,2", "Repeated", 4),
    ("ctm,2; exit,x,2; region,x,0; region,x,0", "Repeated", 4), ("ctm,1; signal,p,4,0,0,2", "Unknown", 2),
    ("ctm,1; limit,p,0,1,1", "Unknown", 2), ("ctm,2; turn,p,0,1,1,1", "Unknown", 2), ("ctm,2; region,p,0", "Unknown", 2),
    ("ctm,1; gate,g,1,0; gate,h,1,0; merge,g,h,g,1,1", "WrongKind", 4), ("ctm,1; exit,x,2; exit,y,2; diverge,x,x,y,1,1", "WrongKind", 4),
    ("ctm,1; exit,x,2; signal,x,4,0,0,2", "WrongKind", 3)]


@pytest.mark.parametrize("file, code, record", [*rows_of_faults(), *MORE])
def test_the_table_of_faults(file, code, record):
    fault = first_fault(read_records(file.replace("; ", "\n").encode() + b"\n"))
    assert (fault.code, fault.record) == (code, record)


def test_all_codes_are_in_the_table():
    assert {code for _, code, _ in rows_of_faults()} | {"TooMany"} == set(NUMBERS)


HEAD = "ctm,1\nsteps,9\ngate,on,18,0\nroad,m01,108,18,1,5,0\nroad,m02,108,18,1,5,0\nexit,off,12\n"
# A slip, and what has to be told of it: the line, and a part of the hint.
SLIPS = {
    "a header row": (b"kind,name,value\nctm,1\nsteps,9\n", "line 1", "column names"),
    "a header row below": (HEAD + "gate,name,Q,first\n", "line 7, field 3 (Q), `Q`", "BadNumber"),
    "semicolons": (b"ctm;1\nsteps;9\n", "line 1", "Semicolons"),
    "tabs": (b"ctm\t1\nsteps\t9\n", "line 1", "Tabs"),
    "UTF-16": ("ctm,1\nsteps,9\n".encode("utf-16"), "line 1", "UTF-16"),
    "an empty file": (b"", "line 1", "empty"),
    "comments alone": (b"# a\n", "line 1", "only comments"),
    "Excel's trailing commas": (b"ctm,1,,,,,\nsteps,9,,,,,\n", "line 1", "trail"),
    "trailing commas below": (HEAD + "link,on,m01,,,\n", "line 7", "trail"),
    "a workbook": (b"PK\x03\x04....", "line 1", "Excel"),
    "a decimal comma": (HEAD + "demand,on,0,9,6,5\n", "line 7", "decimal comma meant? Write 6,5 with a point"),
    "two decimal commas": (HEAD + "road,c,7,5,2,5,1,5,0\n", "line 7", "decimal comma"),
    "a decimal comma in quotes": (HEAD + 'demand,on,0,9,"6,5"\n', "field 5 (amount)", "Write 6.5"),
    "semicolons below": (HEAD + "link;on;m01\n", "line 7", "Semicolons"),
    "a semicolon below": (HEAD + "steps;9\n", "line 7", "Semicolons"),
    "a quote that isn't closed": (HEAD + 'link,"on,m01\nsteps,9\n', "line 7", "A quote isn't closed"),
    "tabs below": (HEAD + "link\ton\tm01\n", "line 7", "Tabs"),
    "a name that nearly exists": (HEAD + "link,on,m1\n", "field 3 (cell downstream), `m1`", "m01"),
    "a letter for a digit": (HEAD + "link,on,m0l\n", "field 3", "Is m01 meant?"),
    "carriage returns alone": (b"# a\rctm,1\r", "line 1", "carriage returns"),
    "empty rows of commas": (b",,,\nctm,1,,\n", "line 1", "Excel"),
    "a comment behind a number": (HEAD + "limit,m01,0,9,2 # a\n", "field 5", "line of its own"),
    "another case": (HEAD + "link,ON,m01\n", "field 2", "Is on meant?"),
    "a cell declared later": ("ctm,1\nlink,a,b\ngate,a,1,0\nexit,b,1\n", "line 2", "declared later, in line 3"),
    "a capital kind": (HEAD + "Link,on,m01\n", "line 7, field 1 (kind)", "link, in lower case"),
    "a misspelt kind": (HEAD + "lnik,on,m01\n", "line 7", "Is link meant?"),
    "a comment behind a space": (HEAD + " # a comment\n", "line 7", "first byte"),
    "a comment behind a record": (HEAD + "link,on,m01 # first\n", "field 3", "m01"),
    "a turn in format 1": (HEAD + "turn,on,0,1,1,1\n", "line 7", "of no format before 2"),
    "a speed in format 2": (HEAD.replace("ctm,1", "ctm,2") + "speed,m01,0,1,3,5\n", "line 7", "of no format before 3"),
    "a space": (HEAD + "link,on, m01\n", "field 3", "spaces"),
    "a name with a space": (HEAD + "exit,way out,3\n", "field 2 (name), `way out`", "way_out"),
    "a second cell of a name": (HEAD + "exit,off,3\n", "field 2", "line 6"),
    "too many decimals": (HEAD + "exit,x,1.23456789\n", "field 3", "six decimals"),
    "an exponent": (HEAD + "exit,x,1e3\n", "field 3", "exponent"),
    "a clock time": (HEAD + "demand,on,06:00,9,1\n", "field 3 (from)", "clock time"),
    "a unit": (HEAD + "demand,on,0,9s,1\n", "field 4 (to)", "unit s"),
    "a negative number": (HEAD + "demand,on,-1,9,1\n", "field 3", "negative"),
    "A and B exchanged": (HEAD + "road,c,108,18,5,1,0\n", "field 6 (B), `1`", "exchanged"),
    "a full road": (HEAD + "road,c,108,18,1,5,109\n", "field 7 (first)", "room for N = 108"),
    "an empty range": (HEAD + "demand,on,5,5,1\n", "field 4 (to)", "above `from`"),
    "a link twice": (HEAD + "link,on,m01\nlink,on,m01\n", "line 8", "same record stands in line 7"),
    "a second way out": (HEAD + "link,on,m01\nlink,on,m02\n", "line 8", "diverge"),
    "into a gate": (HEAD + "link,m01,on\n", "field 3", "nothing leads into a gate"),
    "a demand at a road": (HEAD + "demand,m01,0,1,1\n", "field 2", "at gates alone"),
    "vehicles per hour": ("ctm,1\nsteps,9000\ngate,on,1,0\ndemand,on,0,9000,5040\n", "whole file", "vehicles per hour"),
    "the header twice": (HEAD + "ctm,1\n", "line 7", "two files"),
    "another format": (b"ctm,4\n", "line 1", "formats 1 to 3"),
    "no header": (b"steps,9\n", "line 1", "is missing"),
    "an empty row": (HEAD + ",,,,\n", "line 7", "empty row"),
    "no steps": ("ctm,1\nexit,x,1\n", "whole file", "NoSteps"),
}


@pytest.mark.parametrize("slip", SLIPS)
def test_hints(slip):
    content, where, hint = SLIPS[slip]
    content = content.encode() if isinstance(content, str) else content
    records = read_records(content)
    text = fault_line(content, records, first_fault(records))
    assert where in text and hint in text
    assert "\n" not in text
