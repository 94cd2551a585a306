"""The whole sentence by which a slip in a network file is explained, and where none of its neighbours is."""

import pytest

from ctmtools.network_file.faults import first_fault
from ctmtools.network_file.hints import hint_of
from ctmtools.network_file.records import read_records

HEAD = "ctm,3\nsteps,9\ngate,on,18,0\nroad,m01,108,18,1,5,0\nroad,m02,108,18,1,5,0\nexit,off,12\n"
COMMENT = "A comment stands on a line of its own; # behind a record is part of it."
SPACES = "Take the spaces away."
COMMAS = "Commas trail behind the record, as Excel writes them; take them away."

HEADERS = {
    " \n ": "The file is empty.",
    "# a\n": "There are only comments and blank lines; the first record must be ctm,1, ctm,2 or ctm,3.",
    ",,\nctm,1\n": "Commas stand in empty rows, as Excel writes them; take them away, and those behind records too.",
    "ctm;2;;\n": "Semicolons stand between the fields; put commas there, in the whole file.",
    "ctm 1\n": "Tabs or spaces stand between the fields; put commas there, in the whole file.",
    "ctm;3\n": "Semicolons stand between the fields; put commas there, in the whole file.",
    "ctm,2,,\n": "Commas trail behind the record, as Excel writes them; take them away, in the whole file.",
    "CTM, 1\n": "The header has capitals or spaces; write it as ctm,1, ctm,2 or ctm,3.",
    "ctm,1,a\n": "There are the formats 1 to 3 alone: write ctm,1, ctm,2 or ctm,3.",
    "steps,9\n\nctm,1\n": "The record ctm,1 is in line 3; it must stand before all others.",
    "kind,name\nctm,2\n": "The record ctm,2 is in line 2; a row of column names stands before it.",
    "kind\nctm,2\n": "The record ctm,2 is in line 2; it must stand before all others.",
    "steps,9\nctm,1,\n": "The record ctm,1 is in line 2; it must stand before all others.",
    "gate,on,18,0\n": "The record ctm,1, ctm,2 or ctm,3 is missing; put it before all others.",
    "kind,name (of cell)\n": "A row of column names stands there; this file has none. Put ctm,1, ctm,2 or ctm,3 in its place.",
    "1,2\n": "The first record of a network file is ctm,1, ctm,2 or ctm,3.",
    '""\n': "The first record of a network file is ctm,1, ctm,2 or ctm,3.",
    "a\rctm,1\r": "The lines end with carriage returns alone, so a comment doesn't end; save the file with line feeds."}
RECORDS = {
    "ctm,2": "The header stands once, at the top of the file; are two files joined here?",
    ",,": "An empty row of commas, as Excel writes it; take it away.",
    "link;on;m01": "Semicolons stand between the fields; put commas there.",
    "link\ton\tm01": "Tabs stand between the fields; put commas there.",
    "Link;on,m01": "Is link meant?",
    " # a,b": "A comment begins with # as the first byte of its line, without a space before it.",
    " LINK,on,m01": "Write it as link, in lower case and without spaces.",
    "lnik,on,m01": "Is link meant?",
    "cell upstream,cell": "This looks like a row of column names, which the file doesn't have; put # before it.",
    "xyz": "", "xyz,7": "",
    # Too many fields, or too few.
    "link,on,m01,,": COMMAS, "link,on,m01,4": "There are 1 too many.", "link,on,m01,4,5": "There are 2 too many.",
    "link,on,m01,# a": COMMENT, "link,on,m01,a # b": COMMENT, "link,on,m01,#a,b": COMMENT,
    "demand,on,0,9,6,5": "Is a decimal comma meant? Write 6,5 with a point.",
    "road,c,7,5,2,5,1,5,0": "Is a decimal comma meant? Write 7,5 and 2,5 with a point.",
    "road,c,7,5,2,1,5,0,5": "Is a decimal comma meant? Write 7,5 and 2,1 with a point.",
    "exit,c,1,5,5": "There are 2 too many.",  # one joint of two doesn't mend it
    "signal,m01,9,0,0,4,5": "There are 1 too many.",  # whole numbers have no decimals
    "gate,c,x,5,0": "Is a decimal comma meant? Write 5,0 with a point.", "gate,c,5,x,0": "There are 1 too many.",
    "demand,on;0,9": "Semicolons stand between the fields; put commas there.",
    "demand,on\t0,9": "Tabs stand between the fields; put commas there.",
    'link,"on,m01\nsteps,9': "A quote isn't closed, so all that is behind it is one field; close it or take it away.",
    'link,"on\nm01"\nsteps,9': "Missing at the end: cell downstream.",
    "demand,on,0": "Missing at the end: to, amount.", "demand,on,0,9": "Missing at the end: amount.",
    # Names.
    "exit,,1": "The name is empty.", f"exit,{33 * 'n'},1": "It has 33 letters.", "exit, off2,1": SPACES,
    "exit,a b/c,1": "a_b_c would do.", "exit,//,1": "",
    # Numbers.
    "exit,c,": "The field is empty.", "exit,c,1 # a": COMMENT, 'exit,c,"1,5"': "Is a decimal comma meant? Write 1.5.",
    "exit,c, 1": SPACES, "exit,c,1 000": "Take away what stands between the thousands.",
    "exit,c,12'000.5": "Take away what stands between the thousands.", "exit,c,+1": "Take the plus sign away.",
    "exit,c,-1": "No number here is negative.", "exit,c,1e-3": "Write it without an exponent.",
    "demand,on,0,9.5,1": "A whole number has no point.", "exit,c,.5": "Write 0.5.", "exit,c,5.": "Write 5.",
    "exit,c,0.1234567": "At most six decimals are read, and at most 12 digits before the point.",
    "demand,on,0,9 s,1": "Take the unit s away; the file counts in steps and vehicles.",
    "demand,on,0,6:30,1": "A clock time isn't read here; the file counts steps from 0.",
    "demand,on,0,06:30:10,1": "A clock time isn't read here; the file counts steps from 0.",
    "demand,on,x_,9,1": "Are two fields exchanged?", "demand,on,0,9,x_": "", "demand,on,0,x_,y": "", "gate,c,x_,y": "", "exit,c,x_": "",
    # Ranges.
    "road,c,108,18,5,1,0": "A/B is the speed of waves by the free-flow speed, at most 1; are A and B exchanged?",
    "road,c,108,18,1,5,109": "The road has room for N = 108 vehicles.",
    "signal,m01,9,0,0,10": "These are steps in a cycle of 9; a range doesn't reach over the cycle's end, but an offset can shift it.",
    "demand,on,5,5,1": "The range is of the steps from <= t < to, so `to` is above `from`.",
    "diverge,m01,m02,off,0,1": "A share is at least 1; a closed branch gets 1 against 1000.",
    "exit,c,100001": "Q is vehicles in a step, not in an hour.", "demand,on,100000,5,1": "",
    "road,c,108,18,0,5,0": "",
    "speed,m01,0,9,5,3": "NUM/DEN is a part of the road's own free-flow speed, at most 1; are NUM and DEN exchanged?", "speed,m01,0,9,0,3": "",
    # What stands there already, or doesn't.
    "steps,9": "Line 2 has steps,9.", "exit,off,1": "off stands in line 6 too.",
    "signal,m01,9,0,0,4\nsignal,m01,9,0,0,5": "The signal of m01 stands in line 7.",
    "region,m01,0\nregion,m01,1": "The region of m01 stands in line 7.",
    "link,on,c\nexit,c,1": "c is declared later, in line 8; move that line up.",
    "link,on,c\nexit\nexit,c,1": "c is declared later, in line 9; move that line up.", "link,on,M02": "Is m02 meant?",
    "link,on,m2": "Is m02 meant?", "link,on,m0l": "Is m01 meant?", "link,on, m01": SPACES, "link,on,m0": "Is m02 or m01 meant?",
    "link,on,zzz": "No cell of this file has that name.",
    "link,off,m01": "off is an exit (line 6); nothing leads out of an exit.",
    "link,m01,on": "on is a gate (line 3); nothing leads into a gate.",
    "signal,off,9,0,0,4": "off is an exit (line 6); an exit has no signal.",
    "demand,m01,0,1,1": "m01 is a road (line 4); demand comes at gates alone.",
    "turn,m01,0,1,1,1": "m01 is a road (line 4); no diverge above leads out of it.",
    "speed,on,0,1,3,5": "on is a gate (line 3); a road alone has a free-flow speed.",
    "speed,off,0,1,3,5": "off is an exit (line 6); a road alone has a free-flow speed.",
    "link,on,m01\nlink,on,m01": "The same record stands in line 7.",
    "link,on,m01\nlink,m02,m01": "link,on,m01 in line 7 leads into m01 already. A merge joins two cells into one.",
    "link,on,m01\nlink,on,m02": "link,on,m01 in line 7 leads out of on already. A diverge parts one cell into two.",
    "merge,on,on,m01,1,1": "on stands twice in this record.", "diverge,on,m01,m01,1,1": "m01 stands twice in this record."}


def hint(text):
    content = text.encode()
    records = read_records(content)
    return hint_of(content, records, first_fault(records))


@pytest.mark.parametrize("text", HEADERS)
def test_hints_on_the_first_record(text):
    assert hint(text) == HEADERS[text]


@pytest.mark.parametrize("record", RECORDS)
def test_hints_on_other_records(record):
    assert hint(HEAD + record + "\n") == RECORDS[record]


def test_hints_on_a_file_that_ends_too_soon():
    assert hint(HEAD + "#") == "A comment that ends the file needs a line end."
    assert hint(HEAD + "link,on,m01\n" + 'exit,"x,1\n') == "A quote isn't closed, so all that is behind it is one field; close it or take it away."
    assert hint("ctm,1\n") == "Put it behind the header."
    assert hint("ctm,1\nsteps,9\n") == "" and hint("ctm,1\nsteps,9000\ngate,on,1,0\ndemand,on,0,9000,5040\n") == \
        "A demand is vehicles in each step; is one written in vehicles per hour?"


@pytest.mark.parametrize("record, forms, form", [("turn,on,0,1,1,1", "1", 2), ("region,on,0", "1", 2), ("speed,on,0,1,3,5", "12", 3)])
def test_a_kind_of_a_later_format(record, forms, form):
    kind = record.split(",")[0]
    for own in forms:
        assert hint(f"ctm,{own}\ngate,on,1,0\n{record}") == f"A {kind} is of no format before {form}: write ctm,{form} in the first record."
