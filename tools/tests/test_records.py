"""The line of a fault, on made files, against the record and the code that the program tells."""

import random

import pytest

from ctmtools.network_file.faults import first_fault
from ctmtools.network_file.kinds import NUMBERS
from ctmtools.network_file.records import ends_of_lines, line_of, read_records
from ctmtools.program.calls import ask

from .examples import EXAMPLES

ENDS = ["\n", "\r\n", "\r"]
SOUND = ["steps,9", "gate,g,1,0", "gate,h,2.5,1", "road,a,6,2,1,2,0", "road,b,6,2,1,2,0.5", "exit,x,2", "link,g,a",
         "merge,a,h,b,3,1", "link,b,x", "signal,b,4,0,0,2", "limit,a,1,5,1", "demand,g,0,3,1"]
SPOILT = ["demand,g,0,3,1,5", "road,b,6,2,1", "exit,a b,2", "lane,x", "limit,q,1,5,1", "demand,x,0,1,1", "steps,9",
          "link,g,b", "gate,g,1,0", "demand,g,3,3,1", "road,c,1,1,2,1,0", "signal,b,4,4,0,2", "demand;g;0;3;1", ",,,,"]


def quoted(record, dice):
    """The record with some of its fields in quotes, at times with text behind them."""
    fields = record.split(",")
    return ",".join(f'"{field}"' if dice.random() < 0.2 else field for field in fields)


def between(dice):
    """What may stand between records: comments, which end at a line feed alone, and blank lines."""
    return dice.choice(["", "", "", "\n", "\r\n\r\n", "\r", "# a, comment\n", "#\r in one line\n", "\n# \"quotes\n\n"])


def made_file(dice):
    """The bytes of a file, and the place of the record that was spoilt, or None."""
    at = dice.randrange(len(SOUND) + 1) if dice.random() < 0.9 else None
    records = list(SOUND)
    if at is not None:
        records.insert(at, dice.choice(SPOILT))
    text = dice.choice(["", "\ufeff"]) + between(dice) + "ctm,1" + dice.choice(ENDS)
    place = None
    for i, record in enumerate(records):
        text += between(dice)
        if i == at:
            place = len(text.encode())
        text += quoted(record, dice) if i != at else record
        text += dice.choice(ENDS) if i < len(records) - 1 or dice.random() < 0.7 else ""
    return text.encode(), place


def line_on(fault):
    """What the program says of a fault."""
    return f"ctm: network: record {fault.record} code {NUMBERS[fault.code]} {fault.code}" if fault else ""


@pytest.mark.parametrize("seed", range(8))
def test_the_program_finds_the_same_fault(seed, program):
    dice = random.Random(seed)
    for _ in range(20):
        content, place = made_file(dice)
        records = read_records(content)
        answer, fault = ask(("check",), content), first_fault(records)
        if answer.status == 0:
            assert fault is None
            continue
        assert answer.line == line_on(fault), content
        if place is not None and fault.record <= len(records) and records[fault.record - 1].place == place:
            before = content[:place].replace(b"\r\n", b"\n").replace(b"\r", b"\n")
            assert line_of(content, place) == 1 + before.count(b"\n")


BITS = [b",", b'"', b"\n", b"\r", b"#", b"0", b".", b" ", b"m", b"-", b";", b"\xff", b",,", b"demand,on,0,5,1\n",
        b"link,",
        b"turn,m20,0,5,1,1\n", b"region,m01,0\n", b"exit,q,1\n"]


@pytest.mark.parametrize("path", sorted(EXAMPLES.glob("*.csv")), ids=lambda path: path.stem)
def test_the_same_fault_in_spoilt_examples(path, program):
    dice = random.Random(path.stem)
    for _ in range(8):
        content = bytearray(path.read_bytes().replace(b"ctm,1", dice.choice([b"ctm,1", b"ctm,2"])))
        for _ in range(dice.randrange(1, 4)):
            place = dice.randrange(len(content))
            content[place:place + dice.randrange(3)] = dice.choice(BITS)
        answer, fault = ask(("check",), bytes(content)), first_fault(read_records(bytes(content)))
        assert answer.line == line_on(fault)


@pytest.mark.parametrize("content", [
    b"", b"\n\n", b"# only a comment\n", b"# no end", b"ctm,1\n# no end", b'"ctm",1', b'ctm,"1', b'ctm,"1"x',
    b"ctm,1\r#c\rsteps,3\n",
    b"\xef\xbb\xbfctm,1", b"\xef\xbb\xbf\xef\xbb\xbfctm,1", b"ctm,1\nexit,\xff,2", b'ctm,1\nexit,"a""b",2',
    b'ctm,1\nexit,"a\nb",2',
    b"ctm,1\n ", b"ctm,1\n,", b"ctm,1\nsteps,3,", b'ctm,1\nexit,"x"y,2\nsteps,3', b'ctm,1\nexit,x"y",2\nsteps,3',
    b"ctm,1\rsteps,3\rexit,x,2",
    b'ctm,1\n""\n', b'ctm,1\n"steps",3\nexit,x,1\n#', b'\xef\xbb\xbf"ctm",2\nsteps,1\n"exit",x,0',
    b"ctm,2\nsteps,1\nexit,x,1\nregion,x,1"])
def test_odd_files(content, program):
    answer, fault = ask(("check",), content), first_fault(read_records(content))
    assert answer.line == line_on(fault)


def test_lines_are_counted_as_an_editor_does():
    content = b"one\r\ntwo\rthree\nfour"
    assert [line_of(content, content.index(word)) for word in (b"one", b"two", b"three", b"four")] == [1, 2, 3, 4]
    assert ends_of_lines(content) == [5, 9, 15]


def test_a_record_over_lines_has_the_line_where_it_begins():
    content = b'ctm,1\n# c\nexit,"a\nb",2\nexit,x,1,\n'
    records = read_records(content)
    assert [line_of(content, record.place) for record in records] == [1, 3, 5]
    assert records[1].fields == ("exit", "a\nb", "2")
