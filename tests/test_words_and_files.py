"""Words that are taken and files without a fault, with the text that is wanted; the examples of docs/FORMAT.md among them."""

import re

import pytest
from conftest import hold
from every_option import EVERY_OPTION
from format_tables import rows_of
from plain_model import records_of
from plain_model import report as plain_report
from worked import (CITY, CORRIDOR, QUEUE_CHOICE, QUEUE_PLANS, RAMPS, RAMPS_TOTALS, RECORDED, REPORT, SAVED, SAVED_LAST,
                    SPEED, TURN, TWO_ROADS, lines)

CONVERTED = CORRIDOR.replace(b"ctm,1", b"ctm,2")
FIRST_AND_LAST = b"".join(line for line in RECORDED.splitlines(True) if not line.startswith(b"at,2,"))
REGIONS = CONVERTED + lines("region,in,0; region,a,1; region,out,1")
ONE_REGION = CONVERTED + lines("region,in,0; region,a,0; region,out,0")
REGIONS_BACKWARDS = CONVERTED + lines("region,out,0; region,a,1; region,in,2")
OTHER_FORMS = b"\xef\xbb\xbf# a corridor\r\n\r\n" + CORRIDOR.replace(b"gate,in", b'gate,"in"').replace(b"\n", b"\r\n")[:-2]
SPELLED_LONG = lines("ctm,1; steps,003; gate,in,2.0,0; road,a,06,000000000002.000000,1,02,0; exit,out,2; link,in,a; "
                     "link,a,out; demand,in,0,000000001,4")
SPELLED_LONG_IN_FORMAT_2 = SPELLED_LONG.replace(b"ctm,1", b"ctm,2")
# The city in format 3, with speeds of two of its roads, and the same in other forms.
SLOW_CITY = CITY.replace(b"ctm,2", b"ctm,3") + lines("speed,m1,1,4,2,3; speed,m5,0,3,1,2; speed,m5,2,3,3,4; speed,m5,0,1,01,0002")
SLOW_CITY_IN_OTHER_FORMS = b"\xef\xbb\xbf# a city\r\n\r\n" + SLOW_CITY.replace(b"speed,m1", b'"speed","m1"').replace(b"\n", b"\r\n")[:-2]

MADE = lines("sample,100,7,127,101,240") + RAMPS_TOTALS
LARGE_MADE = lines("sample,2000,5,2502,2001,4040; total,0.000472,1523.105380,1523.104908,3175.878756")

# The name of each case, its words, its input and the text that is wanted.
CASES = [
    ("run", ["run"], CORRIDOR, REPORT),
    ("check", ["check"], CORRIDOR, b"network,3,2,3,0,0,1\n"),
    ("convert", ["convert"], CORRIDOR, CONVERTED),
    ("run what convert wrote", ["run"], CONVERTED, REPORT),
    ("check what convert wrote", ["check"], CONVERTED, b"network2,3,2,3,0,0,1,0\n"),
    ("convert what convert wrote", ["convert"], CONVERTED, CONVERTED),
    ("run a file in other forms", ["run"], OTHER_FORMS, REPORT),
    ("convert a file in other forms", ["convert"], OTHER_FORMS, CONVERTED),
    ("run with regions in the file", ["run"], REGIONS, REPORT),
    ("run with one region in the file", ["run"], ONE_REGION, REPORT),
    ("run with regions in the file against the order of the cells", ["run"], REGIONS_BACKWARDS, REPORT),
    ("run in one region", ["run", "--regions", "1"], CORRIDOR, REPORT),
    ("run in two regions", ["run", "--regions=2"], CORRIDOR, REPORT),
    ("run in as many regions as cells", ["run", "--regions", "3"], CORRIDOR, REPORT),
    ("run in more regions than cells", ["run", "--regions", "4"], CORRIDOR, REPORT),
    ("run in the most regions", ["run", "--regions", "512"], CORRIDOR, REPORT),
    ("regions before the mode", ["--regions", "2", "run"], CORRIDOR, REPORT),
    ("regions, and two dashes", ["run", "--regions", "2", "--"], CORRIDOR, REPORT),
    ("two dashes before the mode", ["--", "run"], CORRIDOR, REPORT),
    ("two dashes behind the mode", ["run", "--"], CORRIDOR, REPORT),
    ("regions, two dashes and the mode", ["--regions", "2", "--", "run"], CORRIDOR, REPORT),
    ("regions spelled with zeros", ["run", "--regions", "03"], CORRIDOR, REPORT),
    ("regions spelled in nine digits", ["run", "--regions", "000000003"], CORRIDOR, REPORT),
    ("regions that are chosen", ["run", "--regions", "auto", "--workers", "4"], CORRIDOR, REPORT),
    ("regions that are chosen, before the mode", ["--regions=auto", "run"], REGIONS, REPORT),
    ("run in parts, in regions that are chosen", ["recut", "--regions", "auto", "--workers", "2"], CORRIDOR, REPORT),
    ("fewer regions than in the file", ["run", "--regions", "1"], REGIONS, REPORT),
    ("more regions than in the file", ["run", "--regions", "3"], ONE_REGION, REPORT),
    ("run by one worker", ["run", "--workers", "1"], CORRIDOR, REPORT),
    ("run by two workers in three regions", ["run", "--workers=2", "--regions", "3"], CORRIDOR, REPORT),
    ("the most workers before the mode, in one region", ["--workers", "16", "run"], CORRIDOR, REPORT),
    ("run by workers in the regions of the file", ["run", "--workers", "2"], REGIONS_BACKWARDS, REPORT),
    ("workers spelled with zeros", ["run", "--workers", "016"], CORRIDOR, REPORT),
    ("recorded by three workers in two regions", ["run", "--every", "2", "--workers", "3", "--regions", "2"], CORRIDOR,
     RECORDED),
    ("run in even regions", ["run", "--cut", "even", "--regions", "2"], CORRIDOR, REPORT),
    ("run in grown regions", ["run", "--cut=grown", "--regions", "2", "--workers", "2"], CORRIDOR, REPORT),
    ("grown regions before the mode, recorded", ["--cut", "grown", "run", "--every", "2", "--regions", "2"], CORRIDOR, RECORDED),
    ("cut in the one region that isn't asked for", ["cut"], CORRIDOR, lines("cut,1,0,0; cell,in,0; cell,a,0; cell,out,0")),
    ("run in parts", ["recut"], CORRIDOR, REPORT),
    ("run in parts before the mode", ["--parts=2", "--regions=2", "recut"], CORRIDOR, REPORT),
    ("save at the last step", ["save", "--until", "3", "--regions", "3"], CORRIDOR, SAVED_LAST),
    ("save at a step spelled with zeros", ["save", "--until", "007", "--regions", "3"], CORRIDOR, SAVED_LAST),
    ("save past the last step, by workers", ["save", "--until=100000", "--regions", "512", "--workers", "4"], CORRIDOR,
     SAVED_LAST),
    ("save in the regions of the file", ["save", "--until", "9"], REGIONS_BACKWARDS,
     lines("saved,1,3; step,3; step,3; step,3; row,2,0,4000000,4000000,2000000,2000000; "
           "row,1,2000000,4000000,2000000,0,2000000; row,0,2000000,2000000,0,0,0; net") + REGIONS_BACKWARDS),
    ("resume", ["resume"], SAVED, REPORT),
    ("resume by two workers", ["resume", "--workers", "2"], SAVED, REPORT),
    ("resume at the last step", ["resume"], SAVED_LAST, REPORT),
    ("choose among four plans", ["choose"], QUEUE_PLANS, QUEUE_CHOICE),
    ("every option of run", EVERY_OPTION["run"], CORRIDOR, RECORDED),
    ("every option of save", EVERY_OPTION["save"], CORRIDOR, SAVED_LAST),
    ("every option of recut", EVERY_OPTION["recut"], CORRIDOR, REPORT),
    ("every option of cut", EVERY_OPTION["cut"], CORRIDOR, lines("cut,3,2,2; cell,in,0; cell,a,1; cell,out,2")),
    ("check with turns in the file", ["check"], TURN, b"network2,3,1,3,0,0,0,1\n"),
    ("check with speeds in the file", ["check"], SPEED, b"network3,2,1,4,0,0,0,0,2\n"),
    ("check of format 3 without speeds", ["check"], CORRIDOR.replace(b"ctm,1", b"ctm,3"), b"network3,3,2,3,0,0,1,0,0\n"),
    ("run of format 3 without speeds", ["run"], CORRIDOR.replace(b"ctm,1", b"ctm,3"), REPORT),
    ("run of format 3 with regions", ["run"], REGIONS.replace(b"ctm,2", b"ctm,3"), REPORT),
    ("convert of format 3 without speeds", ["convert"], CORRIDOR.replace(b"ctm,1", b"ctm,3"), CORRIDOR.replace(b"ctm,1", b"ctm,3")),
    ("convert of speeds, which are kept as they are spelled", ["convert"], SLOW_CITY, SLOW_CITY),
    ("convert of speeds in other forms", ["convert"], SLOW_CITY_IN_OTHER_FORMS, SLOW_CITY),
    ("run of speeds in other forms", ["run"], SLOW_CITY_IN_OTHER_FORMS, plain_report(SLOW_CITY)),
    ("recorded every other step", ["run", "--every", "2"], CORRIDOR, RECORDED),
    ("recorded in three regions", ["run", "--every", "2", "--regions", "3"], CORRIDOR, RECORDED),
    ("recorded at the last step alone and at 0", ["run", "--every", "3"], CORRIDOR, FIRST_AND_LAST),
    ("recorded more seldom than there are steps", ["run", "--every=100000"], CORRIDOR, FIRST_AND_LAST),
    ("recorded every other step, said before the mode", ["--every=2", "run"], CORRIDOR, RECORDED),
    ("recorded never", ["run", "--every", "0"], CORRIDOR, REPORT),
    ("recorded at the last step alone and at 0, in two regions", ["run", "--every", "3", "--regions", "2"], CORRIDOR,
     FIRST_AND_LAST),
    ("run in many more regions than cells", ["run", "--regions=256"], CORRIDOR, REPORT),
    ("check of a city", ["check"], CITY, b"network2,17,9,5,3,3,3,3\n"),
    ("convert of a city, which needs no change", ["convert"], CITY, CITY),
    ("check of regions in the file, which aren't counted", ["check"], REGIONS, b"network2,3,2,3,0,0,1,0\n"),
    ("convert of regions in the file, which are kept", ["convert"], REGIONS, REGIONS),
    ("convert of fields that could be spelled shorter", ["convert"], SPELLED_LONG, SPELLED_LONG_IN_FORMAT_2),
    ("run with fields that could be spelled shorter", ["run"], SPELLED_LONG, REPORT),
    ("check of a corridor with ramps, signals and an incident", ["check"], RAMPS, b"network,127,101,240,12,1,14\n"),
]


@pytest.mark.parametrize("words, given, text", [case[1:] for case in CASES], ids=[case[0] for case in CASES])
def test_words_and_files(words, given, text, run):
    hold((0, text, b""), run(words, input=given))


COUNTED = {"cells": ("road", "gate", "exit"), "connectors": ("link", "merge", "diverge"), "signals": ("signal",),
           "limits": ("limit",), "demands": ("demand",), "turns": ("turn",), "speeds": ("speed",)}


@pytest.mark.parametrize("row", rows_of("Format | Line"))
def test_the_counts_are_those_that_the_page_names(row, run):
    form, line = row.strip("| ").split(" | ")
    network = {"1": CORRIDOR, "2": CITY, "3": SLOW_CITY}[form]
    begin, *names = line.strip("`").split(",")
    header, (_, steps), *records = records_of(network)
    counts = [steps if name == "T" else sum(record[0] in COUNTED[name] for record in records) for name in names]
    assert header == ["ctm", form]
    hold((0, lines(",".join(map(str, [begin, *counts]))), b""), run(["check"], input=network))


# The name of each case, its words and the text that is wanted. The totals of the larger ones are what models from
# docs/FORMAT.md and docs/MODEL.md alone came to.
SAMPLES = [
    ("the smallest made network", ["sample", "--size", "1", "--seed", "0"],
     lines("sample,1,0,3,2,42; total,0.000000,58.068940,58.068940,262.344330")),
    ("every option of sample", EVERY_OPTION["sample"],
     lines("sample,1,0,3,2,42; total,0.000000,58.068940,58.068940,262.344330")),
    ("a made network in regions by workers", ["sample", "--size", "100", "--seed", "7", "--workers", "8", "--regions", "32"],
     MADE),
    ("a made network whole", ["sample", "--size=100", "--seed=7"], MADE),
    ("a large made network in regions by workers",
     ["sample", "--size", "2000", "--seed", "5", "--workers", "16", "--regions", "256"], LARGE_MADE),
    ("a large made network whole", ["sample", "--size", "2000", "--seed", "5"], LARGE_MADE),
    ("a made network of the greatest seed", ["sample", "--size", "1", "--seed", "999999999"],
     lines("sample,1,999999999,3,2,42; total,0.000000,42.696380,42.696380,29.008370")),
    ("the largest made network, of the greatest seed",
     ["sample", "--size", "10000", "--seed", "999999999", "--workers", "4", "--regions", "16"],
     lines("sample,10000,999999999,12502,10001,20040; total,0.002480,7615.538260,7615.535780,15189.910177")),
]


@pytest.mark.parametrize("words, text", [case[1:] for case in SAMPLES], ids=[case[0] for case in SAMPLES])
def test_made_networks(words, text, run, unread):
    hold((0, text, b""), run(words, stdin=unread))


def test_a_made_network_of_which_neither_size_nor_seed_is_given(run, unread):
    text = run(["sample", "--size", "100", "--seed", "1"], stdin=unread)[1]
    assert text.startswith(lines("sample,100,1,127,101,240"))
    hold((0, text, b""), run(["sample"], stdin=unread))


def test_every_option_of_watch(run):
    """Eight shots of three regions each, and behind them the report with the first and the last step recorded."""
    for words in (EVERY_OPTION["watch"], [*EVERY_OPTION["watch"], "--"]):
        status, text, err = run(words, input=TWO_ROADS)
        assert (status, err) == (0, b"")
        assert [text.count(b"\n" + line) + text.startswith(line) for line in (b"shot,", b"region,")] == [8, 24]
        assert text.endswith(plain_report(TWO_ROADS, 5))


def test_every_option_of_the_table_of_modes_is_given():
    told = {row.split("`")[1]: set(re.findall("`(--[a-z]+)`", row.split("|")[2])) for row in rows_of("Mode | Options | Reads | Writes")}
    assert {mode: {word for word in words if word.startswith("--")} for mode, words in EVERY_OPTION.items()} == told
