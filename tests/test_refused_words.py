"""Words that are refused, before any of the input is read: those of docs/FORMAT.md and others."""

import re
import shlex

import pytest
from conftest import hold
from every_option import EVERY_OPTION
from format_tables import rows_of
from messages import WORDS

# The name of each case and its words.
CASES = [
    ("recorded more seldom than may be asked", ["run", "--every", "100001"]),
    ("recorded so often with a sign", ["run", "--every", "+1"]),
    ("recorded, and not said how often", ["run", "--every"]),
    ("recorded twice", ["run", "--every", "1", "--every", "1"]),
    ("a conversion recorded", ["convert", "--every", "1"]),
    ("no words", []),
    ("an unknown word", ["drive"]),
    ("an empty word", [""]),
    ("a word too many", ["run", "run"]),
    ("no regions", ["run", "--regions", "0"]),
    ("one past the most regions", ["run", "--regions", "513"]),
    ("no number of regions", ["run", "--regions"]),
    ("an empty number of regions", ["run", "--regions", ""]),
    ("a number of regions with a sign", ["run", "--regions", "+3"]),
    ("a number of regions with a space", ["run", "--regions", " 3"]),
    ("a number of regions that isn't whole", ["run", "--regions", "3.0"]),
    ("a number of regions in ten digits", ["run", "--regions", "0000000003"]),
    ("a number of regions that isn't text", ["run", "--regions", b"\xff"]),
    ("regions twice", ["run", "--regions", "3", "--regions", "4"]),
    ("regions in short", ["run", "--reg", "3"]),
    ("regions without a mode", ["--regions", "3"]),
    ("regions behind the dashes", ["--", "run", "--regions", "3"]),
    ("regions, and an option that run hasn't", ["run", "--regions", "3", "--shots", "1"]),
    ("an option that run hasn't", ["run", "--shots", "1"]),
    ("no workers", ["run", "--workers", "0"]),
    ("one past the most workers", ["run", "--workers", "17"]),
    ("a number of workers that isn't whole", ["run", "--workers=2x"]),
    ("workers for check", ["check", "--workers", "2"]),
    ("no number of workers", ["run", "--workers"]),
    ("workers twice", ["run", "--workers", "2", "--workers", "2"]),
    ("workers for convert", ["convert", "--workers=2"]),
    ("regions for check", ["check", "--regions", "3"]),
    ("regions for convert", ["convert", "--regions=1"]),
    ("an option that check hasn't", ["check", "--every", "1"]),
    ("no shots", ["watch", "--shots", "0"]),
    ("one past the most shots", ["watch", "--shots", "65"]),
    ("a number of shots that isn't whole", ["watch", "--shots=2x"]),
    ("no number of shots", ["watch", "--shots"]),
    ("shots twice", ["watch", "--shots", "2", "--shots", "2"]),
    ("shots for check", ["check", "--shots", "2"]),
    ("shots for convert", ["convert", "--shots=2"]),
    ("an option that watch hasn't", ["watch", "--size", "1"]),
    ("an option that sample hasn't", ["sample", "--every", "1"]),
    ("a size of none", ["sample", "--size", "0"]),
    ("a size too great", ["sample", "--size", "10001"]),
    ("a seed too great", ["sample", "--seed", "1000000000"]),
    ("a step that isn't whole", ["save", "--until", "1.5"]),
    ("a step past the most", ["save", "--until", "100001"]),
    ("a step below 0", ["save", "--until", "-1"]),
    ("a step below 0 behind an equals sign", ["save", "--until=-1"]),
    ("an empty step", ["save", "--until", ""]),
    ("no step", ["save", "--until"]),
    ("a step in ten digits", ["save", "--until", "0000000007"]),
    ("a step twice", ["save", "--until", "1", "--until", "2"]),
    ("a step for run", ["run", "--until", "1"]),
    ("a step for resume", ["resume", "--until", "1"]),
    ("regions for resume", ["resume", "--regions", "2"]),
    ("a saved run recorded", ["save", "--every", "1"]),
    ("shots for save", ["save", "--shots", "1"]),
    ("regions for choose", ["choose", "--regions", "2"]),
    ("workers for choose", ["choose", "--workers=4"]),
    ("a choice recorded", ["choose", "--every", "1"]),
    ("a resumed run recorded", ["resume", "--every", "1"]),
    ("regions cut in another way", ["run", "--cut", "odd"]),
    ("a word of the cutting in upper case", ["run", "--cut", "Grown"]),
    ("a word of the cutting cut short", ["run", "--cut", "grow"]),
    ("both words of the cutting", ["run", "--cut", "even grown"]),
    ("a number for the cutting", ["run", "--cut", "1"]),
    ("an empty word for the cutting", ["run", "--cut="]),
    ("no word for the cutting", ["run", "--cut"]),
    ("the cutting twice", ["run", "--cut", "even", "--cut", "grown"]),
    ("a cutting for sample", ["sample", "--cut", "grown"]),
    ("a cutting for resume", ["resume", "--cut", "even"]),
    ("a cutting for cut", ["cut", "--cut", "grown"]),
    ("a cutting for recut", ["recut", "--cut", "grown"]),
    ("workers for cut", ["cut", "--workers", "2"]),
    ("a word for regions that isn't auto", ["run", "--regions", "Auto"]),
    ("regions chosen for resume", ["resume", "--regions", "auto"]),
    ("no regions for cut", ["cut", "--regions", "0"]),
    ("one past the most regions of cut", ["cut", "--regions", "513"]),
    ("no parts", ["recut", "--parts", "0"]),
    ("one past the most parts", ["recut", "--parts", "65"]),
    ("a number of parts that isn't whole", ["recut", "--parts=2.5"]),
    ("no number of parts", ["recut", "--parts"]),
    ("parts for run", ["run", "--parts", "2"]),
    ("a run in parts recorded", ["recut", "--every", "1"]),
    ("cut and recut", ["cut", "recut"]),
    ("no regions for watch", ["watch", "--regions", "0"]),
    ("help", ["--help"]),
    ("help of run", ["run", "--help"]),
    ("the version", ["--version"]),
    ("a word that isn't text", [b"\xff"]),
    ("run, and a word that isn't text", ["run", b"r\xc3"]),
    ("run, and a space behind it", ["run "]),
    ("a space before run", [" run"]),
    ("run twice as one word", ["run run"]),
    ("an option behind an equals sign that isn't there", ["run", "--regions3"]),
    ("two equals signs", ["run", "--regions==3"]),
    ("an equals sign and no number", ["run", "--regions="]),
    ("an option of one dash", ["run", "-regions", "3"]),
    ("an option in upper case", ["run", "--Regions", "3"]),
    ("an option by two of its spellings", ["run", "--regions=3", "--regions", "3"]),
    ("an option whose value is an option", ["run", "--regions", "--workers", "2"]),
    ("watch twice", ["watch", "watch"]),
    ("check and convert", ["check", "convert"]),
    ("sample and run", ["sample", "run"]),
    ("an option that convert hasn't", ["convert", "--size", "1"]),
    ("a seed for watch", ["watch", "--seed", "1"]),
    ("a seed for run", ["run", "--seed", "1"]),
    ("shots for sample", ["sample", "--shots", "1"]),
    ("no workers for watch", ["watch", "--workers", "0"]),
    ("one past the most workers of watch", ["watch", "--workers", "17"]),
    ("one past the most regions of watch", ["watch", "--regions", "513"]),
    ("a watch recorded more seldom than may be asked", ["watch", "--every", "100001"]),
    ("no regions for sample", ["sample", "--regions", "0"]),
    ("one past the most regions of sample", ["sample", "--regions", "513"]),
    ("no workers for sample", ["sample", "--workers", "0"]),
    ("one past the most workers of sample", ["sample", "--workers", "17"]),
    ("a number of workers in ten digits", ["run", "--workers", "0000000002"]),
    ("a number of regions past 32 bits", ["run", "--regions", "4294967297"]),
    ("a number of regions past 64 bits", ["run", "--regions", "18446744073709551617"]),
    ("a number that isn't of ASCII digits", ["run", "--regions", "\u0663"]),
    ("three dashes", ["run", "---"]),
    ("two dashes twice", ["--", "--"]),
    ("help behind an option", ["run", "--regions", "3", "--help"]),
    ("an option's number that isn't text", ["run", b"--regions=\xff"]),
    ("two dashes and no mode", ["--"]),
    ("a mode in upper case", ["Run"]),
    ("a mode cut short", ["ru"]),
    ("help as a mode", ["help"]),
    ("run and watch", ["run", "watch"]),
    ("run and check, with regions", ["run", "--regions", "3", "check"]),
    ("regions twice, with the same number", ["run", "--regions", "3", "--regions", "3"]),
    ("two numbers of regions", ["run", "--regions", "3", "4"]),
    ("a number of regions below 0", ["run", "--regions", "-3"]),
    ("a number of regions in words", ["run", "--regions", "three"]),
    ("regions, of which the mode is the number", ["--regions", "run"]),
    ("regions without the last letter", ["run", "--region", "3"]),
    ("regions without dashes", ["run", "regions", "3"]),
    ("regions by one letter", ["run", "-r", "1"]),
    ("an option that is none", ["run", "--speed", "1"]),
    ("an option without a name", ["run", "--=1"]),
    ("an option that run hasn't, twice", ["run", "--size", "1", "--size", "1"]),
    ("an option that run hasn't, behind the dashes", ["run", "--", "--shots"]),
    ("an option that check hasn't, before the mode", ["--every", "1", "check"]),
    ("a seed for convert", ["convert", "--seed=1"]),
    ("a seed in ten digits", ["sample", "--seed", "0000000007"]),
    ("help in short", ["-h"]),
    ("the version in short", ["-V"]),
]


@pytest.mark.parametrize("words", [case[1] for case in CASES], ids=[case[0] for case in CASES])
def test_refused_words(words, run, unread):
    hold((2, b"", WORDS), run(words, stdin=unread))


@pytest.mark.parametrize("past", [["drive"], ["--", "--every"], ["--workers", "2"]], ids=" ".join)
@pytest.mark.parametrize("mode", EVERY_OPTION)
def test_a_word_past_every_option_is_refused(mode, past, run, unread):
    """An option twice, where the mode has it, or else one that it hasn't."""
    hold((2, b"", WORDS), run([*EVERY_OPTION[mode], *past], stdin=unread))


EXAMPLES = rows_of("Words | So")
EXAMPLE_WORDS = [example for row in EXAMPLES for example in re.findall(r"`(ctm[^`]*)`", row.rpartition(" | ")[2])]


def test_each_row_of_the_table_of_refused_words_is_read():
    assert [row for row in EXAMPLES if "`ctm" not in row] == ["| a word that isn't UTF-8, in any place | |"]
    assert len(EXAMPLES) == 9


@pytest.mark.parametrize("example", EXAMPLE_WORDS)
def test_the_example_of_refused_words(example, run, unread):
    hold((2, b"", WORDS), run(shlex.split(example)[1:], stdin=unread))
