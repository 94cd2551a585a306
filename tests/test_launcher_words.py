"""./ctm's own words, and why words are refused: its table of words against docs/FORMAT.md, the manual pages and the program."""

import re
import shlex
import subprocess
import sys

import pytest
from conftest import BYTES, TOP, hold, limit
from messages import TOO_LARGE
from worked import CORRIDOR

sys.path.append(str(TOP / "launcher"))
from word_table import read_table

FORMAT = (TOP / "docs/FORMAT.md").read_text()
TABLE = read_table()
MODES = {mode.word: mode.options for mode in TABLE.modes.values()}
RANGES = {option.word: option.range for option in TABLE.options.values() if option.range}
WORDS = {option.word: option.words for option in TABLE.options.values() if not option.range}
WORDS_TOO = {option.word: option.words[0] for option in TABLE.options.values() if option.range and option.words}
DEFAULTS = {option.word: option.default for option in TABLE.options.values()}


def rows_of(heading, page=FORMAT):
    """The cells of the table whose first column has this heading."""
    lines = page.partition(f"\n| {heading} |")[2].partition("\n\n")[0].splitlines()[2:]
    return [[cell.strip() for cell in re.split(r"(?<!\\)\|", line.strip("|"))] for line in lines]


def numbers_of(text):
    return re.findall(r"\d+", text)


REFUSED = [shlex.split(example)[1:] for row in rows_of("Words") for example in re.findall(r"`(ctm[^`]*)`", row[1])]


def test_the_table_has_all_words_of_today():
    assert (len(MODES), len(RANGES), len(DEFAULTS), WORDS) == (10, 8, 9, {"cut": ["even", "grown"]})
    assert WORDS_TOO == {"regions": "auto"}
    assert len(REFUSED) >= 20


def test_the_newest_version_of_the_changes_is_that_of_the_table():
    assert re.search(r"^## (\S+?),? ", (TOP / "CHANGELOG.md").read_text(), re.MULTILINE)[1] == TABLE.version


def test_the_page_has_the_modes_options_and_ranges_of_the_table():
    assert {row[0].strip("`"): re.findall(r"`--(\w+)`", row[1]) for row in rows_of("Mode")} == MODES
    reads = {"nothing": "nothing", "network": "a network", "saved": "a [saved text]"}
    assert all(row[2].startswith(reads[TABLE.modes[row[0].strip("`")].input]) for row in rows_of("Mode"))
    told = {row[0].strip("`-"): row for row in rows_of("Option")}
    assert list(told) == list(TABLE.options)
    numbers = {name: tuple(map(int, re.findall(r"\d+", row[1]))) for name, row in told.items() if "number" in row[1]}
    words = {name: re.findall(r"`(\w+)`", row[1]) for name, row in told.items()}
    assert numbers == RANGES
    assert words == {option.word: option.words for option in TABLE.options.values()}
    assert {name: row[2].strip("`") for name, row in told.items()} == DEFAULTS
    assert {name: numbers_of(row[3]) for name, row in told.items()} == \
        {option.word: numbers_of(option.says) for option in TABLE.options.values()}
    assert numbers_of(TABLE.modes["convert"].says) == numbers_of(next(row[3] for row in rows_of("Mode") if row[0] == "`convert`"))


def test_help_has_the_modes_options_and_ranges_of_the_table(without_rt):
    status, out, err = without_rt.call("--help")
    assert (status, err) == (0, "")
    modes, _, options = out.partition("An option takes")
    words = re.findall(r"^  --(\w+) WORD .*; (\w+) or (\w+), and (\w+) where", options, re.MULTILINE)
    assert {name: [one, other] for name, one, other, _ in words} == WORDS
    shown = dict(re.findall(r"^  (\w+) .*\n(?: +options: (.*))?", modes, re.MULTILINE))
    assert {mode: words.replace("--", "").split() for mode, words in shown.items()} == MODES
    terms = re.findall(r"^  --(\w+) .*; from (\d+) to (\d+)(?: or \w+)?, and (\d+) where", options, re.MULTILINE)
    assert {name: (int(least), int(most)) for name, least, most, _ in terms} == RANGES
    assert dict(re.findall(r"^  --(\w+) .*; from \d+ to \d+ or (\w+), and", options, re.MULTILINE)) == WORDS_TOO
    assert {name: default for name, _, _, default in [*terms, *words]} == DEFAULTS
    told = " ".join(re.findall(r"^  \./ctm (.*?)  ", out, re.MULTILINE))
    assert re.findall(r"--?[a-zA-Z]+|help", told) == TABLE.own_spellings("./ctm")


def test_the_page_has_the_words_that_ctm_answers_itself():
    told = FORMAT.partition("\n`./ctm`, which builds the program")[2].partition("\n\n")[0]
    assert set(re.findall(r"`(-[-\w]+|help)`", told.partition("Where the words")[0])) == set(TABLE.own_spellings("./ctm"))


def test_the_manual_has_the_modes_options_and_ranges_of_the_table():
    manual = (TOP / "docs/ctm.1").read_text().replace("\\-", "-")
    synopsis = manual.partition(".SH SYNOPSIS")[2].partition(".SH DESCRIPTION")[0]
    calls = re.split(r"^\.B ctm ", synopsis, flags=re.MULTILINE)[1:]
    assert {call.split()[0]: sorted(re.findall(r"--(\w+)", call)) for call in calls} == \
        {mode: sorted(options) for mode, options in MODES.items()}
    letters = {name: letter for call in calls for name, letter in re.findall(r"--(\w+)\n\.IR (\w+)", call)}
    assert letters == {option.word: option.letter for option in TABLE.options.values()}
    description, _, options = manual.partition(".SH DESCRIPTION")[2].partition(".SH OPTIONS")
    assert set(re.findall(r"^\.TP\n\.B (\w+)$", description, re.MULTILINE)) == set(MODES)
    told = {it.split()[0]: it for it in options.partition(".SH FILES")[0].split("\n.TP\n.BI --")[1:]}
    terms = {name: re.search(r"from (\d+) to (\d+)(?:, and|; with) (\d+)(?:, and)? where", told[name]).groups() for name in RANGES}
    assert {name: (int(least), int(most)) for name, (least, most, _) in terms.items()} == RANGES
    words = {name: re.findall(r"^\.BR (\w+) ,$", told[name], re.MULTILINE) for name in WORDS}
    assert words == WORDS
    assert {name: re.findall(r"^\.BR (\w+) :$", told[name], re.MULTILINE) for name in WORDS_TOO} == \
        {name: [word] for name, word in WORDS_TOO.items()}
    assert {name: default for name, (_, _, default) in terms.items()} | {name: own[0] for name, own in words.items()} == DEFAULTS


def test_the_manual_of_ctm_wait_has_its_range():
    least, most = TABLE.waiting.split("..")
    assert f"number of workers, a whole number from {least} to {most}.\n" in (TOP / "docs/ctm-wait.1").read_text()


def words_at_the_ends():
    for option, (least, most) in RANGES.items():
        mode = next(mode for mode, options in MODES.items() if option in options)
        for value in {least - 1, least, most, most + 1}:
            yield [mode, f"--{option}={value}"]
    for option, words in WORDS.items():
        mode = next(mode for mode, options in MODES.items() if option in options)
        for value in [*words, *(word.upper() for word in words), " ".join(words), "", "0"]:
            yield [mode, f"--{option}={value}"]
    for option, word in WORDS_TOO.items():
        mode = next(mode for mode, options in MODES.items() if option in options)
        yield from ([mode, f"--{option}={value}"] for value in (word, word.upper(), word[:-1], f"{word} 1"))
    for mode, options in MODES.items():
        yield [mode]
        yield from ([mode, f"--{option}", "1"] for option in RANGES)
        yield from ([mode, f"--{option}", word] for option, words in WORDS.items() for word in words)


OTHER_WORDS = [["--regions", "2", "run"], ["--regions=2", "run"], ["--", "run"], ["run", "--regions", "3", "--"],
               ["run", "--regions", "008"], ["run", "--regions", "0000000008"], ["run", "--regions", "-5"],
               ["run", "--regions=-5"], ["run", "--regions", "-"], ["run", "--regions", "--workers", "2"],
               ["run", "--regions="], ["run", "--=3"], ["run", "-"], ["run", "--", "--"], ["run", "---"], [""],
               ["run", ""], ["run", "--regions", "２"], ["run", "--regions", "1 "], ["run", "--regions=1=1"],
               ["run", "--regions", "3", "--regions", "3"], ["run", "-regions", "3"], ["run", "--Regions", "3"],
               ["run", "run"], ["check", "--workers", "2"], ["run", "--until", "1"], ["choose", "--workers", "4"],
               ["cut", "--workers", "2"], ["convert", "--seed=1"], ["run", "--regions", "513"], ["run", "--regions", "+3"],
               ["watch", "--shots", "65"], ["recut", "--parts", "65"], ["run", "--cut", "Grown"], ["run", "-r", "3"]]


OWN_WORDS = {*TABLE.own_spellings("./ctm")}
TRIED = [words for words in [*words_at_the_ends(), *OTHER_WORDS, *REFUSED] if not OWN_WORDS & {*words}]


@pytest.mark.parametrize("words", TRIED, ids=" ".join)
def test_words_are_refused_where_the_program_refuses_them(words, program, without_rt):
    """The program refuses words at once, so one that still runs has taken them."""
    status = subprocess.run([program, *words], input=CORRIDOR, stdout=subprocess.DEVNULL, stderr=subprocess.DEVNULL,
                            preexec_fn=lambda: limit(2, BYTES)).returncode
    assert without_rt.call(*words)[0] == (2 if status == 2 else 125)


@pytest.mark.parametrize("words, told", [
    (["run", "--regions", "513"], ["--regions takes", "from 1 to 512", "and not 513"]),
    (["run", "--regions=0"], ["--regions takes", "from 1 to 512", "and not 0"]),
    (["watch", "--shots", "65"], ["--shots takes", "from 1 to 64", "and not 65"]),
    (["run", "--every", "100001"], ["--every takes", "from 0 to 100000", "and not 100001"]),
    (["run", "--workers=2x"], ["--workers takes", "from 1 to 16", "and not 2x"]),
    (["run", "--regions"], ["--regions has no value", "from 1 to 512"]),
    (["run", "--regions", "3", "--regions", "4"], ["--regions stands twice"]),
    (["check", "--every", "60"], ["check has no option --every", "it has none"]),
    (["run", "--shots", "1"], ["run has no option --shots", "--regions --cut --workers --every"]),
    (["run", "--reg", "3"], ["--reg is no option", "--regions --cut"]),
    (["run", "-r", "3"], ["-r is no option"]),
    (["run", "--cut", "odd"], ["--cut takes even or grown, and not odd"]),
    (["run", "--cut=even grown"], ["--cut takes even or grown, and not even\\ grown"]),
    (["run", "--cut"], ["--cut has no value; it takes even or grown"]),
    (["recut", "--parts", "0"], ["--parts takes", "from 1 to 64", "and not 0"]),
    (["cut", "--cut", "grown"], ["cut has no option --cut", "it has --regions"]),
    (["run", "--regions", "most"], ["--regions takes", "from 1 to 512", ", or auto, and not most"]),
    (["drive"], ["drive is no mode", "run watch sample save resume choose recut cut check convert"]),
    ([], ["no mode is given", "run watch sample save resume choose recut cut check convert"]),
    (["run", "check"], ["check is a word too many"]),
    (["--", "run", "--regions", "3"], ["--regions stands behind two dashes"]),
    (["run", "ctm"], ["a network is read from standard input: ./ctm run < ctm"]),
    (["run", "no such file.csv"], ["./ctm run < no\\ such\\ file.csv"]),
    (["ctm"], ["ctm is no mode", "./ctm run < ctm"]),
    ([b"\xff"], ["$'\\377' is no mode"]),
    (["run", "--x]=$(echo x)"], ["is no option"]),
    (["run", "--regions=a[$(echo x >&2)]"], ["and not a"]),
], ids=str)
def test_which_word_is_refused_and_why(words, told, without_rt):
    status, out, err = without_rt.call(*words, cwd=without_rt.top)
    assert (status, out, err.count("\n")) == (2, "", 1)
    assert err.startswith("./ctm: ")
    for it in told:
        assert it in err


@pytest.mark.parametrize("mode", MODES)
def test_the_program_reads_as_much_as_the_table_says(mode, run):
    """An input of one byte more is refused for its length alone; one that is as long is refused for what it is."""
    most = TABLE.inputs[TABLE.modes[mode].input]
    if most == 0:
        assert run([mode, "--size", "1"], input=b"x")[0] == 0
    else:
        assert run([mode], input=b"x" * most)[0] in (3, 8, 9)
        hold((4, b"", TOO_LARGE), run([mode], input=b"x" * (most + 1)))


@pytest.mark.parametrize("command, word", [("ctm", "--help"), ("ctm", "--version"), ("ctm-wait", "--help")])
def test_a_page_that_cannot_be_written_is_told_in_one_line(command, word, without_rt):
    with open("/dev/full", "wb") as full:
        ended = subprocess.run([without_rt.top / command, word], stdout=full, stderr=subprocess.PIPE, text=True)
    assert (ended.returncode, ended.stderr) == (6, f"./{command}: the text can't be written\n")


@pytest.mark.parametrize("words", [["--help"], ["-h"], ["help"], ["run", "--help"], ["run", "-h"]], ids=" ".join)
def test_help_is_shown_without_a_program(words, without_rt):
    status, out, err = without_rt.call(*words)
    assert (status, err) == (0, "")
    assert out.startswith("usage: ./ctm MODE [OPTIONS] < FILE\n")


def test_the_version_and_the_commit(repository):
    status, out, err = repository.call("--version")
    assert (status, err) == (0, "")
    assert re.fullmatch(r"ctm \d+\.\d+, commit unknown\n", out)

    def git(*words):
        named = ["-c", "user.name=a", "-c", "user.email=a@b"]
        return subprocess.run(["git", "-C", repository.top, *named, *words], check=True, stdout=subprocess.PIPE).stdout

    git("init", "-q")
    git("add", ".")
    git("commit", "-q", "-m", "all")
    commit = git("log", "-1", "--format=%h of %cs").decode()
    assert repository.call("--version")[1].endswith(f", commit {commit}")
    repository.edit("low")
    assert "changes to its crates that are not committed" in repository.call("--version")[1]
