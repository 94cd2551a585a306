"""What the launcher and the documents have of the crates: words, lengths of inputs, statuses, lines, limits, kinds and codes,
against the sources of the crates, which are read as text.
"""

import re
import sys

import pytest
from conftest import TOP
from format_tables import MODEL, rows_of

sys.path.append(str(TOP / "launcher"))
from word_table import read_table

TABLE = read_table()
FORMAT = (TOP / "docs/FORMAT.md").read_text()
MANUAL = (TOP / "docs/ctm.1").read_text()


def source(path):
    return (TOP / "crates" / path).read_text()


def sources():
    """All sources of the programs."""
    return "".join(path.read_text() for path in sorted((TOP / "crates").glob("*/src/*.rt")) if "trials" not in str(path))


def function(path, name):
    """The body of a function."""
    text = source(path)
    return text[text.index(f"fn {name}("):].partition("\n{\n")[2].partition("\n}\n")[0] or \
        text[text.index(f"fn {name}("):].partition("\n    {\n")[2].partition("\n    }\n")[0]


def constant(path, name):
    """The value of a constant of whole numbers."""
    return int(re.search(rf"const {name}: \w+ = ([\d_]+);", source(path))[1])


def arms(body):
    """What each arm of a match gives, by the variants of an enum that it takes."""
    flat = re.sub(r"\s+", " ", body)
    return {variant: gives for names, gives in re.findall(r"((?:\w+::\w+(?: \| )?)+) => ([^,]+),", flat)
            for variant in re.findall(r"\w+::(\w+)", names)}


def cells(row):
    return [cell.strip() for cell in re.split(r"(?<!\\)\|", row.strip("|"))]


MODES = dict(re.findall(r'"(\w+)" => Some\(Mode::(\w+)\)', source("command_words/src/mode.rt")))
# The words of the options by their variants.
SETTINGS = {variant: word.strip('"') for variant, word in arms(function("command_words/src/setting.rt", "word")).items()}


def options():
    """The values of each option as the table of words has them, and its default, by how the crate reads them."""
    reading = source("command_words/src/reading.rt")
    kinds = re.findall(r'"(\w+)" => Some\(CutKind::(\w+)\)', source("command_words/src/cut_kind.rt"))
    path = "command_words/src/region_choice.rt"
    least, other = re.search(r"number_within\(text, (\d+), MOST_REGIONS\)", source(path))[1], re.search(r'text == "(\w+)"', source(path))[1]
    found = {
        "Cutting": (",".join(word for word, _ in kinds),
                    {kind: word for word, kind in kinds}[re.search(r"None => Some\(CutKind::(\w+)\)", reading)[1]]),
        "Regions": (f"{least}..{constant(path, 'MOST_REGIONS')},{other}",
                    re.search(r"None => Some\(RegionChoice::Count\((\d+)\)\)", reading)[1])}
    for variant, *numbers in re.findall(r"given\.number\(Setting::(\w+), ([\d_]+), ([\d_]+), ([\d_]+)\)", reading):
        least, most, default = (number.replace("_", "") for number in numbers)
        found[variant] = (f"{least}..{most}", default)
    return {SETTINGS[variant]: found[variant] for variant in SETTINGS}


def test_the_modes_are_those_of_the_crate():
    assert list(MODES) == list(TABLE.modes)


def test_the_options_with_their_values_and_defaults_are_those_of_the_crate():
    assert list(options().items()) == [(word, (option.values, option.default)) for word, option in TABLE.options.items()]


def test_each_mode_has_the_options_that_the_crate_takes():
    taken = {word: set() for word in MODES}
    for mode, settings in re.findall(r"\(Mode::(\w+), (Setting::[^)]+)\) => true", source("command_words/src/mode.rt")):
        word = next(word for word, variant in MODES.items() if variant == mode)
        taken[word] |= {SETTINGS[variant] for variant in re.findall(r"Setting::(\w+)", settings)}
    assert taken == {mode.word: set(mode.options) for mode in TABLE.modes.values()}


def test_the_input_of_each_mode_is_as_long_as_in_the_crates():
    path = "call_beginning/src/input.rt"
    reads, most = arms(function(path, "reads_source")), arms(function(path, "most_input"))
    lengths = {"MOST_BYTES": constant("network_file/src/limits.rt", "MOST_BYTES"),
               "MOST_SAVED_BYTES": constant(path, "MOST_SAVED_BYTES")}
    assert {word: lengths[most[mode]] if reads[mode] == "true" else 0 for word, mode in MODES.items()} == \
        {mode.word: TABLE.inputs[mode.input] for mode in TABLE.modes.values()}


def test_the_word_of_ctm_wait_is_that_of_its_crate():
    path = "wait_call/src/words.rt"
    assert re.findall(r"number_within\(word, (\d+), MOST_WORKERS\)", source(path)) == ["1"]
    assert TABLE.waiting == f"1..{constant(path, 'MOST_WORKERS')}"


def test_the_statuses_of_the_documents_are_those_of_the_crate():
    enum = source("call_ending/src/status.rt").partition("pub enum Status {")[2].partition("\n}")[0]
    known = [(number, name) for name, number in re.findall(r"^    (\w+) = (\d+),", enum, re.MULTILINE)]
    told = [tuple(cells(row)[:2]) for row in rows_of("Status | Name | When | Line on standard error")]
    assert list(dict.fromkeys(told)) == known
    manual = MANUAL.partition(".SH EXIT STATUS")[2].partition(".PP")[0]
    assert re.findall(r"^\.B (\d+)$", manual, re.MULTILINE) == [number for number, _ in known]


def test_each_line_on_standard_error_of_the_page_is_in_the_crates_and_none_is_missing():
    told = {line for row in rows_of("Status | Name | When | Line on standard error")
            for line in re.findall(r"`(ctm: [^`]*)`", cells(row)[3])}
    literal = {line.removesuffix("\\n") for line in re.findall(r'b"(ctm: [^"]*)"', sources())}
    known = {re.sub(r"code \d+ \w+$", "code C NAME", line) for line in literal if not line.endswith(" ")}
    begun = {line for line in literal if line.endswith(" ")}
    begun_told = {line for line in told if any(line.startswith(it) for it in begun)}
    assert told - begun_told == known
    assert all(any(line.startswith(it) for line in begun_told) for it in begun)
    assert begun_told == {"ctm: network: record R code C NAME", "ctm: network: plan p record R code C NAME", "ctm: plans: N"}


def test_the_codes_of_faults_are_those_of_the_crates():
    known = arms(function("record_fields/src/code.rt", "number"))
    rows = [cells(row) for row in rows_of("Code | Name | Example | Record")]
    assert {row[1].strip("`"): row[0] for row in rows if row[0]} == known
    names = arms(function("record_fields/src/code.rt", "name"))
    assert {name.strip('"') for name in names.values()} == set(known)
    saved = re.findall(r"ctm: saved: code (\d+) (\w+)", source("saved_modes/src/resume_mode.rt"))
    of_saved = [cells(row) for row in rows_of("Code | Name | Where")]
    assert [(row[0], row[1].strip("`")) for row in of_saved if row[1]] == saved
    assert [row[0] for row in of_saved] == [str(code) for code in range(1, len(of_saved) + 1)]
    network = next(cells(row)[0] for row in rows_of("Status | Name | When | Line on standard error") if "| Network |" in row)
    assert [row[2].rpartition(", ")[2] for row in of_saved if not row[1]] == [f"with status {network}"]


def first_format(text):
    """The first format that has a kind of record, by what is told of it."""
    told = re.search(r"(?:in|from) format (\d)", text)
    return told[1] if told else "1"


def test_the_kinds_of_records_have_as_many_fields_as_in_the_crate():
    path = "record_fields/src/record_kind.rt"
    counts = arms(function(path, "field_count"))
    known = {word: (counts[variant], first or "1") for word, first, variant in re.findall(
        r'b"(\w+)"(?: if format >= (\d))? => Some\(RecordKind::(\w+)\)', source(path))}
    rows = [cells(row) for row in rows_of("Kind | Fields behind the kind | Fields in all | Example")]
    assert {re.search(r"`(\w+)`", row[0])[1]: (row[2], first_format(row[0])) for row in rows} == known
    in_manual = re.findall(r"^\\fB(\w+),\\fR(.*)$", MANUAL.partition(".SH FILES")[2].partition("The report has")[0], re.MULTILINE)
    assert {kind: (str(1 + len(re.findall(r"\\fI", fields))), first_format(fields)) for kind, fields in in_manual} == known


@pytest.mark.parametrize("text, known", [
    ("The input has more than {} bytes", constant("network_file/src/limits.rt", "MOST_BYTES")),
    ("more than {} of a saved text", constant("call_beginning/src/input.rt", "MOST_SAVED_BYTES")),
    ("the run would record more than\n{} values", constant("call_beginning/src/recording.rt", "MOST_RECORDED")),
    ("the snapshots would show more than {} rows", constant("run_modes/src/watch_mode.rt", "MOST_SHOWN")),
    ("has no plans, or more than {}.", constant("plan_choice/src/pieces.rt", "MOST_PLANS")),
], ids=lambda it: it if isinstance(it, str) else "")
def test_the_limits_of_the_manual_are_those_of_the_crates(text, known):
    assert text.format(f"{known:,}") in MANUAL.partition(".SH EXIT STATUS")[2]


def test_the_formats_have_their_first_record_and_the_begin_of_their_counts():
    heads, *rows = [cells(row) for row in FORMAT.partition("\n## The formats\n")[2].split("\n\n")[1].splitlines() if "---" not in row]
    told = {name: formats for name, *formats in rows}
    assert heads == ["", "Format 1", "Format 2", "Format 3"]
    assert told["First record"] == ["`ctm,1`", "`ctm,2`", "`ctm,3`"]
    assert told["The line of counts begins with"] == ["`network,`", "`network2,`", "`network3,`"]


def test_the_most_plans_are_those_of_the_crate_wherever_they_are_told():
    most = constant("plan_choice/src/pieces.rt", "MOST_PLANS")
    assert f"the network with each of 1 to {most} plans," in TABLE.modes["choose"].says
    assert f"behind it 1 to {most} *plans*, each" in FORMAT
    assert f"behind it 1 to {most} plans, each" in MANUAL


@pytest.mark.parametrize("text, known", [
    ("A run may record {} values", constant("call_beginning/src/recording.rt", "MOST_RECORDED")),
    ("A watch may show {} rows", constant("run_modes/src/watch_mode.rt", "MOST_SHOWN")),
    ("for a network of fewer than {} cells,", constant("call_beginning/src/used_regions.rt", "FEWEST_CELLS")),
    ("and else {} for each worker,", constant("call_beginning/src/used_regions.rt", "EACH")),
    ("the number of cells divided by {},", constant("call_beginning/src/used_regions.rt", "FEWEST_OF_A_REGION")),
    ("and behind {} comes 1.", constant("network_file/src/limits.rt", "MOST_REGIONS")),
], ids=lambda it: it if isinstance(it, str) else "")
def test_the_limits_of_what_options_ask_for_are_those_of_the_crates(text, known):
    assert text.format(f"{known:,}") in MANUAL.partition(".SH OPTIONS")[2].partition(".SH FILES")[0]


@pytest.mark.parametrize("text, known", [
    ("the input has more than {} bytes, or with", constant("network_file/src/limits.rt", "MOST_BYTES")),
    ("or with `resume` more than {} |", constant("call_beginning/src/input.rt", "MOST_SAVED_BYTES")),
    ("would record more than {} values", constant("call_beginning/src/recording.rt", "MOST_RECORDED")),
    ("would show more than {} rows", constant("run_modes/src/watch_mode.rt", "MOST_SHOWN")),
    ("has no [separator](#plans) or more than {};", constant("plan_choice/src/pieces.rt", "MOST_PLANS")),
    ("| Most cells, connectors, limits and demands | {} of each |",
     constant("network_file/src/limits.rt", "MOST_RECORDS_OF_FORMAT_1")),
    (" of each | {} of each |", constant("step_plan/src/bounds.rt", "MOST_RECORDS")),
    ("| Most turns | none | {} |", constant("step_plan/src/bounds.rt", "MOST_RECORDS")),
    ("| Most speeds | none | none | {} |", constant("step_plan/src/bounds.rt", "MOST_RECORDS")),
    ("; `NUM`: whole 1 to {:d};", constant("fixed_flow/src/share.rt", "MOST_RATIO")),
    ("`T`: whole 1 to {:d} |", constant("step_plan/src/bounds.rt", "MOST_STEPS")),
    ("`cycle`: whole 1 to {:d};", constant("step_plan/src/bounds.rt", "MOST_STEPS")),
    ("`A`: whole 1 to {:d}; `B`: whole `A` to", constant("fixed_flow/src/share.rt", "MOST_RATIO")),
    ("; `P1`: whole 1 to {:d};", constant("fixed_flow/src/share.rt", "MOST_RATIO")),
    ("; `B1`: whole 1 to {:d};", constant("fixed_flow/src/share.rt", "MOST_RATIO")),
    ("; capacity: amount to {:d} |", constant("network_file/src/limits.rt", "MOST_CAPACITY") // 1_000_000),
    ("`N`: amount to {:d};", constant("network_file/src/limits.rt", "MOST_ROOM") // 1_000_000),
    ("`Q`: amount to {:d};", constant("network_file/src/limits.rt", "MOST_CAPACITY") // 1_000_000),
    ("together at most {} vehicles", constant("fixed_flow/src/amount.rt", "MOST_PARTS") // 1_000_000),
    ("region number: whole 0 to {:d} |", constant("network_file/src/limits.rt", "MOST_REGIONS") - 1),
    ("| whole number | 1 to {} ASCII digits |", constant("fixed_flow/src/whole_number.rt", "MOST_DIGITS")),
    ("| amount | 1 to {} ASCII digits,", constant("fixed_flow/src/spelling.rt", "MOST_WHOLE_DIGITS")),
    ("followed by `.` and 1 to {} ASCII digits", constant("fixed_flow/src/spelling.rt", "MOST_DECIMALS")),
    ("| name | 1 to {} bytes,", constant("record_fields/src/name.rt", "LONGEST")),
    ("for a network of fewer than {} cells. Else", constant("call_beginning/src/used_regions.rt", "FEWEST_CELLS")),
    ("Else it is {}·W,", constant("call_beginning/src/used_regions.rt", "EACH")),
    ("the number of cells divided by {},", constant("call_beginning/src/used_regions.rt", "FEWEST_OF_A_REGION")),
    ("A *number* is 1 to {} ASCII digits", constant("saved_run/src/number.rt", "MOST_DIGITS")),
], ids=lambda it: it if isinstance(it, str) else "")
def test_the_limits_of_the_page_are_those_of_the_crates(text, known):
    assert text.format(known if ":d" in text else f"{known:,}") in FORMAT


def test_the_bounds_of_a_row_in_the_model_are_of_the_limits_of_the_crates():
    for letter, most in ("C", constant("network_file/src/limits.rt", "MOST_CAPACITY")), ("M", constant("fixed_flow/src/amount.rt", "MOST_PARTS")):
        assert f"`{letter}` be {most // 1_000_000:,} vehicles (10^{len(str(most)) - 1} parts)" in MODEL and most == 10 ** (len(str(most)) - 1)
