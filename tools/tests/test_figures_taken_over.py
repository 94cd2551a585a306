"""Figures that a document takes over from another one's table, from a file or from a count are the ones that stand there."""

import re

import pytest

from .page_figures import figures, read
from .test_documents import TOP

SPEED, EXAMPLES = read("docs/SPEED.md"), read("examples/README.md")
MAP = read("docs/inside/MAP.md").split("## Check times")[1]


def times_of(file):
    """The cells, the steps and the seconds of a row of docs/SPEED.md's first table."""
    cells, steps, seconds = re.search(rf"^{file} +(\d+) +(\d+) +([\d.]+) ", SPEED, re.MULTILINE).groups()
    return int(cells), int(steps), float(seconds)


@pytest.mark.parametrize("row, file, places", [("1,252 cells with ramps and signals, demand in every step", "made 1000 dense", 3),
                                               ("1,000 cells in a row", "long", 2), ("100,000 cells in a row", "wide", 2)])
def test_the_times_on_the_page_on_time_are_those_of_the_tables(row, file, places):
    cells, steps, seconds = times_of(file)
    assert row.startswith(f"{cells:,} cells")
    assert f"| {row} | {steps:,} | {seconds:.{places}f} |" in read("docs/how-to/fast.md")


def test_how_large_a_network_has_to_be_for_workers():
    """Where the ratio of docs/SPEED.md falls below 1, and from where on `--regions auto` takes several regions."""
    ratios = {int(cells.replace(",", "")): float(ratio) for cells, ratio in re.findall(r"^\| ([\d,]+) \| [\d. to]*?([\d.]+) \|$", SPEED, re.MULTILINE)}
    fewest = min(cells for cells, ratio in ratios.items() if ratio < 1)
    several = int(re.search(r"FEWEST_CELLS: \w+ = ([\d_]+);", read("crates/call_beginning/src/used_regions.rt"))[1].replace("_", ""))
    assert f"in a row of cells from some {fewest:,} on" in read("docs/how-to/fast.md")
    assert f"four workers help from some {fewest:,} cells on" in SPEED and f"several regions from {several:,} on" in SPEED


def test_what_strangers_calls_may_take_is_what_the_tables_have():
    security = read("SECURITY.md")
    cells, steps, seconds = times_of("wide junctions")
    megabytes = re.search(r"Sixteen plans over 100,000 cells take (\d+) MB", SPEED)[1]
    assert f"measures {seconds:.2f} s for {round(cells, -3):,} cells, of which every fifth parts or joins, through {steps:,} steps" in security
    assert f"Most memory is taken by 16 plans, [{megabytes} MB]" in security


def test_the_decisions_have_the_instructions_of_the_tables():
    cell, turn = (re.search(rf"^\| {what} \| (?:some )?([\d.]+)", SPEED, re.MULTILINE)[1] for what in ("a cell with its link", "a turn, beside .*"))
    decisions = read("docs/inside/DECISIONS.md")
    assert f"through a step: {cell} instructions a cell" in decisions and f"**What a turn costs**: {turn} instructions beyond" in decisions


def test_the_aims_of_the_map_stand_beside_what_there_is():
    """The minutes of the times and of the last full check, the must-fail edits, and the lines of definitions and proofs."""
    times = [line.split(",") for line in read("launcher/check_times.csv").splitlines()[1:]]
    seconds = sum(float(cell) for _, _, *both, _ in times for cell in both if cell != "none")
    edits = sum(line.startswith("edit ") for line in read(".ci/counts.txt").splitlines())
    minutes = int(re.search(r"in all some (\d+) minutes", MAP)[1])
    last = round(int(re.search(r"^proofs,(\d+)$", read("launcher/checks/times.csv"), re.MULTILINE)[1]) / 60)
    lines = sum(len(path.read_text().splitlines()) for folder in ("specs", "proofs") for path in TOP.glob(f"crates/*/{folder}/**/*.antt"))
    assert f"took {last} processor-minutes at" in MAP
    assert f"Aims: 110 processor-minutes ({last} on a busy machine" in MAP and f"; {round(seconds / 60) + minutes} by these seconds)" in MAP
    assert f" 170 edits ({edits})," in MAP and f"lines of specs and proofs ({round(lines, -3):,})" in MAP


@pytest.mark.parametrize("page, text, section", [
    ("docs/how-to/closures.md", "The works cost 2,328 vehicle-hours", "Road works"),
    ("docs/how-to/detectors.md", "raises the delay from 117 to 210 vehicle-hours", "Two days of detectors"),
    ("docs/how-to/other-ways.md", "costs 1,794 vehicle-hours, if 30 % are 1,168, and if all are 3 (", "A town with a bypass"),
    ("tools/docs/plans.md", "with 138.83 vehicle-hours", "Ten signals, sixteen plans"), ("tools/docs/plans.md", "with 12.83 vehicle-hours", "Ten signals, sixteen plans")])
def test_the_delays_of_other_pages_are_those_of_the_examples(page, text, section):
    """As they are, or rounded; where a report has vehicle-steps of 10 s, so many hours."""
    assert text in read(page)
    part = EXAMPLES.split(f"\n## {section}\n")[1].split("\n## ")[0]
    known = {float(figure.replace(",", "")) for figure in figures(part) if ":" not in figure and "e" not in figure}
    known |= {value / 360 for value in known}
    for figure in figures(text) - {"30"}:
        value, places = float(figure.replace(",", "")), len(figure.partition(".")[2])
        assert any(abs(one - value) <= 0.5 * 10 ** -places for one in known), figure
