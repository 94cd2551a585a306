"""The documents: each command in them runs, each link leads somewhere, and each crate is told."""

import os
import re
import shutil
import subprocess
import sys
from functools import cache

import pytest

from .examples import TOOLS

TOP = TOOLS.parent
COMMANDS_IN = {"docs/TUTORIAL.md": 9, "docs/how-to/signals.md": 2, "docs/how-to/closures.md": 4, "docs/how-to/sumo.md": 3,
               "docs/how-to/detectors.md": 3, "docs/how-to/how-sure.md": 1, "docs/how-to/other-ways.md": 2,
               "docs/how-to/fast.md": 1, "docs/how-to/open.md": 0, "README.md": 8, "tools/README.md": 9, "examples/README.md": 17, "tools/docs/measures.md": 6,
               "tools/docs/networks.md": 1, "tools/docs/calibration.md": 0, "tools/docs/saved.md": 6,
               "tools/docs/plans.md": 2, "tools/docs/pages.md": 3, "tools/docs/counts.md": 0, "tools/docs/detectors.md": 1, "tools/docs/queues.md": 0, "tools/docs/sweeps.md": 1,
               "tools/docs/python.md": 0, "tools/docs/units.md": 0, "tools/docs/uncertainty.md": 1, "tools/docs/routes.md": 2,
               "tools/docs/yields.md": 0, "tools/docs/speeds.md": 0, "tools/docs/maps.md": 4}  # and how many there are at least
PAGES = sorted(str(path.relative_to(TOP)) for path in
               [*TOP.glob("*.md"), *TOP.glob("docs/**/*.md"), *TOP.glob("tools/docs/*.md"), TOP / "tools/README.md",
                TOP / "examples/README.md"])

# Why a command isn't run here.
LEFT_OUT = {
    "tools/setup": "it installs packages",
    "./ctm --install": "it builds the programs",
    "dask-scheduler --host 127.0.0.1 --port 8786 --dashboard-address 127.0.0.1:8787": "it runs until it is ended",
    "dask-worker tcp://127.0.0.1:8786 --host 127.0.0.1 --dashboard-address 127.0.0.1:0": "it needs a cluster",
    "./ctm-tools sweep study.toml --vary demand=0.8:1.2:0.01 --dask tcp://127.0.0.1:8786": "it needs a cluster",
    "dask-scheduler --protocol tls --tls-ca-file ca.pem --tls-cert scheduler.pem --tls-key scheduler.key --host 10.0.0.1 --no-dashboard":
        "it runs until it is ended",
    "dask-worker tls://10.0.0.1:8786 --tls-ca-file ca.pem --tls-cert worker.pem --tls-key worker.key --no-dashboard": "it needs a cluster",
    "./ctm-tools sweep study.toml --vary demand=0.8:1.2:0.01 --dask tls://10.0.0.1:8786": "it needs a cluster",
    "./ctm-tools import sumo town.net.xml --routes town.rou.xml --until \"1 h\" -o town.toml": "its files are a user's",
    "./ctm-tools import gmns town -o town.toml": "its files are a user's",
    "./ctm-tools import sumo NET.net.xml": "its files are a user's",
    "./ctm-tools calibrate study.toml --observed det.csv --vary lane.saturation_flow=1800:2400 --vary demand=0.9:1.1":
        "its files are a user's",
    "./ctm-tools draw STUDY.toml": "examples/README.md has one of a study with something uncertain",
    "./ctm-tools diagram detector.csv --lanes 3": "its file is a user's",
    './ctm-tools detectors "d04_*.txt.gz" --station 400001 --dates weekdays --holidays US-CA --leave-out all -o 400001.csv':
        "its files are a user's",
    "./ctm-tools detectors FILE..": "its files are a user's",
    "./ctm-tools branch SAVED STUDY..": "its files are a user's",
    "./ctm-tools assign STUDY.toml": "tools/docs/routes.md has one of a study with trips",
    "./ctm-tools optimise STUDY.toml --signals": "tools/docs/plans.md has one of a study with signals",
    "./ctm-tools meter STUDY.toml": "tools/docs/saved.md has one of a study with meters",
    "./ctm-tools calibrate STUDY.toml --observed FILE.csv --vary KEY=LOW:HIGH": "its files are a user's",
    "./ctm-tools diagram FILE.csv": "its file is a user's",
    "./ctm-tools open STUDY.toml": "it runs until it is ended",
    "./ctm-tools open road.toml": "it runs until it is ended",
    "./ctm-tools open STUDY.toml STUDY2.toml": "it runs until it is ended",
    "./ctm-tools report town.report --map-behind": "its files are a user's",
}

# What stands for what a reader puts in.
GIVEN = {"FILE.toml": "written.toml", "FOLDER": "copied", "STUDY.toml": "examples/bottleneck.toml", "NET.csv": "bottleneck.csv", "PICTURE": "time-space",
         "REPORT": "bottleneck.report", "A B": "bottleneck.report bottleneck.report", "KEY=VALUES": "demand=0.9,1",
         "MAP.osm": "examples/lane-drop.osm"}

# Nothing here may build the program: `./ctm` is the one under test, but for the launcher's own page.
STAND_IN = """#!/usr/bin/env bash
[ "$1" != --help ] || exec {top}/ctm --help
[ "$1" != --try ] || shift
exec "$CTM_PROGRAM" "$@"
"""


def read(name):
    return (TOP / name).read_text()


def commands(page):
    """The commands of a page in their order: lines of its blocks, and what stands between backticks elsewhere."""
    for number, part in enumerate(re.split(r"^```$", page, flags=re.MULTILINE)):
        if number % 2:
            found = re.findall(r"^(?:\./|\.ci/|tools/|tests/|sed |cp |cat |dask-|netgenerate ).*", part, re.MULTILINE)
        else:
            found = re.findall(r"`((?:\./)?ctm(?:-tools)? [^`]*|man -l [^`]*|\.ci/run|tools/setup)`", part)
        for command in found:
            command = command.partition(" #")[0].strip()
            # A mode or a command of the tools by itself is a name.
            if not re.fullmatch(r"(\./)?ctm(-tools)? \w+", command):
                yield f"./{command}" if command.startswith("ctm-tools") else command


def given(command):
    for placeholder, words in GIVEN.items():
        command = re.sub(rf"\b{placeholder}\b", words, command)
    return command


def laid(folder):
    """A folder like the repository's top, in which the commands can be run as they are written."""
    for name in ("ctm-tools", "docs", "examples", "tools"):
        (folder / name).symlink_to(TOP / name)
    stand_in = folder / "ctm"
    stand_in.write_text(STAND_IN.format(top=TOP))
    stand_in.chmod(0o755)
    return folder


@pytest.fixture
def top(tmp_path, program):
    return laid(tmp_path)


@pytest.fixture(scope="module")
def first_report(recording_program, tmp_path_factory):
    """The files of the report that the first pages make, and others are about."""
    folder = laid(tmp_path_factory.mktemp("first"))
    assert ended(folder, recording_program, "./ctm-tools", "run", "examples/bottleneck.toml")[0] == 0
    return [*folder.glob("bottleneck.*")]


def ended(top, program, *words):
    """The status of a command, and what it wrote. What it needs of Python this one has, so no other is looked for."""
    around = {"CTM_PROGRAM": program, "CTM_PYTHON": sys.executable, "PYTHONPATH": str(TOOLS)}
    done = subprocess.run(words, cwd=top, env={**os.environ, **around}, stdout=subprocess.PIPE, stderr=subprocess.STDOUT,
                          text=True, errors="replace")
    return done.returncode, done.stdout


def copy_into(folder, files):
    for path in files:
        shutil.copy(path, folder)


def save_files(page, folder):
    """Saves the blocks of a page that a reader is told to save, each under the name before it."""
    for name, text in re.findall(r"`([\w.-]+)`:\n\n```\n(.*?)^```$", page, re.MULTILINE | re.DOTALL):
        (folder / name).write_text(text)


@pytest.mark.parametrize("name", COMMANDS_IN)
def test_the_commands_of_a_document_run(name, top, recording_program, first_report):
    if name.startswith("tools/docs/"):
        copy_into(top, first_report)
    save_files(read(name), top)
    to_run = [command for command in commands(read(name)) if command not in LEFT_OUT]
    assert len(to_run) >= COMMANDS_IN[name]
    for command in to_run:
        status, told = ended(top, recording_program, "bash", "-o", "pipefail", "-c", given(command))
        assert status == 0, f"{command}: status {status}: {told[-500:]}"


def test_the_manual_page_says_what_the_commands_say_and_completions_are_click_s():
    """tools/documents makes them anew."""
    completions = [f"packaging/shells/ctm-tools.{shell}" for shell in ("bash", "zsh", "fish")]
    subprocess.run([sys.executable, "-B", TOP / "packaging/documents.py", "--check", "docs/ctm-tools.1", *completions], check=True)


def test_each_command_that_is_left_out_is_in_a_document():
    told = {command for name in COMMANDS_IN for command in commands(read(name))}
    assert not LEFT_OUT.keys() - told


def test_the_lines_of_python_run(top, recording_program, first_report):
    lines = read("tools/docs/python.md").split("```\nimport ctmtools\n")[1].split("```")[0]
    copy_into(top, first_report)
    status, told = ended(top, recording_program, sys.executable, "-c", f"import ctmtools\n{lines}\nprint(queues.cell[0])")
    assert (status, told) == (0, "m20\n")


@pytest.mark.parametrize("begin, end", [("report = ctmtools.run(", "print(len(html) > 0)"),
                                        ("study = ctmtools.read_study(", "print(wider.title == 'Four lanes' and road.title == 'the study')")])
def test_the_lines_on_methods_and_on_studies_in_code_run(top, recording_program, begin, end):
    (lines,) = [block for block in read("tools/docs/python.md").split("```\n") if block.startswith(begin)]
    assert ended(top, recording_program, sys.executable, "-c", f"import ctmtools\n{lines}\n{end}") == (0, "True\n")


@pytest.mark.parametrize("question, answers", [
    # 5,040 vehicles/h come at most, and two lanes carry 4,320, 86 % of these. All of the demand is the lane drop of examples/README.md.
    ("How much less", ["80% of the demand: a queue of 0.00 km", "100% of the demand: a queue of 3.25 km", "No queue up to 85%"]),
    ("When does the drive", ["A departure at 08:00:00 takes 11.2 min, 5.0 at free flow"]),
    ("What would", ["as it is: 461.25 vehicle-hours, 3.25 km, until 08:40", "341.25 vehicle-hours are saved"])])
def test_a_question_is_answered_in_twenty_lines_of_python(top, recording_program, question, answers):
    lines = read("tools/docs/python.md").split(f"\n{question}")[1].split("```\n")[1]
    status, told = ended(top, recording_program, sys.executable, "-c", lines)
    assert len(lines.splitlines()) <= 20 and status == 0 and stand_in_order(answers, told)


def blocks(page):
    """The lines of each block of a page, with the text before it."""
    parts = re.split(r"^```$", page, flags=re.MULTILINE)
    return [(before, block.strip("\n").splitlines()) for before, block in zip(parts[::2], parts[1::2])]


def stand_in_order(lines, text):
    """Whether these lines stand in a text, one behind the other. `...` stands for others, and comments are a page's own."""
    rest = iter(text.splitlines())
    return all(line in rest for line in lines if line != "..." and not line.startswith("#"))


def stand_together(lines, text):
    """Whether the lines before, between and behind `...` stand in a text in their order, each right behind the one before it but
    for blank lines.
    """
    rest = "\n".join(["", *filter(None, text.splitlines()), ""])
    for part in filter(str.strip, re.split(r"^\.\.\.$", "\n".join(lines), flags=re.MULTILINE)):
        part = part.strip("\n")
        if f"\n{part}\n" not in rest:
            return False
        rest = "\n" + rest.partition(f"\n{part}\n")[2]
    return True


def texts_shown(top, program, before, calls):
    """What an excerpt may be of: what each call writes, or all, with the numbers of steps that stand before it, or a file."""
    steps = (*re.findall(r"`steps,(\d+)`", before),) or (None,)
    written = [written_at(top, program, call, steps) for call in calls]
    return [*written, "".join(written) if steps != (None,) else "", *(read(file_of(call)) for call in calls)]


def file_of(call):
    return re.findall(r"examples/\S+", call)[-1]


@cache
def written_at(top, program, call, steps):
    """What a call writes of its file with each of these numbers of steps, or as the file stands. Each call is made once."""
    calls = [f"sed 's/^steps,.*/steps,{number}/' {file_of(call)} | ./ctm run" if number else call for number in steps]
    return "".join(ended(top, program, "bash", "-c", it)[1] for it in calls)


def test_the_excerpts_of_the_examples_are_what_the_commands_above_them_write(top, recording_program):
    calls, excerpts = [], 0
    for before, lines in blocks(read("examples/README.md")):
        if all(re.match(r"\./|sed ", line) for line in lines):
            calls = lines
            continue
        excerpts += 1
        assert any(stand_in_order(lines, text) for text in texts_shown(top, recording_program, before, calls)), lines
    assert excerpts == 18


def test_the_tutorial_shows_what_its_commands_print(top, recording_program):
    save_files(read("docs/TUTORIAL.md"), top)
    printed, excerpts = "", 0
    for before, lines in blocks(read("docs/TUTORIAL.md")):
        if all(re.match(r"\./|sed |cat ", line) for line in lines):
            printed = "".join(ended(top, recording_program, "bash", "-c", line)[1] for line in lines)
        elif not before.endswith("`:\n\n"):
            excerpts += 1
            assert stand_in_order(lines, printed), lines
    assert excerpts == 3


def test_the_example_of_the_format_is_the_file_and_its_report(top, recording_program):
    page = read("docs/FORMAT.md").split("### A lane drop")[1].split("\n## ")[0]
    file, report = (lines for _, lines in blocks(page))
    assert stand_together(file, read("examples/bottleneck.csv"))
    assert stand_together(report, ended(top, recording_program, "bash", "-c", "./ctm run < examples/bottleneck.csv")[1])
    assert f"in {len(read('examples/bottleneck.toml').splitlines())} lines" in read("README.md")


def check_times():
    """The rows of launcher/check_times.csv: a crate, its functions, the seconds of its proof and of its tests, and its edits."""
    return [line.split(",") for line in read("launcher/check_times.csv").splitlines()[1:]]


def test_the_must_fail_edits_and_the_tests_of_the_check_times_are_those_that_stand():
    page = read("docs/inside/MAP.md").split("## Check times")[1].split("\n## ")[0]
    rows = [(crate, tests, edits) for crate, _, _, tests, edits in check_times()]
    counts = [line.split() for line in read(".ci/counts.txt").splitlines()]
    assert [crate for crate, _, _ in rows] == [words[1] for words in counts if words[0] == "crate"]
    for crate, tests, edits in rows:
        stand = sum(words[:2] == ["edit", crate] for words in counts)
        assert edits == (str(stand) if stand else "none"), crate
        assert (tests == "none") == (["test", crate] not in [words[:2] for words in counts]), crate
    assert f"The {sum(words[0] == 'edit' for words in counts)} edits" in page


def test_the_times_of_the_map_add_up():
    page = read("docs/inside/MAP.md").split("## Check times")[1].split("\n## ")[0]
    proofs = {crate: int(proof) for crate, _, proof, _, _ in check_times()}
    tests = sum(int(seconds) for _, _, _, seconds, _ in check_times() if seconds != "none")
    assert f"some {sum(proofs.values()) / 60:.0f} processor-minutes of proofs and {tests / 60:.0f} of tests" in page
    edits, each, minutes = map(int, re.search(r"The (\d+) edits take some (\d+) s each, in all some (\d+) minutes", page).groups())
    assert round(edits * each / 60) == minutes
    named, seconds = re.search(r"By these seconds of busy processors the longest chain is: (.*), ([\d,]+) s\.", page).groups()
    chain = re.findall(r"`(\w+)`", named)
    assert f"{sum(proofs[crate] for crate in chain):,}" == seconds
    uses = {line.split()[0].rstrip(":"): line.partition(":")[2].split() for line in read("crates.txt").splitlines() if ":" in line}
    assert all(lower in uses[upper] for lower, upper in zip(chain, chain[1:]))


def anchors(page):
    """What a link to a heading of a page may name."""
    return {re.sub(r"[^\w\- ]", "", heading.lower()).replace(" ", "-")
            for heading in re.findall(r"^#+ (.*)$", page, re.MULTILINE)}


@pytest.mark.parametrize("name", PAGES)
def test_the_links_of_a_document_lead_somewhere(name):
    for link in re.findall(r"\]\(([^)]+)\)", read(name)):
        path, _, anchor = link.partition("#")
        target = ((TOP / name).parent / path).resolve() if path else TOP / name
        assert target.exists(), link
        assert not anchor or anchor in anchors(target.read_text()), link


def linked_from(name):
    """The files to which a page has links."""
    links = {link.partition("#")[0] for link in re.findall(r"\]\(([^)]+)\)", read(name))} - {""}
    return {str(((TOP / name).parent / link).resolve().relative_to(TOP)) for link in links}


def test_each_document_is_linked_from_a_first_page():
    linked = linked_from("README.md") | linked_from("docs/README.md") | linked_from("docs/inside/README.md")
    assert not set(PAGES) - linked - {"README.md"}


@pytest.mark.parametrize("page", ["docs/inside/MAP.md", "docs/inside/PROVED.md"])
def test_each_crate_is_told(page):
    crates = re.findall(r"^(\w+)[^:#\n]*:", read("crates.txt"), re.MULTILINE)
    assert len(crates) > 20
    told = re.findall(r"^\| `(\w+)`" if page == "docs/inside/MAP.md" else r"\*\*`(\w+)`\*\*", read(page), re.MULTILINE)
    assert set(crates) <= set(told)


INSIDE = [page for page in PAGES if page.startswith("docs/inside/")]


@pytest.mark.parametrize("page", ["crates/ctm/src/lib.rt", "docs/inside/PROVED.md", "docs/inside/pictures/crates.svg", "docs/inside/pictures/field.svg",
                                  *(str(path.relative_to(TOP)) for path in sorted(TOP.glob("docs/pictures/*.svg")))])
def test_what_is_made_of_the_sources_is_made_of_these(page):
    """tools/documents makes it anew."""
    subprocess.run([sys.executable, "-B", TOP / "packaging/documents.py", "--check", page], check=True)


def clauses_of_functions():
    """The names of the clauses of each function, by its file and name."""
    found = {}
    for line in read("contracts.txt").splitlines():
        path, function, told = re.match(r"(\S+) (.+?): (.*)$", line).groups()
        clause = re.match(r"ensures (\w+) \{", told)
        found.setdefault((path, function), set()).update(clause.groups() if clause else ())
    return found


def test_the_clauses_that_a_claim_names_are_those_of_its_function():
    known, named = clauses_of_functions(), 0
    link = r"\[`([^`]+)`\]\(\.\./\.\./crates/([^)]+)\)((?:(?:: |, )`\w+`(?: \([^)]*\))?)*)"
    for function, path, behind in re.findall(link, read("docs/inside/PROVED.md")):
        assert (path, function) in known, (path, function)
        if behind.startswith(": "):
            clauses = re.findall(r"`(\w+)`", re.sub(r" \([^)]*\)", "", behind))
            assert set(clauses) <= known[path, function], (function, clauses)
            named += len(clauses)
    assert named > 150


def test_a_word_stands_once_in_both_glossaries():
    """Whatever stands behind it in brackets, or as its letter."""
    told = [re.sub(r",? \(?`.*", "", word) for page in ("docs/WORDS.md", "docs/inside/WORDS.md")
            for word in re.findall(r"^\| ([^|]+?) \|", read(page), re.MULTILINE) if word != "Word"]
    assert len(told) > 100
    assert not {word for word in told if told.count(word) > 1}


def test_a_decision_is_told_in_80_words():
    told = [line for line in read("docs/inside/DECISIONS.md").splitlines() if line.startswith("**")]
    assert len(told) > 30
    assert not [line for line in told if len(line.split()) > 80]


def test_the_book_for_maintainers_stays_short():
    words = [word for page in [*INSIDE, "CONTRIBUTING.md"] for word in read(page).split() if re.search(r"\w", word)]
    assert len(words) <= 12_900  # with the primer, and the regions that stood in MODEL.md
