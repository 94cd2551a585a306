"""Runs in parts, each in another cutting: the report is the one of `run`, whatever the parts, regions and workers."""

import pytest
from conftest import TOP, hold
from made_networks import made_network
from messages import fault
from plain_model import report as plain_report
from worked import CORRIDOR, RAMPS, REPORT, lines


@pytest.mark.parametrize("words", [
    [], ["--parts", "1"], ["--parts", "2", "--regions", "2"], ["--parts", "64"], ["--parts=3", "--regions=512", "--workers=4"],
], ids=" ".join)
def test_a_corridor_in_parts(words, run):
    hold((0, REPORT, b""), run(["recut", *words], input=CORRIDOR))


def test_the_regions_of_the_file_are_not_looked_at(run):
    content = CORRIDOR.replace(b"ctm,1", b"ctm,2") + lines("region,in,1; region,a,0; region,out,1")
    hold((0, REPORT, b""), run(["recut", "--parts", "2"], input=content))


def test_a_fault_of_a_network_that_is_to_be_run_in_parts(run):
    hold((3, b"", fault("5 code 5 BadNumber")), run(["recut"], input=CORRIDOR.replace(b"exit,out,2", b"exit,out,x")))


EXAMPLES = sorted((TOP / "examples").glob("*.csv"))


@pytest.mark.parametrize("path", EXAMPLES, ids=lambda path: path.stem)
def test_an_example_in_parts(path, run):
    content = path.read_bytes()
    whole = run(["run"], input=content)
    for parts, regions, workers in [(1, 7, 4), (4, 1, 1), (4, 512, 4), (64, 7, 1), (64, 512, 4)]:
        words = ["recut", "--parts", str(parts), "--regions", str(regions), "--workers", str(workers)]
        hold(whole, run(words, input=content))


@pytest.mark.parametrize("seed", range(400))
def test_a_made_network_in_parts(seed, run):
    """The last hundred have speeds."""
    content = made_network(3000 + seed, 5 + seed % 40, 5 + seed % 30, regions=seed % 2 * 3, speeds=seed // 300 / 2)
    words = ["recut", "--parts", str(1 + seed % 9), "--regions", str(1 + seed % 6), "--workers", str(1 + seed % 3)]
    hold((0, plain_report(content), b""), run(words, input=content))


def test_a_corridor_with_ramps_in_parts(run):
    hold(run(["run"], input=RAMPS), run(["recut", "--parts", "64", "--regions", "127", "--workers", "2"], input=RAMPS))
