"""The program whose workers wait, as it was built: over the examples, files with regions and large ones, refused words,
faults and streams that fail. What it writes is what `ctm run` is to write.
"""

import os

import pytest
from conftest import TOP, hold
from made_networks import made_network
from messages import READ_FAULT, TOO_LARGE, WORDS, WRITE_FAULT, fault
from plain_model import report as plain_report
from worked import CITY, CORRIDOR, REPORT, SPEED, TURN, TWO_ROADS, TWO_ROADS_REPORT, lines

WORKERS = pytest.mark.parametrize("workers", ["1", "4"])
EXAMPLES = sorted(path.stem for path in (TOP / "examples").glob("*.csv"))
IN_REGIONS = CORRIDOR.replace(b"ctm,1", b"ctm,2") + lines("region,out,0; region,a,1; region,in,2")


@WORKERS
@pytest.mark.parametrize("name", EXAMPLES)
def test_the_report_of_an_example(name, workers, wait):
    network, report = ((TOP / "examples" / f"{name}.{kind}").read_bytes() for kind in ("csv", "report"))
    hold((0, report, b""), wait([workers], input=network))


@WORKERS
@pytest.mark.parametrize("given, report", [(CORRIDOR, REPORT), (IN_REGIONS, REPORT), (TWO_ROADS, TWO_ROADS_REPORT)],
                         ids=["three cells", "a region for each cell in the file", "four cells"])
def test_a_report_that_was_worked_on_paper(given, report, workers, wait):
    hold((0, report, b""), wait([workers], input=given))


@WORKERS
@pytest.mark.parametrize("given", [made_network(5, 65, 30), made_network(6, 150, 20, regions=100), CITY, TURN, SPEED,
                                   made_network(7, 150, 20, regions=100, speeds=0.5)],
                         ids=["one cell more than regions", "a hundred regions in the file", "each kind of record", "turns", "speeds",
                              "speeds in a hundred regions"])
def test_the_report_is_that_of_the_plain_recurrences(given, workers, wait):
    hold((0, plain_report(given), b""), wait([workers], input=given))


@pytest.mark.parametrize("word", ["16", "016", "000000002"])
def test_each_spelling_of_a_number_of_workers(word, wait):
    hold((0, REPORT, b""), wait([word], input=CORRIDOR))


@pytest.mark.parametrize("words", [[], [""], ["0"], ["17"], ["-1"], ["+2"], ["2.0"], [" 2"], ["0000000002"], ["run"], ["2", "2"],
                                   ["--workers", "2"], ["--help"], [b"\xff"]])
def test_other_words_are_refused_and_nothing_is_read(words, wait, unread):
    hold((2, b"", WORDS), wait(words, stdin=unread))


@pytest.mark.parametrize("given, told", [
    ("ctm,1; steps,3", "3 code 13 NoCells"),
    ("ctm,1; exit,é,2", "2 code 4 BadName"),
    ("ctm,1; steps,2; exit,x,2; exit,x,3", "4 code 7 Repeated"),
])
def test_the_fault_of_a_file(given, told, wait):
    hold((3, b"", fault(told)), wait(["2"], input=lines(given)))


def test_an_input_without_end_is_too_large(wait):
    with open("/dev/zero", "rb") as endless:
        hold((4, b"", TOO_LARGE), wait(["4"], stdin=endless))


def test_a_directory_is_a_read_fault(wait, directory):
    hold((5, b"", READ_FAULT), wait(["1"], stdin=directory))


@WORKERS
def test_a_full_device_is_a_write_fault(workers, wait):
    with open("/dev/full", "wb", buffering=0) as full:
        hold((6, None, WRITE_FAULT), wait([workers], input=CORRIDOR, stdout=full))


def test_a_closed_pipe_is_a_write_fault(wait):
    reader, writer = os.pipe()
    os.close(reader)
    hold((6, None, WRITE_FAULT), wait(["4"], input=CORRIDOR, stdout=writer))
    os.close(writer)


@pytest.mark.parametrize("words, given, status, out", [(["x"], CORRIDOR, 2, b""), (["2"], b"", 3, b""), (["2"], CORRIDOR, 0, REPORT)],
                         ids=["words refused", "no header", "done"])
def test_a_full_standard_error_changes_no_status(words, given, status, out, wait):
    with open("/dev/full", "wb", buffering=0) as full:
        hold((status, out, None), wait(words, input=given, stderr=full))
