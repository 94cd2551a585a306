"""Streams that fail, that never end, that aren't to be read, and one that is slow."""

import os
import subprocess

import pytest
from conftest import BYTES, SECONDS, hold, limit
from messages import READ_FAULT, TOO_LARGE, WORDS, WRITE_FAULT
from worked import CORRIDOR, REPORT, lines

READING = pytest.mark.parametrize("mode", ["run", "watch", "save", "resume", "choose", "recut", "cut", "check", "convert"])
WRITING = pytest.mark.parametrize("mode", ["run", "watch", "save", "recut", "cut", "check", "convert"])


@pytest.fixture
def full():
    with open("/dev/full", "wb", buffering=0) as device:
        yield device


@pytest.fixture
def endless():
    with open("/dev/zero", "rb") as device:
        yield device


@pytest.fixture
def corridor_file(tmp_path):
    path = tmp_path / "corridor.csv"
    path.write_bytes(CORRIDOR)
    with open(path, "rb", buffering=0) as file:
        yield file


@READING
def test_a_directory_is_a_read_fault(mode, run, directory):
    hold((5, b"", READ_FAULT), run([mode], stdin=directory))


@WRITING
def test_a_full_device_is_a_write_fault(mode, run, full):
    hold((6, None, WRITE_FAULT), run([mode], input=CORRIDOR, stdout=full))


@READING
def test_an_input_without_end_is_too_large(mode, run, endless):
    hold((4, b"", TOO_LARGE), run([mode], stdin=endless))


def test_a_closed_pipe_is_a_write_fault(run):
    reader, writer = os.pipe()
    os.close(reader)
    hold((6, None, WRITE_FAULT), run(["run"], input=CORRIDOR, stdout=writer))
    os.close(writer)


@pytest.mark.parametrize("words, given, status, out", [
    pytest.param(["drive"], CORRIDOR, 2, b"", id="words refused"),
    pytest.param(["run"], lines("ctm,1; steps,3"), 3, b"", id="no cells"),
    pytest.param(["run"], CORRIDOR, 0, REPORT, id="done"),
])
def test_a_full_standard_error_changes_no_status(words, given, status, out, run, full):
    hold((status, out, None), run(words, input=given, stderr=full))


def test_a_full_standard_error_changes_no_fault_of_a_stream(run, directory, endless, full):
    hold((5, b"", None), run(["run"], stdin=directory, stderr=full))
    hold((4, b"", None), run(["run"], stdin=endless, stderr=full))
    hold((6, None, None), run(["run"], input=CORRIDOR, stdout=full, stderr=full))


def test_refused_words_leave_a_file_unread(run, corridor_file):
    hold((2, b"", WORDS), run(["drive"], stdin=corridor_file))
    assert corridor_file.tell() == 0


def test_a_run_reads_a_file_to_its_end(run, corridor_file):
    hold((0, REPORT, b""), run(["run"], stdin=corridor_file))
    assert corridor_file.tell() == len(CORRIDOR)


def test_an_input_byte_by_byte(program):
    pipe = subprocess.PIPE
    with subprocess.Popen([program, "run"], stdin=pipe, stdout=pipe, stderr=pipe,
                          preexec_fn=lambda: limit(SECONDS, BYTES)) as process:
        try:
            for byte in CORRIDOR:
                process.stdin.write(bytes([byte]))
                process.stdin.flush()
            out, err = process.communicate(timeout=10 * SECONDS)
        except subprocess.TimeoutExpired:
            process.kill()
            raise
    hold((0, REPORT, b""), (process.returncode, out, err))
