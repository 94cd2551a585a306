"""A program that never ends, or takes ever more memory, fails its case instead of holding up all others."""

import sys

import pytest
from conftest import ended


def test_a_program_that_never_ends():
    with pytest.raises(pytest.fail.Exception, match="no end within"):
        ended(["sh", "-c", "while :; do :; done"], seconds=1)


def test_a_program_that_waits_for_ever():
    with pytest.raises(pytest.fail.Exception, match="no end within"):
        ended(["sleep", "1000"], seconds=1)


def test_a_program_that_takes_ever_more_memory():
    takes = "held = []\nwhile True: held.append(bytearray(1 << 26))"
    status, _, err = ended([sys.executable, "-c", takes], most_bytes=1 << 30)
    assert (status, err.splitlines()[-1]) == (1, b"MemoryError")
