"""The limits of tests/fuzz: what is a finding, and that a seed makes the same input each time."""

import os
import random
import signal
import sys

import pytest
from conftest import TOP

sys.path.insert(0, str(TOP / "tests/fuzzed"))
import inputs
import limited
from mutations import CHANGES, mutated


def busy():
    while True:
        pass


FINDINGS = [
    (lambda: None, None),
    (lambda: sys.exit(2), None),
    (lambda: sys.exit("a line"), None),
    (lambda: sys.exit(3), "status 3"),
    (lambda: os.kill(os.getpid(), signal.SIGKILL), "SIGKILL"),
    (lambda: os.kill(os.getpid(), signal.SIGUSR1), "SIGUSR1"),
    (lambda: [][0], "a traceback: IndexError: list index out of range"),
    (lambda: bytearray(1 << 31), "a traceback: MemoryError"),
    (lambda: (os.write(2, b"x: Out of memory\n"), sys.exit(2)), "more than 1500000000 bytes: x: Out of memory"),
    (busy, "no end within 1 s"),
]


@pytest.mark.parametrize("does, finding", FINDINGS)
def test_what_is_a_finding(does, finding, tmp_path, monkeypatch):
    monkeypatch.setattr(limited, "SECONDS", 1)
    monkeypatch.setattr(limited, "BYTES", 1_500_000_000)
    found = limited.called(does, tmp_path).finding((0, 1, 2))
    assert found == finding or f"{found}".startswith((f"{finding} of processor time", f"{finding}, ten times"))


def test_a_seed_changes_a_file_in_the_same_way_each_time():
    content = (TOP / "examples/bottleneck.csv").read_bytes()
    made = [[mutated(random.Random(seed), content) for seed in range(200)] for _ in range(2)]
    assert made[0] == made[1] and sum(it != content for it in made[0]) > 150
    for change in CHANGES:
        assert change(random.Random(1), b"") is not None, "an empty file can be changed too"


@pytest.mark.parametrize("kind", ["networks", "plans", "words", "sumo", "osm", "gmns"])
def test_a_case_is_the_same_each_time(kind, tmp_path):
    made = []
    for folder in tmp_path / "one", tmp_path / "other":
        folder.mkdir()
        case = inputs.KINDS[kind](random.Random(f"1 {kind} 7"), folder)
        made.append((case.words, {str(path.relative_to(folder)): path.read_bytes() for path in folder.rglob("*") if path.is_file()}))
    assert made[0] == made[1] and made[0][1]
