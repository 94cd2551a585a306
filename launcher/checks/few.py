"""Which cases of tests run on trials, by a list of those that take longest there. Each of its lines has a test file, or a test
of one, and how many cases of each test are kept: `none`, or as `1/10` the first of each ten. As a plugin of pytest it leaves
out the others.
"""

import re
from collections import Counter
from pathlib import Path

LETTERS = 70  # of the name of a test, of which .ci/cases.txt has no more in a long case


LINE = re.compile(r"(\S+) (?:none|1/([2-9]|[1-9]\d+))")


class UnreadableList(ValueError):
    """A line of a list says nothing of how many cases are kept."""


def pytest_addoption(parser):
    parser.addoption("--left-out", type=Path, metavar="LIST", help="leave out cases as this list says")


def pytest_collection_modifyitems(config, items):
    if config.getoption("left_out"):
        cases = [(item.path.name, item.nodeid.partition("::")[2]) for item in items]
        kept = {*kept_cases(cases, kept_shares(config.getoption("left_out")))}
        config.hook.pytest_deselected(items=[item for item, case in zip(items, cases) if case not in kept])
        items[:] = [item for item, case in zip(items, cases) if case in kept]


def kept_shares(path):
    """Of each test file and test of a list of how many cases one is kept; 0 where none is."""
    shares = {}
    for number, line in enumerate(path.read_text().splitlines() if path.is_file() else [], 1):
        found = LINE.fullmatch(line)
        if not found:
            raise UnreadableList(f"{path}, line {number}: a test is to stand there, and none or 1/N of its cases, not {line!r}")
        shares[test_of(*found[1].split("::"))] = int(found[2] or 0)
    return shares


def kept_cases(cases, shares):
    """The cases that are kept, each of a test file and an id, in their order."""
    seen = Counter()
    for file, case in cases:
        test = test_of(file, case)
        share = shares.get(test, shares.get((file,), 1))
        if share and seen[test] % share == 0:
            yield file, case
        seen[test] += 1


def test_of(file, *case):
    """The test file alone, or the test that a case is of."""
    return file, *(it.partition("[")[0][:LETTERS] for it in case)
