"""What the output of a part comes to: how many cases passed, and why it failed where it did."""

import re

from few import kept_cases

PASSED = re.compile(r"(\d+) passed")
PROVED = re.compile(r"^(\d+) crates proved, (\d+) edits refused, (\d+) tests of crates passed$", re.MULTILINE)
LEFT_OUT = re.compile(r"\d+ (?:skipped|deselected|xfailed)")


def cases_passed(said):
    """How many cases passed, by the last line that says so."""
    proved = PROVED.findall(said)
    if proved:
        return sum(map(int, proved[-1]))
    passed = PASSED.findall(said)
    return int(passed[-1]) if passed else 0


def counted(list_of_counts, name):
    """How many cases a part is to have."""
    lines = [line.split() for line in list_of_counts.read_text().splitlines()] if list_of_counts.is_file() else []
    return sum(int(words[-1]) for words in lines if words[:2] == ["cases", name])


def counted_few(list_of_cases, name, shares):
    """How many cases a part is to have on trials, and how many it leaves out there."""
    lines = [line.split(" ", 3) for line in list_of_cases.read_text().splitlines()] if list_of_cases.is_file() else []
    cases = [tuple(words[2:]) for words in lines if words[:2] == ["case", name]]
    kept = len([*kept_cases(cases, shares)])
    return kept, len(cases) - kept


def faults(name, said, wanted, deselected=0):
    """What is wrong with how many cases ran, a line each; `wanted` is None where only some are to. So many may be deselected."""
    last = next((line for line in reversed(said.splitlines()) if PASSED.search(line)), "")
    left_out = LEFT_OUT.findall(last)
    passed = cases_passed(said)
    if wanted is None:
        left_out = [it for it in left_out if not it.endswith("deselected")]
        if not passed:
            yield f"{name}: no cases passed"
    elif wanted == 0 or passed != wanted:
        yield f"{name}: {passed or 'no'} cases passed, and {wanted} are to; .ci/counts counts them anew"
    if left_out not in ([], [f"{deselected} deselected"]):
        yield f"{name}: cases were left out, and none is to be"
