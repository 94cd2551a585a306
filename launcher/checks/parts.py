"""The parts of the check, in the order in which the whole check runs them."""

import csv
from dataclasses import dataclass
from pathlib import Path

TOP = Path(__file__).resolve().parents[2]
TIMES = Path(__file__).with_name("times.csv")
PROGRAM, WAITING = "PROGRAM", "WAITING"  # words of a command that stand for the programs


@dataclass(frozen=True)
class Part:
    """A part: its name, what it checks, what it needs, and its command."""

    name: str
    checks: str
    needs: tuple[str, ...]  # of "rt", "programs" and "packages"
    command: tuple[str, ...]
    cases: str = ""  # the name by which .ci/counts.txt says how many there are to be
    is_quick: bool = True
    is_by_pytest: bool = False
    on_trials: tuple[str, ...] = ()  # the command on trials, where these would take too long over the whole
    left_out_on_trials: str = ""  # the list of the cases that this command leaves out
    takes_words: bool = False  # hands words of its own on to the command
    is_for_words: bool = False  # has such words always, so it is no part of the whole check

    def environment(self, given):
        """The variables of the part. In the gate rt takes no names of crates."""
        return {**given, "CI": "false"} if self.is_for_words else given


PARTS = (
    Part("handles", "the line of `HANDLES`", (), ("launcher/check_handles",)),
    Part("contracts", "that `contracts.txt` has all that crates promise", (), (".ci/contracts", "--check")),
    Part("counts", "that the lists of `.ci/counts` have all that is tried", ("packages",), (".ci/counts", "--check")),
    Part("proofs", "crates from nothing, edits, tests and stored runs", ("rt",),
         ("launcher/check_proofs",), is_quick=False),
    Part("small-proof", "that `./ctm` can prove a crate", ("rt",), ("launcher/check_small_proof",), is_quick=False),
    Part("plays", "atomic steps against [FIELD.md](docs/inside/FIELD.md)", (), ("tests/plays",), "tests/plays"),
    Part("program", "programs over words, files and streams", ("programs", "packages"), ("tests/program", PROGRAM),
         "tests/program", is_by_pytest=True, takes_words=True, on_trials=("tests/program", "--few", PROGRAM),
         left_out_on_trials="tests/left_out_on_trials.txt"),
    Part("launcher", "`./ctm`, the packages, `./check` itself", ("programs", "packages"), ("tests/launcher", PROGRAM),
         "tests/launcher", is_by_pytest=True, takes_words=True, on_trials=("tests/launcher", "--few", PROGRAM),
         left_out_on_trials="tests/left_out_on_trials.txt"),
    Part("examples", "the examples' reports", ("programs",), ("examples/check", PROGRAM), "examples/check",
         on_trials=("examples/check", "--few", PROGRAM)),
    Part("tools", "the tools, the documents' commands", ("programs", "packages"), ("tools/check",), "tools/check",
         is_by_pytest=True, takes_words=True, on_trials=("tools/check", "--few"),
         left_out_on_trials="tools/tests/left_out_on_trials.txt"),
    Part("stress", "workers that wait, under load, for a minute", ("programs",),
         ("bench/stress-wait", "60s", PROGRAM, WAITING), is_quick=False, takes_words=True),
    Part("fuzz", "the program and the tools over changed input, for a minute", ("programs", "packages"), ("tests/fuzz",),
         is_quick=False, takes_words=True),
    Part("crate", "named crates and those below", ("rt",), ("launcher/check_crates",), is_quick=False,
         takes_words=True, is_for_words=True),
)
NAMES = tuple(part.name for part in PARTS)


def named(name):
    """The part of this name, or None."""
    return next((part for part in PARTS if part.name == name), None)


def processor_seconds():
    """What each part took, by the file of times."""
    with open(TIMES, newline="") as file:
        return {row["part"]: int(row["processor_seconds"]) for row in csv.DictReader(file)}


def minutes(seconds):
    return f"{seconds / 60:.1f}" if seconds < 600 else f"{seconds / 60:.0f}"


def rows():
    """What is said of each part: its name, what it checks and needs, and the minutes that it takes of processors."""
    taken = processor_seconds()
    for part in PARTS:
        needs = "`rt`" if "rt" in part.needs else "programs" if "programs" in part.needs else ""
        yield part.name, part.checks, needs, minutes(taken[part.name]) if part.name in taken else "-"
