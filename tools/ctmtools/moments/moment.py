"""A saved moment of a run, as `ctm save` writes it and docs/FORMAT.md has it, and a run taken from moment to moment by the program.

The program resumes to the last step of the network in the text. So a moment is taken to a later one by having the network
end there: two networks that agree at all steps below a moment have it in common, however many steps they have.
"""

from __future__ import annotations

import json
import re
from collections.abc import Sequence
from dataclasses import dataclass, replace
from pathlib import Path
from typing import Any, NamedTuple

from ..files.reading import read_bytes
from ..files.seals import broken, is_sealed, sealed, unsealed_text
from ..network_file.records import with_steps
from ..problem import Problem
from ..program.calls import News, ask, in_words, run_words, why

SUFFIX = ".saved"
BEGINNING = b"saved,"
NUMBER = rb"(0|[1-9][0-9]{0,19})"
FIRST, STEP, ROW = (re.compile(begin + (rb"," + NUMBER) * count)
                    for begin, count in ((rb"saved,1", 1), (rb"step", 1), (rb"row", 6)))
REFUSED = "ctm: words refused"
Amounts = tuple[int, int, int, int]  # what a cell holds and what came, went and waited, in parts


class Row(NamedTuple):
    """The row of a cell in parts: its region, what it holds, what came, went and waited, and what it held a step before."""

    region: int
    n: int
    come: int
    gone: int
    wait: int
    earlier: int


@dataclass(frozen=True)
class Moment:
    """A moment of a run: the step at which each region stands, the row of each cell, and the network's bytes."""

    steps: Sequence[int]
    rows: Sequence[Row]
    network: bytes

    @property
    def last(self) -> int:
        """The greatest step at which a region stands: a network that is changed from there on goes on from here too."""
        return max(self.steps)

    @property
    def text(self) -> bytes:
        """The saved text."""
        lines = [f"saved,1,{len(self.steps)}", *(f"step,{step}" for step in self.steps)]
        lines += ["row,%d,%d,%d,%d,%d,%d" % row for row in self.rows]
        return "\n".join([*lines, "net\n"]).encode() + self.network

    def of(self, network: bytes) -> Moment:
        """The same moment with another network."""
        return replace(self, network=network)


def read_moment(path: str) -> Moment:
    """The saved moment in a file, which `ctm save` wrote or, with a seal, `ctm-tools run --checkpoint`."""
    content = read_bytes(path)
    return moment_of(unsealed_text(content, path) or content, path)


def moment_of(content: bytes, name: str) -> Moment:
    """The moment that a saved text spells. Whether its rows fit its network the program finds out."""
    head, behind, network = content.partition(b"\nnet\n")
    first, *lines = head.split(b"\n")
    begun = FIRST.fullmatch(first)
    if not begun:
        raise Problem(f"{name}: no saved run; `ctm save` and `ctm-tools run --checkpoint` write one")
    count = int(begun[1])
    steps, rows = ([form.fullmatch(line) for line in part] for form, part in ((STEP, lines[:count]), (ROW, lines[count:])))
    if not behind or not 1 <= count == len(steps) or not all(steps) or not all(rows):
        raise Problem(f"{name}: this saved run is cut short or isn't one of ctm")
    return Moment([int(found[1]) for found in steps if found], [Row(*map(int, found.groups())) for found in rows if found],
                  network)


def state_text(mark: str, moment: Moment, **terms: Any) -> str:
    """The text of such a file: the mark of the network and what it is run with, the moment, and other terms."""
    return json.dumps(sealed({"of": mark, **terms, "moment": moment.of(b"").text.decode()}))


def kept_state(path: Path | None, mark: str) -> dict[str, Any] | None:
    """What an earlier call of the same mark has kept in a file, with its moment read; None where there is nothing of it.

    A file that was changed since is refused.
    """
    try:
        state = json.loads(path.read_text("utf-8")) if path and path.exists() else None
    except (OSError, ValueError, RecursionError):
        return None
    if not isinstance(state, dict) or state.get("of") != mark:
        return None
    if not is_sealed(state):
        raise broken(str(path), "what is kept of the run", "take it away, and the run begins anew")
    return {**state, "moment": moment_of(state["moment"].encode(), str(path))}


@dataclass(frozen=True)
class Runner:
    """Calls the program for a network of a name: in so many regions, or as `auto` chooses, by so many workers."""

    name: str
    regions: int | str = 1
    workers: int = 1
    news: News | None = None

    def whole(self, network: bytes) -> bytes:
        """The report of a network that is run from its first step to its last."""
        return self._ask(run_words(0, self.workers), network)

    def moment(self, network: bytes, step: int) -> Moment:
        """The moment of a network at a step from 1 on, at which all regions stand."""
        words = ("save", "--until", str(step), "--regions", str(self.regions), "--workers", str(self.workers))
        saved = moment_of(self._ask(words, with_steps(network, step)), self.name)
        return saved.of(network)

    def later(self, moment: Moment, step: int) -> Moment:
        """The moment of the same run at a step past all at which its regions stand, its regions all there."""
        before = self._rows_at(moment, step - 1)
        alone = Moment([step - 1], [Row(0, *amounts, 0) for amounts in before], moment.network)
        rows = [Row(old.region, *amounts, earlier[0])
                for old, amounts, earlier in zip(moment.rows, self._rows_at(alone, step), before)]
        return Moment([step] * len(moment.steps), rows, moment.network)

    def report(self, moment: Moment) -> bytes:
        """The report of a moment that is taken on to the last step of its network."""
        return self._ask(("resume", "--workers", str(self.workers)), moment.text)

    def _rows_at(self, moment: Moment, step: int) -> Sequence[Amounts]:
        """The rows of all cells at a step at or past those of a moment."""
        if set(moment.steps) == {step}:
            return [row[1:5] for row in moment.rows]
        return rows_of(self.report(moment.of(with_steps(moment.network, step))))

    def _ask(self, words: Sequence[str], content: bytes) -> bytes:
        answer = ask(words, content, news=self.news)
        if answer.line == REFUSED:
            raise Problem(f"{in_words()} has no mode {words[0]}, so a run can't be saved and gone on with; build the newest ctm")
        if answer.status:
            raise Problem(f"{self.name}: {why(answer)}")
        return answer.out


def rows_of(report: bytes) -> list[Amounts]:
    """The rows of all cells in a report, whose amounts have six decimals each, in parts."""
    found = []
    for line in report.splitlines():
        if line.startswith(b"cell,"):
            n, come, gone, wait = (int(amount.replace(b".", b"")) for amount in line.split(b",")[2:])
            found.append((n, come, gone, wait))
    return found
