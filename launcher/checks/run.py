"""A run of some parts: each prints a line when it has ended, and one that failed says why and what repeats it."""

import sys
import tempfile
import time
from dataclasses import dataclass
from pathlib import Path

from few import kept_shares
from parts import PROGRAM, TOP, WAITING, Part
from running import Command, Interrupted, end_all, reap_others
from verdict import cases_passed, counted, counted_few, faults

LAST_LINES = 20  # of what a part says that failed
COUNTS, CASES = TOP / ".ci/counts.txt", TOP / ".ci/cases.txt"


@dataclass(frozen=True)
class Job:
    """A part and its own words."""

    part: Part
    words: tuple[str, ...] = ()
    processes: int = 1  # by which pytest runs its cases

    def command(self, programs):
        """The whole command, in which the programs stand."""
        paths = {PROGRAM: programs.program, WAITING: programs.waiting} if programs else {}
        command = self.part.on_trials if self.is_shortened(programs) else self.part.command
        words = [paths.get(it, it) for it in (*command, *self.words)]
        side_by_side = ["-n", str(self.processes), "--dist", "loadfile"] if self.processes > 1 else []
        return [*words, *side_by_side] if self.part.is_by_pytest else words

    def is_shortened(self, programs):
        """Whether it is the command for trials. Words of one's own say themselves what to run."""
        return bool(self.part.on_trials and programs and programs.are_tried and not self.words)

    def wanted(self, programs):
        """How many cases are to pass, or None where only some of them run, and how many are left out."""
        part = self.part
        if not part.cases or self.words:
            return None, 0
        if part.left_out_on_trials and self.is_shortened(programs):
            return counted_few(CASES, part.cases, kept_shares(TOP / part.left_out_on_trials))
        return counted(COUNTS, part.cases), 0

    def repeated(self):
        return " ".join(["./check", self.part.name, *self.words])


class Run:
    """Jobs that run so many at once; `shows` has all that they say shown as well."""

    def __init__(self, jobs, programs, environment, at_once=1, shows=False):
        self.waiting, self.programs, self.environment = list(jobs), programs, environment
        self.at_once, self.shows = at_once, shows
        self.begun, self.commands, self.outputs = [], {}, {}
        self.passed, self.tallies, self.worst, self.is_interrupted = [], [], 0, False

    def go(self):
        """Runs the jobs, and returns the worst status."""
        try:
            with tempfile.TemporaryDirectory(prefix="ctm-check-") as folder:
                while self.waiting or self.commands:
                    self.turn(Path(folder))
        except Interrupted as signal:
            self.is_interrupted = True
            end_all()
            self.tell_interruption()
            return 128 + signal.number
        return self.worst

    def turn(self, folder):
        """Starts what may start, and finishes what has ended."""
        while self.waiting and len(self.commands) < self.at_once:
            # A command may run before it stands among the commands, and is told where a signal ends all then.
            self.begun.append(job := self.waiting.pop(0))
            log = folder / job.part.name
            self.commands[job] = Command(job.command(self.programs), job.part.environment(self.environment), TOP, log)
            self.outputs[job] = open(log, errors="replace")
        ended = [job for job, command in self.commands.items() if command.has_ended()]
        for job in self.commands:
            self.show(job)
        for job in ended:
            self.finish(job)
        reap_others(self.commands.values())
        time.sleep(0.02)

    def show(self, job):
        if self.shows:
            sys.stdout.write(self.outputs[job].read())
            sys.stdout.flush()

    def finish(self, job):
        command, part = self.commands.pop(job), job.part
        said = command.said()
        self.outputs.pop(job).close()
        wanted, left_out = job.wanted(self.programs)
        found = list(faults(part.cases or part.name, said, wanted, left_out))
        status = max(command.status, 1 if found else 0)
        self.worst = max(self.worst, status)
        say(f"{part.name:11} {cases_passed(said):6} cases   {f'FAILED, status {status}' if status else 'passed'}, "
            f"{command.seconds:.0f} s, {command.processor_seconds:.0f} s of processors{told_without(part, left_out)}")
        if status:
            self.tell_failure(job, found, said)
        else:
            self.passed.append(part.name)
        self.begun.remove(job)
        if part.name == "proofs":
            self.tallies.append(said.splitlines()[-1] if said else "nothing proved")
        elif part.cases:
            self.tallies.append(f"{cases_passed(said)} of {part.cases}{f' ({left_out} left out)' if left_out else ''}")

    def tell_failure(self, job, found, said):
        for line in [] if self.shows else said.splitlines()[-LAST_LINES:]:
            say(f"    {line}")
        for fault in found:
            say(f"./check: {fault}")
        say(f"./check: {job.repeated()} repeats it alone")

    def tell_interruption(self):
        say(f"./check: interrupted; passed: {listed(self.passed)}; broken off: {listed(job.part.name for job in self.begun)}; "
            f"not begun: {listed(job.part.name for job in self.waiting)}")


def told_without(part, left_out):
    return f"; on a trial without {left_out} cases, by {part.left_out_on_trials}" if left_out else ""


def listed(names):
    return ", ".join(names) or "none"


def say(text):
    print(text, flush=True)
