"""Long work that a page begins: assign, draw or optimise, in a process of its own, one at a time, as the commands do it.

The process takes the study as JSON, and says line by line how much of it is done, and at last what it came to.
"""

from __future__ import annotations

import asyncio
import json
import signal
import sys
from asyncio.subprocess import DEVNULL, PIPE, Process
from collections.abc import Callable
from contextlib import suppress
from pathlib import Path
from typing import Any

from ..assignment.task import AssignTask, begun
from ..assignment.writing import Places, written
from ..plans.searching import Search, best_study
from ..problem import Problem, one_line
from ..program.calls import program_path
from ..program.interrupt import INTERRUPTS, end_group, heeded
from ..report.summary import number_text
from ..study.folder import allow_files, allowed_folders
from ..study.study import Study
from ..texts.text_table import table
from ..uncertainty.drawn_runs import DrawnRuns, Wanted
from ..uncertainty.messages import HEADS, plan_lines, spread_rows
from ..uncertainty.results import results_of
from .session import Session

TOOLS = Path(__file__).resolve().parents[2]
CALL = "import sys; sys.path.insert(0, sys.argv.pop(1)); from ctmtools.live.works import main; main()"
GAP, ROUNDS, RUNS, SEED, GENERATIONS = 0.01, 50, 100, 1, 30  # as the commands have them where nothing else is said
MOST_LINE = 1 << 26  # bytes
SOON = 1.0  # seconds in which a process ends what it began

Say = Callable[[int, int, str], None]  # takes how much is done, of how much, and a text on it
Outcome = dict[str, Any]  # a line, and where there are any the text of a plan, or lines of a table
Tell = Callable[[str, dict[str, Any]], Any]


def assign(study: Study, say: Say) -> Outcome:
    """Lets the trips choose their ways; the study with the shares that came out is written beside the study, as the command does."""
    places = Places(study.path.with_name(f"{study.path.stem}.assigned.toml"))
    places.guard(study.path, None)
    assignment = begun(AssignTask(study.values, str(study.path), str(program_path()), None, None, None, GAP, ROUNDS))
    for done in assignment.rounds(GAP, ROUNDS):
        say(done.number, ROUNDS, f"gap {done.gap.relative:.4f}")
    last = written(assignment, assignment.best, study.values, places).last
    return {"line": f"assigned in {last.number} rounds, gap {last.gap.relative:.5f}; {places.study.name} is written", "plan": "assigned",
            "text": places.study.read_text("utf-8")}


def draw(study: Study, say: Say) -> Outcome:
    """Runs the study over draws of what is uncertain of it."""
    runs = DrawnRuns([study], Wanted(RUNS, SEED))
    runs.as_it_stands()
    for done, _ in enumerate(runs.run(), 1):
        say(done, RUNS, f"{done} of {RUNS} runs")
    results = results_of(runs)
    (plan,) = results.plans
    rows = table([("", *HEADS), *spread_rows(results, plan)], right=range(1, 9))
    return {"line": f"{results.count} draws, seed {SEED}", "lines": [*rows, *plan_lines(results, plan)]}


def optimise(study: Study, say: Say) -> Outcome:
    """Searches for the timing of the signals with the least delay."""
    search = Search(study)
    best = search.run(GENERATIONS, news=lambda generation, runs, hours: say(
        generation, GENERATIONS, f"{runs} runs, least delay {number_text(hours)} vehicle-hours"))
    return {"line": f"delay {number_text(search.hours(search.timing.start))} before and {number_text(search.hours(best))} vehicle-hours after",
            "plan": "optimised", "text": best_study(search, best, None)}


WORKS = {"assign": assign, "draw": draw, "optimise": optimise}


def main() -> None:
    """Does the work that standard input names."""
    order = json.load(sys.stdin)

    def put(**message: Any) -> None:
        sys.stdout.write(f"{json.dumps(message)}\n")
        sys.stdout.flush()

    try:
        with heeded(lambda: None):
            allow_files(*order["folders"])
            study = Study.of_text(order["text"], order["path"])
            put(**WORKS[order["name"]](study, lambda done, of, told: put(done=done, of=of, told=told)))
    except Problem as problem:
        put(fault=str(problem))
    except Exception as error:
        put(fault=f"a fault of these tools, {type(error).__name__}: {one_line(error)}")


class Works:
    """The work of a session's pages; `tell` takes what pages are to know of it, `kept` is called once a plan was kept."""

    def __init__(self, session: Session, tell: Tell, kept: Callable[[], object]) -> None:
        self.session, self.tell, self.kept = session, tell, kept
        self._task: asyncio.Task[None] | None = None

    def begin(self, name: str) -> None:
        """Begins some work on the study as it stands."""
        if name not in WORKS:
            raise Problem(f"there is no work {name}")
        if self._task and not self._task.done():
            raise Problem("other work is being done; stop it first")
        self._task = asyncio.create_task(self._do(name, self.session.text))

    def stop(self) -> None:
        """Ends what is being done, of which nothing is kept."""
        if self._task and not self._task.cancelling():
            self._task.cancel()

    async def end(self) -> None:
        """Ends what is being done, and waits until its process has ended."""
        self.stop()
        if self._task:
            await asyncio.wait([self._task])

    async def _do(self, name: str, text: str) -> None:
        await self._say(name, done=0, of=1, told="begun", running=True)
        try:
            outcome = await self._outcome(name, text)
            if "text" in outcome:
                self.session.keep(outcome["plan"], outcome.pop("text"))
                self.kept()
        except asyncio.CancelledError:
            outcome = {"line": "stopped; nothing is kept"}
        except Problem as problem:
            outcome = {"fault": str(problem)}
        await self._say(name, told=outcome.get("fault") or outcome["line"], lines=outcome.get("lines", []), running=False)

    async def _outcome(self, name: str, text: str) -> Outcome:
        """What the process of some work comes to; whatever ends this ends the process with all that it began."""
        process = await asyncio.create_subprocess_exec(sys.executable, "-I", "-B", "-c", CALL, str(TOOLS), str(self.session.path),
                                                       stdin=PIPE, stdout=PIPE, stderr=DEVNULL, start_new_session=True, limit=MOST_LINE)
        INTERRUPTS.groups.add(process.pid)
        try:
            return await self._followed(process, {"name": name, "text": text, "path": str(self.session.path), "folders": allowed_folders()})
        finally:
            await _end(process)
            INTERRUPTS.groups.discard(process.pid)

    async def _followed(self, process: Process, order: dict[str, Any]) -> Outcome:
        """Gives a process its order, and hands on what it says until its outcome."""
        assert process.stdin and process.stdout
        process.stdin.write(json.dumps(order).encode())
        process.stdin.close()
        async for line in process.stdout:
            message: Outcome = json.loads(line)
            if "done" not in message:
                return message
            await self._say(order["name"], **message, running=True)
        return {"fault": "its process was ended from outside"}

    async def _say(self, name: str, **message: Any) -> None:
        await self.tell("work", {"kind": "work", "name": name, **message})


async def _end(process: Process) -> None:
    """Ends a process, which first ends what it began."""
    if process.returncode is None:
        end_group(process.pid, signal.SIGTERM)
        with suppress(asyncio.TimeoutError):
            await asyncio.wait_for(process.wait(), SOON)
        end_group(process.pid)
    await process.wait()
