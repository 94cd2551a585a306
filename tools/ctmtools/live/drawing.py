"""What is drawn of a study as it is changed: the newest text is run, and those that were overtaken meanwhile never are."""

from __future__ import annotations

import asyncio
import threading
from collections.abc import Awaitable, Callable, Sequence
from contextlib import suppress
from typing import Any

from ..problem import Problem, one_line
from .results import HERE, Result, Results, fault_of, frame_bounds, layout_of, packet, page_data, picture_data
from .session import Session

QUIET = 0.25  # seconds without a change after which tables are made too
MEASURES = (("Delay", "delay_vehicle_hours", "vehicle-hours"), ("Longest queue", "longest_queue_km", "km"),
            ("Most waiting", "most_waiting_vehicles", "vehicles"), ("Travel time", "travel_time_min", "min"),
            ("Left", "left_vehicles", "vehicles"), ("Inside at the end", "inside_vehicles", "vehicles"))

Message = dict[str, Any] | bytes
Send = Callable[[Message], Awaitable[None]]


class Drawing:
    """Draws a session's study for its pages: a picture as soon as it is run, tables once nothing changes for a while.

    `last` are the messages that a page which comes now has to know.
    """

    def __init__(self, session: Session, send: Send, against: str) -> None:
        self.session, self.send, self.against = session, send, against
        self.results = Results(session.path)
        self.asked = asyncio.Event()
        self.last: dict[str, Message] = {}
        self._layout: tuple[str, ...] | None = None
        self._bounds: Sequence[int] = ()

    def ask(self) -> None:
        """Asks that what stands now is drawn."""
        self.asked.set()

    async def follow(self) -> None:
        """Draws whenever it is asked, the newest alone."""
        while True:
            await self.asked.wait()
            self.asked.clear()
            try:
                await self._draw(self.session.text, self.session.version)
            except Problem:  # which was reported; the plans beside it are shown even so
                await self._compare_plans()

    async def _draw(self, text: str, version: int) -> None:
        result = await self._run(text, version)
        base = await self._base()
        shown = [base, result] if base else [result]
        layout = (self.against if base else "", *map(layout_of, shown))
        await self.tell("line", {"kind": "line", "version": version, **difference(self.against, base, result, False)})
        if layout == self._layout:
            data = await in_a_thread(picture_data, result, self._bounds)
            await self.send(packet({"kind": "picture", "version": version, **data}))
            with suppress(asyncio.TimeoutError):
                await asyncio.wait_for(self.asked.wait(), QUIET)
                return  # something newer came
        names = [self.against, HERE] if base else [HERE]
        data = await self._told(page_data, shown, names, version=version)
        self._layout, self._bounds = layout, frame_bounds(shown[-len(data["reports"]):])
        await self.tell("page", packet({"kind": "page", "version": version, **data}))
        await self._compare(base, result, version)

    async def _compare(self, base: Result | None, result: Result, version: int) -> None:
        """Sends the difference of both, and the table of all plans."""
        await self.tell("line", {"kind": "line", "version": version,
                                  **await self._told(difference, self.against, base, result, True, version=version)})
        await self._compare_plans()

    async def _compare_plans(self) -> None:
        rows: list[dict[str, Any]] = []
        for name, text in [*self.session.plans.items(), (HERE, self.session.text)]:
            if self.asked.is_set():
                return
            try:
                rows.append(await in_a_thread(self._row, name, text))
            except Problem as problem:
                rows.append({"name": name, "fault": fault_of(problem, self.session.path)["line"]})
        await self.tell("plans", {"kind": "plans", "heads": [f"{name}, {unit}" for name, _, unit in MEASURES], "rows": rows})

    def _row(self, name: str, text: str) -> dict[str, Any]:
        measures = self.results.of(text).measures
        return {"name": name, "values": [number(measures[key]) for _, key, _ in MEASURES]}

    async def _run(self, text: str, version: int) -> Result:
        result: Result = await self._told(self.results.of, text, version=version)
        await self.tell("fault", {"kind": "fault", "version": version, "fault": None, "told": result.told})
        return result

    async def _base(self) -> Result | None:
        """The plan beside which the study stands, where it has a result."""
        text = self.session.plans.get(self.against)
        if text is None:
            return None
        with suppress(Problem):
            result: Result = await in_a_thread(self.results.of, text)
            return result
        return None

    async def _told(self, work: Callable[..., Any], *words: Any, version: int) -> Any:
        """What some work gives; a problem is reported and raised."""
        try:
            return await in_a_thread(work, *words)
        except Problem as problem:
            fault = fault_of(problem, self.session.path)
            await self.tell("fault", {"kind": "fault", "version": version, "fault": fault, "told": []})
            raise

    async def tell(self, what: str, message: Message) -> None:
        """Sends all pages something, of which those that come later get the last."""
        self.last[what] = message
        await self.send(message)


async def in_a_thread(work: Callable[..., Any], *words: Any) -> Any:
    """What some work gives that is done in a thread, which the end of the server doesn't wait for."""
    loop = asyncio.get_running_loop()
    found = loop.create_future()

    def give(set_it: Callable[[Any], None], value: Any) -> None:
        if not found.cancelled():
            set_it(value)

    def do() -> None:
        try:
            outcome = (found.set_result, work(*words))
        except Problem as problem:
            outcome = (found.set_exception, problem)
        except RecursionError:
            outcome = (found.set_exception, Problem("the study: is nested too deeply"))
        except Exception as error:  # a fault of these tools, behind which the page goes on
            outcome = (found.set_exception, Problem(f"a fault of these tools, {type(error).__name__}: {one_line(error)}"))
        with suppress(RuntimeError):  # the server has ended meanwhile
            loop.call_soon_threadsafe(give, *outcome)

    threading.Thread(target=do, daemon=True).start()
    return await found


def difference(against: str, base: Result | None, result: Result, all_of_it: bool) -> dict[str, Any]:
    """The rows of the line on what the study has more than a plan: name, unit, both values; the delay alone, or all of it."""
    rows = [["Delay", "vehicle-hours", *(_delay(one) for one in (base, result))]]
    if all_of_it:
        both = [one.measures if one else {} for one in (base, result)]
        rows = [[name, unit, *(number(own.get(key)) for own in both)] for name, key, unit in MEASURES]
    return {"against": against if base else None, "rows": rows}


def _delay(result: Result | None) -> float | None:
    return None if result is None else number(result.report.units.hours(result.report.sums.delay))


def number(value: Any) -> float | None:
    """A number that JSON can have; none of what there isn't."""
    return None if value is None or value != value else round(float(value), 6)
