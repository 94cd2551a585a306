"""What a page asks for: changes of the study, undoing, saving, plans, and files; and the study as it is sent to pages."""

from __future__ import annotations

import json
from collections.abc import Callable
from typing import Any

from ..problem import Problem
from .drawing import Drawing, in_a_thread
from .fields import KNOWN, fields_of, values_in
from .results import fault_of, write_page, write_report
from .session import Session
from .works import Works

Order = dict[str, Any]


class Orders:
    """The orders of pages over a session; `redraw` says that another plan is to stand beside the study."""

    def __init__(self, session: Session, drawing: Drawing) -> None:
        self.session, self.drawing, self.redraw = session, drawing, False
        self.works = Works(session, drawing.tell, drawing.ask)
        self._fields: list[dict[str, Any]] = []
        self._at_once: dict[str, Callable[[Order], object]] = {
            "change": lambda order: session.change([(str(key), value) for key, value in order["patches"]], order.get("group")),
            "type": lambda order: session.type(str(order["key"]), str(order["text"])),
            "text": lambda order: session.replace(str(order["text"])),
            "undo": lambda _: session.undo(), "redo": lambda _: session.redo(),
            "save": lambda order: session.save(bool(order.get("over"))), "anew": lambda _: session.read_anew(),
            "keep": lambda order: self._keep(str(order["name"])), "forget": lambda order: self._forget(str(order["name"])),
            "take": lambda order: session.take_plan(str(order["name"])), "against": lambda order: self._stand_against(str(order["name"])),
            "begin": lambda order: self.works.begin(str(order["name"])), "stop": lambda _: self.works.stop()}

    async def do(self, text: str) -> Order | None:
        """Does what a page says, and gives what is to be sent to it."""
        try:
            order = json.loads(text)
            if order.get("do") == "write":
                return {"kind": "written", "line": await self._write(str(order.get("what")))}
            self._at_once[order["do"]](order)
        except Problem as problem:
            return {"kind": "refused", **fault_of(problem, self.session.path), "of": order.get("key", "")}
        except Exception:  # whatever a page says, the server goes on
            return {"kind": "refused", "key": "", "line": "this can't be done", "of": ""}
        return None

    def state(self) -> Order:
        """The study as it is sent to pages: its text and fields, what can be undone, and how it stands to its file."""
        session = self.session
        try:
            self._fields = fields_of(values_in(session.text))
            fault = None
        except Problem as problem:
            fault = str(problem)
        except RecursionError:
            fault = "the study: is nested too deeply"
        return {"kind": "study", "name": session.path.name, "version": session.version, "text": session.text, "fields": self._fields,
                "unreadable": fault, "known": KNOWN, "undo": session.can_undo, "redo": session.can_redo, "saved": session.is_saved,
                "disk": session.on_disk(), "plans": list(session.plans), "against": self.drawing.against}

    def _keep(self, name: str) -> None:
        self.session.keep(name)
        self.redraw = True

    def _forget(self, name: str) -> None:
        self.session.forget(name)
        self.redraw = True

    def _stand_against(self, name: str) -> None:
        if name not in self.session.plans:
            raise Problem(f"there is no plan {name}")
        self.drawing.against, self.redraw = name, True

    async def _write(self, what: str) -> str:
        """Writes the report with its network, or the page, beside the study, and says where."""
        result = await in_a_thread(self.drawing.results.of, self.session.text)
        if what == "report":
            return f"{await in_a_thread(write_report, result, self.session.path)} is written, with its network and units"
        base = self.session.plans.get(self.drawing.against)
        both = [] if base in (None, self.session.text) else [await in_a_thread(self.drawing.results.of, base)]
        return f"{await in_a_thread(write_page, [*both, result], self.session.path)} is written"
