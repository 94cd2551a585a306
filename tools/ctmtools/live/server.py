"""The server of a study on this machine: for pages of its own alone, which have the secret of its address.

It listens on the loopback address. Each request has to name it as its host, and where it says from which origin it comes, that is
this server. It has no files but its own: its page, style and modules, those of the page of `report`, and d3. A minute after the
last page was closed it ends.
"""

from __future__ import annotations

import asyncio
import errno
import hmac
import json
import logging
import re
import secrets
from collections.abc import Awaitable, Callable
from contextlib import suppress
from dataclasses import dataclass
from pathlib import Path
from typing import Any

from aiohttp import WSMsgType, web

from ..pages.html_page import HERE as PAGES
from ..pages.html_page import SCRIPTS, drawing_library
from ..problem import Problem, reason
from .drawing import Drawing, Message
from .orders import Orders
from .session import Session

LOOPBACK = "127.0.0.1"
IDLE = 60.0  # seconds without a page
SOON = 0.3  # seconds in which a page says that it has closed
LOOK = 1.0  # seconds after which the file is looked at again
MOST_MESSAGE = 1 << 24  # bytes
HEADERS = {"Cache-Control": "no-store", "X-Content-Type-Options": "nosniff", "Referrer-Policy": "no-referrer", "X-Frame-Options": "DENY",
           "Cross-Origin-Resource-Policy": "same-origin", "Cross-Origin-Opener-Policy": "same-origin"}
Handler = Callable[[web.Request], Awaitable[web.StreamResponse]]
HERE = Path(__file__).resolve().parent
MODULES = ("live", "socket", "form", "rows", "curve", "boxes", "signals", "band", "works", "units", "report_view")
HTML, STYLE, SCRIPT = "text/html", "text/css", "text/javascript"
BODY = re.compile("<body>\n(.*?)<script>LIBRARY", re.DOTALL)


@dataclass(frozen=True)
class Asset:
    """A file of the server: its kind and its text."""

    kind: str
    text: str


def assets() -> dict[str, Asset]:
    """The files by their names; the page itself has an empty one."""
    body = BODY.search((PAGES / "page.html").read_text("utf-8"))
    assert body  # the page of `report` has one
    page = (HERE / "live.html").read_text("utf-8").replace("REPORT", body[1])
    return {"": Asset(HTML, page), "page.css": Asset(STYLE, (PAGES / "page.css").read_text("utf-8")),
            "live.css": Asset(STYLE, (HERE / "live.css").read_text("utf-8")), "d3.js": Asset(SCRIPT, drawing_library()),
            "report.js": Asset(SCRIPT, report_script()),
            **{f"{name}.js": Asset(SCRIPT, (HERE / f"{name}.js").read_text("utf-8")) for name in MODULES}}


def report_script() -> str:
    """The script of the page of `report` as a function of its data, which can be called anew; `inside.js` ends it.

    Listeners of the window are given to it, so that those of an earlier call can be taken away.
    """
    scripts = "".join((PAGES / f"{name}.js").read_text("utf-8") for name in SCRIPTS)
    return f"function reportPage(data, addEventListener, matchMedia) {{\n{scripts}{(HERE / 'inside.js').read_text('utf-8')}}}\n"


class Server:
    """The server of a session: `begin` gives its address, `last` ends as nobody has had a page for a minute."""

    def __init__(self, session: Session, against: str = "as opened", idle: float = IDLE) -> None:
        self.session, self.idle = session, idle
        self.secret = secrets.token_urlsafe(24)
        self.assets = assets()
        self.pages: set[web.WebSocketResponse] = set()
        self.drawing = Drawing(session, self.send, against)
        self.orders = Orders(session, self.drawing)
        self.ended = asyncio.Event()
        self.port = 0
        self._tasks: list[asyncio.Task[None]] = []
        self._ending: asyncio.TimerHandle | None = None
        self._runner: web.AppRunner | None = None

    async def begin(self, port: int = 0) -> str:
        """Listens on a port, 0 for any that is free, and gives the address of the page; a problem where the port is taken."""
        asyncio.get_running_loop().set_exception_handler(_passed_over)
        application = web.Application(middlewares=[self._guarded])
        application.router.add_get("/{secret}/socket", self._socket)
        application.router.add_get("/{secret}/{name:[a-z0-9_.]*}", self._file)
        self._runner = web.AppRunner(application, access_log=None, logger=_silent_logger())
        await self._runner.setup()
        site = web.TCPSite(self._runner, LOOPBACK, port, shutdown_timeout=SOON)
        try:
            await site.start()
        except OSError as error:
            await self._runner.cleanup()
            if error.errno == errno.EADDRINUSE:
                raise Problem(f"--port {port}: is taken by another program; name another one, or none") from None
            raise Problem(f"--port {port}: {reason(error)}") from None
        self.port = int(self._runner.addresses[0][1])
        self._tasks = [asyncio.create_task(self.drawing.follow()), asyncio.create_task(self._watch())]
        self.drawing.ask()
        return f"http://{LOOPBACK}:{self.port}/{self.secret}/"

    async def last(self) -> None:
        """Waits until nobody has a page any more."""
        await self.ended.wait()

    async def end(self) -> None:
        """Ends the server and its pages' sockets."""
        await self.orders.works.end()
        for task in self._tasks:
            task.cancel()
        for page in list(self.pages):
            with suppress(ConnectionError, asyncio.TimeoutError):
                await asyncio.wait_for(page.close(), SOON)
        if self._runner:
            await self._runner.cleanup()

    async def send(self, message: Message) -> None:
        """Sends a message to all pages."""
        for page in list(self.pages):
            await send_to(page, message)

    @property
    def _hosts(self) -> list[str]:
        return [f"{name}:{self.port}" for name in (LOOPBACK, "localhost")]

    @property
    def _policy(self) -> str:
        sockets = " ".join(f"ws://{host}" for host in self._hosts)
        return (f"default-src 'none'; script-src 'self'; style-src 'self'; connect-src 'self' {sockets}; img-src 'self' data:; "
                "base-uri 'none'; form-action 'none'; frame-ancestors 'none'")

    def _refusal(self, request: web.Request) -> str | None:
        """Why a request is refused, or None."""
        origin = request.headers.get("Origin")
        if request.headers.get("Host") not in self._hosts:
            return "another host is meant"
        if origin is not None and origin not in [f"http://{host}" for host in self._hosts]:
            return "another page asks"
        if request.path.endswith("/socket") and origin is None:
            return "no page asks"
        secret = request.path.strip("/").split("/")[0]
        return None if hmac.compare_digest(secret.encode(errors="replace"), self.secret.encode()) else "the address lacks the secret"

    @web.middleware
    async def _guarded(self, request: web.Request, handler: Handler) -> web.StreamResponse:
        """Refuses what isn't asked by a page of this server."""
        refusal = self._refusal(request)
        if refusal:
            return web.Response(status=403, text=f"{refusal}\n", headers=HEADERS)
        return await handler(request)

    async def _file(self, request: web.Request) -> web.StreamResponse:
        asset = self.assets.get(request.match_info["name"])
        if asset is None:
            raise web.HTTPNotFound(headers=HEADERS)
        policy = {"Content-Security-Policy": self._policy} if asset.kind == HTML else {}
        return web.Response(text=asset.text, content_type=asset.kind, charset="utf-8", headers={**HEADERS, **policy})

    async def _socket(self, request: web.Request) -> web.StreamResponse:
        """A page's socket, over which it gets what there is, and says what is changed."""
        page = web.WebSocketResponse(max_msg_size=MOST_MESSAGE, heartbeat=20)
        await page.prepare(request)
        self.pages.add(page)
        self._keep_on()
        try:
            known: list[Message] = [self.orders.state(), *self.drawing.last.values()]
            for message in known:
                await send_to(page, message)
            async for received in page:
                if received.type == WSMsgType.TEXT:
                    await self._heed(page, received.data)
        finally:
            self.pages.discard(page)
            self._end_later()
        return page

    async def _heed(self, page: web.WebSocketResponse, text: str) -> None:
        """Does what a page says; what can't be done is reported to it alone, and all pages get the study as it is then."""
        before = self.session.version
        answer = await self.orders.do(text)
        if answer:
            await send_to(page, answer)
        await self.send(self.orders.state())
        if self.session.version != before or self.orders.redraw:
            self.orders.redraw = False
            self.drawing.ask()

    def _keep_on(self) -> None:
        if self._ending:
            self._ending.cancel()
            self._ending = None

    def _end_later(self) -> None:
        if not self.pages:
            self._ending = asyncio.get_running_loop().call_later(self.idle, self.ended.set)

    async def _watch(self) -> None:
        """Notifies the pages when the file of the study was changed or taken away."""
        told = "same"
        while True:
            await asyncio.sleep(LOOK)
            now = self.session.on_disk()
            if now != told:
                told = now
                await self.send(self.orders.state())


def _passed_over(loop: asyncio.AbstractEventLoop, context: dict[str, Any]) -> None:
    """What the end of a broken connection leaves: no fault of the study, and nothing for the terminal."""


def _silent_logger() -> logging.Logger:
    """Takes what isn't HTTP, which anybody on this machine can send, and would have its traceback in the terminal."""
    logger = logging.getLogger(__name__)
    logger.propagate = False
    if not logger.handlers:
        logger.addHandler(logging.NullHandler())
    return logger


async def send_to(page: web.WebSocketResponse, message: dict[str, Any] | bytes) -> None:
    """Sends a message to a page; one that is closed just then isn't there any more."""
    with suppress(ConnectionError, RuntimeError):
        if isinstance(message, bytes):
            await page.send_bytes(message)
        else:
            await page.send_str(json.dumps(message, allow_nan=False, default=str))
