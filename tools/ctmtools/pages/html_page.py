"""The page of one report or of several side by side: the file with all that a browser needs."""

from __future__ import annotations

import json
import re
from base64 import b64encode
from collections.abc import Iterable, Sequence
from hashlib import sha256
from html import escape
from pathlib import Path

from ..problem import Problem
from ..report.reading import Report
from .background import Background
from .content import Heading, data_of

HERE = Path(__file__).resolve().parent
DRAWING_LIBRARY = Path("/usr/share/nodejs/d3/dist/d3.min.js")
# The files of the script in the order in which they stand in the page; the last one draws what the others define.
SCRIPTS = ("values", "view", "colours", "clock", "drawing", "tiles", "names", "map", "space", "curves", "queues", "ways", "draws",
           "hover", "table", "play", "print", "save", "page")


def page_of(reports: Sequence[Report], library: str | None = None, background: Background | None = None,
            draws: Path | None = None, heading: Heading | None = None) -> str:
    """The page of reports as HTML; `library` is the text of d3, by default that of Debian's node-d3.

    `draws` is the folder of draws of a report's network, by default one that stands beside a report.
    """
    data = data_of(reports, background, draws, heading)
    spelled = json.dumps(data, separators=(",", ":"), allow_nan=False).replace("<", "\\u003c")
    style, scripts = _read("page.css"), {"LIBRARY": _within(library or drawing_library()), "DATA": f"const data = {spelled};",
                                         "SCRIPT": _within("".join(_read(f"{name}.js") for name in SCRIPTS))}
    policy = _policy(scripts.values(), style, _pictures(background, data["logo"]))
    parts: dict[str, str] = {"TITLE": escape(data["title"]), "STYLE": style, **scripts, "POLICY": policy}
    return re.sub("(?<=[>\"])(TITLE|STYLE|LIBRARY|DATA|SCRIPT|POLICY)(?=[<\"])", lambda found: parts[found[1]], _read("page.html"))


def _pictures(background: Background | None, logo: str | None) -> str:
    """Where the pictures of a page may come from: the server of the map behind it, and the page itself, where it has a logo."""
    return " ".join(filter(None, [background.origin if background else None, "data:" if logo else None]))


def _policy(scripts: Iterable[str], style: str, pictures: str) -> str:
    """What the browser may run and load: the page's own scripts and style, by their checksums, and the tiles of a map behind it."""
    terms = {"default-src": "'none'", "script-src": " ".join(map(_checksum, scripts)), "style-src": _checksum(style),
             **({"img-src": pictures} if pictures else {}), "base-uri": "'none'", "form-action": "'none'"}
    return "; ".join(f"{name} {allowed}" for name, allowed in terms.items())


def _checksum(text: str) -> str:
    return f"'sha256-{b64encode(sha256(text.encode()).digest()).decode()}'"


def _read(name: str) -> str:
    return (HERE / name).read_text("utf-8")


def _within(text: str) -> str:
    """A text that can't end the script in which it stands."""
    return text.replace("</", "<\\/").replace("<!--", "<\\u0021--")


def drawing_library() -> str:
    """The text of d3, as Debian's node-d3 has it."""
    if not DRAWING_LIBRARY.exists():
        raise Problem(f"{DRAWING_LIBRARY}: is missing; Debian has it as node-d3: apt install node-d3")
    return DRAWING_LIBRARY.read_text("utf-8")
