"""The built pages, read once more: the list of their sections for the search, and links that lead nowhere."""

import json
import re
from html.parser import HTMLParser
from pathlib import Path


class Sections(HTMLParser):
    """The sections of a built page: each heading with its name, and the words behind it; and all names and links."""

    def __init__(self) -> None:
        super().__init__()
        self.found: list[dict] = []
        self.names: set[str] = set()
        self.links: list[str] = []
        self.in_main = self.in_heading = False

    def handle_starttag(self, tag: str, attributes: list) -> None:
        given = dict(attributes)
        if given.get("id"):
            self.names.add(given["id"])
        self.links += [given[key] for key in ("href", "src") if given.get(key)]
        self.in_main |= tag == "main"
        if self.in_main and re.fullmatch("h[1-6]", tag):
            self.in_heading = True
            self.found.append({"name": given.get("id", ""), "title": "", "text": ""})

    def handle_endtag(self, tag: str) -> None:
        self.in_main &= tag != "main"
        self.in_heading &= not re.fullmatch("h[1-6]", tag)

    def handle_data(self, data: str) -> None:
        if self.in_main and self.found:
            self.found[-1]["title" if self.in_heading else "text"] += data


def read_site(site: Path) -> dict[Path, Sections]:
    """The sections of each page of a built site."""
    found = {}
    for path in sorted(site.rglob("*.html")):
        found[path] = Sections()
        found[path].feed(path.read_text())
    return found


def write_index(site: Path, read: dict[Path, Sections]) -> None:
    """The list of all sections as a script, since a browser lets a page of a folder read no other file."""
    rows = [[str(path.relative_to(site)), section["name"], section["title"].strip(), " ".join(section["text"].split())]
            for path, sections in read.items() for section in sections.found]
    (site / "search-index.js").write_text(f"const SECTIONS = {json.dumps(rows, ensure_ascii=False)};\n")


def broken_links(read: dict[Path, Sections]) -> list[str]:
    """The links of a site that lead to no file of it, or to no place in a page of it."""
    broken = []
    for path, sections in read.items():
        for link in sections.links:
            file, _, name = link.partition("#")
            target = (path.parent / file).resolve() if file else path
            if re.match(r"\w+:|//", link):
                continue
            if not target.exists() or name and target in read and name not in read[target].names:
                broken.append(f"{path.name}: {link}")
    return broken
