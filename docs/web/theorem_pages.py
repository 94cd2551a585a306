"""The theorem as pages: for each mode the contract of the call and every definition behind it, in the order of reading."""

import csv
import re
from html import escape
from pathlib import Path

from gathering import TOP
from theorem_order import MODES, Page, is_of_another, lines_of_mode, pages
from theorem_sources import CALL, Item, Place, Sources

FOLDER = Path("docs/inside/theorem")
READINGS = TOP / "docs/web/toolchain_words.csv"
LIBRARIES = {"std": "std, the library of the toolchain", "csv": "the crate csv", "clap": "the crate clap"}


def theorem_pages() -> list[Path]:
    """The pages, by their paths in the site."""
    return [FOLDER / f"{mode}.md" for mode in MODES]


def write_pages(folder: Path) -> None:
    """Writes the pages into the folder of a site."""
    (folder / FOLDER).mkdir(parents=True, exist_ok=True)
    for path, text in made_pages(Sources()).items():
        (folder / path).write_text(text)


def made_pages(sources: Sources) -> dict[Path, str]:
    """The text of each page."""
    found = list(pages(sources))
    place_of = {item.place: page.mode for page in found for item in page.items}
    place_of.update({word: page.mode for page in found for word in page.words})
    maker = _Maker(sources, place_of, _users(sources, found))
    return {FOLDER / f"{page.mode}.md": maker.page(page) for page in found}


def readings() -> dict[str, str]:
    """What each word of the toolchain means, in a line."""
    with open(READINGS, newline="") as file:
        return {row["word"]: row["reading"] for row in csv.DictReader(file)}


def _users(sources: Sources, found: list[Page]) -> dict[Place, list[Place]]:
    """For each definition those that name it."""
    users: dict[Place, list[Place]] = {}
    for item in [sources.contract(), *(item for page in found for item in page.items)]:
        for target in dict.fromkeys(target for _, _, target in item.links):
            if target != item.place:
                users.setdefault(target, []).append(item.place)
    return users


class _Maker:
    """Makes pages that link to each other."""

    def __init__(self, sources: Sources, place_of: dict[Place, str], users: dict[Place, list[Place]]) -> None:
        self.sources, self.place_of, self.users = sources, place_of, users
        self.readings = readings()

    def page(self, page: Page) -> str:
        parts = [f"# The theorem: `{page.mode}`", self.head(page)]
        if page.mode == MODES[0]:
            parts += ["## The contract of the call", self.block(self.sources.contract(), page.mode)]
        if page.lines:
            parts += ["## Lines on this mode", *(self.line(item, page.mode) for item in page.lines)]
        for file, items in page.parts.items():
            parts += [f"## {self.title(file, items)}", f'<p class="file">{escape(file)}</p>',
                      *(self.block(item, page.mode) for item in items)]
        if page.words:
            parts += ["## Words of the toolchain", self.words(page)]
        return "\n\n".join(part for part in parts if part) + "\n"

    def head(self, page: Page) -> str:
        """What the page has, in numbers."""
        types = sum(item.place.file.endswith(".rt") for item in page.items)
        lines = sum(len(item.text.splitlines()) for item in page.items)
        counted = f"{len(page.items) - types} definitions and {types} types in {len(page.parts)} files, {lines} lines"
        if page.mode == MODES[0]:
            return (f"What a call of `ctm` with the word `{page.mode}` promises: the contract of the call, and behind it every "
                    f"definition that it rests on: how the call ends, the text and its numbers, how the file is read, what the "
                    f"observer is told, the words, the streams. Of a definition by modes this page has the lines on `{page.mode}`; "
                    f"the others stand on the pages of their modes. It is {counted}, and {len(page.words)} words of the toolchain, "
                    "which the end of the page explains. [How to read a definition](../../web/how-to-read.md) is one page.")
        return f"What the contract says of the word `{page.mode}` beyond [the pages before it]({MODES[0]}.md): {counted}."

    def title(self, file: str, items: list[Item]) -> str:
        """The heading of a file's part."""
        if file.endswith(".antt"):
            return _sentence(self.sources.heading(file) or Path(file).stem).rstrip(".")
        names = ", ".join(f"`{item.place.name}`" for item in items)
        return f"The type {names}" if len(items) == 1 else f"The types {names}"

    def block(self, item: Item, mode: str) -> str:
        """A definition with its comment, its text, and who names it."""
        comment = f"<p>{_code_words(escape(_sentence(item.comment)))}</p>\n" if item.comment else ""
        users = [self.link(place, place.name, mode) for place in self.users.get(item.place, ())
                 if place in self.place_of or place.file == str(CALL)]
        named = f'<p class="named">Named by {", ".join(users)}</p>\n' if users else ""
        return (f'<div class="definition" id="{anchor(item.place)}">\n{comment}'
                f"<pre><code>{self.linked(item, mode)}</code></pre>\n{named}</div>")

    def linked(self, item: Item, mode: str) -> str:
        """The text of an item, in which what names another leads there."""
        shown, begin, left_out = [], 0, False
        for line in item.text.splitlines(keepends=True):
            if is_of_another(item, begin, mode):
                left_out = True
            else:
                shown.append(self.linked_part(item, begin, begin + len(line), mode))
            begin += len(line)
        text = "".join(shown).rstrip("\n")
        return text + ('\n<span class="comment">-- and lines on other modes</span>' if left_out else "")

    def linked_part(self, item: Item, at: int, stop: int, mode: str) -> str:
        """A part of the text of an item, from a place to another."""
        shown = []
        for begin, end, place in item.links:
            if not at <= begin < stop:  # `do` stands for two, at one place
                continue
            shown.append(_with_comments(item.text[at:begin], item))
            word = item.text[begin:end]
            shown.append(escape(word) if place == item.place else self.link(place, word, mode))
            at = end
        return "".join([*shown, _with_comments(item.text[at:stop], item)])

    def line(self, item: Item, mode: str) -> str:
        """The lines on a mode of an item that stands on a page before."""
        name = self.link(item.place, item.place.name, mode)
        text = "\n".join(self.linked_part(item, begin, end, mode) for begin, end in lines_of_mode(item, mode))
        return f'<div class="definition">\n<p>Of {name}:</p>\n<pre><code>{text}</code></pre>\n</div>'

    def link(self, place: Place, word: str, mode: str) -> str:
        if place.file == str(CALL):
            there = MODES[0]
        elif place in self.place_of:
            there = self.place_of[place]
        else:
            return escape(word)
        sort = "" if place.is_ours else ' class="theirs"'
        return f'<a{sort} href="{"" if there == mode else f"{there}.html"}#{anchor(place)}">{escape(word)}</a>'

    def words(self, page: Page) -> str:
        """What each word of the toolchain that the page is the first to use means."""
        rows = [f'<tr id="{anchor(place)}"><td><code>{escape(place.name)}</code></td><td>{escape(self.readings[place.name])}</td>'
                f"<td>{escape(LIBRARIES.get(place.file.split('.')[1], place.file))}</td></tr>"
                for place in sorted(page.words, key=lambda place: (place.file.split(".")[1] != "std", place.name.lower()))]
        return "<table>\n<tr><th>Word</th><th>Means</th><th>Of</th></tr>\n" + "\n".join(rows) + "\n</table>"


def anchor(place: Place) -> str:
    """The name of a definition in a link."""
    if not place.is_ours:
        return f"word-{place.name}"
    crate, *_, file = Path(place.file).with_suffix("").parts[1:]
    name = "".join(letter if letter.isalnum() or letter in "_'" else f"{ord(letter):x}" for letter in place.name)
    return f"{crate}-{file}-{name}"


def _sentence(text: str) -> str:
    return text[:1].upper() + text[1:]


def _code_words(text: str) -> str:
    return re.sub(r"`([^`]+)`", r"<code>\1</code>", text)


def _with_comments(text: str, item: Item) -> str:
    """A piece of a text, whose comments are marked."""
    mark = "--" if item.place.file.endswith(".antt") else "//"
    return re.sub(rf"({re.escape(mark)}[^\n]*)", r'<span class="comment">\1</span>', escape(text))
