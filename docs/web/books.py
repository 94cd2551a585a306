"""The two books: which pages they have, and in which order."""

from itertools import groupby
from pathlib import Path

from function_pages import PAGE as FUNCTIONS
from gathering import contents, pages
from theorem_pages import theorem_pages

BOOKS = {"For users": Path("docs/README.md"), "For maintainers": Path("docs/inside/README.md")}


def navigation() -> list[dict]:
    """The books with their pages, in the order and the parts of their pages of contents; a page stands in one book alone."""
    listed: list[dict] = [{"ctm": "README.md"}]
    known = {Path("README.md"), *BOOKS.values()}
    for book, first in BOOKS.items():
        inside = {path: (part, title) for part, title, path in contents(first) if path not in known and (
            path.parts[:2] != ("docs", "inside") or first.parent == path.parent)}
        known |= inside.keys()
        listed.append({book: [{"Contents": str(first)}, *in_parts(inside)]})
    listed[1][next(iter(BOOKS))].append({"Functions of Python": str(FUNCTIONS)})
    listed[-1][book].append({"The theorem": [{path.stem: str(path)} for path in theorem_pages()]})
    rest = [path for path in pages() if path not in known]
    return [*listed, {"More": [{path.stem: str(path)} for path in rest]}] if rest else listed


def in_parts(inside: dict[Path, tuple[str, str]]) -> list[dict]:
    """The pages of a book, those of each part together; pages without a part stand by themselves."""
    found: list[dict] = []
    for part, those in groupby(inside.items(), lambda item: item[1][0]):
        named = [{title: str(path)} for path, (_, title) in those]
        found += [{part: named}] if part else named
    return found
