"""The pages of both books as they stand in the site, and the files that they link to; nothing here needs mkdocs."""

import re
import shutil
from collections.abc import Iterator
from pathlib import Path

TOP = Path(__file__).resolve().parents[2]
PATTERNS = ("README.md", "CHANGELOG.md", "CONTRIBUTING.md", "SECURITY.md", "docs/**/*.md", "tools/README.md", "tools/docs/*.md",
            "examples/README.md")
PICTURES = ("docs/pictures/*", "docs/inside/pictures/*")
LINK = re.compile(r"\]\(([^)\s]+)\)")
CODE = re.compile(r"(^```.*?^```$)", re.MULTILINE | re.DOTALL)


def pages() -> list[Path]:
    """The pages, each by its path from the repository's top."""
    return sorted({path.relative_to(TOP) for pattern in PATTERNS for path in TOP.glob(pattern)})


def gather(folder: Path) -> None:
    """Lays the pages into a folder, with the pictures and the files to which they link. A file that isn't a page gets the
    ending .txt, so that a browser shows it; a link to a folder leads to its first page, or is left out."""
    for page in pages():
        text = "".join(part if number % 2 else _with_links(part, page, folder)
                       for number, part in enumerate(CODE.split((TOP / page).read_text())))
        _laid(folder / page).write_text(text)
    for pattern in PICTURES:
        for path in TOP.glob(pattern):
            shutil.copyfile(path, _laid(folder / path.relative_to(TOP)))


def contents(page: Path) -> Iterator[tuple[str, str, Path]]:
    """The pages to which a page of contents leads, in its order, each with its part of that page and its name there."""
    part = ""
    for heading, title, link in re.findall(r"^## (.*)$|\[([^\]]+)\]\(([^)#\s]+)\)", (TOP / page).read_text(), re.MULTILINE):
        part = heading or part
        path = _target(page, link)
        if link and path in pages():
            yield part, title.removesuffix(".md"), path


def _with_links(text: str, page: Path, folder: Path) -> str:
    """A part of a page with links that lead to what stands in the site."""
    def link(found: re.Match[str]) -> str:
        path, _, anchor = found[1].partition("#")
        if re.match(r"\w+:", path) or not path:
            return found[0]
        target = _target(page, path)
        if (TOP / target).is_dir():
            target = target / "README.md"
        if target in pages():
            return f"]({_way(page, target)}{'#' + anchor if anchor else ''})"
        if not (TOP / target).is_file():
            return "]()"
        if any(target.match(pattern) for pattern in PICTURES):
            return found[0]
        shown = target.with_name(f"{target.name}.txt")
        shutil.copyfile(TOP / target, _laid(folder / shown))
        return f"]({_way(page, shown)})"
    return re.sub(r"\[([^\]]*)\]\(\)", r"\1", LINK.sub(link, text))


def _target(page: Path, link: str) -> Path:
    """The path from the top of what a link of a page leads to."""
    return (TOP / page.parent / link).resolve().relative_to(TOP)


def _way(page: Path, target: Path) -> str:
    """The link from one page to another file of the site."""
    return "../" * len(page.parent.parts) + target.as_posix()


def _laid(path: Path) -> Path:
    path.parent.mkdir(parents=True, exist_ok=True)
    return path
