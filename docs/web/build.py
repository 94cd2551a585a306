"""docs/site [FOLDER]: the site of both books and of the theorem, by mkdocs, with a list of all sections for the search."""

import re
import sys
from pathlib import Path
from tempfile import TemporaryDirectory

import mkdocs.commands.build
import mkdocs.config
from books import navigation
from built_pages import broken_links, read_site, write_index
from function_pages import write_functions
from gathering import TOP, gather
from theorem_pages import write_pages


def slug(heading: str, _: str) -> str:
    """The name of a heading in a link, as the pages have it."""
    return re.sub(r"[^\w\- ]", "", heading.lower()).replace(" ", "-")


def build(site: Path) -> list[str]:
    """Builds the site, and gives the links that lead nowhere."""
    with TemporaryDirectory() as work:
        gather(Path(work, "pages"))
        write_pages(Path(work, "pages"))
        write_functions(Path(work, "pages"))
        Path(work, "mkdocs.yml").write_text("site_name: ctm\n")
        mkdocs.commands.build.build(mkdocs.config.load_config(
            str(Path(work, "mkdocs.yml")), docs_dir=str(Path(work, "pages")), site_dir=str(site), use_directory_urls=False,
            theme={"name": None, "custom_dir": str(TOP / "docs/web/theme")}, plugins=[], nav=navigation(),
            markdown_extensions=["tables", "fenced_code", "sane_lists", "code_words:CodeWordsExtension", {"toc": {"slugify": slug}}]))
    (site / "sitemap.xml.gz").unlink(missing_ok=True)
    (site / "sitemap.xml").unlink(missing_ok=True)
    read = read_site(site)
    write_index(site, read)
    return broken_links(read)


if __name__ == "__main__":
    folder = Path(sys.argv[1] if len(sys.argv) > 1 else "site").resolve()
    wrong = build(folder)
    print(*wrong, sep="\n", file=sys.stderr, end="\n" if wrong else "")
    sys.exit(1 if wrong else 0)
