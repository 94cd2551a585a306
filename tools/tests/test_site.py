"""The site of both books, as far as it is made without mkdocs: its pages with their links, the order, the search."""

import re
import subprocess

import pytest
from books import BOOKS, navigation
from built_pages import Sections, broken_links, write_index
from function_pages import PAGE as FUNCTIONS
from gathering import CODE, LINK, gather, pages
from theorem_pages import theorem_pages

from .examples import TOOLS

TOP = TOOLS.parent


@pytest.fixture(scope="module")
def gathered(tmp_path_factory):
    folder = tmp_path_factory.mktemp("site")
    gather(folder)
    return folder


def headings(page):
    return {re.sub(r"[^\w\- ]", "", heading.lower()).replace(" ", "-") for heading in re.findall(r"^#+ (.*)$", page, re.MULTILINE)}


def test_each_link_leads_to_a_file_of_the_site_and_a_place_in_it(gathered):
    assert len(pages()) > 30
    for page in pages():
        for link in LINK.findall("".join(CODE.split((gathered / page).read_text())[::2])):
            path, _, anchor = link.partition("#")
            target = (gathered / page.parent / path).resolve() if path else gathered / page
            if re.match(r"\w+:", link):
                continue
            assert target.is_file() and target.is_relative_to(gathered.resolve()), (page, link)
            assert not anchor or anchor in headings(target.read_text()), (page, link)


def test_a_source_is_shown_as_text(gathered):
    assert (gathered / "crates/ctm_call/src/call.rt.txt").read_bytes() == (TOP / "crates/ctm_call/src/call.rt").read_bytes()
    assert "](crates/ctm_call/src/call.rt.txt)" in (gathered / "README.md").read_text()


def in_order(inside):
    """The pages of a part of the navigation, with those of the parts in it."""
    return [inside] if isinstance(inside, str) else [path for item in inside for part in item.values() for path in in_order(part)]


def test_each_page_stands_once_and_in_the_book_that_names_it():
    books = {title: inside for book in navigation() for title, inside in book.items()}
    assert sorted(in_order(navigation())) == sorted(map(str, [*pages(), *theorem_pages(), FUNCTIONS]))
    assert list(books)[:3] == ["ctm", *BOOKS]
    assert set(in_order(books["For maintainers"])) >= {
        str(path) for path in pages() if path.parts[:2] == ("docs", "inside")}


def test_a_book_has_the_parts_of_its_page_of_contents():
    users, _ = (next(iter(book.values())) for book in navigation()[1:3])
    parts = [part for item in users for part, inside in item.items() if not isinstance(inside, str)]
    assert parts == re.findall(r"^## (.*)$", (TOP / "docs/README.md").read_text(), re.MULTILINE)
    assert in_order(users)[:2] == ["docs/README.md", "docs/INSTALL.md"]


def test_nothing_is_fetched_from_elsewhere():
    for path in (TOP / "docs/web/theme").iterdir():
        assert not re.search(r"(?:https?:)?//[\w.]+\.\w|@import|@font-face|url\(", path.read_text()), path


PAGE = """<header>head</header><main><h1 id="one">One</h1><p>A queue of <b>cells</b>.</p><h2 id="two">Two</h2><a href="{}">on</a></main>"""


def test_the_search_has_each_section_with_its_words(tmp_path):
    sections = Sections()
    sections.feed(PAGE.format("#two"))
    write_index(tmp_path, {tmp_path / "docs" / "page.html": sections})
    assert (tmp_path / "search-index.js").read_text() == (
        'const SECTIONS = [["docs/page.html", "one", "One", "A queue of cells."], ["docs/page.html", "two", "Two", "on"]];\n')


@pytest.mark.parametrize("link, broken", [("#two", False), ("#three", True), ("page.html#one", False), ("other.html", True),
                                          ("https://example.org/x", False)])
def test_a_link_that_leads_nowhere_is_found(tmp_path, link, broken):
    sections = Sections()
    (tmp_path / "page.html").write_text(PAGE.format(link))
    sections.feed(PAGE.format(link))
    assert broken_links({tmp_path / "page.html": sections}) == ([f"page.html: {link}"] if broken else [])


def test_a_search_finds_all_words_and_titles_first():
    """search.js in the browser's language, over two sections."""
    script = """
const made = () => ({ append() {}, addEventListener() {}, replaceChildren(...rows) { this.rows = rows; }, hidden: true, value: "" });
const parts = { search: made(), found: made() };
globalThis.document = { getElementById: (name) => parts[name], querySelector: () => ({}), createElement: () => made() };
globalThis.matchMedia = () => ({ addEventListener() {}, matches: true });
globalThis.TOP = ".";
globalThis.SECTIONS = [["a.html", "one", "Other", "A merge of two"], ["b.html", "", "A merge", "two"], ["c.html", "", "No", "two"]];
"""
    tail = """
const rank = (text) => SECTIONS.map((_, number) => score(number, text.split(" ")));
console.log(JSON.stringify([rank("merge two"), rank("nothing"), excerpt("A merge of two", "merge")]));
"""
    code = script + (TOP / "docs/web/theme/search.js").read_text() + tail
    ended = subprocess.run(["node", "-"], input=code, stdout=subprocess.PIPE, text=True, check=True)
    assert ended.stdout == '[[1,11,0],[0,0,0],"A merge of two"]\n'
