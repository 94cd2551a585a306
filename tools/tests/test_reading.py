"""How much there is to read in the two books, and that no sentence is too long: a word is what has a letter or a digit, and
prose is what stands outside of blocks of code and tables, which are looked up and not read. Both are counted and bounded.
"""

import re

import pytest

from .examples import TOOLS

TOP = TOOLS.parent
INSIDE = sorted([*TOP.glob("docs/inside/*.md"), TOP / "CONTRIBUTING.md"])
USERS = sorted([TOP / "README.md", TOP / "tools/README.md", TOP / "examples/README.md", *TOP.glob("docs/*.md"),
                *TOP.glob("docs/how-to/*.md"), *TOP.glob("tools/docs/*.md")])
BOTH = [str(path.relative_to(TOP)) for path in [*USERS, *INSIDE]]
MOST_PROSE, MOST_WITH_TABLES, MOST_OF_USERS = 27_400, 43_000, 30_200
LONGEST = 40  # words of a sentence
# Sentences that are longer, by their pages and first words: lists of files, commands or titles, and what others wrote.
LONGER = [
    ("CONTRIBUTING.md", "Outside the check, in `bench`"),
]


def uncoded(page):
    """A page without its blocks of code and what links lead to."""
    text = re.sub(r"^```.*?^```$", "", (TOP / page).read_text(), flags=re.MULTILINE | re.DOTALL)
    text = re.sub(r"^\[[^\]]+\]: .*$", "", text, flags=re.MULTILINE)
    return re.sub(r"!?\[([^\]]*)\]\([^)]*\)", r"[\1]", text)


def prose(page):
    return "\n".join(line for line in uncoded(page).splitlines() if not line.startswith("|"))


def words(text):
    return [word for word in text.split() if re.search(r"\w", word)]


def sentences(page):
    """The sentences of a page's prose, each on one line; an item of a list begins a new one."""
    for part in re.split(r"\n\s*\n|\n(?=\s*(?:[-*>]|\d+\.) |#)", prose(page)):
        yield from re.split(r"(?<=[.!?])[*)]*\s+(?=[*_(\"]*[A-Z0-9`\[])|(?<=[.!?][*)])\s+", " ".join(part.split()))


@pytest.mark.parametrize("page, most", [("README.md", 800), ("docs/TUTORIAL.md", 450), ("tools/README.md", 550),
                                        *((page, 200) for page in BOTH if page.startswith("docs/how-to/")),
                                        *((page, 3600) for page in BOTH)])
def test_a_page_has_no_more_words(page, most):
    assert len(words(prose(page))) <= most


def test_the_first_page_has_no_more_lines():
    assert len((TOP / "README.md").read_text().splitlines()) <= 150


def test_both_books_together_have_no_more_words():
    assert sum(len(words(prose(page))) for page in BOTH) <= MOST_PROSE
    assert sum(len(words(uncoded(page))) for page in BOTH) <= MOST_WITH_TABLES
    assert sum(len(words(uncoded(path.relative_to(TOP)))) for path in USERS) <= MOST_OF_USERS


@pytest.mark.parametrize("page", BOTH)
def test_no_sentence_is_too_long(page):
    long = [sentence for sentence in sentences(page) if len(words(sentence)) > LONGEST]
    known = tuple(begin for where, begin in LONGER if where == page)
    assert not [sentence for sentence in long if not sentence.lstrip("-*#> ").startswith(known)]


def test_the_sentences_that_may_be_longer_are_few():
    assert len(LONGER) <= 20
    assert all(begin in " ".join((TOP / page).read_text().split()) for page, begin in LONGER)
