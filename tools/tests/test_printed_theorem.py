"""The theorem on paper: the page of `run` is short enough for one sitting."""

import re
import subprocess

import pytest

from .examples import TOOLS

TOP = TOOLS.parent
PAGE_OF_PAPER = re.compile(rb"/Type\s*/Page\b")


@pytest.fixture(scope="module")
def site(tmp_path_factory):
    """Both books and the theorem, as docs/site builds them."""
    folder = tmp_path_factory.mktemp("site")
    subprocess.run([TOP / "docs/site", folder], check=True, timeout=300)
    return folder


def test_the_page_of_run_is_printed_on_at_most_40_pages(site, tmp_path):
    paper = tmp_path / "run.pdf"
    # A profile of its own, since a browser that is open hands the page to the one that has the user's.
    words = ("--headless", "--no-sandbox", "--disable-gpu", f"--user-data-dir={tmp_path}/profile", "--no-pdf-header-footer",
             f"--print-to-pdf={paper}")
    page = site / "docs/inside/theorem/run.html"
    subprocess.run(["chromium", *words, page.as_uri()], check=True, timeout=300, stderr=subprocess.DEVNULL)
    assert 30 <= len(PAGE_OF_PAPER.findall(paper.read_bytes())) <= 40
