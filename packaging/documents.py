"""tools/documents [--check] [PAGE..] writes what pages have from elsewhere, or with --check says which have something else."""

import argparse
import re
import sys
from functools import partial
from pathlib import Path

TOP = Path(__file__).resolve().parents[1]
sys.path += [str(TOP / ".ci"), str(TOP / "tools"), str(TOP / "launcher/checks")]

from figures.crates import crates_picture
from figures.field import field_picture
from figures.user_book import PICTURES

# The heads of the tables that are written here.
MODES = "```\nmode      definitions   types   files   lines   new files   begins with\n"
PARTS = "| Part | Checks | Needs | Processor minutes |\n|---|---|---|---|\n"


def proved_page() -> str:
    """docs/inside/PROVED.md with how much there is to read of the theorem, counted in the sources."""
    import reading
    page = (TOP / "docs/inside/PROVED.md").read_text()
    whole, traits = reading.whole(TOP)
    relied_on = ", ".join(f"{len(names)} of `{library}`" for library, names in whole.relied_on.items())
    page = re.sub(r"All clauses of `ctm` rest on .*\n", f"All clauses of `ctm` rest on {len(whole.definitions)} definitions, {len(whole.types)} types and {len(traits)} traits in "
                  f"{len(whole.files)} files of {whole.lines(TOP):,} lines, and on names of the toolchain: {relied_on}.\n", page)
    modes = "".join(f"{mode:10}{definitions:>11}{types:>8}{files:>8}{lines:>8}{new:>12}   {first.relative_to('crates')}\n"
                    for mode, first, definitions, types, files, lines, new in reading.modes(TOP))
    return with_block(page, MODES, modes)


def with_block(page: str, head: str, lines: str, end: str = "```") -> str:
    """The page with these lines behind the head of a block, up to its end."""
    before, _, behind = page.partition(head)
    return before + head + lines + behind[behind.index(end):]


def contributing_page() -> str:
    """CONTRIBUTING.md with the parts of ./check."""
    from parts import rows
    return with_table((TOP / "CONTRIBUTING.md").read_text(), PARTS, [[f"`{name}`", *others] for name, *others in rows()])


def with_table(page: str, heads: str, rows: list[list]) -> str:
    """The page with these rows behind the heads of a table."""
    before, _, behind = page.partition(heads)
    table = "".join(f"| {' | '.join(map(str, row))} |\n" for row in rows)
    return before + heads + table + re.sub(r"\A(?:\|.*\n)*", "", behind)


def library_page() -> str:
    """crates/ctm/src/lib.rt with the questions of its tests, each with the body of the function that answers it."""
    tests = (TOP / "crates/ctm/src/questions.rt").read_text()
    page = (TOP / "crates/ctm/src/lib.rt").read_text()
    answered = re.findall(r"^// (.*\?)\nfn [\s\S]*?\{\n((?:    .*\n|\n)*)\}", tests, re.MULTILINE)
    assert len(answered) == page.count("```text"), "a question of the page has no function"
    for question, body in answered:
        lines = "".join(f"//! {line[4:]}\n" for line in body.splitlines())
        page = with_block(page, f"//! {question}\n//!\n//! ```text\n", lines, end="//! ```")
    return page


def tools_page() -> str:
    """docs/ctm-tools.1 of what the tools' commands say of themselves, which takes click."""
    from tools_manual import tools_manual
    return tools_manual()


def completion(shell: str) -> str:
    """What a shell is told to complete the words of ctm-tools, which takes click."""
    from tools_completions import tools_completion
    return tools_completion(shell)


PAGES = {"CONTRIBUTING.md": contributing_page, "docs/inside/PROVED.md": proved_page,
         "crates/ctm/src/lib.rt": library_page, "docs/inside/pictures/crates.svg": partial(crates_picture, TOP),
         "docs/inside/pictures/field.svg": partial(field_picture, TOP), "docs/ctm-tools.1": tools_page,
         **{f"docs/pictures/{name}.svg": PICTURES[name] for name in sorted(PICTURES)},
         **{f"packaging/shells/ctm-tools.{shell}": partial(completion, shell) for shell in ("bash", "zsh", "fish")}}


def main() -> None:
    """Makes the pages that are named, or all."""
    parser = argparse.ArgumentParser(prog="tools/documents", description=__doc__)
    parser.add_argument("--check", action="store_true")
    parser.add_argument("pages", nargs="*", metavar="PAGE", help=f"{', '.join(PAGES)}; by default all")
    words = parser.parse_args()
    status = 0
    for page in words.pages or PAGES:
        if page not in PAGES:
            parser.error(f"{page} isn't made here")
        text = PAGES[page]()
        if words.check and (TOP / page).read_text() != text:
            print(f"{page} isn't what tools/documents makes of its sources", file=sys.stderr)
            status = 1
        elif not words.check:
            (TOP / page).write_text(text)
    sys.exit(status)


main()
