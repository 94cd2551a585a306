"""The tables of docs/FORMAT.md and docs/MODEL.md."""

from conftest import TOP

FORMAT, MODEL = ((TOP / "docs" / name).read_text() for name in ("FORMAT.md", "MODEL.md"))


def rows_of(heads, page=FORMAT):
    """The lines of the table with these heads."""
    return page.partition(f"\n| {heads} |\n")[2].partition("\n\n")[0].splitlines()[1:]
