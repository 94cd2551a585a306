"""The kinds of atomic step that tests/plays finds, under whatever names their traits are imported."""

import shutil
import subprocess

import pytest
from conftest import TOP

KINDS = "crates/region_slots/src/plays.rt"
OTHER = "crates/sweeping_crew/src/extra.rt"
PASSES_ON = "crates/worker_claim/src/lib.rt"
BODY = "{\n    ghost then = { λ step old found new. Looked step old found new };\n}\n"


@pytest.fixture
def plays(tmp_path):
    """The files that tests/plays reads, and a call of it: its status and what it tells of faults."""
    for path in ("docs/inside/FIELD.md", "crates.txt", "tests/plays", KINDS, PASSES_ON):
        (tmp_path / path).parent.mkdir(parents=True, exist_ok=True)
        shutil.copy(TOP / path, tmp_path / path)
    for folder in (".ci", "crates/border_rows/specs", "crates/region_slots/specs"):
        shutil.copytree(TOP / folder, tmp_path / folder, ignore=shutil.ignore_patterns("__pycache__"))
    (tmp_path / OTHER).parent.mkdir(parents=True)

    def call():
        ended = subprocess.run([tmp_path / "tests/plays"], stdout=subprocess.PIPE, stderr=subprocess.PIPE, text=True)
        return ended.returncode, ended.stderr
    call.top = tmp_path
    return call


@pytest.mark.parametrize("changes", [
    [("{Join, Play, Split}", "{Join as Uniting, Play as Step, Split as Parting}"), ("impl Play<", "impl Step<"),
     ("impl Split<", "impl Parting<"), ("impl Join<", "impl Uniting<")],
    [("use atomic_table::{Join, Play, Split};", "use atomic_table as table;"), ("impl Play<", "impl table::Play<"),
     ("impl Split<", "impl table::Split<"), ("impl Join<", "impl table::Join<")],
    [("use atomic_table::{Join, Play, Split};", ""), ("impl Play<", "impl atomic_table::Play<"),
     ("impl Split<", "impl ::atomic_table::Split<"), ("impl Join<", "impl atomic_table::Join<")],
    [("use atomic_table::{Join, Play, Split};", "use atomic_table::*;")],
    [("use border_rows::View;", "use border_rows::View as Sight;"), ("View<'static>", "Sight<'static>")],
], ids=["other names", "another name of the crate", "whole paths", "all names", "another name of the view"])
def test_the_kinds_are_those_of_the_table_under_other_names(plays, changes):
    text = (TOP / KINDS).read_text()
    for old, new in changes:
        assert old in text
        text = text.replace(old, new)
    (plays.top / KINDS).write_text(text)
    assert plays() == (0, "")


@pytest.mark.parametrize("text", [
    f"use atomic_table::Play;\nuse border_rows::View;\nimpl Play<Region, View<'static>> for Extra {BODY}",
    f"use atomic_table::Play as Step;\nuse border_rows::View as Sight;\nimpl Step<Region, Sight<'static>> for Extra {BODY}",
    f"use atomic_table::{{self as table}};\ntype Sight = border_rows::View<'static>;\nimpl table::Play<Region, Sight> for Extra {BODY}",
    f"mod inner {{\n    use atomic_table::*;\n    impl<T> Play<T, View<'static>> for Extra {BODY}}}\n",
    f"use worker_claim::Step;\nimpl Step<Region, View<'static>> for Extra {BODY}",
    f"use atomic_table::*;\nuse border_rows::*;\nimpl Play<Region, View<'static>> for Extra {BODY}",
    f"use worker_claim::Split;\nimpl Split<Region, View<'static>> for Extra {BODY}",
    f"use atomic_table::Play as Move;\nmod inner {{\n    use super::Move;\n    impl Move<Region, View<'static>> for Extra {BODY}}}\n",
], ids=["plainly", "both names", "a path and an alias", "in a module", "passed on by a crate", "among all names of two crates",
        "passed on with all names", "taken from the module above"])
def test_a_kind_that_stands_elsewhere_is_found(plays, text):
    (plays.top / OTHER).write_text(text)
    with open(plays.top / PASSES_ON, "a") as file:
        file.write("pub use atomic_table::Play as Step;\npub use atomic_table::*;\n")
    assert plays() == (1, f"{OTHER} has a kind of step of its own\nExtra is no row of the table of docs/inside/FIELD.md\n")


def test_a_kind_that_the_table_lacks_or_that_changes_other_counts_is_told(plays):
    text = (plays.top / KINDS).read_text()
    (plays.top / KINDS).write_text(text.replace("Looked step old", "Claimed step old"))
    status, told = plays()
    assert status == 1 and told.startswith("Look changes [")
