"""The list of what the crates promise, as .ci/contracts makes it: of odd forms, and of what is changed or taken away."""

import shutil
import subprocess

import pytest
from conftest import TOP

PROVED = """`hidden` is told of no crate.

**`low`**: public lemmas: a half is no more than the whole (`half-le`). `full` is a clause. Inside, `keep` keeps it, and `half-zero` holds.

**`high`**: `inside`.
"""
SOURCE = '''//! Halves. { " are taken
#![tactic(auto)]
ghost use Rattle.std.specs.Prelude.{◌≡◌, ◌≤◌};
ghost use Rattle.low.specs.Halves.{half_of, IsEven as Even};
ghost use Rattle.low.specs.Folding as folding;

use std::marker::Model;

/* A comment /* in a comment */ with ensures { nothing } */
/// Half of it: `{`, "quotes", and a '"'.
#[inline]
pub fn half<'a, const N: usize>(
    n: &'a [u8; N], // an array
    text: &'static str,
) -> Result<u8, ()>
where
    u8: Clone,
    requires { n.now ≡ n' } // not named
    requires few { length n.now ≤ 9 }
    ghost top: { ℕ }
    ensures* owned { ⌜ half_of top ≡ result ⌝ ∗ folding.folded }
    // why } it holds
    ensures even {
        Even result  // what it is
            × codes "}{" ≡ []
    }
{
    let brace = '{';
    let quote = b'\\'';
    let raw = r#"pub fn inner() ensures { false } {"#;
    if n[0] > 1 { helper(brace, "\\"}", quote, raw) } else { Err(()) }
}

fn hidden() ensures hidden { half_of 1 ≡ 0 } {}

pub(crate) fn inside() ensures inside { half_of 1 ≡ 0 } {}

fn keep(n: u8) -> u8 ensures kept { result ≡ n } { n }

pub const MOST: usize = 1_000;

pub struct Pair {
    pub first: Vec<Option<u8>>,
    second: u8,
    pub ghost small: { first ≤ second },
}

#[derive(Clone)]
pub struct Unit;

pub struct Tuple(pub u8, u8);

pub enum Side {
    /// the left
    Left(u8),
    #[cold]
    Right { at: usize },
}

impl Model for Pair {
    ghost Value = { ℕ };

    ghost invariant = { λ p. p.first ≤ p.second };
}

impl<T: Ord> From<Vec<T>> for Pair {
    fn from(value: Vec<T>) -> Self
        ensures made { result ≡ value }
    {
        Pair { first: value }
    }
}

impl Pair {
    pub const fn first(&self) -> u8
        ensures { result ≡ self.now }
    {
        self.first
    }

    fn own(&self) ensures own { result ≡ 3 } {}
}

pub trait Source: Sync {
    // Whether it ends.
    ghost ends: { Self → Type 0 };

    fn read(&mut self) -> u8
        ensures { ends self.new };

    fn peek(&self) -> u8 { 0 }
}

pub mod inner {
    pub fn deep() {}
}

#[cfg(test)]
mod tests {
    pub fn of_tests() {}
}
'''
LISTED = '''low/src/lib.rt <Pair as From<Vec<T>>>: impl<T: Ord> From<Vec<T>> for Pair
low/src/lib.rt <Pair as From<Vec<T>>>::from: fn from(value: Vec<T>) -> Self
low/src/lib.rt <Pair as From<Vec<T>>>::from: ensures made { result ≡ value }
low/src/lib.rt <Pair as Model>: ghost Value = { ℕ }
low/src/lib.rt <Pair as Model>: ghost invariant = { λ p. p.first ≤ p.second }
low/src/lib.rt MOST: pub const MOST: usize = 1_000;
low/src/lib.rt Pair: pub ghost small: { first ≤ second }
low/src/lib.rt Pair: pub struct Pair { pub first: Vec<Option<u8>> }
low/src/lib.rt Pair::first: pub const fn first(&self) -> u8
low/src/lib.rt Pair::first: ensures { result ≡ self.now }
low/src/lib.rt Side: pub enum Side { Left(u8), Right { at: usize } }
low/src/lib.rt Source: pub trait Source: Sync
low/src/lib.rt Source: ghost ends: { Self → Type 0 }
low/src/lib.rt Source::peek: fn peek(&self) -> u8
low/src/lib.rt Source::read: fn read(&mut self) -> u8
low/src/lib.rt Source::read: ensures { ends self.new }
low/src/lib.rt Tuple: pub struct Tuple(pub u8, u8);
low/src/lib.rt Unit: pub struct Unit;
low/src/lib.rt half: pub fn half<'a, const N: usize>(n: &'a [u8; N], text: &'static str) -> Result<u8, ()> where u8: Clone,
low/src/lib.rt half: requires { n.now ≡ n' }
low/src/lib.rt half: requires few { length n.now ≤ 9 }
low/src/lib.rt half: ghost top: { ℕ }
low/src/lib.rt half: ensures* owned { ⌜ half_of top ≡ result ⌝ ∗ folding.folded }
low/src/lib.rt half: ensures even { Even result × codes "}{" ≡ [] }
low/src/lib.rt inner::deep: pub fn deep()
low/src/lib.rt keep: fn keep(n: u8) -> u8
low/src/lib.rt keep: ensures kept { result ≡ n }
'''.splitlines()
HALVES = '''-- Halves; {- a comment -}
use Rattle.std.specs.Prelude.{ℕ, ◌/◌}
use Rattle.low.specs.Sums.{
  ◌⊕◌,
  Parts,
}
use Rattle.low.specs.Kinds.{left}

abbrev pub half_of : ℕ → ℕ
half_of n = n / 2 -- rounded down

infixl 10 ◌⊗◌
abbrev pub ◌⊗◌ : ℕ → ℕ → ℕ
n ⊗ m = n

pub record IsEven (n : ℕ) : Type 0 where
  pub parts : Parts (n ⊕ n) left

pub unused : ℕ
unused = 1
'''
SUMS = '''pub Parts : ℕ → Kind → Type 0
Parts n kind = own n

abbrev own : ℕ → Type 0
own zero = {- nothing {- at all -} -} Unit {0}
own (suc n) = own n

abbrev pub ◌⊕◌ : ℕ → ℕ → ℕ
n ⊕ m = n + m
'''
KINDS = "pub data Kind : Type 0 where\n  left : Kind\n  right : Kind\n"
FOLDING = "pub use Rattle.low.specs.Sums\nabbrev pub folded : Type 0\nfolded = Unit {0}\n"
LAWS = '''use Rattle.low.specs.Halves.{half_of}

pub half-le : (n : ℕ) → half_of n ≤ n
unfolding half_of
half-le n = omega arith

pub half-zero : half_of 0 ≡ 0
half-zero = refl

pub untold : (n : ℕ) → n ≤ n
untold n = le-refl n
'''
REACHED = {"Folding.antt folded", "Halves.antt half_of", "Halves.antt IsEven", "Sums.antt Parts", "Sums.antt own", "Sums.antt ◌⊕◌",
           "Kinds.antt Kind"}


class Promises:
    """A repository of one crate, and what .ci/contracts lists of it."""

    def __init__(self, top):
        self.top = top

    def make(self):
        shutil.copytree(TOP / ".ci", self.top / ".ci", ignore=shutil.ignore_patterns("__pycache__"))
        for path, text in {"crates.txt": "low:\n", "docs/inside/PROVED.md": PROVED, "crates/low/src/lib.rt": SOURCE,
                           "crates/low/specs/Halves.antt": HALVES, "crates/low/specs/Sums.antt": SUMS,
                           "crates/low/specs/Kinds.antt": KINDS, "crates/low/specs/Folding.antt": FOLDING,
                           "crates/low/proofs/Laws.antt": LAWS}.items():
            (self.top / path).parent.mkdir(parents=True, exist_ok=True)
            (self.top / path).write_text(text)
        subprocess.run([self.top / ".ci/contracts"], check=True)

    @property
    def lines(self):
        return (self.top / "contracts.txt").read_text().splitlines()

    def differences(self, path, old, new):
        """What is told once a text of a file of the crate has been replaced: each line that goes or comes."""
        file = self.top / "crates/low" / path
        text = file.read_text()
        assert text.count(old) == 1
        file.write_text(text.replace(old, new))
        ended = subprocess.run([self.top / ".ci/contracts", "--check"], stdout=subprocess.PIPE, text=True)
        told = [line.removeprefix(".ci/contracts: ") for line in ended.stdout.splitlines()]
        assert ended.returncode == (1 if told[1:] else 0)
        return [line for line in told if line[0] in "+-"]


@pytest.fixture(scope="session")
def made(tmp_path_factory):
    folder = tmp_path_factory.mktemp("promises")
    Promises(folder).make()
    return folder


@pytest.fixture
def promises(tmp_path, made):
    shutil.copytree(made, tmp_path, dirs_exist_ok=True)
    return Promises(tmp_path)


def test_each_promise_is_a_line_in_whatever_form_it_is_written(promises):
    assert [line for line in promises.lines if "/src/" in line and " imports: " not in line] == LISTED


def test_the_definitions_that_a_clause_reaches_are_listed_with_a_checksum(promises):
    told = [line.removeprefix("low/specs/").split(": ") for line in promises.lines if "/specs/" in line]
    assert {name for name, _ in told} == REACHED
    assert all(len(checksum) == 12 for _, checksum in told)


def test_a_lemma_that_the_document_names_is_listed_by_its_statement(promises):
    assert [line for line in promises.lines if "/proofs/" in line and " imports: " not in line] == [
        "low/proofs/Laws.antt half-le: (n : ℕ) → half_of n ≤ n", "low/proofs/Laws.antt half-zero: half_of 0 ≡ 0"]


@pytest.mark.parametrize("path, old, new", [
    ("src/lib.rt", "// not named", "/* nor is this */\n\n"),
    ("src/lib.rt", "Even result  // what it is\n            × codes", "Even result × codes"),
    ("src/lib.rt", "    text: &'static str,\n)", "    text: &'static str)"),
    ("src/lib.rt", "requires few { length n.now ≤ 9 }", "requires few {\n length  n.now ≤ 9 // nine\n}"),
    ("src/lib.rt", "let quote = b'\\'';", "let quote = b'{';"),
    ("src/lib.rt", "use std::marker::Model;", "use std::fmt::Display;\nuse std::marker::Model;"),
    ("src/lib.rt", "{◌≡◌, ◌≤◌}", "{◌≤◌, ◌<◌, ◌≡◌}"),
    ("specs/Halves.antt", " -- rounded down", ""),
    ("specs/Sums.antt", "{- nothing {- at all -} -}", "\n   "),
    ("specs/Halves.antt", "unused = 1", "unused = 2"),
    ("proofs/Laws.antt", "half-le n = omega arith", "half-le n = half-le-by n"),
])
def test_comments_layout_bodies_and_proofs_change_no_line(promises, path, old, new):
    assert promises.differences(path, old, new) == []


@pytest.mark.parametrize("path, old, new, told", [
    ("src/lib.rt", "    requires few { length n.now ≤ 9 }\n", "", ["-low/src/lib.rt half: requires few { length n.now ≤ 9 }"]),
    ("src/lib.rt", "ensures even {", "ensures odd {", [f"{sign}low/src/lib.rt half: ensures {name} {{ Even result × codes \"}}{{\" ≡ [] }}"
                                                       for sign, name in (("-", "even"), ("+", "odd"))]),
    ("src/lib.rt", " ensures kept { result ≡ n }", "", ["-low/src/lib.rt keep: ensures kept { result ≡ n }"]),
    ("src/lib.rt", "impl<T: Ord>", "impl<T: Ord + Copy>", [
        f"{sign}low/src/lib.rt <Pair as From<Vec<T>>>: impl<T: Ord{more}> From<Vec<T>> for Pair" for sign, more in (("-", ""), ("+", " + Copy"))]),
    ("src/lib.rt", "pub fn deep", "fn deep", ["-low/src/lib.rt inner::deep: pub fn deep()"]),
    ("src/lib.rt", "λ p. p.first ≤ p.second", "λ p. ⊤", ["-low/src/lib.rt <Pair as Model>: ghost invariant = { λ p. p.first ≤ p.second }",
                                                        "+low/src/lib.rt <Pair as Model>: ghost invariant = { λ p. ⊤ }"]),
    ("proofs/Laws.antt", "half_of n ≤ n\nunfolding", "half_of n ≤ n + 1\nunfolding", [
        "-low/proofs/Laws.antt half-le: (n : ℕ) → half_of n ≤ n", "+low/proofs/Laws.antt half-le: (n : ℕ) → half_of n ≤ n + 1"]),
    ("proofs/Laws.antt", LAWS[LAWS.index("pub half-le"):LAWS.index("pub half-zero")], "", [
        "-low/proofs/Laws.antt half-le: (n : ℕ) → half_of n ≤ n"]),
])
def test_a_promise_that_is_changed_or_taken_away_is_told(promises, path, old, new, told):
    assert promises.differences(path, old, new) == told


@pytest.mark.parametrize("path, old, new, name", [
    ("specs/Halves.antt", "n / 2", "n / 3", "Halves.antt half_of"),
    ("specs/Sums.antt", "own (suc n) = own n", "own (suc n) = ⊥", "Sums.antt own"),
    ("specs/Sums.antt", "n + m", "n - m", "Sums.antt ◌⊕◌"),
    ("specs/Kinds.antt", "  right : Kind\n", "", "Kinds.antt Kind"),
    ("specs/Folding.antt", "folded = Unit {0}", "folded = ⊥", "Folding.antt folded"),
])
def test_a_definition_that_a_clause_reaches_in_any_way_is_told_where_it_changes(promises, path, old, new, name):
    told = promises.differences(path, old, new)
    assert [line.rpartition(": ")[0] for line in told] == [f"-low/specs/{name}", f"+low/specs/{name}"]


@pytest.mark.parametrize("path, old, new, names", [
    ("src/lib.rt", "{◌≡◌, ◌≤◌}", "{◌≡◌, ◌<◌ as ◌≤◌}", ["src/lib.rt imports"]),
    ("src/lib.rt", "use std::marker::Model;", "use crate::inner::Model;", ["src/lib.rt imports"]),
    ("src/lib.rt", "specs.Folding as folding", "specs.Others as folding", ["specs/Folding.antt folded", "src/lib.rt imports"]),
    ("specs/Halves.antt", "{ℕ, ◌/◌}", "{ℕ, ◌-◌ as ◌/◌}", ["specs/Halves.antt half_of"]),
    ("proofs/Laws.antt", "{half_of}", "{unused as half_of}", ["proofs/Laws.antt imports", "specs/Halves.antt unused"]),
])
def test_a_name_that_is_imported_from_elsewhere_is_told(promises, path, old, new, names):
    """The text of the promise stays as it is."""
    told = promises.differences(path, old, new)
    assert sorted({line[1:].removeprefix("low/").rpartition(": ")[0] for line in told}) == names


def test_the_promises_of_the_call_stand_in_the_list():
    lines = (TOP / "contracts.txt").read_text().splitlines()
    clauses = {line.split()[3] for line in lines if line.startswith("ctm_call/src/call.rt ctm: ensures ")}
    assert clauses == {"ended", "words", "refused", "unread", "bounded"}
    assert any(line.startswith("flow_model/specs/State.antt state_at: ") for line in lines)
