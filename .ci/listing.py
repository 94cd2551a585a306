"""What the repository lists: its crates, and the must-fail edits, the stored run and the tests of each, each with a checksum."""

import hashlib
from functools import cache
from pathlib import Path

from promises import end_of_item
from tokens import end_of_brackets, rattle_tokens

TOP = Path(__file__).resolve().parents[1]
TRIALS = "trials"  # how the crates are named that are nothing but tests


def checksum(content):
    """A short checksum of bytes or of a text."""
    return hashlib.sha256(content if isinstance(content, bytes) else content.encode()).hexdigest()[:12]


def lines_of(path):
    """The lines of a list, without its comments."""
    return [line for line in (line.partition("#")[0].strip() for line in path.read_text().splitlines()) if line]


def crates():
    """The crates of crates.txt in its order."""
    return [line.partition(":")[0].split()[0] for line in lines_of(TOP / "crates.txt") if ":" in line]


def edits_of(crate):
    return sorted(path.name for path in (TOP / "crates" / crate / "must-fail").glob("*.edit"))


def checked_edits_of(crate):
    """The must-fail edits of a crate, each with its checksum."""
    for name in edits_of(crate):
        yield name.removesuffix(".edit"), checksum((TOP / "crates" / crate / "must-fail" / name).read_bytes())


def runs_of(crate):
    """The files of the stored run of a crate, each with how many lines it has and its checksum."""
    for name in ("args", "stdin", "stdout", "status"):
        path = TOP / "crates" / crate / name
        if path.is_file():
            content = path.read_bytes()
            yield name, content.count(b"\n"), checksum(content)


def tests_of(crate):
    """The tests of a crate by file and name, each with the checksum of its words."""
    for path, tokens, spans in test_files(crate):
        for begin, end in spans:
            words = [token.text for token in tokens[begin:end]]
            yield path.stem, words[words.index("fn") + 1], checksum(" ".join(words))


def beside_tests_of(crate):
    """What the tests of a crate call: its files that have tests, and all of a crate of trials, each without its tests."""
    for path, tokens, spans in test_files(crate):
        within = {at for begin, end in spans for at in range(begin, end)}
        yield path.stem, checksum(" ".join(token.text for at, token in enumerate(tokens) if at not in within))


@cache
def test_files(crate):
    """The files of a crate that have tests, and all of a crate of trials, each with its tokens, and from where to where its
    tests stand in them.
    """
    found = []
    for path in sorted((TOP / "crates" / crate / "src").rglob("*.rt")):
        source = path.read_text()
        if crate.endswith(TRIALS) or "test" in source:
            tokens = rattle_tokens(source)
            spans = list(spans_of_tests(tokens))
            found += [(path, tokens, spans)] if spans or crate.endswith(TRIALS) else []
    return found


def spans_of_tests(tokens):
    words = [token.text for token in tokens]
    for at in range(len(words)):
        if words[at:at + 4] == ["#", "[", "test", "]"]:
            begin = at
            while words[at] == "#":
                at = end_of_brackets(tokens, at + 1)
            yield begin, end_of_item(tokens, at)
