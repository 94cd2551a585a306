"""What the names of a `.rt` file stand for, by its `use` lines: the whole paths of each, whatever it is called there."""

from listing import crates
from promises import items_of, keyword
from tokens import end_of_brackets, rattle_tokens


class Paths:
    """The paths of the names of a file, with those of which it takes all names at `*`. `passed_on` has those of all files, since
    a file may take names from another of our own.
    """

    def __init__(self, tokens, passed_on=None):
        self.names = {}
        self.passed_on = passed_on or {}
        self.own = {"crate", "self", "super", *crates()}
        self.take(tokens)

    def take(self, tokens):
        for item in items_of(tokens):
            words = [token.text for token in item]
            kind = keyword(words)
            if kind == "mod" and words[-1] == "}":
                self.take(item[words.index("{") + 1:-1])
            elif kind == "use":
                for name, path in leaves(item[words.index("use") + 1:-1]):
                    self.names.setdefault(name, []).append(path)

    def used(self, text):
        """The imported names in a text, each with the paths that it may stand for."""
        words = {token.text for token in rattle_tokens(text)} | {"*"}
        return {f"{name} {' '.join(sorted(paths))}" for name, paths in self.names.items() if name in words}

    def wholes(self, path):
        """The whole paths that one that is written here may have."""
        path = path.removeprefix("::")
        first, _, rest = path.partition("::")
        known, new = set(), ["::".join(filter(None, (named, rest))) for named in self.names.get(first, ())]
        new += [path, *(f"{module}::{path}" for module in self.names.get("*", ()))] if not new else []
        while new:
            path = new.pop()
            if path not in known:
                known.add(path)
                new += self.passed(path.rpartition("::")[2]) if path.partition("::")[0] in self.own else []
        return known

    def passed(self, name):
        """The paths under which any file has this name."""
        return [*self.passed_on.get(name, ()), *(f"{module}::{name}" for module in self.passed_on.get("*", ()))]


def leaves(tokens, before=""):
    """Of a tree of imports each name with its whole path; `*` for all that a module has."""
    at, path, name = 0, before, ""
    while at < len(tokens):
        text = tokens[at].text
        if text == "{":
            for part in parts(tokens[at + 1:end_of_brackets(tokens, at) - 1]):
                yield from leaves(part, path)
            return
        if text == "as":
            name = tokens[at + 1].text
            break
        if text == "*":
            yield "*", path
            return
        if text not in ("::", "self"):
            path, name = f"{path}::{text}" if path else text, text
        elif text == "self" and path:
            name = path.rpartition("::")[2]
        at += 1
    yield name, path


def parts(tokens):
    """What stands between the commas of a tree."""
    part, at = [], 0
    while at < len(tokens):
        end = end_of_brackets(tokens, at) if tokens[at].text == "{" else at + 1
        if tokens[at].text == ",":
            yield part
            part = []
        else:
            part += tokens[at:end]
        at = end
    if part:
        yield part
