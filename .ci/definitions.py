"""The definitions of `.antt` files: what each says and which others it names."""

import hashlib
import re
from pathlib import Path

from tokens import CLOSING, OPENING, antt_text, antt_tokens, end_of_brackets

MARKS = ("pub", "abbrev", "unfoldable", "pattern", "axiom")
FIXITIES = ("infix", "infixl", "infixr")
PLACE = "◌"
USE = re.compile(r"^(?:pub )?use (Rattle\.[\w.]+)(?:\.\{(.*)\})?(?: as (\S+))?$", re.DOTALL)


class Imports:
    """What `use` lines bring in: names of definitions, each with the module that has it, and names of modules."""

    def __init__(self):
        self.names, self.modules, self.passed_on = {}, {}, []

    def take(self, words):
        line = re.sub(r" ?([.,{}]) ?", r"\1", " ".join(words))
        found = USE.match(line)
        if not found:
            return
        module, names, alias = found.groups()
        if names is None:
            self.modules[alias or module.rpartition(".")[2]] = module
            if line.startswith("pub"):
                self.passed_on.append(module)
        for name in (names or "").split(","):
            there, _, here = name.strip().partition(" as ")
            if there:
                self.names[here or there] = (module, there)

    def used(self, words):
        """What these words name of it: each name as it is called here, its module, and its name there."""
        parts = parts_of(words)
        for name, (module, there) in self.names.items():
            if is_named(name, parts):
                yield name, module, there
        for word in words:
            first, dot, there = word.partition(".")
            if dot and first in self.modules:
                yield word, self.modules[first], there.partition(".")[0]


class Module:
    """An `.antt` file: its imports, and of each definition by its name the words, and those of its first part, which of a
    lemma is its statement.
    """

    def __init__(self, text):
        self.imports, self.definitions, self.statements = Imports(), {}, {}
        self.fixities, self.last = {}, None
        for item in items_of(text):
            self.take([token.text for token in item])
        for name, words in self.fixities.items():
            if name in self.definitions:
                self.definitions[name] = words + self.definitions[name]

    def take(self, words):
        if words[0] == "use" or words[:2] == ["pub", "use"]:
            self.imports.take(words)
        elif words[0] in FIXITIES:
            self.fixities[words[-1]] = words
        elif words[:2] == ["pub", "mod"] or words[0] == "mod":
            return
        else:
            self.take_definition(words)

    def owner(self, name):
        """The definition that this name leads to: that of the name, or the data type that has it as a constructor."""
        if name in self.definitions:
            return name
        return next((other for other, words in self.definitions.items() if "data" in words[:2] and name in words), None)

    def lemmas(self):
        """The public lemmas: what is stated without being a definition that others unfold."""
        return [name for name, words in self.statements.items() if words[0] == "pub" and words[1] == name]

    def take_definition(self, words):
        """Takes a signature, or what follows one: its cases and its `unfolding` line."""
        name = declared(words)
        if name:
            self.last = name
            self.definitions[name] = words
            self.statements[name] = words
        elif words[0] in self.definitions:
            self.definitions[words[0]] = self.definitions[words[0]] + words
        elif self.last:
            self.definitions[self.last] = self.definitions[self.last] + words


def items_of(text):
    """What begins at the left edge, outside brackets."""
    tokens = antt_tokens(text)
    at, begin = 0, 0
    while at < len(tokens):
        at_edge = tokens[at].begin == 0 or text[tokens[at].begin - 1] == "\n"
        if at_edge and at > begin:
            yield tokens[begin:at]
            begin = at
        at = end_of_brackets(tokens, at) if tokens[at].text in OPENING else at + 1
    if tokens:
        yield tokens[begin:]


def declared(words):
    """The name that these words declare, if they do."""
    at = 0
    while at < len(words) and words[at] in MARKS:
        at += 1
    if words[at:at + 1] in (["record"], ["data"]):
        return words[at + 1]
    behind = words[at + 1:at + 2]
    implicit = behind == ["{"] and ":" in words[at + 1:at + 6]
    return words[at] if at < len(words) and (behind == [":"] or implicit) else None


class Definitions:
    """The definitions of all crates, and how a name leads to one."""

    def __init__(self, top):
        self.top = Path(top)
        self.known = {}

    def path(self, module):
        """The file of a module, as from `Rattle.flow_model.specs.Rows`; none where it isn't ours, or is made by rt."""
        _, crate, *rest = module.split(".")
        path = Path("crates", crate, *rest).with_suffix(".antt")
        if (self.top / path).is_file():
            return path
        passed_on = Path("crates", crate, "specs/Lib.antt")
        if rest[:1] == ["specs"] and (self.top / passed_on).is_file():
            for other in self.module(passed_on).imports.passed_on:
                if other.rpartition(".")[2] == rest[-1]:
                    return self.path(other)
        return None

    def module(self, path):
        if path not in self.known:
            self.known[path] = Module((self.top / path).read_text())
        return self.known[path]

    def named(self, words, imports, path=None):
        """The definitions that these words name: those of the imports, and of the words' own file."""
        for _, module, there in imports.used(words):
            yield from self.definition(module, there)
        parts = parts_of(words)
        for name in self.module(path).definitions if path else ():
            if is_named(name, parts):
                yield path, name

    def definition(self, module, name):
        path = self.path(module)
        owner = self.module(path).owner(name) if path else None
        if owner:
            yield path, owner

    def reached(self, found):
        """All definitions that these lead to, with themselves."""
        known, new = set(), list(found)
        while new:
            path, name = new.pop()
            if (path, name) not in known:
                known.add((path, name))
                new += self.named(self.meant(path, name), self.module(path).imports, path)
        return known

    def meant(self, path, name):
        """The words that say what a definition means: of a lemma its statement alone."""
        module = self.module(path)
        return (module.statements if "proofs" in path.parts and name in module.lemmas() else module.definitions)[name]

    def sum_of(self, path, name):
        """A short checksum of what a definition means: its words, and what those that are imported stand for."""
        words = self.meant(path, name)
        return checksum([" ".join(words), *self.imported(words, self.module(path).imports)])

    def imported(self, words, imports):
        """What the imported ones of these words stand for, in a fixed order."""
        return sorted({f"{name} {self.path(module) or module} {there}" for name, module, there in imports.used(words)})

    def statement(self, path, name):
        """The statement of a lemma."""
        words = self.module(path).statements[name]
        return antt_text(words[words.index(":") + 1:])


def parts_of(words):
    """The words, and what stands in them between points."""
    return {part for word in words for part in re.split(r"[.@]", word)} | set(words)


def checksum(lines):
    return hashlib.sha256("\n".join(lines).encode()).hexdigest()[:12]


def is_named(name, parts):
    """Whether one of the parts is this name, or a part of it where it is an operator. `do` names what it calls."""
    if PLACE not in name:
        return name in parts
    return name in parts or any(piece in parts for piece in name.split(PLACE) if piece) or ">>" in name and "do" in parts
