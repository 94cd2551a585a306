"""The promises of a `.rt` file: its public functions, those of its traits and those inside that a document tells, by head and
clause, its public types and constants, the bounds of its impls, and the ghost members of types, traits and impls.
"""

import re
from typing import NamedTuple

from tokens import OPENING, clause_text, end_of_brackets, rattle_tokens

MODIFIERS = ("unsafe", "async", "default", "extern")
CLAUSES = ("requires", "ensures", "ghost")
BLOCK_ITEMS = ("fn", "struct", "enum", "union", "trait", "impl", "mod", "macro_rules", "extern")
# Between these and what stands beside them is no space in a head.
TIGHT_BEFORE = (")", "]", ">", ",", ";", ":", "::", ".", "?", "!")
TIGHT_BEHIND = ("(", "[", "<", "&", "::", ".", "!")


class Promise(NamedTuple):
    """What is promised of an item, `of`, and the antt in it, which names definitions."""
    of: str
    told: str
    antt: str = ""


class Source:
    """What a `.rt` file promises, and its `ghost use` lines. `told` has the names of functions that a document tells."""

    def __init__(self, text, told=()):
        self.text, self.told = text, told
        self.promises, self.uses = [], []
        self.take_items(rattle_tokens(text), "", False)

    def take_items(self, tokens, owner, all_public):
        """Takes the items of a module, a trait or an impl."""
        for item in items_of(tokens):
            words = [token.text for token in item]
            kind = keyword(words)
            is_public = all_public or "pub" in words[:1] and words[1:2] != ["("]
            if kind == "ghost":
                self.take_ghost(item, owner)
            elif kind == "fn" and (is_public or name_behind(item, "fn") in self.told):
                self.take_function(item, owner)
            elif kind in ("struct", "enum", "union") and is_public:
                self.take_type(item, kind)
            elif kind in ("const", "static", "type") and is_public:
                name = name_behind(item, kind)
                self.promise(f"{owner}::{name}" if owner else name, text_of(words))
            elif kind in ("impl", "trait", "mod"):
                self.take_block(item, kind, owner, is_public)

    def promise(self, of, told, antt=""):
        self.promises.append(Promise(of, told, antt))

    def take_block(self, item, kind, owner, is_public):
        if item[-1].text != "}":
            return
        at = next(place for place, token in enumerate(item) if token.text == "{")
        head = text_of(token.text for token in item[:at])
        name = implemented(item[:at]) if kind == "impl" else name_behind(item, kind)
        path = f"{owner}::{name}" if kind == "mod" and owner else name
        if kind == "trait" and is_public or kind == "impl" and has_bounds(item[:at]):
            self.promise(path, head)
        has_all = kind == "trait" and is_public or kind == "impl" and " for " in head
        self.take_items(item[at + 1:-1], path, has_all)

    def take_ghost(self, item, owner):
        if item[1].text == "use":
            self.uses.append(self.text[item[1].begin:item[-1].begin])
            return
        self.take_clause(item, owner)

    def take_clause(self, tokens, owner):
        """Takes a clause, or a ghost member: a keyword, perhaps a name, and antt between braces."""
        at = next(place for place, token in enumerate(tokens) if token.text == "{")
        end = end_of_brackets(tokens, at)
        antt = clause_text(self.text[tokens[at].end:tokens[end - 1].begin])
        self.promise(owner, f"{text_of(token.text for token in tokens[:at])} {{ {antt} }}", antt)
        return end

    def take_function(self, item, owner):
        name = name_behind(item, "fn")
        path = f"{owner}::{name}" if owner else name
        at = end_of_head(item)
        self.promise(path, text_of(token.text for token in item[:at]))
        while item[at].text in CLAUSES:
            at += self.take_clause(item[at:], path)

    def take_type(self, item, kind):
        """Takes a type with what a caller may see: its variants or its public fields. Ghost fields stand by themselves."""
        name = name_behind(item, kind)
        at = next((place for place, token in enumerate(item) if token.text == "{"), None)
        if at is None or kind == "enum":
            self.promise(name, text_of(without_attributes(item)))
            return
        shown = []
        for field in parts_of(item[at + 1:-1]):
            if field[0].text == "ghost" or [token.text for token in field[:2]] == ["pub", "ghost"]:
                self.take_clause(field, name)
            elif field[0].text == "pub" and field[1].text != "(":
                shown.append(text_of(token.text for token in field))
        self.promise(name, f"{text_of(token.text for token in item[:at])} {{ {', '.join(shown)} }}")


def items_of(tokens):
    """The items, each without its attributes; what is read for tests alone is left out."""
    at, only_tests = 0, False
    while at < len(tokens):
        if tokens[at].text == "#":
            opening = at + 1 + (tokens[at + 1].text == "!")
            end = end_of_brackets(tokens, opening)
            only_tests = only_tests or [token.text for token in tokens[opening:end]] == ["[", "cfg", "(", "test", ")", "]"]
            at = end
            continue
        end = end_of_item(tokens, at)
        if not only_tests:
            yield tokens[at:end]
        at, only_tests = end, False


def keyword(words):
    """What sort of item begins with these words."""
    at = 0
    while at < len(words):
        if words[at] == "pub":
            at += 1
            if words[at:at + 1] == ["("]:
                at = words.index(")", at) + 1
        elif words[at] in MODIFIERS or words[at].startswith('"') or words[at] == "const" and words[at + 1] in ("fn", "unsafe"):
            at += 1
        else:
            return words[at]
    return ""


def end_of_item(tokens, at):
    kind = keyword([token.text for token in tokens[at:at + 12]])
    is_clause = False
    while at < len(tokens):
        text = tokens[at].text
        if text == ";":
            return at + 1
        if kind == "fn" and text in CLAUSES:
            is_clause = True
        if text not in OPENING:
            at += 1
            continue
        at = end_of_brackets(tokens, at)
        if text == "{" and kind in BLOCK_ITEMS and not is_clause:
            return at
        is_clause = is_clause and text != "{"
    return at


def end_of_head(item):
    """The place where the clauses or the body of a function begin."""
    at = 0
    while item[at].text not in (*CLAUSES, "{", ";"):
        at = end_of_brackets(item, at) if item[at].text in OPENING else at + 1
    return at


def parts_of(tokens):
    """What stands between commas, without attributes."""
    part, at = [], 0
    while at < len(tokens):
        if tokens[at].text == "#":
            at = end_of_brackets(tokens, at + 1)
            continue
        if tokens[at].text == ",":
            yield part
            part, at = [], at + 1
            continue
        end = end_of_brackets(tokens, at) if tokens[at].text in OPENING else at + 1
        end = end if tokens[at].text != "<" else end_of_angles(tokens, at)
        part += tokens[at:end]
        at = end
    if part:
        yield part


def end_of_angles(tokens, at):
    depth = 0
    for place in range(at, len(tokens)):
        depth += {"<": 1, ">": -1}.get(tokens[place].text, 0)
        if depth == 0:
            return place + 1
    return len(tokens)


def without_attributes(tokens):
    at = 0
    while at < len(tokens):
        if tokens[at].text == "#" and tokens[at + 1].text == "[":
            at = end_of_brackets(tokens, at + 1)
            continue
        yield tokens[at].text
        at += 1


def name_behind(item, word):
    at = next(place for place, token in enumerate(item) if token.text == word)
    return item[at + 1].text


def has_bounds(head):
    """Whether an impl asks something of its types."""
    words = [token.text for token in head]
    at = words.index("impl") + 1
    return "where" in words or words[at] == "<" and ":" in words[at:end_of_angles(head, at)]


def implemented(head):
    """The type of an impl, and its trait where it has one."""
    words = [token.text for token in head]
    at = words.index("impl") + 1
    if words[at:at + 1] == ["<"]:
        at = end_of_angles(head, at)
    bounds = words.index("where") if "where" in words else len(words)
    text = text_of(words[at:bounds])
    trait, _, given = text.rpartition(" for ")
    return f"<{given} as {trait}>" if trait else re.sub(r"<.*", "", given)


def text_of(words):
    """A head on one line. A comma before a bracket that closes says nothing."""
    text, last = "", ""
    for word in words:
        if last == "," and word in (")", "]", ">", "}"):
            text = text.removesuffix(",")
        joined = word in ("(", "<") and re.match(r"\w|>|::", last) or word == "*" and last in CLAUSES
        text += word if not text or joined or word in TIGHT_BEFORE or last in TIGHT_BEHIND else f" {word}"
        last = word
    return text
