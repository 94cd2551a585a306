"""What the theorem rests on, as it stands in the sources: the contract, definitions, types and traits, each with its comment."""

import re
import sys
from dataclasses import dataclass, field
from functools import cache
from pathlib import Path

from gathering import TOP

sys.path.append(str(TOP / ".ci"))

from definitions import FIXITIES, Definitions, Imports, declared, items_of, parts_of  # noqa: E402
from promises import end_of_head, keyword, name_behind  # noqa: E402
from promises import items_of as rattle_items  # noqa: E402
from tokens import Token, antt_tokens, rattle_tokens  # noqa: E402

CALL = Path("crates/ctm_call/src/call.rt")
DECLARED = re.compile(r"Rattle\.(\w+)\.specs\.declared\.([\w.]+?)\.(\w+)(\.TheVariants)?$")
SEQUENCES = ("◌>>=◌", "◌>>◌")  # what `do` stands for
TYPES = ("struct", "enum", "trait")
WORD = re.compile(r"[^\W\d][\w']*(?:\.[^\W\d][\w']*)*")


@dataclass(frozen=True)
class Place:
    """Where a definition, a type or a trait stands: its file and its name. A word of the toolchain has its module in place of a file."""
    file: str
    name: str

    @property
    def is_ours(self) -> bool:
        return self.file.startswith("crates/")


@dataclass
class Item:
    """A definition, a type, a trait or the contract: the comment above it, its text, and what words of that text stand for."""
    place: Place
    comment: str
    text: str
    links: list[tuple[int, int, Place]] = field(default_factory=list)


class Sources:
    """The files of the crates, read once."""

    def __init__(self, top: Path = TOP) -> None:
        self.top = top
        self.definitions = Definitions(top)
        self.item = cache(self._item)
        self._antt = cache(self._antt_file)
        self._types = cache(self._types_of)
        self._places = cache(self._places_of)

    def contract(self) -> Item:
        """The call, from its comment to the last clause."""
        text = (self.top / CALL).read_text()
        for item in rattle_items(rattle_tokens(text)):
            if keyword([token.text for token in item]) == "fn" and name_behind(item, "fn") == "ctm":
                end = _end_of_clauses(item)
                shown = Item(Place(str(CALL), "ctm"), comment_above(text, item[0].begin, "///"), text[item[0].begin:item[end - 1].end])
                shown.links = list(self._rattle_links(CALL, text, shown.text))
                return shown
        raise ValueError(f"{CALL} has no function ctm")

    def heading(self, file: str) -> str:
        """The comment at the head of a file of definitions, or of a module."""
        first, _, _ = (self.top / file).read_text().partition("\nuse ")
        lines = [line[2:].strip() for line in first.splitlines() if line.startswith("--")]
        return " ".join(lines) if file.endswith(".antt") else ""

    def _item(self, place: Place) -> Item:
        if place.file.endswith(".antt"):
            return self._antt(place.file)[place.name]
        return self._types(place.file)[place.name]

    def _antt_file(self, file: str) -> dict[str, Item]:
        """The definitions of a file, in its order."""
        path, text = Path(file), (self.top / file).read_text()
        found: dict[str, Item] = {}
        for name, begin, end in _spans(text):
            shown = Item(Place(file, name), comment_above(text, begin, "--"), text[begin:end])
            shown.links = list(self._antt_links(path, shown.text))
            found[name] = shown
        return found

    def _antt_links(self, path: Path, text: str):
        """The words of a definition that name another one, a type, or a word of the toolchain."""
        module = self.definitions.module(path)
        for token in antt_tokens(text):
            owners = [module.owner(word) for word in SEQUENCES] if token.text == "do" else [module.owner(token.text)]
            yield from ((token.begin, token.end, Place(str(path), owner)) for owner in owners if owner)
            if not any(owners):
                yield from self._imported(module.imports, token)

    def _imported(self, imports: Imports, token: Token):
        first, dot, rest = token.text.partition(".")
        if token.text in imports.names:
            module, there = imports.names[token.text]
        elif dot and first in imports.modules:
            module, there = imports.modules[first], rest.partition(".")[0]
        else:
            named = [of for of in imports.names if "◌" in of and (
                of in SEQUENCES if token.text == "do" else token.text in of.split("◌") and re.fullmatch(r"\w+", token.text))]
            for name in named:
                place = self.place(*imports.names[name])
                if place:
                    yield token.begin, token.end, place
            return
        place = self.place(module, there)
        if place:
            yield token.begin, token.end, place

    def place(self, module: str, name: str) -> Place | None:
        """Where the name that a module has stands."""
        found = next(iter(self.definitions.definition(module, name)), None)
        if found:
            return Place(str(found[0]), found[1])
        declared_there = DECLARED.match(module)
        if declared_there and (self.top / "crates" / declared_there[1]).is_dir():
            return self.type_in(declared_there[1], declared_there[3])
        return None if ".proofs." in module else Place(module, name)

    def type_in(self, crate: str, name: str) -> Place | None:
        """The type or the trait of this name in a crate."""
        return self._places(crate).get(name)

    def _places_of(self, crate: str) -> dict[str, Place]:
        """The types and traits of a crate by their names."""
        return {name: Place(str(path.relative_to(self.top)), name)
                for path in sorted((self.top / "crates" / crate / "src").rglob("*.rt"))
                for name in re.findall(rf"^\s*(?:pub(?:\(crate\))? )?(?:{'|'.join(TYPES)}) (\w+)", path.read_text(), re.MULTILINE)}

    def _types_of(self, file: str) -> dict[str, Item]:
        path, text = Path(file), (self.top / file).read_text()
        found: dict[str, Item] = {}
        for item in rattle_items(rattle_tokens(text)):
            words = [token.text for token in item]
            if keyword(words) in TYPES:
                name = name_behind(item, keyword(words))
                found[name] = Item(Place(file, name), comment_above(text, item[0].begin, "///"), _shown_type(text, item, name))
        for shown in found.values():
            shown.links = [link for link in self._rattle_links(path, text, shown.text) if link[2] != shown.place]
        return found

    def _rattle_links(self, path: Path, text: str, part: str):
        """The words of a part of a `.rt` file that name a definition, a type or a trait."""
        imports, paths = Imports(), {}
        for line in re.findall(r"^\s*ghost (use [^;]*);", text, re.MULTILINE):
            imports.take(token.text for token in antt_tokens(line))
        for line in re.findall(r"^(?:pub )?use ([^;]*);", text, re.MULTILINE):
            crate, _, names = line.partition("::")
            for name in re.findall(r"\b[A-Z]\w*", names):
                paths[name] = path.parts[1] if crate == "crate" else crate
        own = {name for kind, name in re.findall(r"\b(struct|enum|trait) (\w+)", text)}
        code = _without_comments(part)
        for word in WORD.finditer(code):
            token = Token(word[0], word.start(), word.end())
            found = list(self._imported(imports, token))
            if not found and word[0] in own and path.as_posix().endswith(".rt"):
                found = [(token.begin, token.end, Place(str(path), word[0]))]
            if not found and (self.top / "crates" / paths.get(word[0], "")).is_dir() and word[0] in paths:
                place = self.type_in(paths[word[0]], word[0])
                found = [(token.begin, token.end, place)] if place else []
            yield from found


def _shown_type(text: str, item: list[Token], name: str) -> str:
    """The text of a type as its users see it: of a struct with private fields what contracts see in place of it."""
    shown = re.sub(r"\n *ghost use [^\n]*(?=\n)", "", text[item[0].begin:item[-1].end])
    shown = re.sub(r"\{\n\n", "{\n", shown)
    words = [token.text for token in item]
    fields = re.findall(r"^    (pub )?\w+:", shown, re.MULTILINE)
    if keyword(words) != "struct" or all(fields):
        return shown
    value = re.search(rf"Model for {name}\b.*?ghost Value = \{{ (.*?) \}};", text, re.DOTALL)
    seen = f"\n// Contracts see it as a {value[1]}." if value else ""
    return text[item[0].begin:item[words.index("{")].begin] + "{ .. }" + seen


def comment_above(text: str, begin: int, mark: str) -> str:
    """The comment whose last line stands right above this place, without its marks."""
    lines: list[str] = []
    for line in reversed(text[:begin].splitlines()):
        stripped = line.strip()
        if stripped.startswith("#["):
            continue
        if not stripped.startswith(mark):
            break
        lines.insert(0, stripped.removeprefix(mark).strip())
    return " ".join(lines)


def _spans(text: str):
    """Each definition of a file of definitions: its name, and where its text begins and ends. A line that says how an
    operator binds belongs to no text."""
    found: dict[str, list[int]] = {}
    last = None
    for item in items_of(text):
        words = [token.text for token in item]
        if words[0] in FIXITIES or words[0] in ("use", "mod") or words[:2] in (["pub", "use"], ["pub", "mod"]):
            continue
        name = declared(words) or (words[0] if words[0] in found else last)
        if name is None:
            continue
        found.setdefault(name, [item[0].begin, item[-1].end])[1] = item[-1].end
        last = name
    for name, (begin, end) in found.items():
        yield name, begin, end


def _end_of_clauses(item: list[Token]) -> int:
    """The place in a function behind its last clause."""
    from promises import CLAUSES
    from tokens import end_of_brackets
    at = end_of_head(item)
    while item[at].text in CLAUSES:
        opening = next(place for place in range(at, len(item)) if item[place].text == "{")
        at = end_of_brackets(item, opening)
    return at


def _without_comments(text: str) -> str:
    """The text with blanks in place of its comments, but for what contracts see of a type."""
    return re.sub(r"//(?! Contracts see)[^\n]*", lambda found: " " * len(found[0]), text)


__all__ = ["CALL", "Item", "Place", "Sources", "parts_of"]
