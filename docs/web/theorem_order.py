"""In which order a reader needs what the theorem rests on: each mode by itself, and of a mode the text before the words."""

from collections.abc import Callable, Iterable, Iterator
from dataclasses import dataclass, field

from theorem_sources import Item, Place, Sources

# In the order in which they are read, so that each page has what no page before it has.
MODES = ("run", "check", "convert", "choose", "cut", "sample", "watch", "save", "resume", "recut")
# What a definition names for one mode alone, without a line of its own for it: the crate, and the mode.
OF_ONE_MODE = {"net_make": "sample"}
MODE = Place("crates/command_words/src/mode.rt", "Mode")
# What is read behind all else that a page has, in this order: how a file is read, what is told, the words, the ports.
LATER = ("crates/network_file/specs/Reading.antt", "crates/call_beginning/specs/Input.antt", "crates/ctm_call/specs/Telling.antt",
         "crates/network_run/specs/", "crates/call_beginning/specs/Words.antt", "crates/command_words/specs/", "crates/ctm_ports/",
         "crates/region_slots/")


@dataclass
class Page:
    """What the theorem says of a mode and no page before it has: files in the order of reading, each with its items, and the
    lines on this mode of items that stand on a page before."""
    mode: str
    parts: dict[str, list[Item]]
    words: set[Place]
    lines: list[Item] = field(default_factory=list)

    @property
    def items(self) -> list[Item]:
        return [item for part in self.parts.values() for item in part]


def pages(sources: Sources) -> Iterator[Page]:
    """The page of each mode."""
    read: set[Place] = set()
    words: set[Place] = set()
    for mode in MODES:
        found = reached(sources, mode)
        ours = [place for place in found if place.is_ours]
        new_words = {place for place in found if not place.is_ours}
        lines = [sources.item(place) for place in ours if place in read and lines_of_mode(sources.item(place), mode)]
        yield Page(mode, _by_file([place for place in ours if place not in read], sources, mode), new_words - words, lines)
        read |= set(ours)
        words |= new_words


def reached(sources: Sources, mode: str) -> list[Place]:
    """All that the contract leads to for calls of this mode, what names before what is named where that is possible."""
    contract = sources.contract()
    clauses = contract.text.index("ensures")
    links = sorted(contract.links, key=lambda link: link[0] < clauses)
    return ordered([place for _, _, place in links], lambda place: named(sources, place, mode))


def named(sources: Sources, place: Place, mode: str) -> list[Place]:
    """What a definition or a type names, without what it says of other modes alone."""
    if not place.is_ours:
        return []
    item = sources.item(place)
    return [target for begin, _, target in item.links
            if target != place and not is_of_another(item, begin, mode) and OF_ONE_MODE.get(_crate(target), mode) == mode]


def ordered(first: Iterable[Place], targets: Callable[[Place], list[Place]]) -> list[Place]:
    """All that these lead to, each behind those that name it, but for circles; the first named first."""
    done: dict[Place, None] = {}
    open_places: set[Place] = set()

    def visit(place: Place) -> None:
        if place in done or place in open_places:
            return
        open_places.add(place)
        for target in reversed(targets(place)):
            visit(target)
        done[place] = None

    for place in reversed(list(first)):
        visit(place)
    return list(reversed(done))


def modes_in_line(item: Item, at: int) -> set[str]:
    """The modes that the line of an item names in which this place stands."""
    begin = item.text.rfind("\n", 0, at) + 1
    end = item.text.find("\n", at) if "\n" in item.text[at:] else len(item.text)
    return {item.text[first:last].rpartition(".")[2] for first, last, target in item.links
            if target == MODE and begin <= first < end} & {name.capitalize() for name in MODES}


def is_of_another(item: Item, at: int, mode: str) -> bool:
    """Whether what stands here stands in a line on other modes than this one."""
    modes = modes_in_line(item, at)
    return bool(modes) and mode.capitalize() not in modes


def lines_of_mode(item: Item, mode: str) -> list[tuple[int, int]]:
    """Where the lines of an item begin and end that name this mode and not all."""
    found, at = [], 0
    for line in item.text.splitlines(keepends=True):
        modes = modes_in_line(item, at)
        if mode.capitalize() in modes and len(modes) < len(MODES):
            found.append((at, at + len(line.rstrip("\n"))))
        at += len(line)
    return found


def _by_file(places: list[Place], sources: Sources, mode: str) -> dict[str, list[Item]]:
    """The items by their files: a file stands behind the first that names something of it."""
    files: dict[str, list[Place]] = {}
    for place in places:
        files.setdefault(place.file, []).append(place)
    found: dict[str, None] = {}

    def visit(file: str) -> None:
        if file in found or file not in files or any(map(file.startswith, waiting)):
            return
        found[file] = None
        for place in files[file]:
            for target in named(sources, place, mode):
                visit(target.file)

    waiting = [*LATER]
    for _, _, place in sources.contract().links:
        visit(place.file)
    while waiting:
        later = waiting.pop(0)
        for file in [file for file in files if file.startswith(later)]:
            visit(file)
    for file in files:
        visit(file)
    return {file: [sources.item(place) for place in files[file]] for file in found}


def _crate(place: Place) -> str:
    return place.file.split("/")[1] if place.is_ours else ""
