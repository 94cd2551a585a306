"""A study while it is changed: its text, what was undone and can be done again, what stands on the disk, and plans under names."""

from __future__ import annotations

from collections.abc import Iterator, Sequence
from dataclasses import dataclass, field
from pathlib import Path
from stat import S_ISREG
from typing import Any

from ..files.reading import read_bytes
from ..files.writing import write
from ..problem import NoSuchKey, Problem
from ..study.keys import places
from .document import Patch, patched
from .fields import value_typed, values_in

MOST_PLANS = 8
MOST_DONE = 1000  # changes that can be undone
MOST_LETTERS = 1 << 26  # of the texts to which they lead back
MOST_PATCHES = 100  # of one change; a page has some ten, and each reads the whole text
MOST_TEXT = 10_000  # letters of one text, since the time in which tomlkit escapes it grows by their square
NEW = '''title = "A new study"
step = 10  # s
start = "06:00"
end = "07:00"

[lane]
free_flow_speed = 90  # km/h
wave_speed = 18  # km/h
jam_density = 144  # vehicles/km
saturation_flow = 2160  # vehicles/h

[roads.m]
length = 5  # km
lanes = 2

[gates.on]
into = "m"
demand = [
  ["06:00", "07:00", 2160], # vehicles/h
]

[exits.off]
from = "m"
'''


def read_text(path: Path) -> str:
    """The text of a study file as it stands, whether or not it can be a study; letters that aren't UTF-8 are a problem."""
    try:
        return read_bytes(path).decode("utf-8")
    except UnicodeDecodeError:
        raise Problem(f"{path}: a study file is UTF-8; save it so") from None


def _texts(value: Any) -> Iterator[str]:
    """The texts of a value, also those of its lists and tables."""
    if isinstance(value, str):
        yield value
    elif isinstance(value, (list, dict)):
        for one in value.values() if isinstance(value, dict) else value:
            yield from _texts(one)


@dataclass
class Session:
    """The study of a file while it is changed. `version` grows with each change of its text.

    `saved` is the text that the file had when it was last read or written, None where it isn't there yet.
    """

    path: Path
    text: str
    saved: str | None = None
    version: int = 0
    plans: dict[str, str] = field(default_factory=dict)
    _undone: list[str] = field(default_factory=list)
    _done: list[str] = field(default_factory=list)
    _group: str | None = None

    @classmethod
    def of_file(cls, path: Path) -> Session:
        """The session of a study file, which is kept as the first plan, `as opened`."""
        text = read_text(path)
        return cls(path, text, text, plans={"as opened": text})

    @classmethod
    def new(cls, path: Path) -> Session:
        """The session of a new study, whose file is to be at a path."""
        return cls(path, NEW, None, plans={"as opened": NEW})

    @property
    def is_saved(self) -> bool:
        """Whether the file has the text, as far as this session knows."""
        return self.text == self.saved

    @property
    def can_undo(self) -> bool:
        """Whether there is a change to undo."""
        return bool(self._done)

    @property
    def can_redo(self) -> bool:
        """Whether there is an undone change."""
        return bool(self._undone)

    def change(self, patches: Sequence[Patch], group: str | None = None) -> None:
        """Changes keys; changes of one group, as of one drag, are undone together. On a problem nothing is changed."""
        if len(patches) > MOST_PATCHES:
            raise Problem(f"{len(patches):,} keys at once; at most {MOST_PATCHES} are changed")
        for key, value in patches:
            if any(len(text) > MOST_TEXT for text in _texts(value)):
                raise Problem(f"{key}: a text has at most {MOST_TEXT:,} letters")
        self.replace(patched(self.text, patches), group)

    def type(self, key: str, typed: str) -> None:
        """Changes a key to what is typed into its field, and takes it away where that is empty."""
        self.change([(key, value_typed(typed, key.split("."), self._value(key)) if typed.strip() else None)])

    def _value(self, key: str) -> Any:
        try:
            return next((table.get(name) for table, name in places(values_in(self.text), key)), None)
        except NoSuchKey:
            return None

    def replace(self, text: str, group: str | None = None) -> None:
        """Takes another text, which a file can have."""
        if text == self.text:
            return
        try:
            text.encode()
        except UnicodeEncodeError:
            raise Problem("the study: has half a letter, which no file can have") from None
        if group is None or group != self._group:
            self._done = [*self._done, self.text][-max(1, min(MOST_DONE, MOST_LETTERS // max(1, len(text)))):]
        self._group, self._undone = group, []
        self._take(text)

    def _take(self, text: str) -> None:
        self.text = text
        self.version += 1

    def undo(self) -> None:
        """Undoes the last change, or the last group of them; without one nothing happens."""
        if self._done:
            self._undone.append(self.text)
            self._group = None
            self._take(self._done.pop())

    def redo(self) -> None:
        """Does again what was undone last."""
        if self._undone:
            self._done.append(self.text)
            self._group = None
            self._take(self._undone.pop())

    def on_disk(self) -> str:
        """How the file stands to what this session read or wrote last: `same`, `changed`, or `gone`."""
        saved = None if self.saved is None else self.saved.encode()
        try:
            found = self.path.stat()  # first, since a pipe or a device that took its place may have no end
            if saved is None or not S_ISREG(found.st_mode) or found.st_size != len(saved):
                return "changed"
            return "same" if self.path.read_bytes() == saved else "changed"
        except OSError:
            return "same" if self.saved is None else "gone"

    def save(self, over: bool = False) -> None:
        """Writes the study; over a file that was changed meanwhile where that is asked for."""
        if self.on_disk() == "changed" and not over:
            raise Problem(f"{self.path}: was changed meanwhile; read it anew, or save over it")
        write(self.path, self.text, lasting=True)
        self.saved = self.text

    def read_anew(self) -> None:
        """Takes the text of the file, which can be undone."""
        text = read_text(self.path)
        self.saved = text
        self.replace(text)

    def keep(self, name: str, text: str | None = None) -> None:
        """Keeps the study as it is, or another text, as a plan under a name, which it takes over from one that has it."""
        name = name.strip()
        if not name:
            raise Problem("a plan needs a name")
        if len(self.plans) >= MOST_PLANS and name not in self.plans:
            raise Problem(f"{MOST_PLANS} plans are kept already; forget one of them first")
        self.plans[name] = self.text if text is None else text

    def forget(self, name: str) -> None:
        """Forgets a plan."""
        if self.plans.pop(name, None) is None:
            raise Problem(f"there is no plan {name}")

    def take_plan(self, name: str) -> None:
        """Goes on from a plan, which can be undone."""
        if name not in self.plans:
            raise Problem(f"there is no plan {name}")
        self.replace(self.plans[name])
