"""A folder of files that ./ctm has installed, with a note in it of each file and its checksum. The folder is named for the
checksum of that note. So what was written here is known by what it holds, and nothing else is ever taken away.
"""

import hashlib
import os
import re
from collections.abc import Iterator
from itertools import count
from pathlib import Path

from problem import reason
from tree import copy, put

NAME = re.compile(r"tree-([0-9a-f]{64})(?:\.\d+)?")
NOTE = "files"
PART = ".part"  # a file while it is written
LEADS = "current"  # the link to this folder, until it is put in its place
CACHE = re.compile(r".+\.pyc(\.\d+)?")  # with a number behind it where Python was broken off as it wrote
LINE = re.compile(r"([0-9a-f]{64}) ([0-7]{3}) (.+)")


class InstalledTree:
    """Such a folder, or one that is to be, by its own note or by this one."""

    def __init__(self, folder: Path, note: str | None = None) -> None:
        self.folder = folder
        self.note = whole_note(folder) if note is None else note
        self.files = {path: (digest, int(mode, 8)) for digest, mode, path in LINE.findall(self.note or "")}

    def is_whole(self) -> bool:
        """Whether each file stands there as noted."""
        return bool(self.note) and whole_note(self.folder) == self.note and all(
            self.is_noted_file(path) and mode_of(self.folder / path) == mode for path, (_, mode) in self.files.items())

    def others(self) -> list[Path]:
        """What stands there and wasn't written by ./ctm, or was changed since."""
        return [path for path in all_in(self.folder) if not self.is_own(path)]

    def is_own(self, path: Path) -> bool:
        """Whether this was written by ./ctm, or by Python as it ran what ./ctm wrote."""
        name = str(path.relative_to(self.folder))
        if path.is_symlink():
            return name == LEADS and os.readlink(path) == self.folder.name
        if path.is_dir():
            return self.note is not None  # a folder in which nothing is left is nobody's work
        if name in (NOTE, PART):
            return path.is_file() and (name == PART or path.read_bytes() == (self.note or "").encode())
        return self.is_noted_file(name) or self.is_cache(path)

    def is_noted_file(self, name: str) -> bool:
        """Whether a file stands there with the noted checksum, and no link leads there."""
        path = self.folder / name
        real = not any(it.is_symlink() for it in (path, *path.parents) if it.is_relative_to(self.folder) and it != self.folder)
        return name in self.files and real and path.is_file() and digest_of(path) == self.files[name][0]

    def is_cache(self, path: Path) -> bool:
        """Whether this is what Python keeps of a noted module."""
        module = path.parent.parent / f"{path.name.partition('.')[0]}.py"
        return path.parent.name == "__pycache__" and CACHE.fullmatch(path.name) is not None and path.is_file() and \
            str(module.relative_to(self.folder)) in self.files

    def write(self, tree: Path) -> None:
        """Writes the note, and then what is missing of the files, from a tree that has them."""
        self.folder.mkdir(exist_ok=True)
        part = self.folder / PART
        if not (self.folder / NOTE).exists():
            put(part, self.note or "")
            part.replace(self.folder / NOTE)
        for name, (_, mode) in self.files.items():
            place = self.folder / name
            if not place.exists() or mode_of(place) != mode:
                copy(tree / name, part, mode)
                place.parent.mkdir(parents=True, exist_ok=True)
                part.replace(place)

    def remove(self) -> Iterator[str]:
        """Removes what was written here, the note last, and gives what stays and why."""
        own = [path for path in all_in(self.folder) if self.is_own(path)]
        note = self.folder / NOTE
        for path in [*(it for it in own if it != note), *(it for it in own if it == note), self.folder]:
            try:
                if path.is_dir() and not path.is_symlink():
                    if not any(path.iterdir()):
                        path.rmdir()
                else:
                    path.unlink()
            except OSError as error:
                yield reason(error)
        yield from (f"{path} wasn't installed by ./ctm" for path in all_in(self.folder) if path not in own)


def note_of(tree: Path) -> str:
    """The note of the files of a tree that is to be installed."""
    files = [path for path in all_in(tree) if not path.is_dir()]
    return "".join(f"{digest_of(path)} {mode_of(path):03o} {path.relative_to(tree)}\n" for path in files)


def place_for(home: Path, note: str) -> InstalledTree:
    """Where a tree with this note stands or may stand: nothing else is in that folder."""
    name = f"tree-{hashlib.sha256(note.encode()).hexdigest()}"
    for folder in (home / (f"{name}.{number}" if number else name) for number in count()):
        place = InstalledTree(folder, note)
        if not os.path.lexists(folder) or folder.is_dir() and not folder.is_symlink() and not place.others():
            return place
    raise AssertionError


def whole_note(folder: Path) -> str | None:
    """The note in a folder; none where it isn't the one for which the folder is named."""
    named, note = NAME.fullmatch(folder.name), folder / NOTE
    if not named or folder.is_symlink() or note.is_symlink() or not note.is_file():
        return None
    text = note.read_bytes()
    try:
        return text.decode() if hashlib.sha256(text).hexdigest() == named[1] else None
    except UnicodeDecodeError:  # another's
        return None


def all_in(folder: Path) -> list[Path]:
    """All that stands in a folder, but nothing behind a link; a folder stands behind what is in it."""
    if not folder.is_dir() or folder.is_symlink():
        return []
    return [it for path in sorted(folder.iterdir()) for it in (*all_in(path), path)]


def mode_of(path: Path) -> int:
    return path.stat().st_mode & 0o777


def digest_of(path: Path) -> str:
    return hashlib.sha256(path.read_bytes()).hexdigest()
