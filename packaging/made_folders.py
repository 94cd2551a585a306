"""The note of the folders that were made for an installation: of each its checksum and its name, with a null byte behind."""

import hashlib
import os
from collections.abc import Iterable
from pathlib import Path


class MadeFolders:
    """The note in a file. One that isn't a file of such entries, as where another put it there, is left alone."""

    def __init__(self, note: Path) -> None:
        self.note = note

    def read(self) -> list[Path]:
        """The folders that are noted."""
        return [Path(os.fsdecode(it[65:])) for it in self.entries() if it == entry(it[65:])]

    def add(self, folders: Iterable[Path]) -> None:
        """Notes that these were made, where a note can stand."""
        if not self.is_anothers():
            with open(self.note, "ab", buffering=0) as file:
                file.write(b"".join(entry(os.fsencode(it)) + b"\0" for it in folders))

    def remove(self) -> None:
        """Removes the note where it has nothing else."""
        if not self.is_anothers() and all(it == entry(it[65:]) for it in self.entries()):
            self.note.unlink(missing_ok=True)

    def entries(self) -> list[bytes]:
        if self.is_anothers() or not self.note.exists():
            return []
        *whole, cut_off = self.note.read_bytes().split(b"\0")
        return [*whole, cut_off] if cut_off else whole

    def is_anothers(self) -> bool:
        """Whether something else than a file stands in the note's place."""
        return self.note.is_symlink() or self.note.exists() and not self.note.is_file()


def entry(folder: bytes) -> bytes:
    return hashlib.sha256(folder).hexdigest().encode() + b" " + folder
