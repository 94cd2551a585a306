"""What ./ctm installs under a prefix: the programs, tools, manual pages, completions, documents and examples.

All of it stands in one folder, PREFIX/lib/ctm/tree-.., to which PREFIX/lib/ctm/current leads, and PREFIX/bin/ctm and the
others lead there by `current`. So one rename, of `current`, puts the new in the place of the old. Only what was written here
is touched: files by their checksums, links by where they lead, folders by the note of those that were made.
"""

import fcntl
import os
from collections.abc import Iterator
from contextlib import contextmanager
from pathlib import Path

from installed_tree import LEADS, NAME, InstalledTree, note_of, place_for
from made_folders import MadeFolders
from problem import Problem, reason

HOME = Path("lib/ctm")
CURRENT = HOME / "current"
MADE_FOLDERS = "folders"  # in HOME
LINKED = ("bin", "share/man/man1", "share/bash-completion/completions", "share/zsh/site-functions",
          "share/fish/vendor_completions.d", "share/doc")


class Prefix:
    """A folder in which a tree may be installed."""

    def __init__(self, folder: Path) -> None:
        self.folder = folder
        self.home = folder / HOME
        self.current = folder / CURRENT
        self.made = MadeFolders(self.home / MADE_FOLDERS)

    def has(self, tree: Path) -> bool:
        """Whether this tree is what is installed, and whole."""
        installed = self.installed()
        return installed is not None and installed.is_whole() and installed.note == note_of(tree) and \
            all(self.is_own(self.folder / path) for path in linked(tree))

    def installed(self) -> InstalledTree | None:
        """The tree that is installed, if one is."""
        return InstalledTree(self.home / os.readlink(self.current)) if self.is_current() else None

    def is_current(self) -> bool:
        """Whether the link to the tree that is installed stands there, and was made here."""
        return self.current.is_symlink() and NAME.fullmatch(os.readlink(self.current)) is not None

    def refuse_what_is_anothers(self, tree: Path) -> None:
        """Refuses a prefix in which something else stands where a link would be."""
        taken = [self.folder / path for path in linked(tree)
                 if os.path.lexists(self.folder / path) and not self.is_own(self.folder / path)]
        if os.path.lexists(self.current) and not self.is_current():
            taken.append(self.current)
        if taken:
            raise Problem(f"{taken[0]} is there already, and wasn't installed by ./ctm; nothing was changed")

    def refuse_to_lose_anothers(self) -> None:
        """Refuses to take the current tree away where it has what wasn't installed, as work in the folder of examples. One
        whose note is gone isn't taken away.
        """
        installed = self.installed()
        if installed and installed.note:
            for path in installed.others():
                name = path.relative_to(installed.folder)
                why = "was changed since ./ctm installed it" if str(name) in installed.files else "wasn't installed by ./ctm"
                raise Problem(f"{self.current / name} {why} and would be lost; nothing was changed")

    def install(self, tree: Path) -> list[str]:
        """Puts a copy of the tree in the place of what is installed, and gives what of the old stays and why."""
        self.make_folder(self.home)
        with self.locked():
            self.refuse_to_lose_anothers()
            try:
                place = place_for(self.home, note_of(tree))
                place.write(tree)
                for path in linked(tree):
                    self.link(path)
                self.lead_to(place)
            except BaseException:
                self.tidy()
                raise
            return self.tidy()

    def lead_to(self, place: InstalledTree) -> None:
        """Has `current` lead to a tree."""
        leads = place.folder / LEADS
        if not leads.is_symlink():
            leads.symlink_to(place.folder.name)
        leads.replace(self.current)

    def uninstall(self) -> tuple[bool, list[str]]:
        """Takes away what was installed; returns whether anything was, and what stays and why."""
        if not self.home.is_dir() or not (self.is_current() or self.made.read() or self.trees()):
            return False, []
        with self.locked():
            self.refuse_to_lose_anothers()
            if self.is_current():
                self.current.unlink()
            return True, self.tidy()

    def link(self, path: Path) -> None:
        """Has this path lead to its place in the current tree."""
        place = self.folder / path
        self.make_folder(place.parent)
        if not self.is_own(place):
            place.symlink_to(self.leads_to(path))

    def leads_to(self, path: Path) -> str:
        """What a link at this path has as its text. It is read from where its folder lies, and bin may be a link itself."""
        return os.path.relpath(self.home.resolve() / CURRENT.name / path, (self.folder / path.parent).resolve())

    def is_own(self, place: Path) -> bool:
        """Whether a link stands there that was made here."""
        return place.is_symlink() and os.readlink(place) == self.leads_to(place.relative_to(self.folder))

    def make_folder(self, folder: Path) -> None:
        """Makes a folder and those around it, and notes which were made."""
        made: list[Path] = []
        try:
            for it in reversed([it for it in (folder, *folder.parents) if not it.exists()]):
                it.mkdir()
                made.append(it)
            if made:
                self.made.add(made)
        except OSError:
            if self.home in made:
                self.made.remove()
            for it in reversed(made):
                it.rmdir()
            raise

    def tidy(self) -> list[str]:
        """Takes away what the current tree hasn't: other trees and links, and where there is none all that was made. Gives what
        stays and why.
        """
        left: list[str] = []
        try:
            for place in self.links():
                if not place.exists():
                    place.unlink()
            kept = os.readlink(self.current) if self.is_current() else None
            for folder in self.trees():
                if folder.name != kept:
                    left += InstalledTree(folder).remove()
            if kept is None:
                self.remove_folders()
        except OSError as error:
            left.append(reason(error))
        return left

    def trees(self) -> list[Path]:
        """The folders of installed trees."""
        return [it for it in sorted(self.home.iterdir()) if NAME.fullmatch(it.name) and it.is_dir() and not it.is_symlink()]

    def links(self) -> Iterator[Path]:
        """The links that were made here."""
        for folder in LINKED:
            if (self.folder / folder).is_dir():
                yield from [it for it in (self.folder / folder).iterdir() if self.is_own(it)]

    def remove_folders(self) -> None:
        """Removes the folders that were made here, where nothing else stands in them."""
        own = {self.home, *(self.folder / folder for folder in LINKED)}
        own |= {parent for folder in own for parent in folder.parents}
        made = own.intersection(self.made.read())
        self.made.remove()
        for folder in sorted(made, key=lambda it: len(it.parts), reverse=True):
            if folder.is_dir() and not folder.is_symlink() and not any(folder.iterdir()):
                folder.rmdir()

    @contextmanager
    def locked(self) -> Iterator[None]:
        """Waits until no other call changes what is installed here."""
        held = os.open(self.home, os.O_RDONLY)
        try:
            fcntl.flock(held, fcntl.LOCK_EX)
            yield
        finally:
            os.close(held)


def linked(tree: Path) -> list[Path]:
    """What of a tree is to be found under the prefix itself."""
    return [path.relative_to(tree) for folder in LINKED for path in sorted((tree / folder).iterdir())]
