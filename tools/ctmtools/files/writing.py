"""Files written as wholes: whoever is ended meanwhile leaves what stood there, and links of others aren't followed."""

from __future__ import annotations

import csv
import fcntl
import glob
import io
import os
import shutil
import stat
import tempfile
from collections.abc import Iterable, Iterator, Sequence
from contextlib import contextmanager, suppress
from pathlib import Path
from typing import IO, TextIO

from ..problem import Problem, reason
from ..texts.cells import guarded

MOST_LINKS = 40  # as the system follows
MOST_NAME = 200  # letters of a file's name that the name of a new file beside it has


def guard_folder(path: Path) -> None:
    """Refuses a place in a folder that isn't there, before what is to stand in it is worked out."""
    if not path.parent.is_dir():
        raise Problem(f"{path}: there is no folder {path.parent}")


def write(path: str | Path, content: str | bytes, lasting: bool = False) -> None:
    """Writes text or bytes to a file as a whole: where that fails, what stood there stays. Devices are written to.

    What is `lasting` stands on the disk when this returns.
    """
    path, content = Path(path), content if isinstance(content, bytes) else content.encode()
    check_links(path)
    if path.exists() and not path.is_file():
        try:
            path.write_bytes(content)
        except OSError as error:
            raise Problem(f"{path}: {reason(error)}") from None
    else:
        replace(path, content, lasting)


def create(path: Path, content: str) -> None:
    """Writes text to a new file as a whole, over nothing: where something stands there already, that is the problem."""
    try:
        file, name = _new_beside(path)
        with file:
            os.fchmod(file.fileno(), _rights(path))
            file.write(content.encode())
            file.flush()
            try:
                os.link(name, path)  # which fails where something has the name
            finally:
                os.unlink(name)
    except FileExistsError:
        raise Problem(f"{path}: stands there already; nothing was written") from None
    except OSError as error:
        raise Problem(f"{path}: {reason(error)}") from None


def copy_folder(source: Path, target: Path, paths: Iterable[Path]) -> None:
    """Copies files of a folder, by their paths within it, into a new or empty one, which has all of them or isn't there."""
    made = None
    try:
        made = Path(tempfile.mkdtemp(prefix=f".{target.name[:MOST_NAME]}.ctm-", dir=target.parent))
        for path in paths:
            (made / path).parent.mkdir(exist_ok=True, parents=True)
            shutil.copyfile(source / path, made / path)
        made.chmod(0o777 & ~_mask())
        os.rename(made, target)  # which fails where something stands in the folder
        made = None
    except OSError as error:
        there = target.exists() or target.is_symlink()
        raise Problem(f"{target}: stands there already; nothing was written" if there else f"{target}: {reason(error)}") from None
    finally:
        if made:
            shutil.rmtree(made, ignore_errors=True)


def replace(path: str | Path, content: bytes, lasting: bool = True) -> None:
    """Puts bytes in the place of a file's: whoever is ended meanwhile leaves the old file whole, and of two the later's stands.

    What is `lasting` stands on the disk when this returns.
    """
    with _renamed_at_the_end(Path(path)) as file:
        file.write(content)
        if lasting:
            file.flush()
            os.fsync(file.fileno())


def check_links(path: Path) -> None:
    """Refuses a link of another user in the place of an output, which would lead it to a file that this one didn't name.

    Those of the system, as /dev/stdout, are in folders into which only root may write.
    """
    for _ in range(MOST_LINKS):
        try:
            link, folder = path.lstat(), path.parent.stat()
        except OSError:  # nothing stands there
            return
        if not stat.S_ISLNK(link.st_mode):
            return
        of_system = link.st_uid == folder.st_uid == 0 and not folder.st_mode & (stat.S_IWGRP | stat.S_IWOTH)
        if link.st_uid != os.geteuid() and not of_system:
            raise Problem(f"{path}: is a link of another user")
        path = path.parent / os.readlink(path)
    raise Problem(f"{path}: leads from link to link")


def begun_anew(path: Path, header: Sequence[str], rows: Iterable[Sequence[str]]) -> TextIO:
    """Puts a table of CSV in the place of the one at a path, at once, and gives its file, open for the rows to come."""
    try:
        path.parent.mkdir(parents=True, exist_ok=True)
    except OSError as error:
        raise Problem(f"{path}: {reason(error)}") from None
    with _renamed_at_the_end(path) as file:
        text = io.TextIOWrapper(open(os.dup(file.fileno()), "wb"), "utf-8", newline="")
        csv.writer(text).writerows([guarded(value) for value in row] for row in (header, *rows))
        text.flush()
    return text


@contextmanager
def _renamed_at_the_end(path: Path) -> Iterator[IO[bytes]]:
    """A new file beside a path's, which no other call writes to, and which takes its place and its rights at the end."""
    check_links(path)
    target = Path(os.path.realpath(path))
    name = None
    try:
        file, name = _new_beside(target)
        with file:
            os.fchmod(file.fileno(), _rights(target))
            yield file
            file.flush()
            os.replace(name, target)
        name = None
    except OSError as error:
        raise Problem(f"{path}: {reason(error)}") from None
    finally:
        if name:
            Path(name).unlink(missing_ok=True)


def _new_beside(target: Path) -> tuple[IO[bytes], str]:
    """A new file beside a target, which is locked as long as it is open; what a call that was killed left there is taken away."""
    begin = f".{target.name[:MOST_NAME]}.ctm-"
    for left in target.parent.glob(glob.escape(begin) + "*"):
        with suppress(OSError), open(left, "rb") as old:
            fcntl.flock(old, fcntl.LOCK_EX | fcntl.LOCK_NB)
            left.unlink()
    while True:
        descriptor, name = tempfile.mkstemp(prefix=begin, dir=target.parent)
        file = open(descriptor, "wb")
        fcntl.flock(file, fcntl.LOCK_EX)
        with suppress(FileNotFoundError):  # another call may have taken it away before it was locked
            if os.path.samestat(os.stat(name), os.fstat(descriptor)):
                return file, name
        file.close()


def _rights(target: Path) -> int:
    """The rights of a file that is written over, or those that a new one gets."""
    if target.exists():
        return stat.S_IMODE(target.stat().st_mode)
    return 0o666 & ~_mask()


def _mask() -> int:
    mask = os.umask(0)
    os.umask(mask)
    return mask


def beside(path: str | Path, other: str | Path) -> str:
    """The path of a file as another file's folder sees it."""
    return os.path.relpath(path, Path(other).parent)
