"""Where the files that a study, or a map's file, names may lie: beside it or below, or in a folder that its reader has allowed."""

from __future__ import annotations

import os
from collections.abc import Callable, Iterable, Sequence
from dataclasses import dataclass
from pathlib import Path
from typing import Any

from ..problem import Problem

_allowed: dict[str, None] = {}  # real paths of folders, in the order in which they were allowed


def allow_files(*folders: str | Path) -> None:
    """Lets studies and maps take files of these folders too, and of those below them, for as long as this process lasts."""
    _allowed.update(dict.fromkeys(os.path.realpath(folder) for folder in folders))


def allowed_folders() -> tuple[str, ...]:
    """The folders that were allowed."""
    return tuple(_allowed)


def file_beside(study: Path, name: str, key: str, what: str = "study") -> Path:
    """The path of a file that a study names, or another file, or the problem that it lies outside of what is allowed."""
    path = study.parent / name
    _check(path, study, name, key, what)
    return path


def files_beside(study: Path, names: Sequence[str], key: str) -> list[Path]:
    """The files that names, patterns and folders of a study say, or the problem that one lies outside of what is allowed."""
    from ..detectors.file_set import paths_of  # here, so that who has no counts doesn't load what reads them

    patterns = [file_beside(study, name, key) for name in names]
    paths = paths_of(patterns)
    for path in paths:  # one of a pattern may be a link
        _check(path, study, os.path.relpath(path, study.parent), key)
    return paths


def _check(path: Path, study: Path, name: str, key: str, what: str = "study") -> None:
    try:
        real = Path(os.path.realpath(path))
    except ValueError:  # a zero byte in its name
        raise Problem(f"{key}: {name!r}: no file has such a name") from None
    if not any(real.is_relative_to(folder) for folder in (os.path.realpath(study.parent), *_allowed)):
        raise Problem(f"{key}: {name} lies outside of the {what}'s folder; --allow-files {real.parent} allows it, where you trust "
                      f"the {what}")
    # Who reads a pipe may wait for ever. A name that is too long is no file either, and its reader says why.
    if os.path.exists(real) and not real.is_file() and not real.is_dir():
        raise Problem(f"{key}: {name} is a pipe or a device, and a file is wanted")


@dataclass(frozen=True)
class Allowing:
    """Work on tasks that is done in another process, with the folders that are allowed in this one."""

    work: Callable[[Any], dict[str, Any]]
    folders: Iterable[str]

    def __call__(self, task: Any) -> dict[str, Any]:
        """What the work measures of a task."""
        allow_files(*self.folders)
        return self.work(task)
