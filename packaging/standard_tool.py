"""Calls of the standard tools that make packages."""

import os
import subprocess
from pathlib import Path

from problem import Problem


def call(*command: str | Path, cwd: Path | None = None, seconds: int | None = None) -> str:
    """What a tool writes, as text."""
    return call_for_bytes(*command, cwd=cwd, seconds=seconds).decode()


def call_for_bytes(*command: str | Path, cwd: Path | None = None, seconds: int | None = None) -> bytes:
    """What a tool writes; its last line is the problem where it fails. `seconds` is the time that it takes for now."""
    environment = {**os.environ, "LC_ALL": "C.UTF-8", "TZ": "UTC"}
    if seconds is not None:
        environment["SOURCE_DATE_EPOCH"] = str(seconds)
    try:
        ended = subprocess.run([str(it) for it in command], cwd=cwd, env=environment, stdin=subprocess.DEVNULL,
                               stdout=subprocess.PIPE, stderr=subprocess.PIPE)
    except FileNotFoundError:
        raise Problem(f"{command[0]} isn't on the path; tools/setup installs what packages are made with") from None
    if ended.returncode != 0:
        lines = (ended.stderr or ended.stdout).decode(errors="replace").splitlines() or [f"status {ended.returncode}"]
        raise Problem(f"{command[0]} failed: {lines[-1]}")
    return ended.stdout
