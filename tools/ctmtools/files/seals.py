"""Whether a kept file is as these tools wrote it: it carries the checksum of its own content.

A seal finds what was changed, by an editor or a failing disk. Who means to deceive can write a seal as well.
"""

from __future__ import annotations

import hashlib
import json
import re
from collections.abc import Sequence
from pathlib import Path
from typing import Any

from ..problem import Problem
from ..texts.cells import guarded

KEY = "seal"
MARK = 16  # letters of the seal of a row
LAST_LINE = re.compile(rb"# seal ([0-9a-f]{64})\n\Z")
CURE = "take it away, or put back what these tools wrote"


def broken(path: str | Path, what: str = "it", cure: str = CURE) -> Problem:
    """The problem of a file that was changed."""
    return Problem(f"{path}: {what} was changed after it was written, since its seal is of other content; {cure}")


def sealed_text(content: bytes) -> bytes:
    """A text with its seal behind it, in a line that is a comment of a network file."""
    between = b"" if content.endswith(b"\n") else b"\n"
    return content + between + b"# seal " + _seal(content).encode() + b"\n"


def unsealed_text(content: bytes, path: str | Path, cure: str = CURE) -> bytes | None:
    """The text before its seal, which has to be of it; None where it has no seal."""
    found = LAST_LINE.search(content)
    if not found:
        return None
    before = content[:found.start()]
    for text in (before, before.removesuffix(b"\n")):
        if _seal(text).encode() == found[1]:
            return text
    raise broken(path, cure=cure)


def sealed(values: dict[str, Any]) -> dict[str, Any]:
    """The values of a file of JSON, with the seal of all of them."""
    return {**values, KEY: _seal(_spelled(values))}


def is_sealed(values: dict[str, Any]) -> bool:
    """Whether the values of a file of JSON have the seal of what they are."""
    return bool(values.get(KEY) == _seal(_spelled({key: value for key, value in values.items() if key != KEY})))


def row_seal(row: Sequence[str]) -> str:
    """The seal of the fields of a row, as they are written."""
    return _seal("\0".join(map(guarded, row)).encode())[:MARK]


def _spelled(values: dict[str, Any]) -> bytes:
    """The values as they are read again, in one spelling."""
    return json.dumps(json.loads(json.dumps(values)), sort_keys=True).encode()


def _seal(content: bytes) -> str:
    return hashlib.sha256(content).hexdigest()
