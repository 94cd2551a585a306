"""Packed input, which may hold more than it seems: what comes of it has a bound, which an option raises."""

from __future__ import annotations

from contextvars import ContextVar
from io import BufferedIOBase, BytesIO, RawIOBase
from pathlib import Path
from typing import BinaryIO

from ..problem import Problem

MIB = 1 << 20
OPTION = "--most-unpacked"
DEFAULT = 512  # MiB: ten times a large town's map
MOST: ContextVar[int] = ContextVar("most MiB that a packed file may unpack to", default=DEFAULT)
GZIP = b"\x1f\x8b"


def unpacked(content: bytes, path: str | Path) -> bytes:
    """The bytes of a file, unpacked where they are packed by gzip."""
    if not content.startswith(GZIP):
        return content
    import zlib

    try:
        return Bounded(BytesIO(content), path).read()
    except (OSError, EOFError, zlib.error):
        raise Problem(f"{path}: is packed by gzip, and isn't whole") from None


class Bounded(RawIOBase):
    """What a file of gzip unpacks to, up to the bound."""

    def __init__(self, packed: BinaryIO, path: str | Path) -> None:
        import gzip

        self.packed, self.path, self.left = gzip.GzipFile(fileobj=packed), path, MOST.get() * MIB
        self.under = packed

    def readable(self) -> bool:
        """It is there to be read."""
        return True

    def read(self, size: int = -1) -> bytes:
        """The next bytes; the problem of a file that unpacks to more than the bound."""
        found = self.packed.read(self.left + 1 if size < 0 else min(size, self.left + 1))
        self.left -= len(found)
        if self.left < 0:
            raise Problem(f"{self.path}: unpacks to more than {MOST.get():,} MiB; where that is meant, {OPTION} MIB before the "
                          "command's name allows more")
        return found

    def close(self) -> None:
        """Closes the file."""
        self.packed.close()
        self.under.close()
        super().close()


BinaryInput = BufferedIOBase | Bounded


def opened(path: str | Path) -> BinaryInput:
    """A file to read from, unpacked where its name ends with .gz."""
    file = open(path, "rb")
    return Bounded(file, path) if Path(path).suffix == ".gz" else file
