"""The bytes of a file, what it is that a command was given, and how many fields a row of a table may have."""

from __future__ import annotations

import os
import re
import stat
from pathlib import Path

from ..problem import Problem, reason

MOST_PIPED = 1 << 30  # bytes of what isn't a file of some size
MOST_FIELDS = 10_000  # a region's table with a column a station has some thousands
SUFFIX = ".units.json"
HEADER = re.compile(rb'(?:\xef\xbb\xbf)?(?:[\r\n]|#[^\n]*\n)*"?ctm"?[,;\t ]')
STUDY_KEY = re.compile(rb"^[ \t]*(?:\[+(?:lane|roads|gates|exits)\b|step\s*=|(?:roads|gates|exits)\.)", re.MULTILINE)
ADVICE = {"a study": "`ctm-tools build` makes its network and prints what is wrong with it, `ctm-tools run` runs it",
          "a network": "`ctm-tools run` runs it, `ctm-tools lint` prints what is wrong with it",
          "a report": "`ctm-tools table`, `plot` and `compare` read it",
          "a saved run": "`ctm resume` and `ctm-tools branch` go on from it",
          "a file of units": "it is read with the network or the report that it stands beside"}


def read_bytes(path: str | Path) -> bytes:
    """The bytes of a file, or the problem that there are none. What may have no end is read up to a bound."""
    try:
        with open(path, "rb") as file:
            kind = os.fstat(file.fileno()).st_mode
            if stat.S_ISREG(kind):
                return file.read()
            if stat.S_ISCHR(kind) and not file.isatty() and not os.path.samefile(path, os.devnull):
                raise Problem(f"{path}: is a device, which has no end; a file is wanted")
            content = file.read(MOST_PIPED + 1)
        if len(content) > MOST_PIPED:
            raise Problem(f"{path}: has more than {MOST_PIPED >> 20:,} MiB and no end yet; write it to a file first")
        return content
    except OSError as error:
        raise Problem(f"{path}: {reason(error)}") from None
    except ValueError:  # a zero byte in its name
        raise Problem(f"{str(path)!r}: no file has such a name") from None


def check_fields(path: str | Path, line: int, fields: int) -> None:
    """Refuses a row that has too many fields: a column is made of each, so one wrong row would ask for columns without end."""
    if fields > MOST_FIELDS:
        raise Problem(f"{path}: line {line} has {fields:,} fields; a row may have {MOST_FIELDS:,}")


def kind_of(path: str | Path, content: bytes) -> str | None:
    """What the bytes of a file are, as far as they say it; None where they don't."""
    if content.startswith(b"report,"):
        return "a report"
    if content.startswith(b"saved,"):
        return "a saved run"
    if str(path).endswith(SUFFIX):
        return "a file of units"
    if HEADER.match(content):
        return "a network"
    return "a study" if Path(path).suffix.lower() == ".toml" or STUDY_KEY.search(content) else None


def read_as(path: str | Path, wanted: str) -> bytes:
    """The bytes of a file, or the problem that it is something else than what a command wants."""
    content = read_bytes(path)
    kind = kind_of(path, content)
    if kind is not None and kind != wanted:
        raise Problem(f"{path}: this is {kind}, and {wanted} is wanted; {ADVICE[kind]}")
    return content
