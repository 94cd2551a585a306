"""What an output may be written over: a file of its own sort that these tools made, and else only where that is forced.

So networks, reports, ways and studies, which other commands need, and files of others stay.
"""

from __future__ import annotations

import io
import zipfile
from contextlib import suppress
from contextvars import ContextVar
from pathlib import Path

from ..problem import Problem
from .reading import read_bytes

FORCED: ContextVar[bool] = ContextVar("FORCED", default=False)
# Columns that the tables of one command have each, whatever its options.
TABLES = [{"time", "cell", "step", "density"}, {"road", "delay_each"}, {"ramp", "delay_each"}, {"lane_group", "lost_each"},
          {"cell", "entered", "left", "delay"}, {"entered", "mean", "least", "most", "free"}, {"cell", "delay_first", "delay_second"},
          {"delay_vehicle_hours", "rounded"}, {"station", "time", "flow (vehicles/h)"}, {"ramp", "occupancy", "rate"},
          {"informed", "rounds", "gap"}, {"plan", "figure", "as_it_stands"}]
MARKS = {".png": b"Matplotlib", ".svg": b"Matplotlib", ".pdf": b"Matplotlib", ".html": b"<details id=\"origin\">",
         ".parquet": b"PANDAS_ATTRS", ".geojson": b"{\"type\": \"FeatureCollection\", \"name\": ",
         ".json": b"{\"type\": \"FeatureCollection\", \"name\": "}
STUDIES = (b" ctm-tools ", b" plans that were tried")  # in the first line of those that commands write
IN_A_WORKBOOK = (("xl/workbook.xml", b"name=\"table\""), ("docProps/core.xml", b"openpyxl"))


def guard_output(path: str | Path) -> Path:
    """The path of an output, or the problem that a file stands there over which it isn't to be written."""
    path = Path(path)
    if FORCED.get() or not path.is_file() or _is_made(path.suffix.lower(), read_bytes(path)):
        return path
    raise Problem(f"{path}: stands there, and isn't what this command makes; name another file, or say --force")


def _is_made(suffix: str, content: bytes) -> bool:
    """Whether these tools made a file of this sort; an empty one nobody misses."""
    if not content:
        return True
    if suffix == ".xlsx":
        return _is_workbook(content)
    if suffix == ".toml":
        return any(mark in content.split(b"\n", 1)[0] for mark in STUDIES)
    if suffix in MARKS:
        return MARKS[suffix] in content
    head = content.split(b"\n", 1)[0].decode("utf-8", "replace").strip("\r\ufeff")
    names = max((head.split(sign) for sign in ",;\t"), key=len)
    return any(columns <= {name.strip('"') for name in names} for columns in TABLES)


def _is_workbook(content: bytes) -> bool:
    with suppress(zipfile.BadZipFile, KeyError, OSError, RuntimeError, NotImplementedError):
        with zipfile.ZipFile(io.BytesIO(content)) as book:
            return all(mark in book.read(name) for name, mark in IN_A_WORKBOOK)
    return False
