"""From the bytes of a network file to its records, each with its line, by the rules of docs/FORMAT.md."""

from __future__ import annotations

import re
from dataclasses import dataclass
from functools import lru_cache

from .kinds import record

BYTE_ORDER_MARK = b"\xef\xbb\xbf"
# What may stand at the beginning of a record and gives none: line ends, and comments to their line feed.
SKIPPED = re.compile(rb"(?:[\r\n]|#[^\n]*\n)*")
UNFINISHED_COMMENT = re.compile(rb"#[^\n]*\Z")
PLAIN_RECORD = re.compile(rb'[^"\r\n]*(?=[\r\n]|\Z)')
FIELD = re.compile(rb'"([^"]*(?:""[^"]*)*)(?:"|\Z)([^,\r\n]*)|([^,\r\n]*)')
LINE_END = re.compile(rb"\r\n|\n|\r")


@dataclass(frozen=True)
class FileRecord:
    """A record as a file has it: its number from 1, the place of its first byte, and its fields as text (bytes beyond ASCII escaped)."""

    number: int
    place: int
    fields: tuple[str, ...]

    @property
    def kind(self) -> str:
        """The first field, which names the kind of the record."""
        return self.fields[0]


def read_records(content: bytes) -> list[FileRecord]:
    """The records of a file's bytes, in order."""
    found: list[FileRecord] = []
    place = len(BYTE_ORDER_MARK) if content.startswith(BYTE_ORDER_MARK) else 0
    while True:
        skipped = SKIPPED.match(content, place)
        assert skipped  # it matches nothing too
        place = skipped.end()
        if place >= len(content):
            return found
        if UNFINISHED_COMMENT.match(content, place):
            found.append(FileRecord(len(found) + 1, place, ("",)))
            return found
        fields, end = _record_at(content, place)
        found.append(FileRecord(len(found) + 1, place, fields))
        place = end


def _record_at(content: bytes, place: int) -> tuple[tuple[str, ...], int]:
    """The fields of the record that begins at a place, and the place behind them."""
    plain = PLAIN_RECORD.match(content, place)
    if plain:
        return tuple(plain.group().decode("ascii", "backslashreplace").split(",")), plain.end()
    fields = []
    while True:
        found = FIELD.match(content, place)
        assert found  # it matches nothing too
        quoted, behind, bare = found.groups()
        field = bare if quoted is None else quoted.replace(b'""', b'"') + behind
        fields.append(field.decode("ascii", "backslashreplace"))
        place = found.end()
        if content[place:place + 1] != b",":
            return tuple(fields), place
        place += 1


def end_of(content: bytes, record: FileRecord) -> int:
    """The place behind the last byte of a record of a file's bytes."""
    return _record_at(content, record.place)[1]


def line_of(content: bytes, place: int) -> int:
    """The number from 1 of the line that the byte at a place stands in, as an editor counts lines."""
    return 1 + sum(1 for _ in LINE_END.finditer(content, 0, place))


def ends_of_lines(content: bytes) -> list[int]:
    """The places behind the ends of all lines, in rising order."""
    return [found.end() for found in LINE_END.finditer(content)]


def text_of_line(content: bytes, line: int) -> str:
    """The text of a line, counted from 1, without its end."""
    lines = LINE_END.split(content)
    return lines[line - 1].decode("utf-8", "backslashreplace") if line <= len(lines) else ""


def with_steps(content: bytes, steps: int) -> bytes:
    """The bytes of a network without a fault, with another number of steps."""
    begin, end = _place_of_steps(content)
    return content[:begin] + record("steps", steps).text.encode() + content[end:]


@lru_cache(maxsize=2)
def _place_of_steps(content: bytes) -> tuple[int, int]:
    steps = next(one for one in read_records(content) if one.kind == "steps")
    return steps.place, end_of(content, steps)
