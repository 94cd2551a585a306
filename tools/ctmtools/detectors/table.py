"""The rows of a table in a text file, packed or not and in any encoding, each by its line, with its fields as texts."""

from __future__ import annotations

import codecs
import csv
import io
import re
from collections.abc import Sequence
from dataclasses import dataclass
from pathlib import Path

import numpy
import pandas

from ..arrays import Wholes
from ..files.reading import check_fields, read_bytes
from ..files.unpacking import unpacked
from ..problem import Problem, one_line
from ..texts.cells import unguarded
from ..texts.text_table import first_few
from ..visible import visible

SEPARATORS = (";", "\t", ",")  # those that a first line shows by itself, of two the first
MOST_NAMED = 6  # days or columns that a message names
DATE = re.compile(r"[0-9]{1,4}[-/.][0-9]{1,2}[-/.][0-9]{1,4}")
ZIP = b"PK\x03\x04"
LOOKED_AT = 4096  # bytes at the start of a file, whose zeros show UTF-16


@dataclass(frozen=True)
class Source:
    """A file's text, its separator, the fields of its first line and that line's number, and how many each of its lines has."""

    path: Path
    text: str
    separator: str
    first: list[str]
    head: int
    widths: Wholes

    def rows(self, begin: int, wanted: Sequence[int]) -> pandas.DataFrame:
        """The rows from a line on, numbered by their lines: columns of texts as categories, blank lines left out."""
        every = sorted(set(wanted))
        # Fields behind the last wanted one are read over: for each of them pandas would make a field in all rows.
        width = min(int(self.widths[begin - 1:].max(initial=1)), max(every, default=0) + 1)
        columns = [i for i in every if i < width]
        try:
            found = pandas.read_csv(io.StringIO(self.text), sep=self.separator, header=None, names=range(width), usecols=columns,
                                    dtype="category", skiprows=begin - 1, skip_blank_lines=False, na_filter=False,
                                    index_col=False, skipinitialspace=True, low_memory=False)
        except pandas.errors.EmptyDataError:
            found = pandas.DataFrame(columns=columns, dtype="category")
        except (ValueError, OverflowError) as error:
            raise Problem(f"{self.path}: {one_line(error)}") from None
        found.index = pandas.RangeIndex(begin, begin + len(found))
        blank = numpy.ones(len(found), dtype=bool)
        for column in columns:
            blank &= (found[column] == "").to_numpy() if "" in found[column].cat.categories else False
        found = found[~blank] if blank.any() else found
        return found if len(every) == len(columns) else _with_blank(found, every)

    def first_with_more(self, begin: int, fields: int) -> int | None:
        """The first line from one on that has a text behind so many fields, or None."""
        lines = numpy.flatnonzero(self.widths[begin - 1:] > fields) + begin
        texts = self.text.split("\n") if len(lines) else []
        return next((int(line) for line in lines
                     if any(map(str.strip, fields_of(self.path, line, texts[line - 1], self.separator)[fields:]))), None)


def _with_blank(rows: pandas.DataFrame, columns: Sequence[int]) -> pandas.DataFrame:
    """The rows with blank texts in those of the columns that none of them has."""
    blank = pandas.Series("", index=rows.index, dtype="category")
    return pandas.concat({column: rows[column] if column in rows else blank for column in columns}, axis=1)


def source_of(path: str | Path, separator: str | None = None) -> Source:
    """The text of a file as a table; without a separator that which its first line has, else a comma."""
    path, text = Path(path), text_of(path)
    if separator is not None and (len(separator) != 1 or separator in "\n\"" or not separator.isascii()):
        raise Problem(f"{path}: a separator is one character of ASCII, found \"{separator}\"")
    plain = re.sub(r'"[^"]*"', "", text) if '"' in text else text
    if plain.count("\n") < text.count("\n"):
        raise Problem(f"{path}: a field in quotes goes over several lines, or a quote is left open")
    blank = len(text) - len(text.lstrip("\n"))
    first = text[blank:].split("\n", 1)[0]
    sign = separator if separator else separator_of(first)
    widths = _widths(plain, sign)
    widest = int(widths.argmax())
    check_fields(path, widest + 1, int(widths[widest]))
    names = [unguarded(visible(field.strip())) for field in fields_of(path, blank + 1, first, sign)]
    while names and not names[-1]:
        names.pop()
    return Source(path, text, sign, names, blank + 1, widths)


def separator_of(line: str) -> str:
    """What parts the fields of a first line: of the signs that stand in it outside quotes the first, else a comma."""
    bare = re.sub(r'"[^"]*"', "", line)
    return next((one for one in SEPARATORS if one in bare), ",")


def fields_of(path: Path, line: int, text: str, separator: str) -> list[str]:
    """The fields of a line."""
    try:
        return next(csv.reader([text], delimiter=separator, skipinitialspace=True), [])
    except csv.Error as error:
        raise Problem(f"{path}: line {line}: {one_line(error)}") from None


def _widths(plain: str, separator: str) -> Wholes:
    """How many fields each line of a text without quotes has."""
    letters = numpy.frombuffer(f"{plain}\n".encode(), dtype=numpy.uint8)
    before = numpy.searchsorted(numpy.flatnonzero(letters == ord(separator)), numpy.flatnonzero(letters == ord("\n")))
    widths: Wholes = numpy.diff(before, prepend=0) + 1
    return widths


def named(names: Sequence[str]) -> str:
    """Names of a header as a message has them, the first of many."""
    return first_few(names, MOST_NAMED)


def counted(stations: Sequence[str]) -> str:
    """How many stations a file has, whose names are content of it, and what prints them."""
    return f"{len(stations)} station{'s'[:len(stations) != 1]}, which `ctm-tools detectors` prints"


def named_days(days: Sequence[str]) -> str:
    """Days as a message has them: those that are dates; of other texts, which are content of the file, how many there are."""
    dates = [one for one in days if DATE.fullmatch(one)]
    others = len(days) - len(dates)
    return ", ".join(filter(None, [named(dates), f"{others} text{'s'[:others != 1]} that are no date" if others else ""]))


def text_of(path: str | Path) -> str:
    """The text of a file, with a line feed at the end of each line."""
    content = unpacked(read_bytes(path), path)
    if content.startswith(ZIP):
        raise Problem(f"{path}: is a zip archive or a workbook; unpack it, or save it as CSV")
    if not content:
        raise Problem(f"{path}: is empty")
    text = _decoded(path, content)
    if "\0" in text:
        raise Problem(f"{path}: line {text.count(chr(10), 0, text.index(chr(0))) + 1} has a zero byte; it is no text")
    return text.replace("\r\n", "\n").replace("\r", "\n")


def _decoded(path: str | Path, content: bytes) -> str:
    """The text of bytes: UTF-16 where its mark or its zeros say so, else UTF-8, or Windows-1252 where it can't be that."""
    try:
        if content.startswith((codecs.BOM_UTF16_LE, codecs.BOM_UTF16_BE)):
            return content.decode("utf-16")
        first = content[:LOOKED_AT]
        for begin, name in ((1, "utf-16-le"), (0, "utf-16-be")):
            if first[begin::2].count(0) > len(first) / 4 and not first[1 - begin::2].count(0):
                return content.decode(name)
    except UnicodeDecodeError:
        raise Problem(f"{path}: begins as UTF-16, and isn't whole") from None
    try:
        return content.decode("utf-8-sig")
    except UnicodeDecodeError:
        return content.decode("cp1252", "replace")
