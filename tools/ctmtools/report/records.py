"""The records of a report as arrays of whole parts, read when they are first asked for."""

from __future__ import annotations

from collections.abc import Sequence
from functools import cached_property
from typing import Any, TypeAlias

import numpy

from ..arrays import Numbers, Wholes
from ..problem import Problem
from ..texts.amounts import PARTS, parts_of

Eights: TypeAlias = "numpy.ndarray[Any, numpy.dtype[numpy.uint64]]"
Parts: TypeAlias = "numpy.ndarray[Any, numpy.dtype[numpy.int64]]"
Amounts = tuple[Wholes, Wholes, Wholes]  # recorded steps, what cells hold at each, and what has left them until then

DECIMALS = 6
BEHIND = DECIMALS + 1  # letters from the point of an amount to what stands behind it
EIGHT = 8  # letters that are read at once, as the bytes of one number
TOGETHER = 1 << 19  # letters that are read at once, as many as a processor has near at hand
AT = numpy.uint64(int.from_bytes(b"at,", "little"))
ZEROS = numpy.uint64(0x3030303030303030)  # eight times the letter 0
TO_NINE = numpy.uint64(0x7676767676767676)  # takes a byte beyond 127 where it is above 9
HIGHEST = numpy.uint64(0x8080808080808080)
LAST = numpy.array([(1 << 64) - (1 << 8 * (EIGHT - digits)) for digits in range(EIGHT + 1)], dtype=numpy.uint64)  # so many bytes
JOINING = [tuple(map(numpy.uint64, terms)) for terms in ((10 << 8 | 1, 0xFF00FF00FF00FF00, 8), (100 << 16 | 1, 0xFFFF0000FFFF0000, 16))]
JOINED = numpy.uint64(10000 << 32 | 1)  # of two numbers of four digits


class Records:
    """What a report says of its recorded steps: `times`, and of each cell at each of them `vehicles` and `left`.

    `times` are the recorded steps. `vehicles` is what a cell holds and `left` all that has gone out of it, both in parts: a row
    for each recorded step, a column for each cell.
    """

    def __init__(self, times: Wholes, vehicles: Wholes, left: Wholes) -> None:
        self.times, self.vehicles, self.left = times, vehicles, left

    def __len__(self) -> int:
        return len(self.times)

    def read(self) -> None:
        """Reads them, where they aren't read yet, or raises the problem that they are none."""

    def of(self, places: Wholes) -> Records:
        """The records of the cells with these numbers alone."""
        return Records(self.times, self.vehicles[:, places], self.left[:, places])

    @classmethod
    def of_vehicles(cls, times: Sequence[int] | Wholes, vehicles: Numbers, left: Numbers) -> Records:
        """Records of amounts in vehicles."""
        in_parts = (numpy.rint(numpy.asarray(amounts, dtype=float) * PARTS).astype(numpy.int64) for amounts in (vehicles, left))
        return cls(numpy.asarray(times, dtype=int), *in_parts)


class TextRecords(Records):
    """The records in the lines `at,t,name,n,gone` of a report, between two places of its text. A fault in them is reported when they are read."""

    def __init__(self, content: bytes, begin: int, end: int, names: Sequence[str], report: str) -> None:
        self.content, self.begin, self.end, self.names, self.report = content, begin, end, names, report
        lines = int(numpy.count_nonzero(numpy.frombuffer(content, numpy.uint8)[begin:end] == ord("\n")))
        self._count, rest = divmod(lines, max(1, len(names)))
        if rest or end > begin and not content.endswith(b"\n", begin, end):
            raise self._fault()

    def __len__(self) -> int:
        return self._count

    def read(self) -> None:
        """Reads them, where they aren't read yet, or raises the problem that they are none."""
        self._amounts

    def of(self, places: Wholes) -> Records:
        """The records of the cells with these numbers alone; where not all are read yet, the amounts of others aren't."""
        return super().of(places) if "_amounts" in vars(self) else Records(*self._read(places))

    @cached_property
    def times(self) -> Wholes:  # type: ignore[override]
        """The recorded steps."""
        return self._amounts[0]

    @cached_property
    def vehicles(self) -> Wholes:  # type: ignore[override]
        """What each cell holds at each recorded step, in parts."""
        return self._amounts[1]

    @cached_property
    def left(self) -> Wholes:  # type: ignore[override]
        """All that has gone out of each cell until each recorded step, in parts."""
        return self._amounts[2]

    @cached_property
    def _amounts(self) -> Amounts:
        return self._read(slice(None))

    def _read(self, places: Wholes | slice) -> Amounts:
        if not self._count:
            none = numpy.zeros((0, len(self.names)), dtype=numpy.int64)[:, places]
            return numpy.array([], dtype=int), none, none
        try:
            found = WrittenLines(self.content, self.names).read(self.begin, self.end, places)
        except (ValueError, IndexError):
            found = self._read_by_lines(places)
        self.times = found[0]
        return found

    def _read_by_lines(self, places: Wholes | slice) -> Amounts:
        try:
            return read_by_lines(self.content[self.begin:self.end], self.names, places)
        except (ValueError, IndexError):
            raise self._fault() from None

    def _fault(self) -> Problem:
        return Problem(f"{self.report}: this report is cut short or isn't one of ctm")


def read_by_lines(content: bytes, names: Sequence[str], places: Wholes | slice) -> Amounts:
    """The records of some cells, read line by line, also of amounts without a point; ValueError or IndexError where they are none."""
    rows = [line.split(",") for line in content.decode("ascii").splitlines()]
    times = [int(row[1]) for row in rows[::len(names)]]
    parts = [parts_of(amount) for row in rows for amount in row[3:]]
    if [(row[0], row[2], len(row)) for row in rows] != [("at", name, 5) for _ in times for name in names] or None in parts:
        raise ValueError
    found = numpy.array(parts, dtype=numpy.int64).reshape(len(times), len(names), 2)
    return numpy.array(times), found[:, places, 0], found[:, places, 1]


class WrittenLines:
    """A report's text with lines as the program writes them: their amounts have a point and six decimals, and are found by it."""

    def __init__(self, content: bytes, names: Sequence[str]) -> None:
        self.content, self.names = content, names
        self.letters = numpy.frombuffer(content, numpy.uint8)
        self.eights: Eights = numpy.ndarray(len(content) - EIGHT + 1, "<u8", content, strides=(1,))  # those from each letter on
        self.lengths = numpy.array(list(map(len, names)))
        self.points = numpy.cumsum([name.count(".") + 2 for name in names])  # at a step in the lines down to each cell's

    def read(self, begin: int, end: int, places: Wholes | slice) -> Amounts:
        """The records of some cells in the lines between two places of the text; ValueError or IndexError where they are none."""
        first = self.content[begin:self._step_after(begin, end)].decode("ascii").splitlines()
        if [line.split(",")[2] for line in first] != list(self.names):
            raise ValueError
        found = []
        while begin < end:
            behind = self._step_after(min(begin + TOGETHER, end), end)
            found.append(self._read_some(begin, behind, places))
            begin = behind
        times, held, left = (numpy.concatenate(rows) for rows in zip(*found))
        return times, held, left

    def _step_after(self, place: int, end: int) -> int:
        """Where the lines of the next recorded step begin, each of which begins with that of the first cell."""
        found = self.content.find(b",%b," % self.names[0].encode(), place + len("at,0,"), end)
        return end if found < 0 else 1 + self.content.rindex(b"\n", 0, found)

    def _read_some(self, begin: int, end: int, places: Wholes | slice) -> Amounts:
        """The records of some cells in the lines of whole steps."""
        letters = self.letters[begin:end]
        points = numpy.flatnonzero(letters == ord(".")).reshape(-1, self.points[-1]) + begin
        held, left = points[:, self.points - 2], points[:, self.points - 1]
        lines = numpy.append(begin, left.ravel()[:-1] + BEHIND + 1).reshape(left.shape)
        letters_of_time = 1 + (self.letters[lines[:, :1] + numpy.arange(4, 10)] == ord(",")).argmax(axis=1, keepdims=True)
        begins = lines + self.lengths + (letters_of_time + len("at,,,"))
        if (self.eights[lines] & numpy.uint64(0xFFFFFF) != AT).any() or (self.letters[begins - 1] != ord(",")).any() or \
                numpy.count_nonzero(letters == ord(",")) != 4 * lines.size:
            raise ValueError
        times = _number(self.eights[begins[:, 0] - self.lengths[0] - 2 - EIGHT], LAST[letters_of_time[:, 0]])
        return times, self._parts(begins[:, places], held[:, places], ","), self._parts(held[:, places] + BEHIND + 1, left[:, places], "\n")

    def _parts(self, begins: Wholes, points: Wholes, behind: str) -> Parts:
        """The parts of amounts from where they begin to what stands behind them, with a point in between."""
        digits = points - begins
        if points.size and (digits.min() < 1 or digits.max() > EIGHT):
            raise ValueError
        found = _number(self.eights[points - EIGHT], LAST[digits])
        found *= PARTS
        decimals = self.eights[points]
        if (decimals >> numpy.uint64(56) != ord(behind)).any():
            raise ValueError
        decimals <<= numpy.uint64(8)
        found += _number(decimals, LAST[DECIMALS])
        return found


def _number(eight: Eights, last: Eights) -> Parts:
    """The number that the last digits of each eight letters spell; what was in the array is lost.

    The letters are the bytes of a number, the first the lowest. Times 1 and, a byte higher, times 10 each second byte becomes the
    number of two digits; so two of these become that of four, and two of these that of eight.
    """
    eight ^= ZEROS  # of a digit that is its value
    eight &= last
    if numpy.bitwise_or.reduce(eight | eight + TO_NINE, axis=None) & HIGHEST:
        raise ValueError  # not a digit
    for times, mask, bits in JOINING:
        eight *= times
        eight &= mask
        eight >>= bits
    eight *= JOINED
    eight >>= numpy.uint64(32)
    return eight.view(numpy.int64)
