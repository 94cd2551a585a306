"""The values of a study as the text of a study file, in which each name and each remark is text, whatever letters it has."""

from __future__ import annotations

from collections.abc import Iterable, Iterator, Mapping, Sequence
from dataclasses import dataclass
from fractions import Fraction
from typing import Any

from ..visible import is_visible, visible

MOST_DECIMALS = 30


class Rows(list[Any]):
    """A list that is written with a line for each entry."""


@dataclass(frozen=True)
class Noted:
    """A value with a remark behind it, as its unit."""

    value: Any
    remark: str


@dataclass(frozen=True)
class Section:
    """A table with lines of its own: the names that lead to it, whether it is one of a list, and remarks above and behind its head."""

    names: tuple[str, ...]
    values: Mapping[str, Any]
    in_list: bool = False
    above: str = ""
    behind: str = ""

    def lines(self) -> Iterator[str]:
        """The lines of the table."""
        name = ".".join(map(_key, self.names))
        head = f"[[{name}]]" if self.in_list else f"[{name}]"
        yield from filter(None, [_remark(self.above), _behind(head, self.behind)])
        yield from map(_line, self.values, self.values.values())


def study_text(values: Mapping[str, Any], comment: str = "") -> str:
    """A study file of values as `read_values` gives them: what is no table first, then the tables."""
    plain = {name: value for name, value in values.items() if not _is_tables(value)}
    return text_of(plain, (section for name, value in values.items() if _is_tables(value) for section in sections(name, value)), comment)


def text_of(values: Mapping[str, Any], tables: Iterable[Section], comment: str = "") -> str:
    """A study file of values and, behind them, tables."""
    lines = [_remark(comment), ""] if comment else []
    lines += map(_line, values, values.values())
    for section in tables:
        lines += ["", *section.lines()]
    return "\n".join(lines) + "\n"


def sections(name: str, value: Any) -> Iterator[Section]:
    """The tables of a list, or those of a table of tables."""
    if isinstance(value, list):
        yield from (Section((name,), row, in_list=True) for row in value)
    else:
        yield from (Section((name, one), row) for one, row in value.items())


def _is_tables(value: Any) -> bool:
    """Whether a value is written as tables with lines of their own."""
    rows = value.values() if isinstance(value, dict) else value if isinstance(value, list) else []
    return bool(rows) and all(isinstance(row, dict) for row in rows)


def _line(name: str, value: Any) -> str:
    if isinstance(value, Noted):
        return _behind(f"{_key(name)} = {value_text(value.value)}", value.remark)
    return f"{_key(name)} = {value_text(value)}"


def _remark(text: str) -> str:
    return f"# {visible(text)}" if text else ""


def _behind(line: str, remark: str) -> str:
    return f"{line}  {_remark(remark)}" if remark else line


def _key(name: str) -> str:
    import tomlkit  # here and below, so a cluster's workers, which write no study, don't need it

    return tomlkit.key(name).as_string() if is_visible(name) else _text(name)


def value_text(value: Any) -> str:
    """A value as a study file spells it."""
    if isinstance(value, str):
        return _text(value)
    if isinstance(value, Mapping):
        return f"{{ {', '.join(f'{_key(name)} = {value_text(one)}' for name, one in value.items())} }}" if value else "{}"
    if isinstance(value, Rows):
        return "\n".join(["[", *(f"  {value_text(one)}," for one in value), "]"])
    if isinstance(value, Sequence):
        return f"[{', '.join(map(value_text, value))}]"
    if isinstance(value, Fraction):
        return _decimal(value)
    import tomlkit

    text: str = tomlkit.item(value).as_string()
    return text


def _decimal(number: Fraction) -> str:
    """A number in decimals, exactly where it has finitely many."""
    if number.denominator == 1:
        return str(number.numerator)
    places = next((n for n in range(1, MOST_DECIMALS + 1) if 10 ** n % number.denominator == 0), 9)
    digits = f"{abs(round(number * 10 ** places)):0{places + 1}d}"
    return f"{'-' * (number < 0)}{digits[:-places]}.{digits[-places:]}"


def _text(text: str) -> str:
    """A text of TOML. It escapes controls; here also what turns the letters around it, and what TOML can't have stands as Python's."""
    import tomlkit

    spelled = tomlkit.string(text.encode("utf-8", "backslashreplace").decode()).as_string()
    return "".join(letter if is_visible(letter) else f"\\u{ord(letter):04x}" if ord(letter) < 0x10000 else f"\\U{ord(letter):08x}"
                   for letter in spelled)
