"""The text of a study as it is changed by patches: a key, as a sweep names it, and the value that it takes.

Behind such keys stand three more: `closures.+` adds a table to a list, `closures.2` without a value takes it away, and
`roads.NAME` with a table begins one. Comments and the order of what isn't touched stay.
"""

from __future__ import annotations

from collections.abc import Sequence
from difflib import SequenceMatcher
from typing import Any

import tomlkit
from tomlkit.exceptions import TOMLKitError
from tomlkit.items import Array

from ..problem import NoSuchKey, Problem, one_line
from ..study.keys import gate_of_factor, places
from ..study.study import Study, changed_text, item, plain
from ..study.writing import Rows, value_text

ADDED = "+"  # in the place of a number, the table behind the last one
NAMED = ("roads", "gates", "exits")  # tables of tables with names

Patch = tuple[str, Any]  # a key and its value, None where it is taken away


def patched(text: str, patches: Sequence[Patch]) -> str:
    """The text of a study with patches, one after the other; whether the study may have these values isn't looked at."""
    for key, value in patches:
        try:
            text = _patched(text, key, value)
        except TOMLKitError as error:
            raise Problem(f"{key}: {one_line(error)}") from None
    return text


def _patched(text: str, key: str, value: Any) -> str:
    names = key.split(".")
    if not all(names):
        raise NoSuchKey(f"{key}: is no key")
    if gate_of_factor(key) is not None:
        Study.of_text(text)  # whose demands are numbers then
        return changed_text(text, {key: value})
    document = tomlkit.parse(text)
    if names[-1] == ADDED:
        _add(document, ".".join(names[:-1]), plain(value, key))
    elif names[-1].isdigit() and value is None:
        _take_away(document, ".".join(names[:-1]), int(names[-1]))
    elif len(names) == 2 and names[0] in NAMED and isinstance(value, dict):
        _begin(document, names[0], names[1], plain(value, key))
    elif not _change_rows(document, key, value):
        return changed_text(text, {key: value})
    return tomlkit.dumps(document)


def _add(document: Any, key: str, value: Any) -> None:
    """Adds a table to a list of tables, or a row to a list of rows, which may begin with it."""
    for table, name in list(places(document, key)):
        if name not in table:
            table[name] = item([value])
        elif isinstance(table[name], Array):
            table[name].append(tomlkit.value(value_text(value)))
        else:
            added = item(value)
            added.trivia.indent = "\n"  # a blank line before it
            table[name].append(added)


def _take_away(document: Any, key: str, number: int) -> None:
    """Takes away a table of a list by its number from 1, and the list with its last one."""
    for table, name in list(places(document, key)):
        found = table.get(name)
        if not isinstance(found, list) or not 1 <= number <= len(found):
            raise NoSuchKey(f"{key}.{number}: there are {len(found) if isinstance(found, list) else 0} of these")
        if len(found) == 1:
            del table[name]
        else:
            del found[number - 1]


def _begin(document: Any, kind: str, name: str, values: Any) -> None:
    """Begins a table with a name, in the place of one that has it."""
    if kind not in document:
        document[kind] = tomlkit.table(is_super_table=True)
    begun = item(values)
    begun.add(tomlkit.nl())
    document[kind][name] = begun


def _change_rows(document: Any, key: str, value: Any) -> bool:
    """Changes those rows of a list that differ, so that the comments of the others stay; False where it has to be written anew."""
    ((table, name), *more) = list(places(document, key)) or [({}, "")]
    old = table.get(name)
    if more or not isinstance(value, list) or not isinstance(old, Array) or not value:
        return False
    wanted = plain(value, key)
    _align(old, wanted)
    spelled = tomlkit.parse(f"rows = {old.as_string()}").unwrap()["rows"]
    if spelled != tomlkit.parse(f"rows = {value_text(wanted)}").unwrap()["rows"]:
        table[name] = tomlkit.value(value_text(Rows(wanted)))
    return True


def _align(old: Array, wanted: list[Any]) -> None:
    """Takes an array to these rows, from its end on, with as few changes as find them."""
    spelled = [value_text(row) for row in wanted]
    changes = SequenceMatcher(None, [_spelled(row) for row in old], spelled, autojunk=False).get_opcodes()
    for what, first, last, begin, end in reversed(changes):
        if what == "equal":
            continue
        shared = min(last - first, end - begin)
        for i in reversed(range(first + shared, last)):
            del old[i]
        for i in range(begin + shared, end):
            old.insert(first + i - begin, tomlkit.value(spelled[i]))
        for i in range(shared):
            _set(old, first + i, wanted[begin + i], spelled[begin + i])


def _set(old: Array, place: int, wanted: Any, spelled: str) -> None:
    """Sets a row of an array, entry by entry where it has as many, so that it is laid out as it was."""
    if isinstance(old[place], Array) and isinstance(wanted, list) and len(old[place]) == len(wanted):
        for i, entry in enumerate(wanted):
            if _spelled(old[place][i]) != value_text(entry):
                old[place][i] = tomlkit.value(value_text(entry))
    else:
        old[place] = tomlkit.value(spelled)


def _spelled(value: Any) -> str:
    """A value of a document as `value_text` spells one."""
    return value_text(plain(value.unwrap() if hasattr(value, "unwrap") else value, "value"))
