"""What a fault of a network file was probably meant to be: a hint for each sort of slip."""

from __future__ import annotations

import difflib
import re
from collections.abc import Callable, Sequence

from . import kinds
from .faults import Fault
from .kinds import HEADERS, KINDS, Field
from .records import FileRecord, line_of

FORMS = "".join(form for _, form in kinds.HEADERS)
WRITTEN = kinds.or_text(",".join(header) for header in kinds.HEADERS)  # what the first record may be
BEHIND = "A comment stands on a line of its own; # behind a record is part of it."
# What a text that is no number may be, each with its hint, in which {} stands for the text with a point; of several the first.
NUMBERS = [(re.compile(pattern, re.DOTALL), hint) for pattern, hint in (
    (r"", "The field is empty."),
    (r".*#.*", BEHIND),
    (r"[0-9]+,[0-9]+", "Is a decimal comma meant? Write {}."),
    (r"\s.*|.*\s", "Take the spaces away."),
    (r"\d{1,3}([ ']\d{3})+(\.\d+)?", "Take away what stands between the thousands."),
    (r"\+.*", "Take the plus sign away."),
    (r"-.*", "No number here is negative."),
    (r"[0-9.]+[eE][-+]?[0-9]+", "Write it without an exponent."))]

# Makes a hint of the file's bytes, its records, the one with the fault, and the fault.
Hint = Callable[[bytes, Sequence[FileRecord], FileRecord, Fault], str]


def hint_of(content: bytes, records: Sequence[FileRecord], fault: Fault) -> str:
    """A hint on a fault in one sentence or two, or an empty text where there is none."""
    if fault.code == "NoHeader":
        return _header_hint(content, records)
    if fault.record > len(records):
        return _whole_hint(records, fault)
    record = records[fault.record - 1]
    hints: dict[str, Hint] = {
        "BadKind": _kind_hint, "BadCount": _count_hint, "BadName": _name_hint, "BadNumber": _number_hint,
        "OutOfRange": _range_hint, "Repeated": _repeated_hint, "Unknown": _unknown_hint,
        "WrongKind": _wrong_kind_hint, "InTaken": _taken_hint, "OutTaken": _taken_hint}
    hint = hints.get(fault.code)
    return hint(content, records, record, fault) if hint else ""


def _value(record: FileRecord, fault: Fault) -> str:
    """What stands in the field that a fault is of."""
    assert fault.place is not None  # such a fault is of one field
    return record.fields[fault.place]


def _term(record: FileRecord, fault: Fault) -> Field:
    """What the format has as the field that a fault is of."""
    assert fault.place is not None  # such a fault is of one field
    return KINDS[record.kind].fields[fault.place - 1]


def _earlier(records: Sequence[FileRecord], fault: Fault) -> FileRecord:
    """The earlier record that a fault comes from."""
    assert fault.earlier is not None  # such a fault comes from one
    return records[fault.earlier - 1]


def _header_hint(content: bytes, records: Sequence[FileRecord]) -> str:
    if not content.strip():
        return "The file is empty."
    if content.startswith(b"PK\x03\x04"):
        return "This is an Excel workbook or another archive; save it as CSV."
    if content.startswith((b"\xff\xfe", b"\xfe\xff")) or b"\x00" in content[:200]:
        return "The bytes are UTF-16, as Excel's \"Unicode text\" is; save the file as CSV in UTF-8."
    if not records:
        return f"There are only comments and blank lines; the first record must be {WRITTEN}."
    if b"\r" in content and b"\n" not in content:
        return "The lines end with carriage returns alone, so a comment doesn't end; save the file with line feeds."
    fields = records[0].fields
    joined = ",".join(fields)
    if len(fields) > 1 and not any(fields):
        return "Commas stand in empty rows, as Excel writes them; take them away, and those behind records too."
    if re.fullmatch(rf"ctm;[{FORMS}];*", joined, re.IGNORECASE):
        return "Semicolons stand between the fields; put commas there, in the whole file."
    if re.fullmatch(rf"ctm[\t ]+[{FORMS}]\s*", joined, re.IGNORECASE):
        return "Tabs or spaces stand between the fields; put commas there, in the whole file."
    if fields[:2] in HEADERS and not any(fields[2:]):
        return "Commas trail behind the record, as Excel writes them; take them away, in the whole file."
    if tuple(field.strip().lower() for field in fields) in HEADERS:
        return f"The header has capitals or spaces; write it as {WRITTEN}."
    if joined.startswith("\\xef\\xbb\\xbf"):
        return "The byte order mark stands twice; take one away."
    if re.fullmatch(r"ctm,.*", joined):
        return f"There are the formats 1 to {FORMS[-1]} alone: write {WRITTEN}."
    later = next((record for record in records if record.fields[:2] in HEADERS), None)
    if later is not None:
        names = _looks_like_names(fields)
        what = "a row of column names stands before it" if names else "it must stand before all others"
        return f"The record {','.join(later.fields[:2])} is in line {line_of(content, later.place)}; {what}."
    if fields[0] in KINDS:
        return f"The record {WRITTEN} is missing; put it before all others."
    if _looks_like_names(fields):
        return f"A row of column names stands there; this file has none. Put {WRITTEN} in its place."
    return f"The first record of a network file is {WRITTEN}."


def _looks_like_names(fields: Sequence[str]) -> bool:
    return len(fields) > 1 and all(re.fullmatch(r"[A-Za-z_ /()-]+", field) for field in fields)


def _kind_hint(content: bytes, records: Sequence[FileRecord], record: FileRecord, fault: Fault) -> str:
    form = int(records[0].fields[1])
    kind = record.kind
    joined = ",".join(record.fields)
    if kind in KINDS and KINDS[kind].form > form:
        needed = KINDS[kind].form
        return f"A {kind} is of no format before {needed}: write ctm,{needed} in the first record."
    if record.fields in HEADERS:
        return "The header stands once, at the top of the file; are two files joined here?"
    if not any(record.fields):
        return ("A comment that ends the file needs a line end." if len(record.fields) == 1
                else "An empty row of commas, as Excel writes it; take it away.")
    for sign, name in ((";", "Semicolons"), ("\t", "Tabs")):
        if sign in joined and joined.split(sign)[0] in KINDS:
            return f"{name} stand between the fields; put commas there."
    if kind.strip().startswith("#"):
        return "A comment begins with # as the first byte of its line, without a space before it."
    if kind.strip().lower() in KINDS:
        return f"Write it as {kind.strip().lower()}, in lower case and without spaces."
    near = difflib.get_close_matches(kind.strip().lower(), kinds.kinds_of(form), 1)
    if near:
        return f"Is {near[0]} meant?"
    if _looks_like_names(record.fields):
        return "This looks like a row of column names, which the file doesn't have; put # before it."
    return ""


def _count_hint(content: bytes, records: Sequence[FileRecord], record: FileRecord, fault: Fault) -> str:
    wanted = len(KINDS[record.kind].fields) + 1
    fields = record.fields
    if len(fields) > wanted:
        if not any(fields[wanted:]):
            return "Commas trail behind the record, as Excel writes them; take them away."
        where = _decimal_comma_at(record, len(fields) - wanted)
        if where:
            return f"Is a decimal comma meant? Write {where} with a point."
        if any(field.startswith("#") for field in fields) or "#" in fields[-1]:
            return BEHIND
        return f"There are {len(fields) - wanted} too many."
    for sign, name in ((";", "Semicolons"), ("\t", "Tabs")):
        if any(sign in field for field in fields):
            return f"{name} stand between the fields; put commas there."
    if fault.record == len(records) and "\n" in fields[-1]:
        return "A quote isn't closed, so all that is behind it is one field; close it or take it away."
    missing = KINDS[record.kind].names[len(fields) - 1:]
    return f"Missing at the end: {', '.join(missing)}." if missing else ""


def _decimal_comma_at(record: FileRecord, surplus: int) -> str:
    """Two fields of digits that make one number with a decimal comma, where joining such pairs mends the count."""
    sorts = [term.sort for term in KINDS[record.kind].fields]
    pairs = []
    place, sort = 1, 0
    fields = record.fields
    while place < len(fields) and sort < len(sorts):
        spare = (len(fields) - place) - (len(sorts) - sort)
        if sorts[sort] == "amount" and spare > 0 and fields[place].isdigit() and fields[place + 1].isdigit():
            pairs.append(f"{fields[place]},{fields[place + 1]}")
            place += 1
        place, sort = place + 1, sort + 1
    return " and ".join(pairs) if pairs and len(pairs) == surplus else ""


def _name_hint(content: bytes, records: Sequence[FileRecord], record: FileRecord, fault: Fault) -> str:
    text = _value(record, fault)
    if not text:
        return "The name is empty."
    if len(text) > 32:
        return f"It has {len(text)} letters."
    if text != text.strip():
        return "Take the spaces away."
    better = re.sub(r"[^A-Za-z0-9_.-]+", "_", text)
    return f"{better} would do." if better.strip("_") else ""


def _number_hint(content: bytes, records: Sequence[FileRecord], record: FileRecord, fault: Fault) -> str:
    text = _value(record, fault)
    sort = _term(record, fault).sort
    known = next((hint for pattern, hint in NUMBERS if pattern.fullmatch(text)), None)
    if known is not None:
        return known.format(text.replace(",", "."))
    if re.fullmatch(r"[0-9]*\.[0-9]*", text):
        if sort == "whole":
            return "A whole number has no point."
        if text.startswith("."):
            return f"Write 0{text}."
        if text.endswith("."):
            return f"Write {text[:-1]}."
        return "At most six decimals are read, and at most 12 digits before the point."
    unit = re.fullmatch(r"([0-9]+(?:\.[0-9]+)?)\s*([A-Za-z/%]+)", text)
    if unit:
        return f"Take the unit {unit[2]} away; the file counts in steps and vehicles."
    if re.fullmatch(r"[0-2]?[0-9]:[0-5][0-9](:[0-5][0-9])?", text):
        return "A clock time isn't read here; the file counts steps from 0."
    behind = record.fields[fault.place + 1:fault.place + 2] if fault.place is not None else ()
    if behind and re.fullmatch(r"[0-9.]+", behind[0]):
        return "Are two fields exchanged?"
    return ""


def _range_hint(content: bytes, records: Sequence[FileRecord], record: FileRecord, fault: Fault) -> str:
    name = _term(record, fault).name
    if record.kind == "road" and name == "B":
        return "A/B is the speed of waves by the free-flow speed, at most 1; are A and B exchanged?"
    if record.kind == "road" and name == "first":
        return f"The road has room for N = {record.fields[2]} vehicles."
    if record.kind == "signal":
        return (f"These are steps in a cycle of {record.fields[2]}; a range doesn't reach over the cycle's end, but an "
                "offset can shift it.")
    if name == "to":
        return "The range is of the steps from <= t < to, so `to` is above `from`."
    if record.kind == "speed":
        return "NUM/DEN is a part of the road's own free-flow speed, at most 1; are NUM and DEN exchanged?" if name == "DEN" else ""
    if record.kind == "turn" or record.kind == "diverge":
        return "A share is at least 1; a closed branch gets 1 against 1000."
    if name == "Q":
        return "Q is vehicles in a step, not in an hour."
    return ""


def _repeated_hint(content: bytes, records: Sequence[FileRecord], record: FileRecord, fault: Fault) -> str:
    line = line_of(content, _earlier(records, fault).place)
    if record.kind == "steps":
        return f"Line {line} has {','.join(_earlier(records, fault).fields)}."
    name = _value(record, fault)
    what = {"signal": "signal", "region": "region"}.get(record.kind)
    return f"The {what} of {name} stands in line {line}." if what else f"{name} stands in line {line} too."


def _unknown_hint(content: bytes, records: Sequence[FileRecord], record: FileRecord, fault: Fault) -> str:
    name = _value(record, fault)
    later = next((other for other in records[fault.record:]
                  if other.kind in kinds.CELLS and len(other.fields) > 1 and other.fields[1] == name), None)
    if later is not None:
        return f"{name} is declared later, in line {line_of(content, later.place)}; move that line up."
    names = [other.fields[1] for other in records
             if other.kind in kinds.CELLS and len(other.fields) > 1]
    if name.strip() in names:
        return "Take the spaces away."
    near = _near(name, names)
    return f"Is {' or '.join(near)} meant?" if near else "No cell of this file has that name."


def _near(name: str, names: Sequence[str]) -> list[str]:
    """The names that one may be meant to be: those that look alike, else those that differ least."""
    for alike in (str.lower, _looks, _without_zeros):
        found = [other for other in names if alike(other) == alike(name)]
        if found:
            return found[:2]
    return difflib.get_close_matches(name, names, 2, 0.6)


def _looks(name: str) -> str:
    """A name with letters and digits that are easily taken for each other made one."""
    return name.lower().translate(str.maketrans("li|o-", "1110_"))


def _without_zeros(name: str) -> str:
    """A name with its numbers without leading zeros."""
    return re.sub(r"0+(?=[0-9])", "", name.lower())


def _wrong_kind_hint(content: bytes, records: Sequence[FileRecord], record: FileRecord, fault: Fault) -> str:
    name = _value(record, fault)
    kind = _earlier(records, fault).kind
    line = line_of(content, _earlier(records, fault).place)
    sort = _term(record, fault).sort
    why = {"up": "nothing leads out of an exit", "down": "nothing leads into a gate", "signal": "an exit has no signal",
           "demand": "demand comes at gates alone", "turn": "no diverge above leads out of it",
           "speed": "a road alone has a free-flow speed"}[sort]
    return f"{name} is {'an exit' if kind == 'exit' else 'a ' + kind} (line {line}); {why}."


def _taken_hint(content: bytes, records: Sequence[FileRecord], record: FileRecord, fault: Fault) -> str:
    name = _value(record, fault)
    way = "into" if fault.code == "InTaken" else "out of"
    joint = "A merge joins two cells into one." if fault.code == "InTaken" else "A diverge parts one cell into two."
    if fault.earlier == record.number:
        return f"{name} stands twice in this record."
    other = _earlier(records, fault)
    line = line_of(content, other.place)
    if other.fields == record.fields:
        return f"The same record stands in line {line}."
    return f"{','.join(other.fields)} in line {line} leads {way} {name} already. {joint}"


def _whole_hint(records: Sequence[FileRecord], fault: Fault) -> str:
    if fault.code == "TooMuch":
        return "A demand is vehicles in each step; is one written in vehicles per hour?"
    if fault.code == "NoSteps":
        return "Put it behind the header."
    return ""
