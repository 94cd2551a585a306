"""The statuses and the limits of an input, wherever they are told: by the crates, docs/FORMAT.md and docs/ctm.1."""

import re

from conftest import TOP
from format_tables import rows_of

ROWS = [[cell.strip() for cell in row.strip("|").split("|")] for row in rows_of("Status | Name | When | Line on standard error")]
TOO_LARGE = " ".join(when for _, name, when, _ in ROWS if name == "TooLarge")
MANUAL = (TOP / "docs/ctm.1").read_text()
MOST = {"67,108,864", "16,777,216"}


def numbers(text):
    return {number for number in re.findall(r"[\d,]*\d", text) if "," in number}


def test_the_statuses_are_those_of_the_code():
    code = (TOP / "crates/call_ending/specs/Status.antt").read_text()
    told = {name: number for number, name, _, _ in ROWS}
    assert told == dict(re.findall(r"^status_number (\w+) = (\d+)$", code, re.MULTILINE))


def test_the_manual_has_the_statuses_and_the_limits_of_the_page():
    told = MANUAL.split(".SH EXIT STATUS\n")[1].split(".SH ")[0]
    assert re.findall(r"^\.TP\n\.B (\d+)$", told, re.MULTILINE) == list(dict.fromkeys(row[0] for row in ROWS))
    assert numbers(told) == numbers(TOO_LARGE) == {*MOST, "4,000,000"}
