"""Names from outside as text: what a terminal or a reader doesn't show as itself stands there as its escape."""

from __future__ import annotations

import unicodedata

HIDDEN = ("Cc", "Cf", "Cs", "Zl", "Zp")  # controls, marks of direction, halves of letters, ends of lines and paragraphs
JOINERS = "\u200c\u200d"  # they stand within words of Persian and of India's languages, and turn nothing round


def visible(text: str) -> str:
    """The text with each letter that isn't shown as itself written as Python does, as `\\x1b` or `\\u202e`."""
    return text if text.isprintable() else "".join(map(_shown, text))


def is_visible(text: str) -> bool:
    """Whether each letter of a text is shown as itself."""
    return text.isprintable() or all(map(_is_shown, text))


def _shown(letter: str) -> str:
    return letter if _is_shown(letter) else letter.encode("unicode_escape").decode()


def _is_shown(letter: str) -> bool:
    return letter in JOINERS or unicodedata.category(letter) not in HIDDEN
