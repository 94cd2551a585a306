"""What stops a command: one line for the user."""

from __future__ import annotations

from collections.abc import Mapping

from .visible import visible


class Problem(Exception):
    """A fault of what the user gave, reported in one line; a command ends with it and with status 2."""

    def __str__(self) -> str:
        """The line, in which names are text."""
        return visible(super().__str__())


class Interrupted(Problem):
    """An interrupt from the keyboard, with what of the command is kept; it ends with status 130."""


class NoSuchKey(Problem):
    """A key that a study doesn't have."""


def one_line(text: object) -> str:
    """The text with all its white space as single spaces, so that it is one line, and names in it as text."""
    return visible(" ".join(str(text).split()))


def reason(error: OSError) -> str:
    """What the system says of a fault, in lower case."""
    return (error.strerror or str(error)).lower()


def check_options(options: Mapping[str, object], known: type) -> None:
    """Refuses an option that isn't among those of a typed dictionary, with one that it may be meant to be: a caller's types may not be checked."""
    for name in options:
        if name not in known.__annotations__:
            from difflib import get_close_matches  # here, so that each start is faster

            near = get_close_matches(name, known.__annotations__, 1)
            hint = f"is {_spelled(near[0])} meant?" if near else f"known are {', '.join(map(_spelled, known.__annotations__))}"
            raise Problem(f"No such option: {_spelled(name)}; {hint}")


def _spelled(name: str) -> str:
    return f"--{name.replace('_', '-')}"
