"""Chains of what follows each other: streets that make a road, cells that make a line of the map."""

from __future__ import annotations

from collections.abc import Callable, Iterable


def chains(names: Iterable[str], following: Callable[[str], str | None]) -> list[list[str]]:
    """The names as chains, each name once.

    `following` gives the name behind another, or None. Names that follow none begin their chains, in their order; a ring begins
    with its first.
    """
    followers = {name: following(name) for name in names}
    begun = set(followers.values())
    found: list[list[str]] = []
    seen: set[str] = set()
    for start in [*(name for name in followers if name not in begun), *followers]:
        chain: list[str] = []
        name: str | None = start
        while name is not None and name not in seen:
            seen.add(name)
            chain.append(name)
            name = followers[name]
        if chain:
            found.append(chain)
    return found
