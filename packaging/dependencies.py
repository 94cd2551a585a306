"""The packages of Python that the tools need, as tools/pyproject.toml names them, from their least versions to those past them."""

import re
import tomllib

from built import TOP

REQUIREMENT = re.compile(r"([a-z0-9-]+)>=([\d.]+),<([\d.]+)")


def dependencies(extra: str | None = None) -> dict[str, tuple[str, str]]:
    """What the tools need, or an extra of theirs: of each the least version and the first that is too new."""
    project = tomllib.loads((TOP / "tools/pyproject.toml").read_text())["project"]
    lines = project["optional-dependencies"][extra] if extra else project["dependencies"]
    return {name: (least, past) for name, least, past in (bounded(line) for line in lines)}


def bounded(line: str) -> tuple[str, str, str]:
    """The name of a requirement and its two bounds, which each has."""
    found = REQUIREMENT.fullmatch(line)
    if not found:
        raise ValueError(f"tools/pyproject.toml: {line} has no two bounds")
    return found[1], found[2], found[3]
