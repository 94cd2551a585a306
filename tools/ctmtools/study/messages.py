"""What is reported of a built study before the results of its run."""

from __future__ import annotations

from collections.abc import Iterator
from dataclasses import replace

from ..network_file.warnings import shortened, warnings_of
from .network_text import Built, build
from .plan import Scenario


def built_lines(built: Built) -> Iterator[str]:
    """What is reported of a built study: what it is made of, what was rounded, and the warnings."""
    yield from built.remarks
    for note in built.rounding.differing:
        yield f"rounded: {note}"
    if not built.rounding.differing:
        yield "All lengths, flows, times, places and shares are modelled as asked, to 0.1 %."
    yield from warned(built)


def warned(built: Built) -> Iterator[str]:
    """The warnings of a built study: what in it can hardly be meant."""
    for line in [*built.warnings, *shortened(warnings_of(built.network, built.units), lines=False)]:
        yield f"warning: {line}"


def warned_before_runs(study: Scenario) -> Iterator[str]:
    """The warnings of a study of which each run works out what passes by giving way."""
    yield from warned(build(replace(study, yields=[replace(one, capacities=[]) for one in study.yields])))
