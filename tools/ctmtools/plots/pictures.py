"""The pictures of a report by their names."""

from __future__ import annotations

from importlib import import_module
from inspect import signature
from typing import Any

from matplotlib.figure import Figure

from ..problem import Problem
from ..report.reading import Report

PICTURES = {"time-space": "time_space", "n-curves": "curves", "queue": "queue", "delay": "delay", "map": "network_map",
            "mfd": "fundamental"}


def picture(report: Report, kind: str, **options: Any) -> Figure:
    """The picture of a kind, drawn by the module of this folder that has its options."""
    if kind not in PICTURES:
        raise Problem(f"{kind}: no such picture; known are {', '.join(PICTURES)}")
    module = import_module(f".{PICTURES[kind]}", __package__)
    draw, (_, *parameters) = module.draw, signature(module.draw).parameters.values()
    known = [name for one in parameters for name in (module.Where.__annotations__ if one.kind is one.VAR_KEYWORD else [one.name])]
    strange = next((name for name in options if name not in known), None)
    if strange is not None:
        raise Problem(f"--{strange}: is no option of {kind}, which has {', '.join(known) or 'none'}")
    return draw(report, **options)
