"""The results of a sweep over one or two of the varied values."""

from __future__ import annotations

from collections.abc import Sequence

import numpy
import pandas
from matplotlib.figure import Figure

from .figure import DENSITY, SHADES, beside, drawing, figure, head, note, style

UNITS = {"offset": "s", "first_green": "s", "cycle": "s", "green": "s", "step": "s", "length": "km", "from": "km",
         "to": "km", "at": "km",
         "free_flow_speed": "km/h", "speed": "km/h", "wave_speed": "km/h", "jam_density": "vehicles/km in a lane",
         "saturation_flow": "vehicles/h in a lane", "capacity": "vehicles/h", "lanes": "lanes"}
BEYOND = "{}: a queue reaches the upstream end of the model, behind which vehicles wait in a gate"
NAMES = {"delay_vehicle_hours": "Delay (vehicle-hours)", "longest_queue_km": "Longest queue (km)"}


@drawing
def draw(frame: pandas.DataFrame, keys: Sequence[str], title: str) -> Figure:
    """Draws a frame of results over one or two keys; of the others the value with the least delay is taken."""
    frame = frame[frame.error == ""].copy()
    for key in keys:
        numbers = pandas.to_numeric(frame[key], errors="coerce")
        if numbers.notna().all():
            frame[key] = numbers
    frame = frame.sort_values("delay_vehicle_hours").drop_duplicates(keys)
    return _lines(frame, keys[0], title) if len(keys) == 1 else _shades(frame, keys, title)


def _lines(frame: pandas.DataFrame, key: str, title: str) -> Figure:
    frame = frame.sort_values(key)
    drawn, axes = figure(2, size=(8, 5), sharex=True)
    for one, name in zip(axes, NAMES):
        one.plot(frame[key].astype(str) if frame[key].dtype == object else frame[key], frame[name], marker="o",
                 markersize=4, **style(0))
        one.set_ylabel(NAMES[name])
        one.set_ylim(bottom=0)
    beyond = frame[frame.waiting_upstream_vehicles >= 1]
    if len(beyond):
        axes[1].plot(beyond[key].astype(str) if frame[key].dtype == object else beyond[key], beyond.longest_queue_km, "o",
                     markersize=7, fillstyle="none", color=SHADES[1])
    head(axes[0], f"{title}: over {key}")
    axes[1].set_xlabel(_axis(key))
    if len(beyond):
        note(axes[1], BEYOND.format("In a ring"))
    return drawn


def _shades(frame: pandas.DataFrame, keys: Sequence[str], title: str) -> Figure:
    down, across = keys
    table = frame.pivot(index=down, columns=across, values="delay_vehicle_hours")
    drawn, axes = figure(size=(8, max(3.0, 1.8 + 0.36 * len(table))))
    values = table.to_numpy(dtype=float)
    mesh = axes.imshow(values, cmap=DENSITY, aspect="auto", origin="lower", vmin=0)
    if values.size <= 150:
        middle = numpy.nanmax(values) / 2
        for (i, j), value in numpy.ndenumerate(values):
            if value == value:
                axes.text(j, i, f"{value:,.0f}" if value >= 100 else f"{value:.3g}", ha="center", va="center",
                          fontsize=8, color="white" if value > middle else "black")
    axes.set_xticks(range(len(table.columns)), [_short(value) for value in table.columns])
    axes.set_yticks(range(len(table.index)), [_short(value) for value in table.index])
    axes.grid(False)
    axes.set_xlabel(_axis(across))
    beside(axes, _axis(down))
    head(axes, f"{title}: delay over {down} and {across}")
    beyond = frame[frame.waiting_upstream_vehicles >= 1]
    if len(beyond):
        places = [(table.columns.get_loc(row[across]), table.index.get_loc(row[down])) for _, row in beyond.iterrows()]
        axes.plot([x + 0.4 for x, _ in places], [y + 0.4 for _, y in places], "o", markersize=4, color="white",
                  markeredgecolor="black", clip_on=False)
        note(axes, BEYOND.format("With a dot"))
    bar = drawn.colorbar(mesh, ax=axes, pad=0.02)
    bar.set_label(NAMES["delay_vehicle_hours"])
    bar.outline.set_visible(False)
    return drawn


def _short(value: object) -> str:
    return f"{value:g}" if isinstance(value, (int, float)) else str(value)


def _axis(key: str) -> str:
    """A key as its axis says it."""
    unit = "factor" if key.split(".")[0] == "demand" else UNITS.get(key.split(".")[-1])
    return f"{key} ({unit})" if unit else key
