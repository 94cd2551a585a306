"""What draws show, in words: the table of a plan's delay and travel times, its probabilities, and two plans compared."""

from __future__ import annotations

from collections.abc import Iterator

from ..report.summary import number_text
from .reliability import PERCENTS, Chance, Spread
from .results import TIME, Draws

MOST_WAYS = 12  # so many roads are printed, those with the greatest planning time index
HEADS = ("as it stands", "mean", "95 % interval", *(f"{percent} %" for percent in PERCENTS), "planning time index", "buffer index")


def spread_rows(results: Draws, plan: str) -> Iterator[tuple[str, ...]]:
    """The table of a plan below `HEADS`: a row for its delay and for each travel time, those with the greatest index first."""
    found = results.spreads(plan)
    for name in ["delay", *_times(results, plan)[:MOST_WAYS]]:
        spread, unit = found[name], "vehicle-hours" if name == "delay" else "min"
        indices = ("", "") if name == "delay" else (f"{results.planning_time_index(plan, name):.2f}",
                                                    f"{results.buffer_index(plan, name):.0%}")
        yield (f"{name} ({unit})", _number(results.as_it_stands(plan, name)), number_text(spread.mean), _interval(spread),
               *(number_text(spread.percentiles[percent]) for percent in PERCENTS), *indices)


def plan_lines(results: Draws, plan: str) -> Iterator[str]:
    """What is printed of a plan below its table: roads left out, vehicles inside at the end, and where and when queues stand."""
    more = len(_times(results, plan)) - MOST_WAYS
    if more > 0:
        yield f"and {more} more roads in summary.csv"
    inside = results.inside(plan)
    if inside:
        yield f"In {inside} draw{'s'[:inside > 1]} vehicles are inside at the end: a part of their delay is still to come."
    for place in results.places:
        yield f"A queue passes {place} in {_chance(results.passing(plan, place))}"
    for time in results.times:
        yield f"A queue lasts past {time} in {_chance(results.lasting(plan, time))}"


def compared_lines(results: Draws, second: str) -> Iterator[str]:
    """A plan beside the first, draw by draw."""
    first, found = results.plans[0], results.compared(second)
    if found is None:
        yield f"{first} and {second} have no draw in common in which both succeeded"
        return
    sign = -1 if found.difference.mean < 0 else 1
    ends = sorted(sign * end for end in found.difference.of_mean)
    middle = sorted(sign * end for end in found.middle)
    yield f"{second} has less delay than {first} in {_chance(found.less)}"
    yield (f"It has {number_text(sign * found.difference.mean)} vehicle-hours {'less' if sign < 0 else 'more'} in the mean, "
           f"95 % interval {number_text(ends[0])} to {number_text(ends[1])}; in 95 % of draws {number_text(middle[0])} to {number_text(middle[1])}")


def _times(results: Draws, plan: str) -> list[str]:
    """The travel times of a plan, those with the greatest planning time index first."""
    return sorted((name for name in results.spreads(plan) if name.startswith(TIME)),
                  key=lambda name: -results.planning_time_index(plan, name))


def _interval(spread: Spread) -> str:
    return f"{number_text(spread.of_mean[0])} to {number_text(spread.of_mean[1])}" if spread.count > 1 else "-"


def _number(value: float | None) -> str:
    return "-" if value is None else number_text(value)


def _chance(chance: Chance) -> str:
    low, high = chance.interval
    return f"{chance.part:.0%} of draws (95 % interval {100 * low:.0f} to {100 * high:.0f} %)"
