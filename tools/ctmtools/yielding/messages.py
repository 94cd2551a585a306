"""What is reported of those who give way: what passes, and what doesn't settle; and of fixed greens what is lost at them."""

from __future__ import annotations

from collections.abc import Iterator, Sequence

from ..arrays import Numbers
from ..report.reading import Report
from ..report.summary import number_text
from ..texts.quantities import HOUR
from ..texts.text_table import table
from ..units import Loss
from .fixed_greens import MINUTE, GreenWaits, waits_at_greens
from .yielding import Yielding

MOST_TOLD = 8
BEYOND = 1.02  # of what may pass, from which on more passes than limits and steps make of it
AT_GREENS = "Lost at fixed greens by coming at random, by the Highway Capacity Manual and no part of the delay"
HEADS = ("lane group", "vehicles", "of what may pass", "each", "vehicle-hours", "queue stands")


def passing_lines(ones: Sequence[Yielding], waits: Sequence[Loss], moves: Sequence[float], runs: int,
            least: float) -> tuple[list[str], list[str]]:
    """Remarks on what passes of each and what is lost by coming at random, and warnings of those whose limits still move."""
    lines = [_passes(one) + _waits(each) for one, each in zip(ones[:MOST_TOLD], waits)]
    if len(ones) > MOST_TOLD:
        lines.append(f"and {len(ones) - MOST_TOLD} more that give way")
    hours = sum(each.hours for each in waits)
    if hours:
        lines.append(f"what is lost by coming at random is {hours:,.2f} vehicle-hours by the Highway Capacity Manual where no queue "
                     "stands, and no part of the run's delay, in which vehicles come evenly")
    if max(moves) <= least:
        lines.append(f"what passes by giving way is settled after {runs} runs: no capacity would change by more than {least:.0%}")
    moving = sorted(((one.of.name, moved) for one, moved in zip(ones, moves) if moved > least), key=lambda one: -round(one[1], 3))
    warnings = [f"{name}: after {runs} runs what passes isn't settled; a capacity would still change by {moved:.1%}"
                for name, moved in moving[:MOST_TOLD]]
    if len(moving) > MOST_TOLD:
        warnings.append(f"and {len(moving) - MOST_TOLD} more whose capacities still change, by less")
    return lines, warnings


def _passes(one: Yielding) -> str:
    """What gaps let pass of a stream, in the cycle's mean where it has a signal."""
    rates = (one.rates * one.green.permitted if one.green else one.rates).mean(axis=1)
    signal = " in permitted greens, sneakers among them" if one.green else " through gaps"
    lane = f", of {_span(rates / one.of_lane)} in the lane that it shares" if (one.of_lane < 1).any() else ""
    return f"{one.of.name}: {_span(rates)} vehicles/h may pass{signal}{lane}"


def _span(rates: Numbers) -> str:
    """The least and the greatest of rates, or one where they are the same."""
    low, high = (f"{value:,.0f}" for value in (rates.min(), rates.max()))
    return low if low == high else f"{low} to {high}"


def _waits(waits: Loss) -> str:
    """What each vehicle loses by coming at random."""
    if not waits.vehicles:
        return ""
    queues = f", and a queue stands in {waits.full} intervals" if waits.full else ""
    return f"; {waits.vehicles:,.0f} vehicles lose {waits.hours * HOUR / waits.vehicles:.1f} s each by coming at random{queues}"


def green_lines(report: Report) -> Iterator[str]:
    """What is lost at fixed greens by coming at random, below a page: in all, and at the lane groups that lose most."""
    hours, rows = green_rows(report)
    if rows:
        yield ""
        yield f"{AT_GREENS}: {hours}"
        yield ""
        yield from table([HEADS, *rows[:MOST_TOLD]], right=(1, 2, 3, 4, 5))
        if len(rows) > MOST_TOLD:
            yield f"  and {len(rows) - MOST_TOLD} more with less"
        yield from _beyond(waits_at_greens(report))


def _beyond(groups: Sequence[GreenWaits]) -> Iterator[str]:
    """Of which lane groups more passes in a run than may by the manual, so that their queues are too short or aren't there."""
    over = sorted((one for one in groups if one.most > BEYOND), key=lambda one: -one.most)
    if over:
        yield ""
    for one in over[:MOST_TOLD]:
        yield f"{one.name}: {one.most:.0%} pass of what may by the Highway Capacity Manual, so its queue is too short"
    if len(over) > MOST_TOLD:
        yield f"and {len(over) - MOST_TOLD} more of which too many pass"


def green_rows(report: Report) -> tuple[str, list[tuple[str, ...]]]:
    """What is lost at fixed greens by coming at random in all, and a row for each lane group, the greatest loss first.

    There are no rows where nobody comes to them, and where that isn't known, as without records.
    """
    greens = waits_at_greens(report) if report.recorded and report.network is not None else []
    if not any(one.vehicles for one in greens):
        return "", []
    hours, others = sum(one.hours for one in greens), sum(one.hours for one in report.units.at_random.giving_way)
    more = f", {hours + others:,.2f} with movements that give way" if others else ""
    return f"{hours:,.2f} vehicle-hours{more}", [_row(one) for one in sorted(greens, key=lambda one: -one.hours)]


def _row(one: GreenWaits) -> tuple[str, ...]:
    each = f"{one.hours * HOUR / one.vehicles:.1f} s" if one.vehicles else ""
    part = f"{one.part:.0%}" if one.vehicles else ""
    full = f"{number_text(one.full / MINUTE)} min" if one.full else ""
    return one.name, number_text(round(one.vehicles)), part, each, f"{one.hours:,.2f}", full
