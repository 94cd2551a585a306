"""The page that a run prints: vehicles and delay, the queues, and what is still inside."""

from __future__ import annotations

from collections.abc import Iterator

from ..texts.text_table import table
from .queues import CYCLES, SHORT, SHORT_STEPS, SLOW, Queue, is_short, queues_in
from .reading import Report
from .travel import road_times
from .upstream import Spill, spills

MOST_QUEUES = 12  # so many queues have a row, the most costly
MOST_JOINED = 3  # of the parts that joined a queue so many are printed
MOST_STANDING = 8  # of the queues that still stand at the end so many are printed
MOST_ROADS = 6  # so many roads are printed with their travel time, those with the greatest delay
HELD_UP = 1.005  # a road is printed from so many times its travel time at free flow on


def page(report: Report) -> Iterator[str]:
    """The page of a report, as lines."""
    units, total = report.units, report.sums
    queues = queues_in(report) if report.recorded else []
    end = f"{units.clock(0)} to {units.clock(report.steps)}" if units.known else f"{report.steps} steps"
    delay = units.hours(total.delay)
    each = ""
    if total.entered and units.step is not None:
        each = f", {_lasting(total.delay * units.step / total.entered)} for each vehicle that entered"
    yield f"{report.title}: {end}, {len(report.names)} cells"
    yield ""
    yield f"Vehicles  {number_text(total.entered)} entered, {number_text(total.left)} left, {number_text(total.inside)} are still inside"
    yield f"Delay     {number_text(delay)} {units.delay_unit}{each}"
    yield from _slowed(report)
    yield ""
    if report.recorded:
        yield from _queues(report, queues)
        yield from _travel(report)
    else:
        yield "No queues are listed, since the run has no records."
    yield ""
    yield from _inside(report, queues)


def _slowed(report: Report) -> Iterator[str]:
    """What of the delay is lost by driving at the speed limits, where a run has any."""
    if report.recorded and report.need_network().paces:
        lost = report.units.hours(report.slowed.sum())
        yield f"          {number_text(lost)} of these by driving at the speed limits, and not in queues"


def _lasting(seconds: float) -> str:
    """A time for reading: in seconds, or in minutes where it is long."""
    return f"{seconds:.1f} s" if seconds < 120 else f"{seconds / 60:.1f} min"


def _queues(report: Report, queues: list[Queue]) -> Iterator[str]:
    if not queues:
        yield f"No queue: nowhere does traffic move slower than {SLOW:.0%} of the free-flow speed."
        return
    short = [queue for queue in queues if is_short(report, queue)]
    long = [queue for queue in queues if not is_short(report, queue)]
    if not long:
        long, short = short, []
    rows = long[:MOST_QUEUES]
    yield f"Queues, where traffic moves slower than {SLOW:.0%} of the free-flow speed{_seen(report)}:"
    yield ""
    heads = ("began at", "when", "reached back", "to", "at", "most waiting", "at", "cleared", report.units.delay_unit)
    yield from table([heads, *(_row(report, queue) for queue in rows)], right=(2, 5, 8))
    if len(long) > MOST_QUEUES:
        yield f"  and {_counted(report, long[MOST_QUEUES:], 'more queue')}"
    if short:
        least = f"{SHORT // 60} min" if report.units.known else f"{SHORT_STEPS} steps"
        yield f"  and {_counted(report, short, 'short queue')}, cleared in less than {least}{' each' * (len(short) > 1)}"
    if any(queue.spells > 1 for queue in rows):
        yield ""
        yield (f"  A queue that comes back within {CYCLES} cycles of its signal is counted as one: from its first beginning "
               "to its last")
        yield "  clearing, as far as it ever reached, with all of its delay."
    for queue in rows:
        yield from _joined(report, queue)
    for queue in queues:
        for spill in spills(report, queue):
            yield f"  {spilled(report, spill)}, at {clock(report, spill.most_at)}, so it is longer than reported."


def spilled(report: Report, spill: Spill) -> str:
    """That a queue reaches the upstream end of the model, and who wait behind it."""
    return (f"The queue of {where(report, spill.origin)} reaches the upstream end of the model at {clock(report, spill.start)}: up "
            f"to {spill.most:,.0f} vehicles wait in the gate {spill.gate}")


def _travel(report: Report) -> Iterator[str]:
    """The travel times of the roads on which it is longest beside that at free flow."""
    step = report.units.step
    roads = [time for time in road_times(report) if time.mean >= HELD_UP * time.free] if step is not None else []
    if step is None or not roads:
        return
    yield ""
    yield "Travel time from end to end, of vehicles that have arrived:"
    yield ""
    rows: list[tuple[str, ...]] = [("road", "km", "at free flow", "mean", "longest",
                                    "for departures at")]
    for time in roads[:MOST_ROADS]:
        kilometres = report.units.cells[report.units.roads[time.road][-1]]["to_km"]
        rows.append((time.road, kilometre(kilometres), *(_lasting(step * steps) for steps in
                     (time.free, time.mean, time.most)), clock(report, int(time.entered))))
    yield from table(rows, right=(1, 2, 3, 4))
    if len(roads) > MOST_ROADS:
        yield f"  and {len(roads) - MOST_ROADS} more roads with less delay for each vehicle"


def _seen(report: Report) -> str:
    """How often queues are seen, where that isn't at each step."""
    every = report.times[1] - report.times[0]
    if every == 1:
        return ""
    step = report.units.step
    return f", seen every {every} steps" if step is None else f", seen every {every * step:g} s"


def _counted(report: Report, queues: list[Queue], what: str) -> str:
    """Some queues in one line: how many, the longest of them, and the delay of all."""
    longest = max(queues, key=lambda queue: (queue.reach, queue.most))
    cost = report.units.hours(sum(queue.delay for queue in queues))
    many = len(queues) > 1
    if longest.reach:
        which = f"{'the longest ' * many}of {length(report, longest.reach)} from {where(report, longest.origin)} at " \
            f"{clock(report, longest.reached)}"
    else:
        which = f"{'the greatest ' * many}of {number_text(longest.most)} vehicles in the gate {longest.origin} at " \
            f"{clock(report, longest.most_at)}"
    return f"{len(queues)} {what}{'s' * many}, {which}, {number_text(cost)} {report.units.delay_unit} in all"


def _joined(report: Report, queue: Queue) -> Iterator[str]:
    """The parts of a queue that began elsewhere and joined it, those that reached farthest."""
    others = sorted(queue.others, key=lambda other: -other.reach)
    for other in others[:MOST_JOINED]:
        yield (f"  The queue of {queue.origin} was joined by one that began at {where(report, other.cell)} at "
               f"{clock(report, other.start)} and reached back {length(report, other.reach)}.")
    if len(others) > MOST_JOINED:
        yield f"  {len(others) - MOST_JOINED} more joined it, none of which reached back farther."


def _row(report: Report, queue: Queue) -> tuple[str, ...]:
    most = f"{queue.most:,.0f}" if queue.most >= 1 else f"{queue.most:.1f}"
    return (where(report, queue.origin), clock(report, queue.start), length(report, queue.reach),
            where(report, queue.farthest, True) if queue.reach else "", clock(report, queue.reached), most,
            clock(report, queue.most_at), "not by the end" if queue.end is None else clock(report, queue.end),
            number_text(report.units.hours(queue.delay)))


def length(report: Report, reach: float) -> str:
    """How far a queue reached back."""
    if reach == 0:
        return "in the gate"
    return f"{kilometre(reach)} km" if report.units.known else f"{reach:.0f} cell{'s'[:reach > 1]}"


def kilometre(value: float) -> str:
    """Kilometres with two decimals, or three where there are as many metres."""
    text = f"{value:.3f}"
    return text[:-1] if text.endswith("0") else text


def where(report: Report, cell: str, upstream: bool = False) -> str:
    """A cell with its road and the kilometre of its end, downstream or upstream, where these are known."""
    row = report.units.cells.get(cell)
    if not row or cell in report.units.within:
        return report.units.made_place(cell) or cell
    return f"{cell} ({row['road']} km {kilometre(row['from_km' if upstream else 'to_km'])})"


def clock(report: Report, step: int) -> str:
    """A step as the page shows it."""
    return report.units.clock(step, True) if report.units.known else str(step)


def _inside(report: Report, queues: list[Queue]) -> Iterator[str]:
    """What is still inside at the end: the vehicles in each queue that stands there, and how many drive."""
    kinds = report.need_network().kinds
    inside = report.amounts.n[[kinds[cell] != "exit" for cell in report.names]].sum()
    when = report.units.clock(report.steps) if report.units.known else "the end"
    if inside < 0.001:
        yield f"Nothing is left inside at {when}."
        return
    still = f"Still inside at {when}: {number_text(inside)} vehicles"
    if not report.recorded:
        yield f"{still}. How many of them stand in queues isn't known, since the run has no records."
        return
    last = len(report.times) - 1
    held = {i: report.amounts.n[report.places(cell for cell, spans in queue.spans.items() if spans[-1][1] == last)].sum()
            for i, queue in enumerate(queues) if queue.end is None}
    if not held:
        yield f"{still}, none of them in a queue."
        return
    most = sorted(held, key=held.__getitem__, reverse=True)
    named = ", ".join(f"{number_text(held[i])} in that from {where(report, queues[i].origin)}" for i in most[:MOST_STANDING])
    more = most[MOST_STANDING:]
    rest = f", {number_text(sum(held[i] for i in more))} in {len(more)} more" if more else ""
    yield f"{still}, of which {number_text(sum(held.values()))} stand in queues: {named}{rest}."


def number_text(value: float) -> str:
    """A number of vehicles or hours for reading: thousands apart, at most two decimals."""
    text = f"{value:,.2f}"
    return text.rstrip("0").rstrip(".") if "." in text else text
