"""Who gives way to whom, as a study file says it of junctions, merges and on-ramps, and the gaps that drivers take, by kind.

Of a two-way stop: Highway Capacity Manual 2010, chapter 19 (2016: chapter 20), base critical and follow-up headways by the lanes
of the street with priority, without heavy vehicles and on level ground. Of a left turn at a green light: the same, chapter 31
(the supplement on signals), from a lane of its own. Of a roundabout: the same, 2016, chapter 22, an entry of one lane against one
lane, whose `1,380·exp(-0.00102·v)` is Siegloch's formula with the gaps below. Each kind has the formula by which its gaps were
estimated, since gaps of one are wrong in the other: Harders' and Siegloch's, both in ctmtools.yielding.gaps. The manual's tables are
from memory, as no copy of it was at hand.
"""

from __future__ import annotations

from dataclasses import dataclass, replace
from fractions import Fraction
from typing import Any

from ..problem import Problem
from ..texts.quantities import duration, number, shown, whole, word
from .entries import Entries, list_of
from .movements import movement_name, movement_of, taken_movements
from .plan import Crossing, Gaps, Merge, Movement, Precedence, Scenario, Stream, Yield

HARDERS, SIEGLOCH = "harders", "siegloch"
THREE_LEGS = Fraction("0.7")  # s by which a left turn's critical gap is less where nobody comes from ahead
A_STAGE = Fraction(1)  # s by which the critical gap of each stage is less than that of both at once
SNEAKERS = Fraction(2)  # vehicles that turn at the end of a green, HCM 2010, chapter 31
CONTROLS = ("stop", "give_way")
MERGE_KIND = "minor-right"
OF_SIGNS, OF_GREENS = ("median", "first", "stage_gap"), ("sneakers",)  # keys of a junction without and with a signal
OF_GAPS = ("kind", "priority_lanes", "legs", "critical_gap", "follow_up", "control")
MOST_IN_MEDIAN, MOST_SNEAKERS, MOST_PART = 20, 20, 10
LEAST_FOLLOW_UP, MOST_GAP = Fraction(1, 10), 3600  # s


@dataclass(frozen=True)
class GapKind:
    """The critical and the follow-up gap in s by the lanes of the street with priority, and the formula they go with."""

    critical: dict[int, Fraction]
    follow_up: dict[int, Fraction]
    formula: str = HARDERS


def _by_lanes(two: str, four: str, six: str) -> dict[int, Fraction]:
    return {2: Fraction(two), 4: Fraction(four), 6: Fraction(six)}


KINDS = {
    "major-left": GapKind(_by_lanes("4.1", "4.1", "5.3"), _by_lanes("2.2", "2.2", "3.1")),
    "minor-right": GapKind(_by_lanes("6.2", "6.9", "7.1"), _by_lanes("3.3", "3.3", "3.9")),
    "minor-through": GapKind(_by_lanes("6.5", "6.5", "6.5"), _by_lanes("4.0", "4.0", "4.0")),
    "minor-left": GapKind(_by_lanes("7.1", "7.5", "6.4"), _by_lanes("3.5", "3.5", "3.8")),
    "permitted-left": GapKind(_by_lanes("4.5", "4.5", "4.5"), _by_lanes("2.5", "2.5", "2.5")),
    "roundabout": GapKind(_by_lanes("4.976", "4.976", "4.976"), _by_lanes("2.609", "2.609", "2.609"), SIEGLOCH),
}


def precedence(table: Entries, found: Crossing) -> Precedence:
    """To whom a movement of a junction gives way, and by which gaps."""
    way = table.take("movement", lambda value, key: movement_of(value, key, found))
    others = table.take("yields_to", list_of(lambda value, key: _other(value, key, found)))
    _check_others(table, found, way, [other for other, _ in others])
    _check_keys(table, found)
    gaps = _gaps(table, "permitted-left" if found.cycle is not None else None)
    holds, first = table.take("median", whole, 0), taken_movements(table, "first", found)
    stage = _stage(table, gaps, holds)
    sneakers = table.take("sneakers", number, SNEAKERS)
    table.done()
    if bool(holds) != bool(first) or not set(first) < {other for other, _ in others}:
        raise Problem(f"{table.key('first')}: with a median, first are those of yields_to that are crossed before it, and "
                      "some are crossed behind it")
    if holds > MOST_IN_MEDIAN:
        raise Problem(f"{table.key('median')}: expected room for at most {MOST_IN_MEDIAN} vehicles, found {holds}")
    if not 0 <= sneakers <= MOST_SNEAKERS:
        raise Problem(f"{table.key('sneakers')}: expected 0 to {MOST_SNEAKERS} vehicles")
    return Precedence(way, others, gaps, holds, first, stage, sneakers, table.place)


def _check_others(table: Entries, found: Crossing, way: Movement, others: list[Movement]) -> None:
    """Refuses a movement that gives way to nobody, to itself, or twice to the same."""
    if not others or way in others:
        raise Problem(f"{table.key('yields_to')}: expected other movements than its own, one or more")
    twice = next((other for i, other in enumerate(others) if other in others[:i]), None)
    if twice:
        raise Problem(f"{table.key('yields_to')}: {movement_name(found, twice)} stands twice; a third entry is the part of a flow that counts")


def _check_keys(table: Entries, found: Crossing) -> None:
    """Refuses what is of signs where there is a signal, and the other way round."""
    signal = found.cycle is not None
    why = "is of junctions without a signal; in a permitted green no vehicle waits in a median" if signal else \
        "are of permitted greens, and this junction has no signal"
    for name in OF_SIGNS if signal else OF_GREENS:
        if table.has(name):
            raise Problem(f"{table.key(name)}: {why}")
    if table.has("stage_gap") and not table.has("median"):
        raise Problem(f"{table.key('stage_gap')}: goes with median, the vehicles that wait between both stages")


def _other(value: Any, key: str, found: Crossing) -> tuple[Movement, Fraction]:
    """A movement with priority, and the part of its flow that counts, 1 where no third entry says it."""
    if not isinstance(value, list) or len(value) not in (2, 3):
        raise Problem(f"{key}: expected [from, into] or [from, into, part], found {shown(value)}")
    part = number(value[2], f"{key}[3]") if len(value) == 3 else Fraction(1)
    if not 0 < part <= MOST_PART:
        raise Problem(f"{key}[3]: the part of a flow that counts is above 0 and at most {MOST_PART}")
    return movement_of(value[:2], key, found), part


def _gaps(table: Entries, usual: str | None) -> Gaps:
    """The gaps that a table says, or those of its kind."""
    name = table.take("kind", word, usual)
    if name is not None and name not in KINDS:
        raise Problem(f"{table.key('kind')}: expected one of {', '.join(KINDS)}, found {name}")
    lanes, legs = table.take("priority_lanes", whole, 2), table.take("legs", whole, 4)
    if lanes not in (2, 4, 6):
        raise Problem(f"{table.key('priority_lanes')}: expected 2, 4 or 6 lanes, of both directions")
    if legs not in (3, 4):
        raise Problem(f"{table.key('legs')}: expected 3 or 4 legs, found {legs}")
    kind = KINDS[name] if name else GapKind({}, {})
    critical, follow_up = table.take("critical_gap", duration, None), table.take("follow_up", duration, None)
    if name is None and None in (critical, follow_up):
        raise Problem(f"{table.key('kind')}: is missing; say one of {', '.join(KINDS)}, or critical_gap and follow_up")
    if critical is None:
        critical = kind.critical[lanes] - THREE_LEGS * (name == "minor-left" and legs == 3)
    follow_up = kind.follow_up[lanes] if follow_up is None else follow_up
    if not LEAST_FOLLOW_UP <= follow_up <= MOST_GAP:
        raise Problem(f"{table.key('follow_up')}: expected {float(LEAST_FOLLOW_UP):g} s to an hour")
    _check_critical(table.key("critical_gap"), critical, follow_up)
    return Gaps(critical, follow_up, kind.formula, _gives_way(table, name))


def _check_critical(key: str, critical: Fraction, follow_up: Fraction) -> None:
    """Refuses a gap by which the more vehicles pass the more have priority."""
    if not follow_up / 2 <= critical <= MOST_GAP:
        raise Problem(f"{key}: expected half of the follow-up gap of {float(follow_up):g} s to an hour; by less the more pass the more "
                      "have priority")


def _stage(table: Entries, gaps: Gaps, holds: int) -> Gaps:
    """The gaps of each stage of a median; those of six lanes aren't a second less, so the study has to say them."""
    if holds and table.values.get("priority_lanes") == 6 and not table.has("stage_gap"):
        raise Problem(f"{table.key('stage_gap')}: is missing; across six lanes that of a stage isn't known to be a second less")
    critical = table.take("stage_gap", duration, gaps.critical - A_STAGE * bool(holds))
    if holds:
        _check_critical(table.key("stage_gap"), critical, gaps.follow_up)
    return replace(gaps, critical=critical)


def _gives_way(table: Entries, kind: str | None) -> bool:
    """Whether who comes only gives way, and needn't stop."""
    usual = "stop" if kind in ("minor-right", "minor-through", "minor-left") else "give_way"
    control = table.take("control", word, usual)
    if control not in CONTROLS:
        raise Problem(f"{table.key('control')}: expected stop or give_way, found {control}")
    return control == "give_way"


def check_precedence(found: Crossing) -> None:
    """Refuses a movement that gives way twice, and one whose phases don't say in which greens it does."""
    ways = [one.way for one in found.yields]
    for i, one in enumerate(found.yields):
        if one.way in ways[:i]:
            raise Problem(f"{one.place}.movement: {movement_name(found, one.way)} gives way already")
        if found.phases and not any(one.way in phase.permitted for phase in found.phases):
            raise Problem(f"{one.place}.movement: {movement_name(found, one.way)} is permitted in no phase; phases with signals say "
                          "in which greens it gives way, permitted = [[from, into], ..]")
    for i, phase in enumerate(found.phases, 1):
        strange = next((way for way in phase.permitted if way not in ways), None)
        if strange:
            raise Problem(f"{found.place}.phases[{i}].permitted: {movement_name(found, strange)} gives way to none; an entry of "
                          "`yields` says to which it does")


def precedence_at_merge(table: Entries, merge: Merge) -> tuple[str | None, Gaps | None]:
    """To whom the other of two streams that merge gives way, and by which gaps; none of both where nobody does."""
    yields_to = table.take("yields_to", word, None)
    gaps = _gaps(table, MERGE_KIND)
    if yields_to is None:
        idle = next((name for name in OF_GAPS if table.has(name)), None)
        if idle:
            raise Problem(f"{table.key(idle)}: goes with yields_to, which names the one of both that has priority")
        return None, None
    if yields_to not in merge.sources:
        raise Problem(f"{table.key('yields_to')}: expected {' or '.join(merge.sources)}, found {yields_to}")
    if merge.at is not None and yields_to != merge.sources[0]:
        raise Problem(f"{table.key('yields_to')}: a ramp gives way to its road, {merge.sources[0]}")
    return yields_to, gaps


def with_merges(study: Scenario) -> Scenario:
    """The study with those who give way at merges and on-ramps."""
    return replace(study, yields=[*study.yields, *(_at_merge(merge, merge.yields_to, merge.gaps) for merge in study.merges
                                                   if merge.yields_to is not None and merge.gaps is not None)])


def _at_merge(merge: Merge, yields_to: str, gaps: Gaps) -> Yield:
    own = merge.sources[1 - merge.sources.index(yields_to)]
    return Yield(own, f"{merge.place}, {own}", [Stream(yields_to, merge.at)], gaps, merge.place)
