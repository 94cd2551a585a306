"""What passes through the gaps of a stream with priority, whose vehicles come at random, in vehicles/h, and their control delay.

Harders, 1968, as the Highway Capacity Manual has it for two-way stops (2010, chapter 19), and Siegloch, 1973, whose form its
roundabouts have. With `v` vehicles/h of priority, a critical gap `t_c` and a follow-up gap `t_f` in s:

    Harders   v · exp(-v·t_c/3600) / (1 - exp(-v·t_f/3600))
    Siegloch  3600/t_f · exp(-v·(t_c - t_f/2)/3600)

The control delay of those who give way, in s, is that of the same manual. With `v` vehicles/h of `c` that may pass, `x = v/c` and an
analysis period of `T` hours each vehicle loses

    3600/c + 900·T·(x - 1 + sqrt((x - 1)² + 8·x/(c·T)))

and for slowing down and starting 5 s at a two-way stop (2010, chapter 19; 2016, chapter 20) and `5·min(x, 1)` s at a roundabout
(2010, chapter 21; 2016, chapter 22). At a signal the root has `4·x/(c·T)`, the first term is missing, and so is the wait in
uniform cycles, which the model has itself (2010, chapter 18, the incremental delay of fixed greens; 2016, chapter 19).
"""

from __future__ import annotations

from math import exp, expm1, isclose, sqrt

from ..study.precedences import SIEGLOCH
from ..study.plan import Gaps
from ..texts.quantities import HOUR

PERIOD = 0.25  # hours, the manual's analysis period
STARTING = 5.0  # s
AT_STOP, AT_SIGNAL = 8, 4  # of the root


def harders(priority: float, critical: float, follow_up: float) -> float:
    """What passes where each gap lets whole vehicles through: one from the critical gap on, one more for each follow-up gap."""
    if priority <= 0:
        return HOUR / follow_up
    return priority * exp(-priority * critical / HOUR) / -expm1(-priority * follow_up / HOUR)


def siegloch(priority: float, critical: float, follow_up: float) -> float:
    """What passes where a gap lets the more through the longer it is, from half a follow-up gap below the critical one on."""
    return HOUR / follow_up * exp(-max(0.0, priority) * (critical - follow_up / 2) / HOUR)


def passing(priority: float, gaps: Gaps) -> float:
    """What passes of a stream through the gaps of so many vehicles/h; no bound where nobody comes and nobody need stop."""
    if priority <= 0 and gaps.give_way:
        return float("inf")
    formula = siegloch if gaps.formula == SIEGLOCH else harders
    return formula(priority, float(gaps.critical), float(gaps.follow_up))


def in_two_stages(holds: int, first: float, second: float, at_once: float) -> float:
    """What passes in two stages, where the median between them holds so many vehicles (HCM 2010, chapter 19).

    `first` and `second` are what passes of each stage, `at_once` what passes where both are crossed in one go.
    """
    part = 1 - 0.32 * exp(-1.3 * sqrt(holds))
    if min(first, second) <= at_once:
        return at_once
    ratio = (first - at_once) / (second - at_once)
    if isclose(ratio, 1, rel_tol=1e-9):
        return part / (holds + 1) * (holds * second + at_once)
    # The manual's `power` by `one` = 1; where it may be beyond all numbers, both divided by it.
    power, one = (ratio ** holds, 1.0) if ratio < 1 else (1.0, ratio ** -holds)
    return part / (power * ratio - one) * (ratio * (power - one) * second + (ratio - 1) * one * at_once)


def at_stop(flow: float, capacity: float, period: float = PERIOD) -> float:
    """The control delay of each vehicle of a stream that gives way."""
    return HOUR / capacity + _waiting(flow, capacity, period, AT_STOP) + STARTING


def at_roundabout(flow: float, capacity: float, period: float = PERIOD) -> float:
    """The control delay of each vehicle at the entry of a roundabout, of whom few stop where there is little traffic."""
    return HOUR / capacity + _waiting(flow, capacity, period, AT_STOP) + STARTING * min(1.0, flow / capacity)


def at_signal(flow: float, capacity: float, period: float = PERIOD) -> float:
    """What each vehicle loses at a fixed green beside its wait where all come evenly."""
    return _waiting(flow, capacity, period, AT_SIGNAL)


def _waiting(flow: float, capacity: float, period: float, factor: int) -> float:
    over = flow / capacity - 1
    return HOUR * period / 4 * (over + sqrt(over ** 2 + factor * flow / capacity / (capacity * period)))
