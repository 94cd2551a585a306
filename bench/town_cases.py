"""The thirty cases of bench/towns: what each is, what the manual's formulas of bench/manual.py give for it, and why a figure differs."""
from collections.abc import Callable
from dataclasses import dataclass

from arterials import Arterial
from manual import (SATURATION, all_way, at_all_way, at_random, at_roundabout, at_signal, at_stop, both_free, clears, entry, even_queue, flared, gaps, in_lane,
                    permitted, permitted_in_lane, shared)
from sumo_streets import RED
from town_junctions import Arm, Junction, Phase, Roundabout

CYCLE, GREEN = 80, 36
SNEAKING = 4  # s at the end of a green in which two turn


@dataclass(frozen=True)
class Case:
    """A case: its name, what is built, the manual's capacity in vehicles/h and control delay in s where it has formulas.

    `delay_of` is the delay by the same formula if so many pass. With `at_random` the tools' delay is that of runs with arrivals at random, else the control delay of `table --by movement`. Where what
    passes hangs on the case's own flow, `at_flow`, it is what may pass at that flow.
    """

    name: str
    kind: str
    made: Junction | Roundabout | Arterial
    capacity: Callable[[], float] | None = None
    delay: Callable[[], float] | None = None
    delay_of: Callable[[float], float] | None = None
    at_random: bool = False
    at_flow: bool = False
    is_modelled: bool = True
    cause: str = ""


def side_street(right, left, flare=0):
    """A side street that ends in a street of 550 and 480 vehicles/h."""
    arms = {"W": Arm(("s",), {"s": 550}, has_priority=True), "E": Arm(("s",), {"s": 480}, has_priority=True),
            "S": Arm(("r", "l") if flare else ("rl",), {"r": right, "l": left}, flare=flare)}
    parts = [(right, gaps(550, "minor-right")), (left, gaps(1030, "minor-left of three legs"))]
    capacity = flared(parts, flare) if flare else shared(parts)
    return Junction("priority", arms, ("Sr", "Sl")), lambda: capacity, lambda: at_stop(right + left, capacity), lambda most: at_stop(right + left, most)


def permitted_pocket(against, left):
    """Approaches of a lane ahead and one to the left, green for 36 of 80 s."""
    arms = {"N": Arm(("s",), {"s": against}), "S": Arm(("s", "l"), {"s": 200, "l": left}), "E": Arm(("s",), {"s": 100}),
            "W": Arm(("s",), {"s": 100})}
    phases = Phase(GREEN, "Ss Sl? Ns"), Phase(GREEN, "Es Ws")
    capacity = permitted(against, CYCLE, GREEN)
    after = clears(against, CYCLE - GREEN)
    passes = _by_second(CYCLE, ((after, GREEN, gaps(against, "permitted-left")), (GREEN - SNEAKING, GREEN, SATURATION)))
    return Junction("traffic_light", arms, ("Sl",), phases), *_in_proportion(left, capacity, passes)


def permitted_lane(against, ahead, left):
    """The same from one lane."""
    arms = {"N": Arm(("s",), {"s": against}), "S": Arm(("sl",), {"s": ahead, "l": left}), "E": Arm(("s",), {"s": 100}), "W": Arm(("s",), {"s": 100})}
    phases = Phase(GREEN, "Ss Sl? Ns"), Phase(GREEN, "Es Ws")
    flow = ahead + left
    part, at_flow = left / flow, permitted_in_lane(against, left / flow, CYCLE, GREEN, flow)
    first, later, lane = in_lane(against, part, CYCLE, GREEN, flow)
    passes = _by_second(CYCLE, ((0, first, SATURATION), (later, GREEN, lane), (GREEN - 1, GREEN, (1 + part) * 3600)))
    return (Junction("traffic_light", arms, ("Ss", "Sl"), phases), lambda: permitted_in_lane(against, part, CYCLE, GREEN),
            lambda: even_queue(flow, passes) + at_random(flow, at_flow, 4))


def protected(left):
    arms = {"N": Arm(("s", "l"), {"s": 350, "l": 100}), "S": Arm(("s", "l"), {"s": 350, "l": left}), "E": Arm(("s",), {"s": 250}),
            "W": Arm(("s",), {"s": 250})}
    phases = Phase(16, "Sl Nl"), Phase(28, "Ss Ns"), Phase(24, "Es Ws")
    capacity = SATURATION * 16 / CYCLE
    return Junction("traffic_light", arms, ("Sl",), phases), lambda: capacity, lambda: at_signal(left, capacity, CYCLE, 16)


def both(against, left):
    """First alone with those ahead, and then permitted against the others."""
    arms = {"N": Arm(("s",), {"s": against}), "S": Arm(("s", "l"), {"s": 350, "l": left}), "E": Arm(("s",), {"s": 250}), "W": Arm(("s",), {"s": 250})}
    first, second = 12, 28
    phases = Phase(first, "Ss Sl"), Phase(second, "Ss Sl? Ns"), Phase(28, "Es Ws")
    capacity = SATURATION * (first + RED) / CYCLE + permitted(against, CYCLE, second)
    begins = first + RED
    passes = _by_second(CYCLE, ((0, begins, SATURATION), (begins + clears(against, CYCLE - second), begins + second, gaps(against, "permitted-left")),
                                (begins + second - SNEAKING, begins + second, SATURATION)))
    return Junction("traffic_light", arms, ("Sl",), phases), *_in_proportion(left, capacity, passes)


def _in_proportion(flow, capacity, passes):
    """What passes, the delay of a flow, and the delay if more or less passes in each second in proportion."""
    def delay(most=capacity):
        return even_queue(flow, [one * most / capacity for one in passes]) + at_random(flow, most, 4)

    return lambda: capacity, delay, delay


def _by_second(cycle, spans):
    """What passes in each s of a cycle, of spans with a flow each."""
    return [sum(flow * max(0, min(end, second + 1) - max(begin, second)) for begin, end, flow in spans) for second in range(cycle)]


def right_out(towards, lanes, right):
    arms = {"W": Arm(("s",) * lanes, {"s": towards}, has_priority=True), "S": Arm(("r",), {"r": right})}
    capacity = gaps(towards / lanes, "minor-right", 2 * lanes)
    return Junction("priority", arms, ("Sr",), lanes_out={"E": lanes}), lambda: capacity, lambda: at_stop(right, capacity), lambda most: at_stop(right, most)


def left_off(towards, left):
    """A left turn off the street with priority, from a lane of its own."""
    arms = {"W": Arm(("s",), {"s": towards}, has_priority=True), "E": Arm(("s", "l"), {"s": 300, "l": left}, has_priority=True)}
    capacity = gaps(towards, "major-left")
    return Junction("priority", arms, ("El",)), lambda: capacity, lambda: at_stop(left, capacity), lambda most: at_stop(left, most)


def four_arms(right, ahead, left):
    """A two-way stop of four arms, alike on both sides: on the street 30 to the right, 350 ahead, and 60 to the left from their own lane."""
    street, side = {"r": 30, "s": 350, "l": 60}, {"r": right, "s": ahead, "l": left}
    arms = {arm: Arm(("rs", "l"), street, has_priority=True) for arm in "WE"} | {arm: Arm(("rsl",), side) for arm in "NS"}
    turns = 1 - 60 / gaps(380, "major-left")  # the chance that none waits to turn left off the street
    rights = gaps(350 + 30 / 2, "minor-right")
    through = gaps(2 * 60 + 350 + 30 / 2 + 2 * 60 + 350 + 30, "minor-through") * turns ** 2
    lefts = gaps(2 * 60 + 350 + 30 / 2 + 2 * 60 + 350 + 30 / 2 + ahead / 2 + right / 2, "minor-left") * (
        both_free(turns ** 2, 1 - ahead / through) * (1 - right / rights))
    capacity = shared([(right, rights), (ahead, through), (left, lefts)])
    flow = right + ahead + left
    return Junction("priority", arms, ("Sr", "Ss", "Sl")), lambda: capacity, lambda: at_stop(flow, capacity), lambda most: at_stop(flow, most)


def all_stop(street, side):
    """An all-way stop of lanes that all turn from, a fifth to each side."""
    flows = {"N": side, "E": street, "S": side, "W": street}
    arms = {arm: Arm(("rsl",), {"r": 0.2 * flow, "s": 0.6 * flow, "l": 0.2 * flow}) for arm, flow in flows.items()}
    turns = dict.fromkeys(flows, (0.2, 0.2))
    return (Junction("allway_stop", arms, ("Sr", "Ss", "Sl")), lambda: all_way(flows, turns, "S"), lambda: at_all_way(flows, turns, "S"))


def ring(flows, kinds=("one into one",), lanes=1, entries=1):
    made = Roundabout(flows, ("Sr", "Ss", "Sl"), lanes, entries)
    capacity, flow = sum(entry(made.circulating("S"), kind) for kind in kinds), made.watched_flow

    def delay(most=capacity):
        return at_roundabout(flow / len(kinds), most / len(kinds))

    return made, lambda: capacity, delay, delay


def alike(flow):
    return {arm: {"r": flow / 4, "s": flow / 2, "l": flow / 4} for arm in "NESW"}


def spilling(left, pocket, is_permitted):
    """A pocket that those ahead close by their queue, or that overflows."""
    arms = {"N": Arm(("s",), {"s": 400}), "S": Arm(("s", "l"), {"s": 400, "l": left}, pocket=pocket), "E": Arm(("s",), {"s": 250}),
            "W": Arm(("s",), {"s": 250})}
    phases = (Phase(GREEN, "Ss Sl? Ns"), Phase(GREEN, "Es Ws")) if is_permitted else (Phase(16, "Sl"), Phase(28, "Ss Ns"), Phase(24, "Es Ws"))
    return Junction("traffic_light", arms, ("Ss", "Sl"), phases), None, None


def arterial(offset):
    made = Arterial(650, 300, offset)
    capacity = SATURATION * made.green / made.cycle
    return made, lambda: capacity, None


def following(first, second):
    """Two streets that cross at a signal whose greens follow traffic; one that is always full has its longest."""
    arms = {"S": Arm(("s",), {"s": first}), "E": Arm(("s",), {"s": second})}
    phases = Phase(40, "Ss", 5), Phase(40, "Es", 5)
    part = second / SATURATION
    other = max(5, (part * (40 + 2 * RED - 3) + 3) / (1 - part))  # the green of the other street: y·(C - e) + e, e = 3 s
    capacity = SATURATION * 40 / (40 + other + 2 * RED)
    return Junction("traffic_light", arms, ("Ss",), phases), lambda: capacity, None


# Why the tools differ, as far as that is known; bench/towns adds what follows from what SUMO passes.
CAUSES = {"all-way stop": "the tools have no rule of an all-way stop"}
TURN_LIMITS = "the manual adds both lanes up, but no more turn left than their own lane passes"
UNEQUAL = {"S": {"r": 90, "s": 180, "l": 80}, "W": {"r": 30, "s": 650, "l": 40}, "N": {"r": 40, "s": 60, "l": 40}, "E": {"r": 40, "s": 300, "l": 40}}
FOLLOWING = Arterial(500, 300, 0, is_actuated=True)
CASES = [
    Case("shared lane, half left, 200", "shared lane", *side_street(100, 100)),
    Case("shared lane, a quarter left, 240", "shared lane", *side_street(180, 60)),
    Case("flare for one, 240", "flare", *side_street(120, 120, 1), at_flow=True),
    Case("flare for two, 240", "flare", *side_street(120, 120, 2), at_flow=True, cause=TURN_LIMITS),
    *(Case(f"permitted left, {left} against {against}", "permitted left", *permitted_pocket(against, left))
      for against, left in ((300, 100), (300, 250), (500, 100), (500, 200), (700, 60), (700, 100))),
    Case("one lane, a fifth left, against 300", "shared lane", *permitted_lane(300, 320, 80)),
    Case("one lane, half left, against 300", "shared lane", *permitted_lane(300, 130, 130)),
    Case("protected left, 200", "protected", *protected(200)),
    Case("protected and permitted left, 350", "both", *both(400, 350)),
    Case("stop, right, 300 beside 600", "two-way stop", *right_out(600, 1, 300)),
    Case("stop, right, 300 beside 900 on two lanes", "two-way stop", *right_out(900, 2, 300)),
    Case("left off the street, 300 against 600", "two-way stop", *left_off(600, 300)),
    Case("stop, four arms, 120 of three turns", "two-way stop", *four_arms(40, 40, 40)),
    Case("all-way stop, 250 on each arm", "all-way stop", *all_stop(250, 250), is_modelled=False),
    Case("all-way stop, 350 and 150", "all-way stop", *all_stop(350, 150), is_modelled=False),
    Case("roundabout, 480 on each arm", "roundabout", *ring(alike(480)), at_flow=True),
    Case("roundabout, 350 beside 730", "roundabout", *ring(UNEQUAL), at_flow=True),
    Case("roundabout, one lane into two, 500", "roundabout", *ring(alike(500), ("one into two",), 2), at_flow=True),
    Case("roundabout, two lanes into two, 700", "roundabout", *ring(alike(700), ("left of two into two", "right of two into two"), 2, 2), at_flow=True,
         cause="the tools let who gives way pass as from one lane"),
    Case("pocket of 40 m, protected, 150 left", "pocket", *spilling(150, 40, False), at_random=True),
    Case("pocket of 30 m, permitted, 200 left", "pocket", *spilling(200, 30, True), at_random=True),
    Case("two signals, a green wave", "arterial", *arterial(29), at_random=True),
    Case("two signals, against the wave", "arterial", *arterial(69), at_random=True),
    Case("a crossing that follows traffic", "actuated", *following(500, 300), at_random=True),
    Case("two signals that follow traffic", "actuated", FOLLOWING, at_random=True),
]
