"""The Highway Capacity Manual's formulas, written out from memory apart from ctmtools, for bench/towns: what passes, and control delay.

Flows are in vehicles/h, times in s. The numbers of chapters are those of 2010. docs/SOURCES.md says what no copy was compared with.
"""
from math import exp, sqrt

HOUR = 3600
PERIOD = 0.25  # hours
SATURATION = 1800  # vehicles/h of a lane
STARTING = 5  # s at a sign
SNEAKERS = 2
# The critical and the follow-up headway of a two-way stop, by the lanes of the street with priority (chapter 19); 0.7 s less on three legs.
HEADWAYS = {("major-left", 2): (4.1, 2.2), ("major-left", 4): (4.1, 2.2), ("minor-right", 2): (6.2, 3.3), ("minor-right", 4): (6.9, 3.3),
            ("minor-through", 2): (6.5, 4.0), ("minor-through", 4): (6.5, 4.0), ("minor-left", 2): (7.1, 3.5), ("minor-left", 4): (7.5, 3.5),
            ("minor-left of three legs", 2): (6.4, 3.5), ("permitted-left", 2): (4.5, 2.5)}
# Entries of roundabouts, A·exp(-B·v) (2016, chapter 22): of one lane into one and into two, and the left and the right lane of two into two.
ENTRIES = {"one into one": (1380, 0.00102), "one into two": (1420, 0.00085), "left of two into two": (1350, 0.00092),
           "right of two into two": (1420, 0.00085)}
# All-way stops (chapter 20): the saturation headway by who else is there, on approaches of one lane, and what a turn adds.
ALL_WAY = (3.9, 4.7, 5.8, 7.0, 9.6)
LEFT_ADDS, RIGHT_ADDS, MOVES_UP = 0.2, -0.6, 2.0


def gaps(priority, kind, lanes=2):
    """What the gaps of a stream let pass, by Harders."""
    critical, follow_up = HEADWAYS[kind, lanes]
    if not priority:
        return HOUR / follow_up
    return priority * exp(-priority * critical / HOUR) / (1 - exp(-priority * follow_up / HOUR))


def shared(parts):
    """What a lane passes, of the flow of each of its movements and what would pass of it from a lane of its own."""
    return sum(flow for flow, _ in parts) / sum(flow / capacity for flow, capacity in parts)


def flared(parts, room):
    """The same where so many vehicles find room beside each other before the stop line."""
    apart, lane = sum(capacity for _, capacity in parts), shared(parts)
    longest = max(round(at_stop(flow, capacity) * flow / HOUR + 1) for flow, capacity in parts)
    return min(apart, lane + (apart - lane) * room / longest)


def both_free(first, second):
    """The chance that no queue of two ranks above a left turn out of a side street holds it up (equation 19-48)."""
    product = first * second
    return 0.65 * product - product / (product + 3) + 0.6 * sqrt(product)


def at_random(flow, capacity, factor=8, period=PERIOD):
    """The incremental delay, which has 8 in its root at signs and 4 at fixed greens."""
    over = flow / capacity - 1
    return 900 * period * (over + sqrt(over ** 2 + factor * flow / capacity / (capacity * period)))


def at_stop(flow, capacity):
    return HOUR / capacity + at_random(flow, capacity) + STARTING


def at_roundabout(flow, capacity):
    return HOUR / capacity + at_random(flow, capacity) + STARTING * min(1, flow / capacity)


def entry(circulating, kind="one into one"):
    """What an entry of a roundabout passes."""
    most, slope = ENTRIES[kind]
    return most * exp(-slope * circulating)


def clears(flow, red, saturation=SATURATION):
    """The s of green after which a queue of even arrivals is gone."""
    return flow * red / (saturation - flow)


def permitted(towards, cycle, green, red=None):
    """What turns left from a lane of its own in a green in which so many come towards it, who were red for `red` before."""
    free = max(0, green - clears(towards, cycle - green if red is None else red))
    return gaps(towards, "permitted-left") * free / cycle + SNEAKERS * HOUR / cycle


def in_lane(towards, part, cycle, green, flow):
    """When and at what flow a lane passes of whom a part turn left: until the first of them comes, and when the others' queue is gone.

    Between them all stand behind him. So many come to the lane; of 1 + part the last turn when the green ends.
    """
    turning = flow * part * cycle / HOUR  # in a cycle
    first = max(0, green * exp(-0.860 * turning ** 0.629) - 2)
    lane = shared([(part, gaps(towards, "permitted-left")), (1 - part, SATURATION)])
    return first, max(first, clears(towards, cycle - green)), lane


def permitted_in_lane(towards, part, cycle, green, flow=None):
    """What a lane passes of whom a part turn left, where so many come to it, or by default as many as it passes."""
    passes = flow or SATURATION * green / cycle
    for _ in range(1 if flow else 50):
        first, later, lane = in_lane(towards, part, cycle, green, passes)
        passes = (first * SATURATION + max(0, green - later) * lane) / cycle + (1 + part) * HOUR / cycle
    return passes


def uniform(flow, capacity, cycle, green):
    """The wait at fixed greens where all come evenly: 0.5·C·(1 - g/C)²/(1 - min(1, x)·g/C)."""
    part = green / cycle
    return 0.5 * cycle * (1 - part) ** 2 / (1 - min(1, flow / capacity) * part)


def even_queue(flow, passes):
    """The mean wait of even arrivals where so many vehicles/h pass in each s of a cycle: the polygon of their queue (chapter 31)."""
    queue = 0.0
    for _ in range(3):  # the first cycles fill it
        waited = 0.0
        for rate in passes:
            before, queue = queue, max(0.0, queue + (flow - rate) / HOUR)
            waited += (before + queue) / 2
    return waited / (flow * len(passes) / HOUR)


def at_signal(flow, capacity, cycle, green):
    """The control delay at fixed greens: the uniform and the incremental delay."""
    return uniform(flow, capacity, cycle, green) + at_random(flow, capacity, 4)


def headways(flows, turns):
    """The departure headway of each approach of an all-way stop of one lane a street (chapter 20), by iteration.

    Both are by arm, N, E, S and W, clockwise: the vehicles/h, and the parts that turn left and right. Who comes one behind another
    isn't correlated here, which the manual counts by a hundredth.
    """
    found, names = dict.fromkeys(flows, 4.0), "NESW"
    for _ in range(200):
        busy = {arm: min(1, flows[arm] * found[arm] / HOUR) for arm in flows}
        for arm in flows:
            ahead, *beside = (busy.get(names[(names.index(arm) + turn) % 4], 0) for turn in (2, 1, 3))
            one, both = beside[0] + beside[1] - 2 * beside[0] * beside[1], beside[0] * beside[1]
            none = (1 - beside[0]) * (1 - beside[1])
            chances = (1 - ahead) * none, ahead * none, (1 - ahead) * one, ahead * one + (1 - ahead) * both, ahead * both
            adds = LEFT_ADDS * turns[arm][0] + RIGHT_ADDS * turns[arm][1]
            found[arm] += (sum(chance * headway for chance, headway in zip(chances, ALL_WAY)) + adds - found[arm]) / 2
    return found


def all_way(flows, turns, arm):
    """What an approach of an all-way stop passes beside what comes on the others: its flow at which it is always busy."""
    low, high = 1.0, float(HOUR)
    for _ in range(40):
        flow = (low + high) / 2
        low, high = (flow, high) if flow * headways({**flows, arm: flow}, turns)[arm] < HOUR else (low, flow)
    return low


def at_all_way(flows, turns, arm):
    """The control delay there."""
    headway = headways(flows, turns)[arm]
    part = flows[arm] * headway / HOUR
    return headway - MOVES_UP + 900 * PERIOD * (part - 1 + sqrt((part - 1) ** 2 + headway * part / (450 * PERIOD))) + STARTING
