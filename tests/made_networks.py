"""Networks that are made of a number, for the tests and for scripts of bench: the same number makes the same network."""

import random


def made_network(seed, cells, steps, parts=1, regions=0, filled=1, speeds=0):
    """A network file, as bytes, of about so many cells in so many parts that nothing joins, with lots of junctions.

    Each part grows from a gate by links, merges and diverges, some of which lead back to roads that stand before them
    in the file, and ends in exits and in roads out of which nothing leads. There are signals, limits, demands and
    turns, and amounts that don't come out even. The cells stand in the file in an order of their own. Where `regions`
    isn't 0, the file deals the cells out to as many regions, or to as many as there are cells. Where `filled` is below 1,
    only so many of the roads and gates, of 1, hold something at first, and only so many of the demands bring anything.
    Where `speeds` isn't 0 it is the same network in format 3, in which so many of the roads, of 1, have speeds.
    """
    draw = random.Random(seed)
    made = Making(draw, steps, filled)
    for part in range(parts):
        made.grow(cells * (part + 1) // parts)
    records = made.records(regions)
    if speeds:
        records = with_speeds(random.Random(f"speeds {seed}"), records, steps, speeds)
    return "\n".join(records).encode() + b"\n"


def some_range(draw, steps):
    """The first step of a range of steps and the one past its last."""
    first = draw.randrange(steps)
    return f"{first},{first + draw.randint(1, steps)}"


def some_speed(draw):
    """A ratio of at most 1: of small numbers, of large ones, or so small that little comes to the end of a road."""
    most = draw.choice((7, 1_000))
    slow = draw.randint(1, most)
    return draw.choice((f"{slow},{draw.randint(slow, most)}", f"1,{draw.choice((2, 100, 1_000))}"))


def with_speeds(draw, records, steps, share):
    """The records in format 3, with up to three speeds in so many of the roads, of 1: behind the road or at the end."""
    yield "ctm,3"
    later = []
    for record in records[1:]:
        yield record
        kind, name, *_ = record.split(",")
        if kind == "road" and draw.random() < share:
            speeds = [f"speed,{name},{some_range(draw, steps)},{some_speed(draw)}" for _ in range(draw.randint(1, 3))]
            count = draw.randint(0, len(speeds))
            yield from speeds[:count]
            later += speeds[count:]
    yield from later


class Making:
    """A network while it is made: the record of each cell, those of the connectors, and those that stand behind."""

    def __init__(self, draw, steps, filled):
        self.draw = draw
        self.steps = steps
        self.filled = filled
        self.cells = []
        self.connectors = []
        self.behind = []
        self.kept = []  # roads into which nothing leads yet, for ways back

    def amount(self, most):
        """An amount up to a number of vehicles: a whole one, or one that doesn't come out even."""
        parts = self.draw.randint(0, most * 1_000_000)
        return f"{parts // 1_000_000}" if self.draw.random() < 0.5 else f"{parts / 1_000_000:.6f}"

    def held(self, most):
        """An amount, or 0 where nothing is to be there."""
        return self.amount(most) if self.filled == 1 or self.draw.random() < self.filled else "0"

    def range(self):
        return some_range(self.draw, self.steps)

    def shares(self):
        return f"{self.draw.randint(1, 5)},{self.draw.randint(1, 5)}"

    def cell(self, kind, fields):
        name = f"{kind[0]}{len(self.cells)}"
        self.cells.append(f"{kind},{name},{fields}")
        if self.draw.random() < 0.1:
            self.behind.append(f"limit,{name},{self.range()},{self.amount(4)}")
        if kind != "exit" and self.draw.random() < 0.15:
            cycle = self.draw.randint(2, 12)
            first = self.draw.randrange(cycle)
            green = f"{first},{self.draw.randint(first + 1, cycle)}"
            self.behind.append(f"signal,{name},{cycle},{self.draw.randrange(cycle)},{green}")
        return name

    def gate(self):
        name = self.cell("gate", f"{self.draw.randint(1, 6)},{self.held(20)}")
        for _ in range(self.draw.randint(1, 3)):
            self.behind.append(f"demand,{name},{self.range()},{self.held(3)}")
        return name

    def road(self):
        room = self.draw.randint(2, 20)
        slow = self.draw.randint(1, 5)
        fast = self.draw.randint(slow, 7)
        return self.cell("road", f"{room},{self.draw.randint(1, 8)},{slow},{fast},{self.held(room)}")

    def next_road(self, ends):
        """A road into which nothing leads: a new one, or one that was kept for a way back."""
        if self.kept and self.draw.random() < 0.3:
            return self.kept.pop(self.draw.randrange(len(self.kept)))
        ends.append(self.road())
        return ends[-1]

    def grow(self, most):
        """One part, until there are about so many cells in all."""
        ends = []  # cells out of which nothing leads yet
        while len(self.cells) < most:
            kind = self.draw.random()
            if kind < 0.05 or not ends:
                ends.append(self.gate())
            elif kind < 0.15:
                ends.append(self.road())
                self.kept.append(ends[-1])
            elif kind < 0.4 and len(ends) >= 2:
                before = f"{self.one_of(ends)},{self.one_of(ends)}"
                self.connectors.append(f"merge,{before},{self.next_road(ends)},{self.shares()}")
            elif kind < 0.65:
                before = self.one_of(ends)
                after = f"{self.next_road(ends)},{self.next_road(ends)}"
                self.connectors.append(f"diverge,{before},{after},{self.shares()}")
                if self.draw.random() < 0.3:
                    self.behind.append(f"turn,{before},{self.range()},{self.shares()}")
            else:
                self.connectors.append(f"link,{self.one_of(ends)},{self.next_road(ends)}")
        for end in ends:
            if self.draw.random() < 0.8:
                self.connectors.append(f"link,{end},{self.cell('exit', self.draw.randint(1, 5))}")
        self.kept = []

    def one_of(self, ends):
        return ends.pop(self.draw.randrange(len(ends)))

    def records(self, regions):
        names = [record.split(",")[1] for record in self.cells]
        self.draw.shuffle(self.cells)
        lines = ["ctm,2", f"steps,{self.steps}", *self.cells, *self.connectors, *self.behind]
        if regions:
            self.draw.shuffle(names)
            many = min(regions, len(names))
            lines += (f"region,{name},{i if i < many else self.draw.randrange(many)}" for i, name in enumerate(names))
        return lines
