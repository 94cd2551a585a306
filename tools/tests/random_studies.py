"""Studies that hypothesis makes: a network that grows from gates by roads, links, merges and diverges to its exits, with what
holds for some time on them.
"""

from hypothesis import strategies as some

MINUTES = 30
TIMES = some.lists(some.integers(0, MINUTES), min_size=2, max_size=2, unique=True).map(sorted)
FLOWS = some.one_of(some.integers(0, 6000), some.decimals(0, 3000, places=2))


def clock(minute):
    return f'"06:{minute:02}"'


def rows(draw, flows=FLOWS):
    """Rows of start, end and flow, which may overlap and leave holes."""
    times = draw(some.lists(TIMES, min_size=1, max_size=3))
    return "[" + ", ".join(f"[{clock(begin)}, {clock(end)}, {draw(flows)}]" for begin, end in times) + "]"


class Growing:
    """A study while it grows: its tables, and the roads out of which nothing leads yet."""

    def __init__(self, draw):
        self.draw, self.parts, self.open, self.lengths = draw, [], [], {}

    def name(self, kind):
        return f"{kind}{sum(part.startswith(f'[{kind}') for part in self.parts)}"

    def road(self):
        name = f"r{len(self.lengths)}"
        self.lengths[name] = self.draw(some.integers(1, 12)) / 4
        first = f"first_density = {self.draw(some.integers(0, 140))}\n" if self.draw(some.booleans()) else ""
        self.parts.append(f"[roads.{name}]\nlength = {self.lengths[name]}\nlanes = {self.draw(some.integers(1, 4))}\n{first}")
        return name

    def gate(self):
        number = sum(part.startswith("[gates.") for part in self.parts)
        road = self.road()
        self.parts.append(f'[gates.g{number}]\ninto = "{road}"\ndemand = {rows(self.draw)}\n')
        self.open.append(road)

    def grow(self):
        """One step on from an open road, or two."""
        at = self.draw(some.integers(0, len(self.open) - 1))
        road = self.open.pop(at)
        way = self.draw(some.sampled_from(("link", "merge", "diverge") if self.open else ("link", "diverge")))
        if way == "link":
            self.open.append(self.road())
            self.parts.append(f'[[links]]\nfrom = "{road}"\ninto = "{self.open[-1]}"\n')
        elif way == "merge":
            other, into = self.open.pop(), self.road()
            self.open.append(into)
            self.parts.append(f'[[merges]]\nfrom = ["{road}", "{other}"]\ninto = "{into}"\npriorities = {self.ratio()}\n')
        else:
            into = [self.road(), self.road()]
            self.open += into
            self.parts.append(f'[[diverges]]\nfrom = "{road}"\ninto = ["{into[0]}", "{into[1]}"]\nshares = {self.ratio()}\n')

    def ratio(self):
        return [self.draw(some.integers(1, 20)), self.draw(some.integers(1, 20))]

    def close(self):
        """Exits out of what is open, and what holds for some time."""
        for number, road in enumerate(self.open):
            limits = f"limits = {rows(self.draw)}\n" if self.draw(some.booleans()) else ""
            self.parts.append(f'[exits.x{number}]\nfrom = "{road}"\n{limits}')
        for road in self.draw(some.lists(some.sampled_from(sorted(self.lengths)), max_size=2, unique=True)):
            begin, end = self.draw(TIMES)
            self.parts.append(f'[[closures]]\nroad = "{road}"\nfrom = 0\nto = {self.lengths[road]}\nstart = {clock(begin)}\n'
                              f"end = {clock(end)}\nlanes = 1\n")
        for road in self.draw(some.lists(some.sampled_from(sorted(self.lengths)), max_size=2, unique=True)):
            begin, end = self.draw(TIMES)
            self.parts.append(f'[[speed_limits]]\nroad = "{road}"\nfrom = 0\nto = {self.lengths[road]}\nstart = {clock(begin)}\n'
                              f"end = {clock(end)}\nspeed = {self.draw(some.integers(20, 80))}\n")
        for road in self.draw(some.lists(some.sampled_from(sorted(self.lengths)), max_size=2, unique=True)):
            cycle = self.draw(some.integers(2, 9)) * 10
            self.parts.append(f'[[signals]]\nroad = "{road}"\ncycle = {cycle}\ngreen = {self.draw(some.integers(1, cycle // 10 - 1)) * 10}\n'
                              f"offset = {self.draw(some.integers(0, 20)) * 10}\n")


@some.composite
def studies(draw):
    """The text of a study."""
    growing = Growing(draw)
    for _ in range(draw(some.integers(1, 3))):
        growing.gate()
    for _ in range(draw(some.integers(0, 5))):
        growing.grow()
    growing.close()
    speed, wave, jam = draw(some.integers(30, 120)), draw(some.integers(10, 25)), draw(some.integers(90, 200))
    flow = draw(some.integers(500, max(500, jam * speed * wave // (speed + wave))))
    return "\n".join([f'step = 10\nstart = "06:00"\nend = "06:{MINUTES}"\n[lane]\nfree_flow_speed = {speed}\nwave_speed = {wave}\n'
                      f"jam_density = {jam}\nsaturation_flow = {flow}\n", *growing.parts])
