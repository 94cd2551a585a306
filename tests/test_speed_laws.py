"""What higher speeds do to the delay: in drawn chains of links, by the plain model, they never add to it, as docs/MODEL.md
says; before a merge, and before a diverge whose shares change, they can.
"""

import random

import pytest
from conftest import hold
from made_networks import some_range, some_speed
from plain_model import Plain
from plain_model import report as plain_report
from worked import lines


class Chain:
    """A drawn chain of a gate, roads and an exit: its records but for demands and speeds, and how many roads and steps it has."""

    def __init__(self, draw):
        self.draw = draw
        self.steps, self.roads = draw.randint(5, 40), draw.randint(1, 5)
        names = ["g", *(f"r{i}" for i in range(self.roads)), "x"]
        self.records = ["ctm,3", f"steps,{self.steps}", f"gate,g,{draw.randint(1, 5)},{self.amount(9)}",
                        *map(self.road, names[1:-1]), f"exit,x,{draw.randint(1, 4)}",
                        *(f"link,{up},{down}" for up, down in zip(names, names[1:]))]
        for name in names[:-1]:
            if draw.random() < 0.3:
                self.records.append(f"signal,{name},5,{draw.randrange(5)},0,{draw.randint(1, 5)}")
            if draw.random() < 0.3:
                self.records.append(f"limit,{name},{some_range(draw, self.steps)},{self.amount(4)}")

    def amount(self, most):
        return f"{self.draw.randint(0, most * 1_000_000) / 1_000_000:.6f}"

    def road(self, name):
        room, slow = self.draw.randint(1, 12), self.draw.randint(1, 4)
        return f"road,{name},{room},{self.draw.randint(1, 6)},{slow},{self.draw.randint(slow, 6)},{self.amount(room)}"

    def demands(self):
        return [f"demand,g,{some_range(self.draw, self.steps)},{self.amount(3)}" for _ in range(self.draw.randint(0, 3))]

    def speeds(self):
        """Speeds of the roads, and in the same steps others that are no lower."""
        pairs = []
        for i in range(self.draw.randint(1, 3 * self.roads)):
            place = f"speed,r{i % self.roads},{some_range(self.draw, self.steps)}"
            pairs.append([f"{place},{speed}" for speed in sorted((some_speed(self.draw), some_speed(self.draw)), key=ratio)])
        return zip(*pairs)

    def network(self, *others):
        return Plain(lines("; ".join([*self.records, *(record for some in others for record in some)])))


def ratio(speed):
    num, den = map(int, speed.split(","))
    return num / den


def delay(network):
    return sum(network.wait.values())


@pytest.mark.parametrize("seed", range(100))
def test_a_higher_speed_lessens_nothing_that_passes_and_adds_no_delay(seed):
    chain = Chain(random.Random(seed))
    demands, (lower, higher) = chain.demands(), chain.speeds()
    slow, fast = chain.network(demands, lower), chain.network(demands, higher)
    for _ in range(chain.steps):
        slow.step()
        fast.step()
        assert all(fast.gone[name] >= slow.gone[name] and fast.come[name] >= slow.come[name] for name in slow.names)
        assert delay(fast) <= delay(slow)


@pytest.mark.parametrize("seed", range(100))
def test_more_demand_lessens_no_delay_at_the_same_speeds(seed):
    chain = Chain(random.Random(1_000 + seed))
    demands, more, (speeds, _) = chain.demands(), chain.demands(), chain.speeds()
    few, many = chain.network(demands, speeds), chain.network([*demands, *more], speeds)
    for _ in range(chain.steps):
        few.step()
        many.step()
        assert delay(many) >= delay(few)


# A road b that sends 3 at its own speed, and 1.5, 0.75, 0.375 and 0.1875 at half of it, beside a road a of which 1 can go in a
# step. Into e 4 come at once, of which 2 go, and a is held up for a step: a waits 2, 2 and 1, and e 2. At half the speed a
# waits 2, 1.25 and 0.25, b 1.5, 0.75, 0.375 and 0.1875, and e 0.5.
MERGE = ("ctm,3; steps,4; road,a,10,1,1,1,3; road,b,6,3,1,1,3; road,e,4,5,1,1,0; exit,x,2; merge,a,b,e,1,1; link,e,x",
         "speed,b,0,4,1,2", "7.000000", "6.812500")
# A road b that sends 3 of 4 into c, out of which 1 can go in a step, and in the second step 1 of 4. By 2.666664 that leave at once
# c gets 1.999998, and then 0.833334; by 1.5 it gets 1.125 and 1.125. b waits 3.333336, or 4.5, and c what is above 1.
DIVERGE = ("ctm,3; steps,5; road,b,10,6,1,1,6; road,c,6,2,1,1,0; exit,y,4; exit,z,1; diverge,b,c,y,3,1; link,c,z; turn,b,1,2,1,3",
           "speed,b,0,1,1,4", "5.166666", "4.875000")


@pytest.mark.parametrize("network, speed, own, lower", [MERGE, DIVERGE], ids=["before a merge", "before a diverge whose shares change"])
def test_a_lower_speed_can_take_off_delay(network, speed, own, lower, run):
    for records, told in (network, own), (f"{network}; {speed}", lower):
        report = plain_report(lines(records))
        assert report.decode().endswith(f",{told}\n")
        hold((0, report, b""), run(["run"], input=lines(records)))
