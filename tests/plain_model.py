#!/usr/bin/env -S python3 -Es
"""The recurrences of docs/MODEL.md once more, plainly and in whole parts, to compare the program's records with.

As a program it takes `run [--every E]` as the proved one does, over a file without faults and without quotes.
"""

import sys

PARTS = 1_000_000  # in a vehicle


def records_of(content):
    """The fields of each record of a network's bytes."""
    lines = content.decode().splitlines()
    return [line.split(",") for line in lines if line and not line.startswith("#")]


def parts_of(amount):
    vehicles, _, decimals = amount.partition(".")
    return int(vehicles) * PARTS + int(decimals.ljust(6, "0"))


class Plain:
    """A network's rows of parts, taken from step to step."""

    def __init__(self, content):
        self.names, self.kind, self.room, self.most, self.ratio = [], {}, {}, {}, {}
        self.joints, self.limits, self.demands, self.turns, self.signals, self.speeds = [], {}, {}, {}, {}, {}
        self.n = {}
        for record in records_of(content)[1:]:
            self.take(*record)
        self.come = dict.fromkeys(self.names, 0)
        self.gone = dict.fromkeys(self.names, 0)
        self.wait = dict.fromkeys(self.names, 0)
        self.time = 0

    def take(self, kind, *values):
        if kind == "steps":
            self.steps = int(values[0])
        elif kind in ("road", "gate", "exit"):
            name = values[0]
            self.names.append(name)
            self.kind[name] = kind
            self.n[name] = 0 if kind == "exit" else parts_of(values[-1])
            self.most[name] = parts_of(values[2 if kind == "road" else 1])
            if kind == "road":
                self.room[name] = parts_of(values[1])
                self.ratio[name] = int(values[3]), int(values[4])
        elif kind in ("link", "merge", "diverge"):
            self.joints.append((kind, values))
        elif kind == "signal":
            self.signals[values[0]] = tuple(map(int, values[1:]))
        elif kind == "limit":
            self.limits.setdefault(values[0], []).append((int(values[1]), int(values[2]), parts_of(values[3])))
        elif kind == "demand":
            self.demands.setdefault(values[0], []).append((int(values[1]), int(values[2]), parts_of(values[3])))
        elif kind in ("turn", "speed"):
            ranges = {"turn": self.turns, "speed": self.speeds}[kind]
            ranges.setdefault(values[0], []).append(tuple(map(int, values[1:])))

    def last(self, ranges, otherwise):
        for begin, end, *value in reversed(ranges):
            if begin <= self.time < end:
                return value if len(value) > 1 else value[0]
        return otherwise

    def capacity(self, name):
        return self.last(self.limits.get(name, []), self.most[name])

    def sending(self, name):
        if name in self.signals:
            cycle, offset, begin, end = self.signals[name]
            if not begin <= (self.time + offset) % cycle < end:
                return 0
        num, den = self.last(self.speeds.get(name, []), (1, 1))
        return min(self.capacity(name), self.n[name] * num // den)

    def receiving(self, name):
        if self.kind[name] == "exit":
            return self.capacity(name)
        a, b = self.ratio[name]
        return min(self.capacity(name), a * (self.room[name] - self.n[name]) // b)

    def moves(self, kind, values):
        """What leaves and what enters, by cell, through one connector."""
        if kind == "link":
            up, down = values
            flow = min(self.sending(up), self.receiving(down))
            return [(up, flow)], [(down, flow)]
        if kind == "merge":
            one, two, down, p1, p2 = values
            s1, s2, room = self.sending(one), self.sending(two), self.receiving(down)
            if room >= s1 + s2:
                y1, y2 = s1, s2
            else:
                part = int(p1) * room // (int(p1) + int(p2))
                y1 = sorted((s1, room - s2, part))[1]
                y2 = sorted((s2, room - s1, room - part))[1]
            return [(one, y1), (two, y2)], [(down, y1 + y2)]
        up, one, two, b1, b2 = values
        b1, b2 = self.last(self.turns.get(up, []), (int(b1), int(b2)))
        k = min(self.sending(up) // (b1 + b2), self.receiving(one) // b1, self.receiving(two) // b2)
        return [(up, k * (b1 + b2))], [(one, k * b1), (two, k * b2)]

    def step(self):
        leaves, enters = dict.fromkeys(self.names, 0), dict.fromkeys(self.names, 0)
        for gate, ranges in self.demands.items():
            enters[gate] = sum(amount for begin, end, amount in ranges if begin <= self.time < end)
        for kind, values in self.joints:
            out, into = self.moves(kind, values)
            for name, flow in out:
                leaves[name] = flow
            for name, flow in into:
                enters[name] = flow
        for name in self.names:
            if self.kind[name] != "exit":
                self.wait[name] += self.n[name] - leaves[name]
            self.n[name] += enters[name] - leaves[name]
            self.come[name] += enters[name]
            self.gone[name] += leaves[name]
        self.time += 1


def printed(parts):
    return f"{parts // PARTS}.{parts % PARTS:06d}"


def report(content, every=0):
    """The report of a network's bytes, with the records of each step that `every` divides, and of the last."""
    net = Plain(content)
    lines = [f"report,{net.steps},{len(net.names)}"]
    while True:
        if every and (net.time % every == 0 or net.time == net.steps):
            lines += [f"at,{net.time},{name},{printed(net.n[name])},{printed(net.gone[name])}" for name in net.names]
        if net.time == net.steps:
            break
        net.step()
    lines += [f"cell,{name}," + ",".join(printed(row[name]) for row in (net.n, net.come, net.gone, net.wait))
              for name in net.names]
    inside = sum(net.n[name] for name in net.names if net.kind[name] != "exit")
    left = sum(net.n[name] for name in net.names if net.kind[name] == "exit")
    entered = sum(net.come[name] for name in net.names if net.kind[name] == "gate")
    lines.append("total," + ",".join(map(printed, (inside, entered, left, sum(net.wait.values())))))
    return ("\n".join(lines) + "\n").encode()


if __name__ == "__main__":
    words = sys.argv[1:]
    if words[:1] != ["run"] or any(word.startswith("--workers") for word in words):
        print("ctm: words refused", file=sys.stderr)
        sys.exit(2)
    every = int(words[words.index("--every") + 1]) if "--every" in words else 0
    sys.stdout.buffer.write(report(sys.stdin.buffer.read(), every))
