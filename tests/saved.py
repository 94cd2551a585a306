"""What a saved text says, read by the rules of docs/FORMAT.md alone, and networks that have a saved moment in common."""

import re

from plain_model import records_of

NUMBER = r"(0|[1-9][0-9]{0,19})"


class Saved:
    """The parts of a saved text: the step of each region, a row line for each cell as numbers, and the network's bytes."""

    def __init__(self, text):
        head, _, self.network = text.partition(b"\nnet\n")
        first, *others = head.decode().split("\n")
        count = int(re.fullmatch(rf"saved,1,{NUMBER}", first)[1])
        self.steps = [int(re.fullmatch(rf"step,{NUMBER}", line)[1]) for line in others[:count]]
        self.rows = [tuple(map(int, re.fullmatch(rf"row{f',{NUMBER}' * 6}", line).groups())) for line in others[count:]]


def saved_text(steps, rows, network):
    """The text of these steps and row lines, and of the bytes of a network."""
    lines = [f"saved,1,{len(steps)}", *(f"step,{step}" for step in steps), *(",".join(map(str, ("row", *row))) for row in rows)]
    return "\n".join([*lines, "net\n"]).encode() + network


def kinds_of(content):
    """The kinds of records of a network's bytes."""
    return {record[0] for record in records_of(content)}


def of_the_other_future(content, begin, draw):
    """A network of the same cells and connectors that is the same before a step, and another from it on: some of its limits,
    demands, turns and speeds that begin then are gone, others are there, and it has other steps, but no fewer than that step.
    """
    header, (_, steps), *records = records_of(content)
    others = [header, ["steps", str(max(begin, int(steps) + draw.choice([-3, 0, 5])))]]
    others += (record for record in records if not (begins_from(record, begin) and draw.random() < 0.5))
    others += (map(str, record) for record in new_records(records, begin, draw, has_speeds=header == ["ctm", "3"]))
    return "".join(",".join(record) + "\n" for record in others).encode()


def begins_from(record, begin):
    """Whether a record says something of single steps, and only of such as come then or later."""
    return record[0] in ("limit", "demand", "turn", "speed") and int(record[2]) >= begin


def new_records(records, begin, draw, has_speeds):
    """A limit on every third cell, a demand at each gate, a turn at each diverge and, where there may be any, a speed on every
    second road, from a step on.
    """
    end = begin + draw.randint(1, 9)
    for kind, name, *_ in records:
        if kind in ("road", "gate", "exit") and draw.random() < 0.3:
            yield "limit", name, begin, end, draw.choice(["0", "0.5", "2.25"])
        if kind == "gate":
            yield "demand", name, begin, end, draw.choice(["0.75", "1.333333", "3"])
        if kind == "diverge":
            yield "turn", name, begin, end, draw.randint(1, 5), draw.randint(1, 5)
        if has_speeds and kind == "road" and draw.random() < 0.5:
            yield "speed", name, begin, end, draw.randint(1, 5), draw.choice([5, 9, 1_000])
