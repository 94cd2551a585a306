"""Networks of changing size for bench/stress and bench/agree, and what is told of runs of them that differ."""

import os
import random
import subprocess
import sys
import tempfile

from chains import TOP, corridor, lines_of

sys.path.append(os.path.join(TOP, "tests"))
from made_networks import made_network, with_speeds

SECONDS = 120  # of a run
MOST = 2_000  # cells, and steps
MOST_REGIONS, MOST_WORKERS = 512, 16


def some(draw, most):
    """A number from 1 to the most, as often a small as a large one."""
    return min(most, int(2 ** draw.uniform(0, most.bit_length())))


def some_every(draw, steps):
    """The words by which one run of three is recorded, at 30 steps at most but for the first and the last."""
    return ["--every", str(max(some(draw, steps), steps // 30))] if draw.random() < 0.3 else []


def some_words(draw):
    """The words of a run by some number of workers in some number of regions."""
    return ["run", "--workers", str(some(draw, MOST_WORKERS)), "--regions", str(some(draw, MOST_REGIONS))]


def case(seed):
    """A network, the same one with a cutting of its own where it has one, and the words by which it is recorded."""
    draw = random.Random(f"case {seed}")
    cells, steps, parts = some(draw, MOST), some(draw, MOST), some(draw, 5)
    regions = some(draw, MOST_REGIONS) if draw.random() < 0.3 else 0
    every = some_every(draw, steps)
    return made_network(seed, cells, steps, parts), made_network(seed, cells, steps, parts, regions), every


def refined(draw, record):
    """A record with numbers that come out even less often: ratios, priorities and shares up to 1,000."""
    kind, *fields = record.split(",")
    if kind == "road":
        name, room, capacity, _, _, first = fields
        slow = draw.randint(1, 1_000)
        rest, most = draw.randrange(1_000_000), draw.randrange(1_000_000)
        return f"road,{name},{room}.{rest:06},{capacity}.{most:06},{slow},{draw.randint(slow, 1_000)},{first}"
    if kind in ("merge", "diverge", "turn"):
        return ",".join([kind, *fields[:-2], str(draw.randint(1, 1_000)), str(draw.randint(1, 1_000))])
    return record


def with_overlaps(draw, records, steps):
    """The records, and behind some of the limits and turns another one of the same cell, of which the last one holds."""
    for record in records:
        yield record
        kind, *fields = record.split(",")
        if kind in ("limit", "turn") and draw.random() < 0.5:
            first = draw.randrange(steps)
            numbers = (draw.randint(1, 5) for _ in fields[3:])
            yield ",".join(map(str, (kind, fields[0], first, first + draw.randint(1, steps), *numbers)))


def in_other_forms(draw, text):
    """The same network with other line ends, quotes, blank lines, comments and a byte order mark."""
    ends = draw.choice((b"\n", b"\r\n", b"\r"))
    made = [b"\xef\xbb\xbf"]
    for record in text.splitlines():
        if draw.random() < 0.1:
            made.append(draw.choice((b"\n", b"\r\n", b"#\n", b'# "caf\xe9"\rexit,none,1\n')))
        if draw.random() < 0.1:
            record = b",".join(b'"' + field + b'"' for field in record.split(b","))
        made += record, ends
    return b"".join(made)


def changing_case(seed, slowed=False):
    """A network of changing size, density, format and forms, and the words by which it is recorded; or the same network in
    format 3 with speeds in a changing share of its roads.
    """
    draw = random.Random(f"changing {seed}")
    if draw.random() < 0.2:
        size = some(draw, MOST // 4)
        records = list(corridor(size, draw.randrange(1_000_000_000), dense=draw.random() < 0.5))
        steps = 40 + 2 * size
    else:
        cells, steps, parts = some(draw, MOST), some(draw, MOST), some(draw, 5)
        regions = some(draw, MOST_REGIONS) if draw.random() < 0.3 else 0
        filled = draw.choice((0, 0.02, 0.2, 0.6, 1))
        records = made_network(seed, cells, steps, parts, regions, filled).decode().splitlines()
        if draw.random() < 0.2:
            records[0] = "ctm,1"
            records = [record for record in records if not record.startswith(("turn,", "region,"))]
    if draw.random() < 0.5:
        records = with_overlaps(draw, records, steps)
    if draw.random() < 0.5:
        records = (refined(draw, record) for record in records)
    if slowed:
        own = random.Random(f"slowed {seed}")
        records = with_speeds(own, list(records), steps, own.choice((0.1, 0.5, 1)))
    text = lines_of(records).encode()
    return in_other_forms(draw, text) if draw.random() < 0.2 else text, some_every(draw, steps)


def outcome(program, network, words, seconds=SECONDS):
    """The status of a run and what it wrote on both streams, or that it took too long."""
    try:
        ended = subprocess.run([program, *words], input=network, capture_output=True, timeout=seconds)
    except subprocess.TimeoutExpired:
        return f"takes longer than {seconds} s", b"", b""
    return f"status {ended.returncode}", ended.stdout, ended.stderr


class Tally:
    def __init__(self):
        self.runs = self.networks = self.differ = 0
        self.kept = None

    def differs(self, name, network, words, got):
        """Keeps the network and tells the words."""
        self.differ += 1
        self.kept = self.kept or tempfile.mkdtemp(prefix="ctm-differs-")
        path = os.path.join(self.kept, f"network-{name}.csv")
        with open(path, "wb") as out:
            out.write(network)
        print(f"differs: {' '.join(words)} < {path}: {got[0]} {got[2].decode(errors='replace').strip()}", flush=True)

    def __str__(self):
        return f"{self.runs} runs of {self.networks} networks, {self.differ} differ"
