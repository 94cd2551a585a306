"""A reader of what `ctm watch` writes. It holds each shot against the network file, and against the recurrences of
docs/MODEL.md taken one step of the whole network at a time, and tells what is wrong. Amounts are whole numbers of
parts, so nothing is rounded.
"""

from typing import NamedTuple

from plain_model import Plain, printed, records_of


class Row(NamedTuple):
    n: int
    come: int
    gone: int
    wait: int


class Books(NamedTuple):
    inside: int
    flight: int
    initial: int
    entered: int
    left: int


class Shot(NamedTuple):
    books: Books
    steps: list    # of each region
    flights: dict  # by the numbers of the connectors that touch more than one region
    rows: list     # of each cell


class Network:
    """The cells and connectors of a file without faults, and the rows of the recurrences at each step."""

    def __init__(self, content):
        plain = Plain(content)
        self.steps = plain.steps
        self.names = list(plain.names)
        self.kinds = [plain.kind[name] for name in self.names]
        self.rooms = [plain.room.get(name) for name in self.names]
        number = {name: i for i, name in enumerate(self.names)}
        self.connectors = []  # of each its cells upstream and those downstream
        for kind, fields in plain.joints:
            cells = [number[name] for name in fields[:2 if kind == "link" else 3]]
            ups = 2 if kind == "merge" else 1
            self.connectors.append((cells[:ups], cells[ups:]))
        regions = {number[record[1]]: int(record[2]) for record in records_of(content) if record[0] == "region"}
        self.regions_in_file = [regions[i] for i in range(len(self.names))] if regions else None
        self.states = [self.rows_of(plain)]
        while plain.time < plain.steps:
            plain.step()
            self.states.append(self.rows_of(plain))

    def rows_of(self, plain):
        return [Row(plain.n[name], plain.come[name], plain.gone[name], plain.wait[name]) for name in self.names]

    def cutting(self, regions):
        """The region of each cell, where so many regions are asked for."""
        if self.regions_in_file:
            return self.regions_in_file
        cells = len(self.names)
        return [i * min(regions, cells) // cells for i in range(cells)]

    def sum_of(self, kinds, amounts):
        return sum(amount for kind, amount in zip(self.kinds, amounts) if kind in kinds)

    def flight(self, rows, k):
        """What has gone out of a connector's cells upstream, less what has come into those downstream."""
        ups, downs = self.connectors[k]
        return sum(rows[up].gone for up in ups) - sum(rows[down].come for down in downs)

    def books(self, rows):
        return Books(inside=self.sum_of(("road", "gate"), [row.n for row in rows]),
                     flight=sum(self.flight(rows, k) for k in range(len(self.connectors))),
                     initial=sum(row.n for row in self.states[0]),
                     entered=self.sum_of(("gate",), [row.come for row in rows]),
                     left=self.sum_of(("exit",), [row.n for row in rows]))


class Unreadable(Exception):
    """A text that hasn't the lines or the spellings of a watch, and where."""


def signed(field):
    """The parts of a printed amount."""
    parts = int(field.replace(".", "", 1))
    if field != ("-" if parts < 0 else "") + printed(abs(parts)):
        raise ValueError
    return parts


def amount(field):
    parts = signed(field)
    if parts < 0:
        raise ValueError
    return parts


def whole(field):
    if field != str(int(field)):
        raise ValueError
    return int(field)


class Lines:
    """The lines of a text, taken one after the other. Each ends with a line feed."""

    def __init__(self, text):
        self.text = text
        self.place = 0

    def take(self, head, *sorts):
        """The values of the next line, which has these fields at its head and then one of each of these sorts."""
        end = self.text.find(b"\n", self.place)
        if end < 0:
            raise Unreadable(f"the text ends where a line {head} should stand")
        line = self.text[self.place:end].decode("ascii", "backslashreplace")
        self.place = end + 1
        fields = line.split(",")
        values = fields[head.count(",") + 1:]
        try:
            if not line.startswith(head + ",") or len(values) != len(sorts):
                raise ValueError
            return [sort(value) for sort, value in zip(sorts, values)]
        except ValueError:
            raise Unreadable(f"{line!r} stands where a line {head} should") from None

    def rest(self):
        return self.text[self.place:]


def read_shot(lines, network, cutting, number):
    books = Books(*lines.take(f"shot,{number}", amount, signed, amount, amount, amount))
    steps = [lines.take(f"region,{r}", whole)[0] for r in range(max(cutting) + 1)]
    flights = {k: lines.take(f"flight,{k}", signed)[0] for k, (ups, downs) in enumerate(network.connectors)
               if len({cutting[i] for i in ups + downs}) > 1}
    rows = [Row(*lines.take(f"row,{name}", amount, amount, amount, amount)) for name in network.names]
    return Shot(books, steps, flights, rows)


def faults_of_shot(network, cutting, shot, first, last):
    """What is wrong with a shot whose regions are to stand at these steps or between them."""
    for region, step in enumerate(shot.steps):
        if not first <= step <= last:
            yield f"region {region} stands at step {step}, and not from {first} to {last}"
    for k, (ups, downs) in enumerate(network.connectors):
        steps = [shot.steps[cutting[i]] for i in ups + downs]
        if max(steps) > min(steps) + 1:
            yield f"the regions of connector {k} stand at steps {min(steps)} and {max(steps)}"
    for what, shown, wanted in zip(Books._fields, shot.books, network.books(shot.rows)):
        if shown != wanted:
            yield f"{what} is {shown} parts and by the rows {wanted}"
    inside, flight, initial, entered, left = shot.books
    held, given = inside + flight, initial + entered - left
    if held != given:
        yield f"inside and flight are {held} parts, and initial and entered less left {given}"
    for k, shown in shot.flights.items():
        if shown != network.flight(shot.rows, k):
            yield f"flight {k} is {shown} parts and by the rows {network.flight(shot.rows, k)}"
    for name, room, row in zip(network.names, network.rooms, shot.rows):
        if room is not None and row.n > room:
            yield f"{name} holds {row.n} parts, more than its room, {room}"
    for i, (name, row) in enumerate(zip(network.names, shot.rows)):
        step = shot.steps[cutting[i]]
        if step > network.steps or row != network.states[step][i]:
            yield f"the row of {name} isn't that of step {step}"


def faults_of_watch(network, regions, shots, report, text):
    """What is wrong with the text of a watch with these numbers of regions and of shots, whose report is to be this."""
    lines = Lines(text)
    cutting = network.cutting(regions)
    goals = [i * network.steps // shots for i in range(shots + 1)]
    try:
        for number in range(1, shots + 1):
            shot = read_shot(lines, network, cutting, number)
            for fault in faults_of_shot(network, cutting, shot, goals[number - 1], goals[number]):
                yield f"shot {number}: {fault}"
    except Unreadable as fault:
        yield f"shot {number}: {fault}"
        return
    if lines.rest() != report:
        yield "what stands behind the shots isn't the report"
