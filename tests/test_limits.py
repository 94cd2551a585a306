"""The limits of docs/FORMAT.md on the numbers of a file: a run at each limit, which gives the report of the recurrences, and
one past it, which is a fault. Those on how many records there are, and on what is recorded and shown, stand in test_most.py.
"""

import pytest
from conftest import hold
from made_networks import made_network
from messages import TOO_LARGE, fault
from plain_model import report as plain_report
from worked import CORRIDOR, REPORT, lines

# A network in which each field that has limits has a name, and what the field holds where nothing else is said.
FIELDS = """\
ctm,2
steps,{steps}
gate,g,{gate_capacity},{gate_first}
gate,h,4,0
road,a,{room},{capacity},{slow},{fast},{first}
exit,x,{exit_capacity}
exit,y,3
merge,g,h,a,{priority_1},{priority_2}
diverge,a,x,y,{share_1},{share_2}
signal,g,{cycle},{offset},{green_from},{green_to}
limit,x,{limit_from},{limit_to},{limit}
demand,h,{demand_from},{demand_to},{demand}
turn,a,{turn_from},{turn_to},{turn_1},{turn_2}
"""
USUAL = {"steps": 9, "gate_capacity": 5, "gate_first": 9, "room": 20, "capacity": 6, "slow": 1, "fast": 2, "first": 4,
         "exit_capacity": 5, "priority_1": 2, "priority_2": 1, "share_1": 1, "share_2": 2, "cycle": 3, "offset": 1,
         "green_from": 0, "green_to": 2, "limit_from": 1, "limit_to": 4, "limit": 2, "demand_from": 0, "demand_to": 6,
         "demand": 1.5, "turn_from": 2, "turn_to": 5, "turn_1": 2, "turn_2": 1, "speed_from": 3, "speed_to": 7, "num": 1, "den": 2}
# The same network in format 3, with a speed.
FIELDS_3 = FIELDS.replace("ctm,2", "ctm,3") + "speed,a,{speed_from},{speed_to},{num},{den}\n"
AMOUNT = (["0", "100000"], ["100000.000001"])
RATIO = (["1", "1000"], ["0", "1001"])
FIRST_STEP = (["0", "99999"], ["100000"])
LONG_CYCLE = {"cycle": 100_000, "green_to": 100_000}

# The name of each field, what it may hold at its limits and what is past them, and which other fields don't hold the usual.
LIMITS = [
    ("steps", ["1", "100000"], ["0", "100001"], {}),
    ("gate_capacity", *AMOUNT, {}),
    ("gate_first", ["0", "10000000"], ["10000000.000001"], {"first": 0, "demand": 0}),
    ("room", *AMOUNT, {"first": 0}),
    ("capacity", *AMOUNT, {}),
    ("slow", *RATIO, {"fast": 1000}),
    ("fast", *RATIO, {}),
    ("fast", ["7", "1000"], ["6"], {"slow": 7}),
    ("first", *AMOUNT, {"room": 100_000}),
    ("first", ["20"], ["20.000001"], {}),
    ("exit_capacity", *AMOUNT, {}),
    ("priority_1", *RATIO, {}),
    ("priority_2", *RATIO, {}),
    ("share_1", *RATIO, {}),
    ("share_2", *RATIO, {}),
    ("cycle", ["1", "100000"], ["0", "100001"], {"offset": 0, "green_to": 1}),
    ("offset", ["0", "2"], ["3"], {}),
    ("offset", *FIRST_STEP, LONG_CYCLE),
    ("green_from", ["0", "2"], ["3"], {"green_to": 3}),
    ("green_from", *FIRST_STEP, LONG_CYCLE),
    ("green_to", ["2", "3"], ["1", "4"], {"green_from": 1}),
    ("green_to", ["1", "100000"], ["0", "100001"], LONG_CYCLE),
    ("limit_from", *FIRST_STEP, {"limit_to": 100_000}),
    ("limit_to", ["2", "100000"], ["1", "100001"], {}),
    ("limit", *AMOUNT, {}),
    ("demand_from", *FIRST_STEP, {"demand_to": 100_000}),
    ("demand_to", ["1", "100000"], ["0", "100001"], {}),
    ("demand", ["0", "10000000"], ["10000000.000001"], {"gate_first": 0, "first": 0, "demand_to": 1}),
    ("turn_from", *FIRST_STEP, {"turn_to": 100_000}),
    ("turn_to", ["3", "100000"], ["2", "100001"], {}),
    ("turn_1", *RATIO, {}),
    ("turn_2", *RATIO, {}),
]
# The same of the fields that format 3 alone has.
LIMITS_3 = [
    ("speed_from", *FIRST_STEP, {"speed_to": 100_000}),
    ("speed_to", ["4", "100000"], ["3", "100001"], {}),
    ("num", *RATIO, {"den": 1000}),
    ("den", *RATIO, {}),
    ("den", ["7", "1000"], ["6"], {"num": 7}),
]
TRIED = [(FIELDS, *limit) for limit in LIMITS] + [(FIELDS_3, *limit) for limit in LIMITS + LIMITS_3]


def network_with(fields, field, value, others):
    return fields.format(**{**USUAL, **others, field: value}).encode()


def record_of(fields, field):
    return 1 + next(i for i, line in enumerate(fields.splitlines()) if f"{{{field}}}" in line)


def each(side):
    """The cases of the values of one side of each limit, which have the number of their format in their names."""
    for fields, field, *sides, others in TRIED:
        for value in sides[side]:
            yield pytest.param(fields, field, value, others, id=f"{fields[4]}: {value} as {field}")


@pytest.mark.parametrize("fields, field, value, others", each(0))
def test_a_number_at_its_limit(fields, field, value, others, run):
    network = network_with(fields, field, value, others)
    hold((0, plain_report(network), b""), run(["run"], input=network))


@pytest.mark.parametrize("fields, field, value, others", each(1))
def test_a_number_past_its_limit(fields, field, value, others, run):
    told = f"{record_of(fields, field)} code 6 OutOfRange"
    hold((3, b"", fault(told)), run(["run"], input=network_with(fields, field, value, others)))


# A file, a spelling of its field that is taken, one that is longer than any that is, and what is told of it.
SPELLINGS = [
    ("the digits of a whole number", "ctm,1; steps,{}; exit,x,1", "000000003", "0000000003", "2 code 5 BadNumber"),
    ("the digits of an amount", "ctm,1; steps,3; exit,x,{}", "000000000001.000000", "0000000000001", "3 code 5 BadNumber"),
    ("the decimals of an amount", "ctm,1; steps,3; exit,x,{}", "0.123456", "0.1234560", "3 code 5 BadNumber"),
    ("the bytes of a name", "ctm,1; steps,3; exit,{},1", "-a.Z_09" + 25 * "n", "-a.Z_09" + 26 * "n", "3 code 4 BadName"),
    ("the bytes of another name", "ctm,1; steps,3; gate,{0},1,4; exit,x,2; link,{0},x; limit,{0},0,1,2",
     32 * "x", 33 * "x", "3 code 4 BadName"),
]


@pytest.mark.parametrize("file, longest, longer, told", [case[1:] for case in SPELLINGS], ids=[case[0] for case in SPELLINGS])
def test_the_longest_spelling_and_a_longer_one(file, longest, longer, told, run):
    network = lines(file.format(longest))
    hold((0, plain_report(network), b""), run(["run"], input=network))
    hold((3, b"", fault(told)), run(["run"], input=lines(file.format(longer))))


def test_names_that_differ_in_their_last_byte(run):
    """A name that is longer than any is the name of no cell."""
    network = lines(f"ctm,1; steps,2; gate,{31 * 'n'}a,1,4; exit,{31 * 'n'}b,2; link,{31 * 'n'}a,{31 * 'n'}b")
    hold((0, plain_report(network), b""), run(["run"], input=network))
    hold((3, b"", fault("4 code 8 Unknown")), run(["run"], input=lines(f"ctm,1; steps,2; exit,{32 * 'n'},2; limit,{33 * 'n'},0,1,1")))


# Files of the most vehicles, and with a part more: first occupancies and the demand of the steps that come.
HUNDRED_ROADS = "; ".join(f"road,a{i},100000,1,1,1,{100_000 - i // 99}" for i in range(100))  # a vehicle fewer in the last
VEHICLES = [
    ("in two gates", "ctm,1; steps,1; gate,g,1,9999999.999999; gate,h,1,{}", "0.000001", "0.000002"),
    ("on a hundred roads and one", "ctm,1; steps,1; road,b,2,1,1,1,{}; " + HUNDRED_ROADS, "1", "1.000001"),
    ("that come in two steps of three", "ctm,1; steps,2; gate,g,1,0; demand,g,0,3,{}", "5000000", "5000000.000001"),
    ("and a demand past the end", "ctm,1; steps,2; gate,g,1,10000000; demand,g,{},100000,0.000001", "2", "1"),
    ("by demands that overlap", "ctm,1; steps,9; gate,g,1,0; demand,g,0,9,1000000; demand,g,8,10,{}", "1000000",
     "1000000.000001"),
    ("at a gate and on a road", "ctm,1; steps,1; gate,g,1,0; road,a,6,1,1,1,6; demand,g,0,1,{}", "9999994",
     "9999994.000001"),
]


def total_past(network):
    return fault(f"{len(network.splitlines()) + 1} code 15 TooMuch")


@pytest.mark.parametrize("file, most, more", [case[1:] for case in VEHICLES], ids=[case[0] for case in VEHICLES])
def test_the_most_vehicles_and_a_part_more(file, most, more, run):
    network = lines(file.format(most))
    hold((0, plain_report(network), b""), run(["run"], input=network))
    network = lines(file.format(more))
    hold((3, b"", total_past(network)), run(["run"], input=network))


def test_so_many_vehicles_that_their_parts_are_two_to_the_64(run):
    """In 64 bits the sum would be 0."""
    network = lines("ctm,1; steps,65536; gate,g,1,0; " + 28 * "demand,g,0,65536,10000000; " + "demand,g,0,65536,1474976.710656")
    hold((3, b"", total_past(network)), run(["run"], input=network))


def most_vehicles(capacity):
    """A gate of this capacity that holds the most vehicles, and the most steps."""
    return lines(f"ctm,1; steps,100000; gate,g,{capacity},10000000; exit,x,100000; link,g,x")


@pytest.mark.parametrize("capacity, rows", [
    (100_000, "cell,g,0.000000,0.000000,10000000.000000,495000000.000000; "
              "cell,x,10000000.000000,10000000.000000,0.000000,0.000000; "
              "total,0.000000,0.000000,10000000.000000,495000000.000000"),
    (0, "cell,g,10000000.000000,0.000000,0.000000,1000000000000.000000; cell,x,0.000000,0.000000,0.000000,0.000000; "
        "total,10000000.000000,0.000000,0.000000,1000000000000.000000"),
])
def test_the_most_vehicles_through_the_most_steps(capacity, rows, run):
    hold((0, lines(f"report,100000,2; {rows}"), b""), run(["run"], input=most_vehicles(capacity)))


def test_the_most_steps_recorded_as_seldom_as_may_be(run):
    network = lines("ctm,1; steps,100000; gate,g,1,100; exit,x,1; link,g,x")
    hold((0, plain_report(network, 100_000), b""), run(["run", "--every", "100000"], input=network))
    hold((0, plain_report(network, 99_999), b""), run(["run", "--every", "99999"], input=network))


# A network of more cells than there may be regions.
WIDE = made_network(8, 600, 40)


def test_the_most_regions_by_the_most_workers(run):
    hold((0, plain_report(WIDE, 9), b""),
         run(["run", "--regions", "512", "--workers", "16", "--every", "9"], input=WIDE))


def test_the_most_regions_of_a_file_and_one_more(run):
    network = "ctm,2; steps,2; " + "; ".join(f"gate,g{i},1,{i % 3}" for i in range(513))
    most = lines("; ".join([network, *(f"region,g{i},{i % 512}" for i in range(513))]))
    hold((0, plain_report(most), b""), run(["run"], input=most))
    more = lines("; ".join([network, *(f"region,g{i},{i}" for i in range(513))]))
    hold((3, b"", fault("1028 code 6 OutOfRange")), run(["run"], input=more))


MOST_BYTES = 16_777_216


def corridor_of(count):
    """The corridor with a comment, of so many bytes in all."""
    return CORRIDOR + b"#" * (count - len(CORRIDOR) - 1) + b"\n"


@pytest.mark.parametrize("mode, text", [("run", REPORT), ("check", b"network,3,2,3,0,0,1\n")])
def test_an_input_of_the_most_bytes(mode, text, run):
    hold((0, text, b""), run([mode], input=corridor_of(MOST_BYTES)))


@pytest.mark.parametrize("mode", ["run", "watch", "check", "convert"])
def test_an_input_of_a_byte_more(mode, run):
    hold((4, b"", TOO_LARGE), run([mode], input=corridor_of(MOST_BYTES + 1)))


def test_a_comment_of_the_most_bytes(run):
    hold((3, b"", fault("1 code 1 NoHeader")), run(["run"], input=b"#" * MOST_BYTES))


def file_to_grow():
    """A network of the most bytes, without a line end behind its last record, whose other bytes convert writes as they are.
    So many exits that they would be a few bytes too many stand in it, and so many of the limits are a byte shorter.
    """
    name = 32 * b"x"
    rest = MOST_BYTES + 1 - len(b"ctm,2\nsteps,3\nexit,%s,1\n" % name) - 200_000 * 79
    count = -(-rest // 58)
    short = 58 * count - rest
    exits = [b"exit,%032d,000000000001.000000" % i for i in range(count)]
    limits = [b"limit,%s,00000%04d,000100000,%s1.000000" % (name, i % 10_000, b"0" * (10 if i < short else 11))
              for i in range(200_000)]
    return b"\n".join([b"ctm,2", b"steps,3", b"exit,%s,1" % name, *exits, *limits]), count + 1


def test_a_conversion_that_grows_past_what_may_be_read(run):
    network, cells = file_to_grow()
    assert len(network) == MOST_BYTES
    hold((0, b"network2,%d,0,3,0,200000,0,0\n" % cells, b""), run(["check"], input=network))
    hold((0, network + b"\n", b""), run(["convert"], input=network))
    hold((4, b"", TOO_LARGE), run(["check"], input=network + b"\n"))
