"""Made grids of one-way streets with signals, and trips from their gates to their exits, by the draws of a seed."""

import random

HEAD = """title = "Grid {seed}"
step = 10
start = "07:00"
end = "08:15"
[lane]
free_flow_speed = 45
wave_speed = 15
jam_density = 140
saturation_flow = 1800
[routing]
interval = 300
ways = 6
"""


def grid_study(seed, size=4, pairs=30, demand=(40, 160)):
    """The text of a study: streets that go east or west and north or south by turns, a signal where they meet."""
    draw = random.Random(seed)
    lines, approach = [HEAD.format(seed=seed)], {}
    for axis in "hv":
        for street in range(size):
            lines += _street(axis, street, size, draw, approach)
    for i in range(size):
        for j in range(size):
            lines.append(_junction(approach[i, j], draw))
    connected = [(f"in-{a}{s}", f"out-{b}{t}") for a in "hv" for s in range(size) for b in "hv" for t in range(size)
                 if (a, s) != (b, t) and _meet(a, s, b, t, size)]
    for source, into in draw.sample(connected, min(pairs, len(connected))):
        begin = draw.randrange(0, 30, 5)
        flow = draw.randint(*demand)
        lines.append(f'[[trips]]\nfrom = "{source}"\nto = "{into}"\n'
                     f'demand = [["07:{begin:02d}", "07:{begin + 20:02d}", {flow}]]\n')
    return "\n".join(lines)


def _meet(a, s, b, t, size):
    """Whether a way leads from one street's gate to another's exit: streets that cross do; parallel ones by a third."""
    return a != b or size > 1


def _street(axis, street, size, draw, approach):
    """The roads of a street from its gate to its exit, and which of them come to and leave each crossing."""
    lines, order = [], range(size) if street % 2 == 0 else range(size - 1, -1, -1)
    names = [f"{axis}{street}{chr(97 + place)}" for place in range(size + 1)]
    for name in names:
        lines.append(f'[roads.{name}]\nlength = "{125 * draw.randint(2, 4)} m"\nlanes = 1\n')
    lines.append(f'[gates.in-{axis}{street}]\ninto = "{names[0]}"\n')
    lines.append(f'[exits.out-{axis}{street}]\nfrom = "{names[-1]}"\n')
    for place, cross in enumerate(order):
        key = (street, cross) if axis == "h" else (cross, street)
        approach.setdefault(key, {})[axis] = names[place], names[place + 1]
    return lines


def _junction(arms, draw):
    (h_in, h_out), (v_in, v_out) = arms["h"], arms["v"]
    green = draw.randrange(30, 60, 10)
    return (f'[[junctions]]\nfrom = ["{h_in}", "{v_in}"]\ninto = ["{h_out}", "{v_out}"]\ncycle = 90\n'
            f'offset = {draw.randrange(0, 90, 10)}\nphases = [{{ from = ["{h_in}"], green = {green} }}, '
            f'{{ from = ["{v_in}"], green = {90 - green} }}]\n')
