"""Studies with trips that tests share: two ways, one way, several ways alike."""

HEAD = """
title = "{title}"
step = 10
start = "07:00"
end = "{end}"
[lane]
free_flow_speed = 90
wave_speed = 18
jam_density = 144
saturation_flow = 2000
[routing]
interval = "5 min"
ways = 8
"""

# 40 cells of 250 m on the short way and 30 more on the long one: 5 min. The short one ends in a lane of 2,000 vehicles/h.
TWO_WAYS = HEAD.format(title="Two ways", end="09:00") + """
[roads]
a = { length = 1, lanes = 2 }
short = { length = 12, lanes = 2, sections = [{ from = 11.0, lanes = 1 }] }
long = { length = 19.5, lanes = 2 }
b = { length = 1.75, lanes = 2 }
[gates.home]
into = "a"
[exits.work]
from = "b"
[[diverges]]
from = "a"
into = ["short", "long"]
[[merges]]
from = ["short", "long"]
into = "b"
priorities = [1, 2]
[[trips]]
from = "home"
to = "work"
demand = [["07:00", "08:00", 3000]]
"""


def eight_ways():
    """A road that parts three times into eight roads alike, which come together again; each carries 400 vehicles/h."""
    lines = [HEAD.format(title="Eight ways", end="09:00"), "[roads]"]
    lines += [f'{side}{level}{number} = {{ length = 1, lanes = 2 }}' for side in ("p", "j") for level in range(3)
              for number in range(2 ** level)]
    lines += [f'way{number} = {{ length = 3, lanes = 1, sections = [{{ from = 2.0, saturation_flow = 400 }}] }}'
              for number in range(8)]
    lines += ['[gates.g]', 'into = "p00"', '[exits.x]', 'from = "j00"']
    for level in range(3):
        for number in range(2 ** level):
            ends = [f"{2 * number + side}" for side in (0, 1)]
            parts = [f"way{end}" if level == 2 else f"p{level + 1}{end}" for end in ends]
            joins = [f"way{end}" if level == 2 else f"j{level + 1}{end}" for end in ends]
            lines.append(f'[[diverges]]\nfrom = "p{level}{number}"\ninto = {parts!r}'.replace("'", '"'))
            lines.append(f'[[merges]]\nfrom = {joins!r}\ninto = "j{level}{number}"\npriorities = [1, 1]'.replace("'", '"'))
    lines.append('[[trips]]\nfrom = "g"\nto = "x"\ndemand = [["07:00", "07:30", 3600]]')
    return "\n".join(lines) + "\n"


# Two exits behind one diverge, which 29 cells and the gate lie before: 5 min. Its cell passes 900 vehicles/h.
TWO_PAIRS = HEAD.format(title="Two pairs", end="08:00") + """
[roads]
m = { length = 7.25, lanes = 1, sections = [{ from = 7.0, saturation_flow = 900 }] }
[gates.g]
into = "m"
[exits]
x = {}
y = {}
[[diverges]]
from = "m"
into = ["x", "y"]
[[trips]]
from = "g"
to = "x"
demand = [["07:00", "07:10", 900], ["07:10", "07:20", 300]]
[[trips]]
from = "g"
to = "y"
demand = [["07:00", "07:10", 300], ["07:10", "07:20", 900]]
"""
