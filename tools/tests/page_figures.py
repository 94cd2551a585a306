"""Where the figures of the first page and of docs/VALIDATION.md are made: each function gives texts of a page with their figures,
worked out on paper from what a study says, or read from its run, a file or a count.
"""

import re
import shutil
import subprocess
import tomllib
from fractions import Fraction
from functools import lru_cache
from math import ceil, exp, floor
from pathlib import Path
from statistics import NormalDist
from types import SimpleNamespace as Some

from crates import Crates
from ctmtools.report.queues import SLOW, queues_in
from ctmtools.study.precedences import KINDS
from ctmtools.study.reading import read_values
from parts import processor_seconds

from .examples import EXAMPLES, TOOLS
from .kinematic_waves import LaneDrop
from .test_actuated import FOLLOW, STUDY as ACTUATED
from .test_validation import DEMAND, LIMIT, clocks, hours, test_speed_limit_over_the_length_of_cells as OVER_LENGTHS
from .test_validation import run as run_anew
from .test_yield import FEW, MANY, SIDE, SIDE_STREETS
from .trips import TWO_WAYS
from .validation_tables import figures_of, rows_under

TOP = TOOLS.parent
FIRST, VALIDATION, SUMO = "README.md", "docs/VALIDATION.md", "docs/SUMO.md"
FIGURE = re.compile(r"(?<![\w.])\d(?:[\d,:]*\d)?(?:\.\d+)?(?:e-?\d+)?")
SUITES = {"bookworm": 12, "trixie": 13}  # of Debian, with their numbers
HIGH = 0.9  # of a jump, from which and to whose rest its width is taken
MADE = []  # the pages, each with a function that gives texts of it


def of(page):
    """Adds a function that gives texts of a page."""
    def add(texts):
        MADE.append((page, texts))
        return texts
    return add


@lru_cache
def run(name):
    return run_anew(name)


def read(path):
    return (TOP / path).read_text()


def figures(text):
    """The figures of a text as they are written; a number in a name is none."""
    return set(FIGURE.findall(text))


def clock(hour, seconds=0.0):
    """A time of day, without its seconds where these are 0."""
    total = round(hour * 3600 + seconds)
    minutes = f"{total // 3600:02}:{total // 60 % 60:02}"
    return f"{minutes}:{total % 60:02}" if total % 60 else minutes


def short(value, places=2):
    """A number with at most so many decimals."""
    text = f"{float(value):,.{places}f}"
    return text.rstrip("0").rstrip(".") if "." in text else text


def at_most(most, value):
    """A bound that a page gives, where the value is within it."""
    assert value <= most
    return most


def study(name):
    return read_values(EXAMPLES / f"{name}.toml")


def road(values, name, lanes=None):
    """The triangle of a road: speeds in km/h, densities and flows of all its lanes."""
    one = {**values.get("lane", {}), **values["roads"][name]}
    lanes = lanes or one["lanes"]
    return Some(v=one["free_flow_speed"], w=one["wave_speed"], jam=lanes * one["jam_density"], most=lanes * one["saturation_flow"])


@of(VALIDATION)
def a_queue():
    yield f"slower than {SLOW * 100:.0f} % of the free-flow speed"
    yield f"the last cell never slows below {SLOW * 100:.0f} %"
    yield f"once a cell is slower than {SLOW * 100:.0f} %"


@of(VALIDATION)
def red_light():
    values = study("validation/red-light")
    one, (signal,), flow = road(values, "c"), values["signals"], values["gates"]["west"]["demand"]
    red, green = signal["cycle"] - signal["green"], 8 + signal["first_green"] / 3600
    free = flow / one.v
    tail = flow / (one.jam - free)
    met = tail * red / (one.w - tail)  # s after the green
    back = one.w * met / 3.6
    gone, held = met + back / one.v * 3.6, flow * red / 3600
    delay = short(held * (red + gone) / 2 / 3600)
    yield f"On two lanes {flow:,} vehicles/h drive at {one.v} km/h, {short(free)} vehicles/km, and a light is red from {clock(green, -red)} to {clock(green)}"
    yield f"The jam density is {one.jam} vehicles/km and the saturation flow {one.most:,} vehicles/h."
    yield f"The tail moves back by {flow}/({one.jam} - {short(free)}) = {short(tail)} km/h."
    yield f"The release meets it at {clock(green, met)}, {short(back)} m back, and the last vehicles that waited pass the stop line at {clock(green, gone)}."
    yield f"{short(held)} vehicles come in the red, so the delay is {short(held)}·({red} s + {short(gone)} s)/2 = {delay} vehicle-hours."
    yield f"| theory | | {short(back)} m | {clock(green, met)} | {delay} vehicle-hours |"


def course(cells, comes, passes, jam):
    """Where a queue's tail is when each flow that comes meets it, in steps and in cells back, and when it is gone.

    It begins `cells` cells behind the gate, from which a flow moves a cell a step. A cell that `passes` so many takes in a step a
    fifth of what it lacks of `jam`.
    """
    held, at, place = jam - 5 * passes, Fraction(cells), Fraction(cells)
    for (_, flow), (change, _) in zip(comes, comes[1:]):
        speed = (Fraction(flow) - passes) / (held - Fraction(flow))
        meets = (place + speed * at + change) / (1 + speed)
        place, at = place - speed * (meets - at), meets
        yield at, cells - place
    speed = (passes - Fraction(comes[-1][1])) / (held - Fraction(comes[-1][1]))
    yield at + (cells - place) / speed, Fraction(0)


@of(VALIDATION)
def lane_drop():
    """The study's flows in vehicles a step of 10 s, and cells of 250 m, of which the first three lanes' hold 108."""
    place = study("bottleneck")["roads"]["m"]["sections"][0]["from"]
    half, fast, slow = 180, Fraction(25, 2), Fraction(21, 2)
    (first, back), (second, far), (meets, _), (gone, _) = course(20, [(0, 14), (half, fast), (2 * half, slow), (3 * half, 8)], 12, 108)

    def at(step):
        return clock(7, step * 10)

    yield f"Three lanes become two at km {short(place)} ("
    yield f"the tail begins at {at(20)}, is {short(back / 4)} km back at {at(first)} and {short(far / 4, 3)} km back at {at(second)}."
    yield f"Then it moves forward by (12 - {short(slow)})/(48 - {short(slow)}) = {(12 - slow) / (48 - slow)} cell a step."
    yield f"At {at(meets)} it meets the 8 of {at(3 * half)}, and from then on moves by {12 - 8}/(48 - 8) = {Fraction(12 - 8, 48 - 8)}."
    yield f"It is gone at {at(gone)}.\n\n![Density over time and place before a lane drop]"
    yield f"half way between the {short(fast)} of free flow and the 48 of the queue: the tail stands in its middle"
    yield f"on the {short(place)} km before the drop."
    yield f"| theory | | {short(far / 4, 3)} km | {at(gone)} | 461.25 vehicle-hours | | |"
    yield f"At most, of {short(most_before(place), 0)} |"


def most_before(place):
    """The most vehicles before the lane drop at a time by theory."""
    theory = LaneDrop(90, 18, 432, float(place), 4320, DEMAND)
    return theory.held([0, float(place)], [step / 360 for step in range(360, 1080)]).max()


@of(VALIDATION)
def road_works():
    values = study("workzone")
    (closure,), (flow,) = values["closures"], {row[2] for row in values["gates"]["on"]["demand"]}
    begin, end = (int(closure[key][:2]) for key in ("start", "end"))
    three, one = road(values, "m"), road(values, "m", 3 - closure["lanes"])
    tail = (flow - one.most) / (three.jam - one.most / three.w - flow / three.v)
    met = tail * (end - begin) / (three.w - tail)
    report = run("workzone")
    queue, = queues_in(report)
    cleared = seconds(clocks(report, queue)[2]) - (end + met) * 3600
    row = report.vehicles.loc[(end - 9) * 360 + 30, [f"m{i}" for i in range(15, 21)]]
    behind = [f"{value:.1f}" for value in row]
    yield f"From {begin}:00 to {end}:00 one lane of three is left over {closure['to'] - closure['from']} km"
    yield f"the tail and the release meet at {clock(end, met * 3600)}, {short(met * three.w)} km back."
    yield f"The program clears the queue {short(cleared)} s later, since the release is smeared."
    yield (f"At {clock(end, 300)} m15 to m20 hold {short(three.most / three.v / 4)} vehicles by theory, and {', '.join(behind[:-1])} and "
           f"{behind[-1]} in the program.")


def seconds(told):
    return sum(int(part) * 60 ** (2 - place) for place, part in enumerate(told.split(":")))


@of(VALIDATION)
def green():
    values = study("validation/green")
    one, (signal,) = road(values, "c"), values["signals"]
    begin = 8 + signal["first_green"] / 3600
    last = values["roads"]["c"]["sections"][0]["from"]
    widths = [(float(row[0].split()[0]), [float(cell.split()[0]) for cell in row[2:]])
              for row in rows_under("Cells | Step | 250 m back | 500 m back | 1 km back")]
    spread = 2 * NormalDist().inv_cdf(HIGH)
    far = max(abs(width / (spread * (2 / 3 * way * cell) ** 0.5) - 1) for cell, row in widths for way, width in zip((250, 500, 1000), row))
    yield f"A queue of {short(last)} km stands at jam density before a light that turns green at {clock(begin)} ("
    yield (f"the first drive off at {one.v} km/h at saturation flow; the start of moving runs back at {one.w} km/h, and reaches the last at "
           f"{clock(begin + float(last) / one.w)}.")
    yield f"falls from {HIGH:.0%} to {1 - HIGH:.0%} of the jump".replace("%", " %")
    yield f"It is `{spread:.2f} · sqrt((1 - w/v) · distance back · length of a cell)` within {at_most(3, 100 * far)} %"
    yield f"The delay is {figures_of('green')[1][0]} vehicle-hours in all, as by theory."


@of(VALIDATION)
def merge():
    values = study("validation/merge")
    main, ramp, most = road(values, "a"), road(values, "b"), road(values, "c").most
    (_, first, then), (_, second, later) = ([row[2] for row in values["gates"][gate]["demand"]] for gate in ("main", "ramp"))
    one, two = values["merges"][0]["priorities"]
    parts = most * one / (one + two), most * two / (one + two)
    way = values["roads"]["a"]["length"] / main.v * 3600  # s
    waits = (first - parts[0]) / 2, (second - parts[1]) / 2
    gone = waits[0] / (parts[0] - then)  # h after 07:30 until the road's queue is gone
    left = waits[1] + (later - parts[1]) * gone
    freely = min(most - then, ramp.most)  # what the ramp passes of what the road leaves
    over = left / (freely - later)
    delays = (waits[0] * (0.5 + gone) / 2, (waits[1] * 0.5 + (waits[1] + left) * gone + left * over) / 2)
    yield (f"lead into two lanes of {most:,} vehicles/h, with priorities {one} to {two} ([merge.toml]"
           "(../examples/validation/merge.toml)). Until 07:30 more come on each than its part, "
           f"{parts[0]:,.0f} and {parts[1]:,.0f}. All reaches the merge {short(way)} s later.")
    yield f"| 07:00 | 0.5 | {first:,}, {parts[0]:,.0f} | {short(waits[0])} | {second:,}, {parts[1]:,.0f} | {short(waits[1])} |"
    yield (f"| 07:30 | {short(gone, 5)} | {then:,}, {parts[0]:,.0f} | 0 | {later}, {parts[1]:,.0f} | {short(left)} |")
    yield f"| {clock(7.5 + gone)} | {short(over, 5)} | {then:,}, {then:,} | 0 | {later}, {freely:,} | 0 |"
    yield f"The areas are {delays[0]:.2f} and {delays[1]:.2f} vehicle-hours."
    queued, free = main.jam - parts[0] / main.w, first / main.v
    tail = (first - parts[0]) / (queued - free)
    back = tail * 0.5 / (1 + tail / main.v)  # where the drivers of 07:30 meet it
    met = 7 + way / 3600 + back / tail
    forward = (parts[0] - then) / (queued - then / main.v)
    slower = (parts[1] - later) / (ramp.jam - parts[1] / ramp.w - later / ramp.v)
    freed = 7 + way / 3600 + 0.5 + gone
    close = freed + (back - slower * (freed - met)) / (ramp.w + slower)
    ended = [clocks(run("validation/merge"), queue)[2] for queue in queues_in(run("validation/merge"))][::-1]
    yield (f"Both tails move back by {first - parts[0]:.0f}/{queued - free:.0f} = {tail:.2f} km/h and stand {short(back)} km back at {clock(met)}. "
           f"The road's then moves forward at {forward:.1f} km/h and reaches the merge at {clock(met + back / forward)}. The ramp's moves forward at "
           f"{slower:.2f} km/h until {clock(close)}, when it meets the release, which runs back at {ramp.w} km/h from {clock(freed)} on. "
           f"The program clears them at {ended[0]} and {ended[1]}.")


@of(VALIDATION)
def off_ramp():
    values = study("interchange")
    (ramp,), limits = values["off_ramps"], values["exits"]["town"]
    (main,) = {row[2] for row in values["gates"]["main"]["demand"]}
    drives_on, leaves = ramp["shares"]
    part = Fraction(leaves, drives_on + leaves)
    start, end, fewer = limits["limits"][0]
    # In vehicles a step of 10 s and cells of 250 m: 12 come, 3 of them for the town, which takes 2 and later 3.5.
    come, takes, later = Fraction(main, 360), Fraction(fewer, 360), Fraction(limits["capacity"], 360)
    ramps_tail = (come * part - takes) / (36 - 5 * takes - come * part)
    on_the_road = 2 / ramps_tail  # steps after 08:00
    passes, queued = 4 * takes, 108 - 5 * 4 * takes
    tail = (come - passes) / (queued - come)
    release = 180 + 2 * 5  # the wave of the release is at the motorway
    met = (tail * (release - on_the_road)) / (Fraction(1, 5) - tail)
    back = met / 5
    forward = (4 * later - come) / (108 - 5 * 4 * later - come)
    wait = 180 * (come * part - takes)  # those bound for the town at the end
    bound = wait * (180 + wait / (later - come * part)) / 2 / 360
    theory, program = (float(figures[1]) for figures in figures_of("full off-ramp"))
    yield f"From {start} to {end} the town takes {fewer} vehicles/h where {short(main * part)} leave the motorway"
    yield f"the tail is on the motorway at {clock(8, on_the_road * 10)} and {short(back / 4)} km back at {clock(8, (release + met) * 10)}."
    yield (f"Then it moves forward by ({short(4 * later)} - {short(come)})/({108 - 5 * 4 * later} - {short(come)}) = {forward} cell a step and clears at "
           f"{clock(8, (release + met + back / forward) * 10)}.")
    yield f"Vehicles bound for the town lose {short(bound)} vehicle-hours by both; the ramp's part of these differs by {100 * (program / theory - 1):.1f} %."


@of(VALIDATION)
def speed_limit():
    values = study("validation/speed-limit")
    (limit,), flow = values["speed_limits"], values["gates"]["on"]["demand"]
    lane, first, last, low = values["lane"], limit["from"], limit["to"], limit["speed"]
    v, w, jam = (lane[key] for key in ("free_flow_speed", "wave_speed", "jam_density"))
    start, end = 8, 8 + LIMIT.end
    out = low * LIMIT.free
    through = (last - first) / low
    yield (f"On a lane {flow:,} vehicles/h drive at {v} km/h, {short(LIMIT.free)} vehicles/km. From {limit['start']} to {limit['end']} {low} km/h are allowed "
           f"from km {first} to {last} (")
    yield (f"At either speed waves run back at {w} km/h and the jam density is {jam} vehicles/km. So the triangle of {v} km/h ends at "
           f"{short(LIMIT.most / v)} vehicles/km and {LIMIT.most:,.0f} vehicles/h, and that of {low} km/h at {short(LIMIT.left / low)} and {low}·{short(LIMIT.left / low)} = {LIMIT.left:,.0f}.")
    yield (f"Vehicles in the stretch at {clock(start)} drive on at {low} km/h, so {low}·{short(LIMIT.free)} = {out:,.0f} vehicles/h, {short(out / v)} vehicles/km, come "
           f"out until {clock(start + through)}.")
    yield (f"Behind them {LIMIT.left:,.0f} vehicles/h pass the stretch, {short(LIMIT.queued)} vehicles/km. {flow - LIMIT.left:.0f} too many an hour come, so before it "
           f"stand {short(LIMIT.queued)} vehicles/km too: the tail moves back by {flow - LIMIT.left:.0f}/({short(LIMIT.queued)} - {short(LIMIT.free)}) = {-LIMIT.tail:.2f} km/h.")
    yield (f"From {clock(end)} on {LIMIT.most:,.0f} vehicles/h leave at km {last}. This release runs back at {w} km/h and meets the tail after "
           f"{short((LIMIT.met - LIMIT.end) * 60)} min, {-LIMIT.tail * LIMIT.met:.2f} km before the stretch.")
    # What waits at km 7 beside who drove through freely: 1,900 vehicles/h come there.
    one = (flow - out) * through
    most = one + (flow - LIMIT.left) * (LIMIT.end - through)
    none = end + most / (LIMIT.most - flow)
    delay = (one * through + (one + most) * (LIMIT.end - through) + most * (none - end)) / 2
    told = [f"{delay:.2f}" for _, delay in OVER_LENGTHS.pytestmark[0].args[1]]
    yield (f"At km {last} {one:.2f} vehicles wait at {clock(start + through)}, {short(most)} at {clock(end)} and none at {clock(none)}: {delay:.2f} vehicle-hours. "
           f"The program has {told[0]}, {told[1]} and {told[2]} with cells of 250, 125 and 62.5 m")


def row_of(page, begin):
    """The cells of the one row of a page that begins so."""
    row, = re.findall(rf"^\| {begin} \| (.*) \|$", read(page), re.MULTILINE)
    return [cell.removesuffix(" †").partition(" ±")[0] for cell in row.split(" | ")]


@of(VALIDATION)
def the_worst_cases_beside_sumo():
    grid, ramp, side = row_of(SUMO, "grid6"), row_of(SUMO, "ramp"), row_of(SUMO, "277 beside 600")
    yield f"| [grid6](SUMO.md#imported-networks): delay, vehicle-hours | {grid[4]} | {grid[3]} |"
    yield f"| [ramp](SUMO.md#imported-networks): vehicles served | {ramp[2]} | {ramp[1]} |"
    yield f"277 beside 600: each loses, s | {side[2]} | {side[0]} |"


@of(VALIDATION)
def side_street():
    critical, follow = (float(gaps[2]) for gaps in (KINDS["minor-right"].critical, KINDS["minor-right"].follow_up))
    values = tomllib.loads(SIDE.format(main=1, low=2, high=3))
    length, speed = values["roads"]["side"]["length"], values["lane"]["free_flow_speed"]
    half = next(row for row in SIDE_STREETS if row[0] == "600")
    upper, lower = exp(-critical * 600 / 3600), 1 - exp(-follow * 600 / 3600)
    yield f"with gaps of {critical} and {follow} s, by Harders `v·exp(-{critical}v/3600)/(1 - exp(-{follow}v/3600))`"
    yield (f"Until 07:30 {FEW:.0%} of that come, then {MANY:.0%}, over {short(length * 1000)} m at {speed} km/h. So the excess comes to the junction from "
           f"{clock(7.5, length / speed * 3600)} on, and that of {short(30 - length / speed * 60)} minutes waits at 08:00.").replace("%", " %")
    yield f"At {half[0]} it is {half[0]}·{upper:.5f}/{lower:.5f}."
    yield f"| [side street](#giving-way) at {half[0]} vehicles/h of priority: passes | {600 * upper / lower:.1f} vehicles/h | {half[2]} |"


@of(VALIDATION)
def a_roundabout():
    root = 690.0
    for _ in range(200):
        root = (root + 1380 * exp(-0.00102 * root)) / 2
    passed = figures_of("roundabout of four arms alike")[1][0]
    yield (f"`e = 1,380·exp(-0.00102·e)`, whose root is {root:.1f}, `1,380·exp(-{0.00102 * root:.4f}) = 1,380·{exp(-0.00102 * root):.5f}`.")
    yield f" runs at {passed}, {100 * (1 - float(passed) / root):.1f} % below."


@of(VALIDATION)
def a_permitted_left_turn():
    critical, follow = (float(gaps[2]) for gaps in (KINDS["permitted-left"].critical, KINDS["permitted-left"].follow_up))
    green, cycle, against, most = 30, 60, 400, 1800
    gone = against * green / (most - against)
    upper, lower = exp(-against * critical / 3600), 1 - exp(-against * follow / 3600)
    passes = against * upper / lower
    over = passes * (green - gone) / cycle
    yield (f"In a cycle of {cycle} s both directions are green for {green} s; {against} vehicles/h come towards the left turn, whose lane is its own. Their queue "
           f"clears after {against}·{green}/({most:,} - {against}) = {gone:.2f} s, so {green - gone:.2f} s of each cycle are left.")
    yield (f"In these pass {against}·exp(-{against}·{critical}/3600)/(1 - exp(-{against}·{follow}/3600)) = {against}·{upper:.5f}/{lower:.5f} = {passes:,.1f} vehicles/h: "
           f"over the cycle {over:.1f}, and {over + 2 * 3600 / cycle:.1f} with the 2 at the end of each green, as in the program.")


def at_random(part, capacity, factor):
    """What who come at random lose by waiting in a quarter of an hour, in s, by the Highway Capacity Manual."""
    return 225 * (part - 1 + ((part - 1) ** 2 + factor * part / (capacity / 4)) ** 0.5)


@of(VALIDATION)
def coming_at_random():
    stop = [3600 / 500 + at_random(come / 500, 500, 8) + 5 for come in (250, 500)]
    # In the first 5 minutes 31.25 pass, in the others 37.5.
    first, others = (at_random(passed * 12 / 900, 900, 4) for passed in (31.25, 37.5))
    mean = (31.25 * first + 11 * 37.5 * others) / (31.25 + 11 * 37.5)
    yield f"On paper a stop that passes 500 vehicles/h costs {stop[0]:.2f} s to each of 250, and {stop[1]:.2f} s to each of 500"
    yield f"Fixed greens that pass 900 cost {others:.2f} s to each of 450, and with an emptier first interval {mean:.3f} s"


@of(VALIDATION)
def a_signal_that_follows_traffic():
    values = tomllib.loads(ACTUATED.format(a=1, b=1, first=FOLLOW, follow=FOLLOW, more=""))
    junction, = values["junctions"]
    longer, least = (junction["phases"][0]["actuated"][key] for key in ("gap", "least"))
    yield f"and `e` = {longer} s longer; between them are {junction['intergreen']} s."
    lost = 2 * junction["intergreen"]
    yield f"so `C = ({lost} + 2e - e·Y)/(1 - Y)` with"
    yield f"The program rounds greens up to whole steps of {values['step']} s"
    for one, two in ((540, 360), (540, 540), (36, 36)):  # test_actuated.py has what the program makes of them
        parts = one / 1800, two / 1800
        cycle = (lost + 2 * longer - longer * sum(parts)) / (1 - sum(parts))
        greens = [max(least, part * (cycle - longer) + longer) for part in parts]
        holds = f", of which the least holds, {least} s" if greens == [least] * 2 else ""
        cycle = max(cycle, lost + sum(greens))
        yield f"| {one} and {two}{holds} | {short(greens[0])} and {short(greens[1])} | {short(cycle)} |"


@of(VALIDATION)
def what_the_model_smears():
    report = run("bottleneck")
    early, late = (report.vehicles.loc[step, names] for step, names in ((480, [f"m{i}" for i in range(13, 18)]), (720, ["m08"])))
    held = [f"{value:.1f}" for value in early]
    yield f"At {clock(7, 120 * 10)} the cells m13 to m17 of the lane drop hold {', '.join(held[:-1])} and {held[-1]} vehicles."
    yield f"At {clock(6, 720 * 10)} m08 holds {late['m08']:.0f} vehicles, "


@of(VALIDATION)
def two_ways():
    values = tomllib.loads(TWO_WAYS)
    roads, (trips,) = values["roads"], values["trips"]
    speed, passes = values["lane"]["free_flow_speed"], values["lane"]["saturation_flow"]
    begin, _, come = trips["demand"][0]
    short_way, long_way = ((roads["a"]["length"] + roads[way]["length"] + roads["b"]["length"] + 0.25) / speed * 60 for way in ("short", "long"))
    costs = long_way - short_way
    waiting = passes * costs / 60
    first = waiting / (come - passes) * 60  # min until the queue costs as much
    delay = waiting * (first / 2 + 60 - first + costs / 2) / 60
    interval = values["routing"]["interval"].removesuffix(" min")
    within = 60 - first
    yield (f"One route takes {short(short_way)} min and another {short(long_way)}. The short one ends in a lane of {passes:,} vehicles/h. From {begin} to 08:00 "
           f"{come:,} vehicles/h come, whose drivers")
    yield (f"All take the short route until its queue costs {short(costs)} min, in which {passes:,}/{60 / costs:.0f} = {waiting:.1f} vehicles pass, after {short(first)} min. "
           f"From then on {come - passes:,} take the long one. The queue is gone {short(costs)} min after the last has come to it. The delay is {waiting:.1f} vehicles "
           f"times ({short(first)}/2 + {short(within)} + {short(costs)}/2) min, {delay:.1f} vehicle-hours.")
    yield f"With an interval of choice of {interval} min"
    yield f"of {come * within / 60:,.0f} drivers do in place of {passes * within / 60:,.0f}, and the delay is {figures_of('delay')[1][0]} vehicle-hours."
    told, by_the_program = figures_of("two routes")
    yield f"the long one is taken from | {clock(7, first * 60)} | {by_the_program[0]} |"


# The first page

def report_rows(name):
    """The lines of an example's stored report, by their first words."""
    lines = [line.split(",") for line in (EXAMPLES / f"{name}.report").read_text().splitlines()]
    return {words[1]: [float(word) for word in words[2:]] for words in lines if words[0] == "cell"}, float(lines[-1][-1])


@of(FIRST)
def the_lane_drop_of_the_first_page():
    values = study("bottleneck")
    one, step = road(values, "m"), values["step"]
    drop = values["roads"]["m"]["sections"][0]
    carried = drop["lanes"] * values["lane"]["saturation_flow"]
    busy = [row for row in values["gates"]["on"]["demand"] if row[2] > carried]
    cells, delay = report_rows("bottleneck")
    waited = [name for name, (_, _, _, wait) in cells.items() if wait > 0 and name.startswith("m")]
    reach, cost = short(len(waited) * one.v * step / 3600), short(delay * step / 3600)
    saved = short(hours(run("bottleneck-staggered"), slice(None)), 0)
    yield (f"loses its third lane at km {short(drop['from'])}. Between {busy[0][0]} and {busy[-1][1]} more vehicles come than two lanes carry. The outlined "
           f"queue reaches {reach} km back and costs {cost} vehicle-hours. With staggered working hours the same vehicles lose {saved}.")
    yield f"in {len((EXAMPLES / 'bottleneck.toml').read_text().splitlines())} lines."
    yield "a map at 08:00, and density"


@of(FIRST)
def how_fast_it_is():
    """The tables of docs/SPEED.md, with the day that it says."""
    page = read("docs/SPEED.md").split("## Beside SUMO")[1].split("\n## ")[0]
    seconds, = re.findall(r"^dense   program .* (\d\.\d+)    \d\.\d+$", page, re.MULTILINE)
    sparse, dense = (float(re.search(rf"^{demand} .*SUMO by 1 s.* ([\d.]+) of the program's", page, re.MULTILINE)[1]) for demand in ("sparse", "dense"))
    cells, steps = re.search(r"^made 1000 dense +(\d+) +(\d+) ", read("docs/SPEED.md"), re.MULTILINE).groups()
    day = re.search(r"of (\d+ \w+ \d{4})", read("docs/SPEED.md"))[1]
    yield (f"{int(cells):,} cells through {int(steps):,} steps of dense traffic in {seconds} s. SUMO's mesoscopic model takes {dense:.0f} times as long, and with "
           f"sparse traffic {sparse:.0f} times ([measured](docs/SPEED.md#beside-sumo) on {day})")


@of(FIRST)
def what_is_needed():
    version = re.search(r'__version__ = "(.*?)"', read("tools/ctmtools/__init__.py"))[1]
    least = ".".join(re.search(r"sys.version_info < \((\d+), (\d+)\)", read("tools/find-python")).groups())
    suite = re.search(r"^suite=(\w+)$", read("bench/installed"), re.MULTILINE)[1]
    packages, fewer = re.search(r"some (\d+) packages in a clean Debian, (\d+) with", read("docs/INSTALL.md")).groups()
    most = re.search(r"at most (\d+ MiB) of text", read("launcher/try"))[1]
    minutes = int(re.search(r"^try_seconds=(\d+)$", read("launcher/try"), re.MULTILINE)[1]) // 60
    yield f"On Debian {SUITES[suite]} or newer"
    yield f"`apt` brings some {packages} packages in a clean Debian, and {fewer} with"
    yield f"`pip install ctmtools-{version}-py3-none-linux_x86_64.whl`"
    yield f"`ctm-{version}-linux-x86_64.tar.gz`"
    yield f"come as a kit, {kits()}, which"
    yield f"Python {least} or newer, and the toolchain's `rt` ({kits()})"
    yield f"at most {minutes} minutes and {most} of text"
    yield f"the [Apache License {re.search(r'Version ([0-9.]+),', read('LICENSE-APACHE'))[1]}]"
    yield "to a decision in 15 minutes"


@of(FIRST)
def how_long_the_two_commands_take():
    """By the files of times: what proves the program's crates, and all proofs and edits."""
    own, all_ = (round(it / 60) for it in (sum(Crates(TOP, "ctm_program").costs().values()), processor_seconds()["proofs"]))
    yield f"[{own} processor-minutes](docs/inside/MAP.md#check-times), later none"
    yield f"[{all_} processor-minutes](docs/inside/MAP.md#check-times) of proofs"


def kits():
    """The names of the toolchains that prove the crates, as docs/inside/PROVED.md has them; the one on the path is among them."""
    names, logic = re.search(r"^- The toolchain, (.*), both of `(logic \w+)`:", read("docs/inside/PROVED.md"), re.MULTILINE).groups()
    if shutil.which("rt"):
        own, its_logic = subprocess.run(["rt", "version"], stdout=subprocess.PIPE, text=True, check=True).stdout.strip().split(" ", 1)
        assert f"`{own}`" in names and its_logic == logic
    return names


@of(VALIDATION)
def towns():
    """What bench/towns wrote below its table."""
    (near, formulas), (close, cases) = (re.search(rf"within {part} in (\d+) of (\d+)", read("bench/towns.txt")).groups()
                                        for part in ("5 % of the manual", "a fifth of SUMO"))
    assert cases == "30"
    yield (f"Of [thirty cases of towns](../bench/towns.txt), what passes is within 5 % of the manual in {near} of {formulas}; "
           f"delay is within a fifth of SUMO in {close}.")
